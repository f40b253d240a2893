//! What must be true of any right implementation, found out by brute force.
//!
//! The laws are the demands of the specification, stated over answers alone:
//! every request is tried, so they do not depend on how a walk is made or a set
//! is formed, but for those of equal numbers and of the visits of a walk. Those of
//! reading are tried on given and on random bytes, and go by the list of kinds in
//! `kinds`, not by the implementation's own.

mod constraints;
mod equal_numbers;
mod solver;
mod suppliers;
mod texts;

pub use self::texts::{check_round_trip, check_text};

use crate::call::{Answer, Call};
use crate::calls::random_call;
use crate::kinds::{Group, NOT_LISTED, SUPPLIER};
use crate::random::Random;
use crate::refusal::{self, Refusal};
use crate::tables::garbage;
use crate::texts::split_constraints;
use crate::{read, truths, Decision, Table, Verdict, QUESTIONS, ROWS};

/// Tables that use more predicates have too many requests to try them all.
const MOST_PREDICATES: u32 = 8;

/// Checks every law of accepted tables on the answers that `answer` gives on one.
pub fn check(answer: &mut dyn FnMut(&[u8], Call) -> Answer, random: &mut Random, bytes: &[u8]) {
    let mut desk = Desk { answer };
    let tried = Tried::new(&mut desk, bytes);
    check_questions(&mut desk, &tried, random);
    check_sets(&mut desk, &tried, random);
    check_strikes(&mut desk, &tried, random);
    constraints::check(&mut desk, &tried, random);
    equal_numbers::check(&mut desk, &tried, random);
    suppliers::check(&mut desk, &tried, random);
    solver::check(&mut desk, &tried, random);
}

/// Checks every law of reading on the answers that `answer` gives on any bytes.
///
/// As long as they are refused for a byte that can be put right, it is, and the
/// laws are checked on what that brings; of an accepted table a byte is spoilt.
pub fn check_reading(
    answer: &mut dyn FnMut(&[u8], Call) -> Answer,
    random: &mut Random,
    bytes: &[u8],
) {
    let mut desk = Desk { answer };
    let mut bytes = bytes.to_vec();
    while let Err(refusal) = desk.read(&bytes) {
        match check_refusal(&mut desk, random, &bytes, refusal) {
            Some(mended) => bytes = mended,
            None => return,
        }
    }
    suppliers::check_encoding(&bytes);
    check_spoilt(&mut desk, random, &bytes);
}

/// The implementation under test. Beside `read`, its methods take only what is
/// not refused.
struct Desk<'a> {
    answer: &'a mut dyn FnMut(&[u8], Call) -> Answer,
}

impl Desk<'_> {
    /// How many rows and how many questions there are.
    fn read(&mut self, bytes: &[u8]) -> Result<(usize, usize), Refusal> {
        match (self.answer)(bytes, Call::Read) {
            Answer::Counts { rows, questions, .. } => Ok((rows as usize, questions as usize)),
            Answer::Refused(refusal) => Err(refusal),
            other => panic!("{other:?} for a reading"),
        }
    }

    /// How many predicates there are.
    fn predicates(&mut self, bytes: &[u8]) -> u32 {
        match (self.answer)(bytes, Call::Read) {
            Answer::Counts { predicates, .. } => predicates,
            other => panic!("{other:?} for a reading"),
        }
    }

    fn decide(&mut self, bytes: &[u8], row: usize, yes: u32) -> Decision {
        let row = row as u32;
        match (self.answer)(bytes, Call::Decide { row, yes }) {
            Answer::Code(code) => Decision::ALL[code as usize],
            other => panic!("{other:?} for a decision"),
        }
    }

    fn possible(&mut self, bytes: &[u8], row: usize, known: u32, yes: u32) -> u32 {
        let row = row as u32;
        match (self.answer)(bytes, Call::Possible { row, known, yes }) {
            Answer::Set(mask) => mask,
            other => panic!("{other:?} for a set"),
        }
    }

    fn verdict(&mut self, bytes: &[u8], question: usize, budget: u32) -> Verdict {
        let question = question as u32;
        match (self.answer)(bytes, Call::Verdict { question, budget }) {
            Answer::Verdict(verdict) => verdict,
            other => panic!("{other:?} for a verdict"),
        }
    }

    /// The table without row `row`, or nothing if that row is named.
    fn strike(&mut self, bytes: &[u8], row: usize) -> Option<Vec<u8>> {
        let (row, room) = (row as u32, bytes.len());
        match (self.answer)(bytes, Call::Strike { row, room }) {
            Answer::Written(struck) => Some(struck),
            Answer::Refused(refusal) if refusal.number == refusal::ROW_IS_NAMED => None,
            other => panic!("{other:?} for a strike"),
        }
    }
}

/// A table with the decisions of its rows at every request.
struct Tried<'a> {
    bytes: &'a [u8],
    table: Table,
    predicates: u32,
    /// Indexed by the request's yes mask.
    decided: Vec<[Decision; ROWS]>,
}

impl Tried<'_> {
    fn new<'a>(desk: &mut Desk, bytes: &'a [u8]) -> Tried<'a> {
        let table = read(bytes).expect("an accepted table");
        let predicates = table.predicates();
        assert!(predicates <= MOST_PREDICATES, "{predicates} predicates");
        let mut decided = vec![[Decision::U; ROWS]; 1 << predicates];
        for (yes, decided) in (0..).zip(&mut decided) {
            for (row, decision) in decided.iter_mut().take(table.rows.len()).enumerate() {
                *decision = desk.decide(bytes, row, yes);
            }
        }
        Tried { bytes, table, predicates, decided }
    }

    fn every_request(&self) -> std::ops::Range<u32> {
        0..1 << self.predicates
    }

    /// Every request in the order of the specification: predicate 0 weighs most,
    /// no before yes.
    fn in_order(&self) -> impl Iterator<Item = u32> {
        let unused = u32::BITS - self.predicates;
        self.every_request().map(move |rank| rank.reverse_bits().checked_shr(unused).unwrap_or(0))
    }

    /// The predicates that the table may use, as a mask.
    fn used(&self) -> u32 {
        (1 << self.predicates) - 1
    }

    /// What `row` decides; predicates that the table does not use change nothing.
    fn decision(&self, row: usize, yes: u32) -> Decision {
        self.decided[(yes & self.used()) as usize][row]
    }

    /// Every request that has the known ones of `facts`.
    fn fillings(&self, known: u32, facts: u32) -> impl Iterator<Item = u32> {
        let fixed = known & self.used();
        self.every_request().filter(move |request| request & fixed == facts & fixed)
    }
}

/// A question holds exactly if it is true at every request within the constraints, and
/// otherwise fails at the first of these at which it is false; a budget below the count
/// of visits leaves it unfinished, every other one brings the same verdict.
fn check_questions(desk: &mut Desk, tried: &Tried, random: &mut Random) {
    let questions = &tried.table.questions;
    let asked: Vec<(u32, [bool; QUESTIONS])> = tried
        .in_order()
        .filter(|&yes| constraints::are_kept(tried.bytes, yes))
        .map(|yes| (yes, truths(questions, &tried.decided[yes as usize])))
        .collect();
    for question in 0..questions.len() {
        let first_broken = asked.iter().find(|(_, truths)| !truths[question]);
        let verdict = desk.verdict(tried.bytes, question, u32::MAX);
        let (found, visits) = match verdict {
            Verdict::Holds { visits } => (None, visits),
            Verdict::Fails { request, visits } => (Some(request), visits),
            Verdict::Unfinished { .. } => panic!("unfinished with the largest budget"),
        };
        let expected = first_broken.map(|&(yes, _)| yes);
        assert_eq!(found, expected, "question {question}: {:02x?}", tried.bytes);
        let enough = (2 << tried.predicates) - 1;
        assert!((1..=enough).contains(&visits), "{visits} visits");
        for budget in [0, visits - 1, visits, visits + 1, enough, random.number()] {
            let expected = if budget < visits { Verdict::Unfinished { budget } } else { verdict };
            assert_eq!(desk.verdict(tried.bytes, question, budget), expected);
        }
    }
}

/// A set has the decision of every filling; learning a fact adds no decision;
/// with nothing unknown only the true decision is left.
fn check_sets(desk: &mut Desk, tried: &Tried, random: &mut Random) {
    for row in 0..tried.table.rows.len() {
        let (facts, mut known) = (random.mask(), random.mask());
        let mut set = 0b1111;
        // One more predicate is known at each step, and all at the last.
        for next in 0..=tried.predicates {
            let wider = set;
            set = desk.possible(tried.bytes, row, known, facts & known);
            assert_eq!(set & !wider, 0, "row {row}: a fact added a decision");
            for filling in tried.fillings(known, facts) {
                let decision = tried.decision(row, filling);
                assert_ne!(set & 1 << decision.code(), 0, "row {row}: {decision:?} is missing");
            }
            known |= 1 << next;
        }
        assert_eq!(set, 1 << tried.decision(row, facts).code());
    }
}

/// Once a row is struck, every other row decides as before under its new number,
/// every constraint stands where it stood, and every question has the verdict it had.
fn check_strikes(desk: &mut Desk, tried: &Tried, random: &mut Random) {
    for struck in 0..tried.table.rows.len() {
        if let Some(bytes) = desk.strike(tried.bytes, struck) {
            let [kept, before] = [&bytes, tried.bytes].map(|table| split_constraints(table).0);
            assert_eq!(kept, before, "{bytes:02x?} of {:02x?}", tried.bytes);
            check_struck_rows(desk, tried, struck, &bytes, random);
            for question in 0..tried.table.questions.len() {
                let before = desk.verdict(tried.bytes, question, u32::MAX);
                assert_eq!(desk.verdict(&bytes, question, u32::MAX), before);
            }
        }
    }
}

fn check_struck_rows(
    desk: &mut Desk,
    tried: &Tried,
    struck: usize,
    bytes: &[u8],
    random: &mut Random,
) {
    for row in (0..tried.table.rows.len()).filter(|&row| row != struck) {
        let new = row - usize::from(row > struck);
        for yes in tried.every_request() {
            assert_eq!(desk.decide(bytes, new, yes), tried.decision(row, yes));
        }
        let known = random.mask();
        let yes = random.mask() & known;
        let before = desk.possible(tried.bytes, row, known, yes);
        assert_eq!(desk.possible(bytes, new, known, yes), before);
    }
}

/// An entry behind bytes that are an accepted table.
struct Entry {
    /// Where its kind byte is.
    start: usize,
    /// Where its body ends, or would end if it were not cut short.
    end: usize,
    /// Nothing if its kind is not listed.
    group: Option<Group>,
    /// What each of its numbers must be below.
    limit: usize,
    /// Whether a supplier stands right before it.
    announced: bool,
}

impl Entry {
    /// The entry that `place` lies in: it starts at the last place up to which the
    /// bytes are an accepted table, or right behind a supplier that starts there.
    fn around(desk: &mut Desk, bytes: &[u8], place: usize) -> Entry {
        let (start, (rows, questions)) = (0..=place)
            .rev()
            .find_map(|start| Some((start, desk.read(&bytes[..start]).ok()?)))
            .expect("the empty table is accepted");
        let announced = bytes[start] == SUPPLIER && place >= start + 2;
        let start = if announced { start + 2 } else { start };
        let group = Group::of(bytes[start]);
        let end = start + 1 + group.map_or(0, |group| group.length);
        let limit = group.map_or(0, |group| group.limit(rows, questions));
        Entry { start, end, group, limit, announced }
    }

    /// The refusal points into the body, at the first number that is not below its
    /// limit.
    fn check_number(&self, bytes: &[u8], refused: Refusal) {
        let Refusal { number, place } = refused;
        assert_eq!(self.group.and_then(Group::refusal), Some(number), "{bytes:02x?}");
        let within = self.start < place && place < self.end;
        assert!(within, "{refused:?} points outside the body: {bytes:02x?}");
        for at in self.start + 1..=place {
            let below = usize::from(bytes[at]) < self.limit;
            assert_eq!(below, at < place, "number at {at}, {refused:?}: {bytes:02x?}");
        }
    }
}

/// A refusal of reading speaks of one entry, and the bytes before that, or before a
/// supplier that announces it, are an accepted table. Refusals 3 and 4 point at the first of its numbers that is not
/// below its limit, the others at its kind byte. Unless its body is cut short, or it is a
/// supplier, the bytes behind the entry change nothing, nor do its numbers behind that
/// place. Every call passes the refusal on.
///
/// Once the number is put right, or the body filled up, reading comes further, or no less
/// far once an idle supplier is taken out: the answer is the bytes with that done, if it
/// can be.
fn check_refusal(
    desk: &mut Desk,
    random: &mut Random,
    bytes: &[u8],
    refused: Refusal,
) -> Option<Vec<u8>> {
    let Refusal { number, place } = refused;
    let call = random_call(random, bytes);
    let passed_on = (desk.answer)(bytes, call);
    assert_eq!(passed_on, Answer::Refused(refused), "{call:?} on {bytes:02x?}");

    let entry = Entry::around(desk, bytes, place);
    let points_at_number =
        matches!(number, refusal::PREDICATE_TOO_HIGH | refusal::MAY_NOT_BE_NAMED);
    if points_at_number {
        entry.check_number(bytes, refused);
    } else {
        assert_eq!(place, entry.start, "not the kind byte, {refused:?}: {bytes:02x?}");
    }

    if number == refusal::IDLE_SUPPLIER {
        return Some(suppliers::check_idle(desk, random, bytes, place));
    }
    let mut mended = bytes.to_vec();
    if number == refusal::BODY_CUT_SHORT {
        assert!(bytes.len() < entry.end, "the body is there: {bytes:02x?}");
        mended.resize(entry.end, 0);
    } else {
        let end = if points_at_number { entry.end } else { place + 1 };
        check_behind(desk, random, &bytes[..end], refused);
        if !points_at_number || entry.limit == 0 {
            return None;
        }
        mended[place] = random.below(entry.limit) as u8;
    }
    let further = match desk.read(&mended) {
        // A supplier that is cut short is filled up to one that is idle, which comes after.
        Err(again) if again.number == refusal::IDLE_SUPPLIER => again.place >= place,
        Err(again) => again.place > place,
        Ok(_) => true,
    };
    assert!(further, "no further than {refused:?} of {bytes:02x?}: {mended:02x?}");
    Some(mended)
}

/// The refusal stays if other bytes, or none, stand behind those that it speaks
/// of, and if those of them that are behind its place are others.
fn check_behind(desk: &mut Desk, random: &mut Random, spoken_of: &[u8], refused: Refusal) {
    let mut bytes = spoken_of.to_vec();
    bytes[refused.place + 1..].fill_with(|| random.number() as u8);
    for behind in [Vec::new(), garbage(random)] {
        let longer = [&bytes[..], &behind].concat();
        assert_eq!(desk.read(&longer), Err(refused), "{longer:02x?}");
    }
}

/// In an accepted table a kind that is not listed, or a number that is not below
/// its limit, is refused at its own place; but such a kind behind a supplier at that.
fn check_spoilt(desk: &mut Desk, random: &mut Random, bytes: &[u8]) {
    if bytes.is_empty() {
        return;
    }
    let place = random.below(bytes.len());
    let entry = Entry::around(desk, bytes, place);
    let group = entry.group.expect("a listed kind");
    let (byte, refused) = if place == entry.start {
        let refused = match entry.announced {
            true => Refusal { number: refusal::IDLE_SUPPLIER, place: place - 2 },
            false => Refusal { number: refusal::KIND_NOT_LISTED, place },
        };
        (random.pick(&NOT_LISTED).into(), Some(refused))
    } else {
        let beyond = entry.limit + random.below(256 - entry.limit);
        let refused = group.refusal().map(|number| Refusal { number, place });
        (random.pick(&[entry.limit, beyond]), refused)
    };
    // If there are 256 rows, every number is that of a row, and always that of a supplier.
    if let (Ok(byte), Some(refused)) = (u8::try_from(byte), refused) {
        let mut spoilt = bytes.to_vec();
        spoilt[place] = byte;
        assert_eq!(desk.read(&spoilt), Err(refused), "{spoilt:02x?}");
        check_refusal(desk, random, &spoilt, refused);
    }
}
