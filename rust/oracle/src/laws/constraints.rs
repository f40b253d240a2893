//! The laws of document 02, L5: requests that cannot occur.
//!
//! What constraints a table has is read off its bytes, by the kinds in `kinds`. Where the
//! laws speak of a walk's visits, they go by the oracle's sets of truths.

use super::{Desk, Tried};
use crate::kinds::{IF_PREDICATE, NEVER_BOTH, ONLY_IF, ON_TWO_PREDICATES};
use crate::possible::{decision_sets, truth_sets, Choice};
use crate::random::Random;
use crate::texts::{entries, split_constraints};
use crate::{read, Table, Verdict};

/// Does the request with this yes mask keep every constraint of a table?
pub(super) fn are_kept(bytes: &[u8], yes: u32) -> bool {
    let is_yes = |predicate: u8| yes >> predicate & 1 == 1;
    entries(bytes).all(|entry| match *entry {
        [NEVER_BOTH, p, q] => !(is_yes(p) && is_yes(q)),
        [ONLY_IF, p, q] => !is_yes(p) || is_yes(q),
        _ => true,
    })
}

/// Checks every law of constraints on an accepted table.
pub(super) fn check(desk: &mut Desk, tried: &Tried, random: &mut Random) {
    check_predicates(desk, tried);
    check_rows(desk, tried, random);
    check_visits(desk, tried);
    check_plain_walk(desk, tried);
}

/// n is one more than the highest predicate that a constraint or a row names, or 0.
fn check_predicates(desk: &mut Desk, tried: &Tried) {
    let naming = [ON_TWO_PREDICATES, IF_PREDICATE].concat();
    let named = entries(tried.bytes).filter(|entry| naming.contains(&entry[0]));
    let highest = named.flat_map(|entry| &entry[1..]).max();
    let expected = highest.map_or(0, |&highest| u32::from(highest) + 1);
    assert_eq!(desk.predicates(tried.bytes), expected, "{:02x?}", tried.bytes);
}

/// Constraints change no decision and no set.
fn check_rows(desk: &mut Desk, tried: &Tried, random: &mut Random) {
    let (_, rest) = split_constraints(tried.bytes);
    for row in 0..tried.table.rows.len() {
        for yes in tried.every_request() {
            assert_eq!(desk.decide(rest, row, yes), tried.decision(row, yes), "row {row}");
        }
        let known = random.mask();
        let yes = random.mask() & known;
        let set = desk.possible(tried.bytes, row, known, yes);
        assert_eq!(desk.possible(rest, row, known, yes), set, "row {row}: {rest:02x?}");
    }
}

/// What a visit finds.
#[derive(Clone, Copy, PartialEq, Eq)]
enum Found {
    /// Nothing, and there is nothing below it.
    Nothing,
    /// The breaking request.
    Request,
    /// Nothing, but there are visits below it.
    GoesOn,
}

/// A visit: how many predicates are known, and which of them are yes.
#[derive(Clone, Copy)]
struct Visit {
    known: u32,
    yes: u32,
}

impl Visit {
    /// The predicates that are known, as a mask.
    fn mask(self) -> u32 {
        (1 << self.known) - 1
    }

    /// Its place in a list of all visits: a leading 1, and behind it a digit for each
    /// known predicate.
    fn index(self) -> usize {
        (1 << self.known | self.yes) as usize
    }

    /// The visits above it, from the one with nothing known.
    fn above(self) -> impl Iterator<Item = Visit> {
        (0..self.known).map(move |known| Visit { known, yes: self.yes & ((1 << known) - 1) })
    }

    /// What it finds, by L5's sentences.
    fn finds(self, bytes: &[u8], settled: Option<bool>) -> Found {
        let is_yes = |predicate: u8| self.yes >> predicate & 1 == 1;
        let is_unknown = |predicate: u8| u32::from(predicate) >= self.known;
        let is_no = |predicate: u8| !is_yes(predicate) && !is_unknown(predicate);
        let breaks = entries(bytes).any(|entry| match *entry {
            [NEVER_BOTH, p, q] => is_yes(p) && is_yes(q),
            [ONLY_IF, p, q] => is_yes(p) && is_no(q),
            _ => false,
        });
        let waits = entries(bytes)
            .any(|entry| matches!(*entry, [ONLY_IF, p, q] if is_yes(p) && is_unknown(q)));
        match settled {
            _ if breaks => Found::Nothing,
            Some(true) => Found::Nothing,
            Some(false) if !waits => Found::Request,
            _ => Found::GoesOn,
        }
    }
}

/// The walk said without one: of all visits in order, those are made above which every
/// visit goes on, up to the first that has found the request.
fn check_visits(desk: &mut Desk, tried: &Tried) {
    let visits = visits_in_order(tried.predicates);
    for question in 0..tried.table.questions.len() {
        let mut finds = vec![Found::Nothing; 2 << tried.predicates];
        for visit in &visits {
            let settled = settled(&tried.table, question, *visit);
            finds[visit.index()] = visit.finds(tried.bytes, settled);
        }
        let goes_on = |visit: Visit| finds[visit.index()] == Found::GoesOn;
        let made: Vec<_> = visits.iter().filter(|visit| visit.above().all(goes_on)).collect();
        let last = made.iter().position(|visit| finds[visit.index()] == Found::Request);
        let count = last.map_or(made.len(), |last| last + 1) as u32;
        let expected = end(last.map(|last| made[last].yes), count);
        let verdict = desk.verdict(tried.bytes, question, u32::MAX);
        assert_eq!(verdict, expected, "question {question}: {:02x?}", tried.bytes);
    }
}

/// Every visit that there may be, in the order of the requests in which all that is not
/// known is no; of those with one request, the one with the fewest facts comes first.
fn visits_in_order(predicates: u32) -> Vec<Visit> {
    let knowing = |known| (0..1_u32 << known).map(move |yes| Visit { known, yes });
    let mut visits: Vec<Visit> = (0..=predicates).flat_map(knowing).collect();
    visits.sort_by_key(|visit| (visit.yes.reverse_bits(), visit.known));
    visits
}

/// The question's truth, if it is settled at a visit.
fn settled(table: &Table, question: usize, visit: Visit) -> Option<bool> {
    let choice = Choice::OneForEqual;
    let rows = decision_sets(choice, &table.rows, visit.mask(), visit.yes);
    truth_sets(choice, &table.questions, &rows)[question].settled()
}

fn end(request: Option<u32>, visits: u32) -> Verdict {
    match request {
        Some(request) => Verdict::Fails { request, visits },
        None => Verdict::Holds { visits },
    }
}

/// Without constraints the walk is document 01's.
fn check_plain_walk(desk: &mut Desk, tried: &Tried) {
    let (_, rest) = split_constraints(tried.bytes);
    let table = read(rest).expect("an accepted table without its constraints");
    for question in 0..table.questions.len() {
        let mut visits = 0;
        let request = plain_walk(&table, question, Visit { known: 0, yes: 0 }, &mut visits);
        let verdict = desk.verdict(rest, question, u32::MAX);
        assert_eq!(verdict, end(request, visits), "question {question}: {rest:02x?}");
    }
}

/// Document 01: "Settled true: nothing breaks it here. Settled false: the breaking request
/// is these facts with every other predicate no, and the walk ends. Unsettled: visit with
/// predicate k no, and if that found nothing, with predicate k yes."
fn plain_walk(table: &Table, question: usize, visit: Visit, visits: &mut u32) -> Option<u32> {
    *visits += 1;
    match settled(table, question, visit) {
        Some(true) => None,
        Some(false) => Some(visit.yes),
        None => {
            let Visit { known: k, yes } = visit;
            let mut below = |yes| plain_walk(table, question, Visit { known: k + 1, yes }, visits);
            below(yes).or_else(|| below(yes | 1 << k))
        }
    }
}
