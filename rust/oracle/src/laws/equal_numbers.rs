//! The laws of document 02, L3: "Where both numbers in a body are equal, one choice must
//! serve both, in rows and in questions alike."
//!
//! Some of them compare with document 01's independent choices, which the oracle has
//! beside L3's.

use super::{Desk, Tried};
use crate::kinds::{Group, BOTH, COMPARISONS, IF_PREDICATE, ON_TWO_ROWS};
use crate::random::Random;
use crate::supplied::without_suppliers;
use crate::texts::{entries, split_constraints};
use crate::{possible_by, verdict_by, Choice, Decision, Part, Verdict};

/// Checks every law of equal numbers on an accepted table. It must be small, for there must
/// be room for twice its rows, and for twice its questions and some more.
pub(super) fn check(desk: &mut Desk, tried: &Tried, random: &mut Random) {
    check_rows_against_01(desk, tried, random);
    check_questions_against_01(desk, tried);
    let with_themselves = WithThemselves::new(tried, random);
    with_themselves.check_rows(desk, random);
    with_themselves.check_questions(desk, random);
    with_themselves.check_comparisons(desk, random);
}

/// Facts of which often none is known.
fn facts(random: &mut Random) -> (u32, u32) {
    let (half, quarter) = (random.mask(), random.mask() & random.mask());
    let known = random.pick(&[0, quarter, half]);
    (known, random.mask() & known)
}

/// A row's set is within the one that independent choices give. It is the numbers that
/// count: where equal ones are told apart, the set is that one.
fn check_rows_against_01(desk: &mut Desk, tried: &Tried, random: &mut Random) {
    let (bytes, doubled) = (tried.bytes, doubled(tried.bytes));
    for row in 0..tried.table.rows.len() {
        let (known, yes) = facts(random);
        let of_01 = possible_by(Choice::Independent, bytes, row as u32, known, yes);
        let of_01 = of_01.expect("a row of the table").mask();
        let set = desk.possible(bytes, row, known, yes);
        assert_eq!(set & !of_01, 0, "row {row}, known {known:b}, yes {yes:b}: {bytes:02x?}");
        for twin in [2 * row, 2 * row + 1] {
            let set = desk.possible(&doubled, twin, known, yes);
            assert_eq!(set, of_01, "row {twin}, known {known:b}, yes {yes:b}: {doubled:02x?}");
        }
    }
}

/// A walk ends as the one by independent choices does, after no more visits. Where equal
/// numbers are told apart, it is that one.
fn check_questions_against_01(desk: &mut Desk, tried: &Tried) {
    let (bytes, doubled) = (tried.bytes, doubled(tried.bytes));
    for question in 0..tried.table.questions.len() {
        let of_01 = verdict_by(Choice::Independent, bytes, question as u32, u32::MAX);
        let of_01 = of_01.expect("a question of the table");
        let verdict = desk.verdict(bytes, question, u32::MAX);
        let ((found, visits), (found_by_01, most)) = (end(verdict), end(of_01));
        assert_eq!(found, found_by_01, "question {question}: {bytes:02x?}");
        assert!(visits <= most, "question {question}, {visits} visits: {bytes:02x?}");
        for twin in [2 * question, 2 * question + 1] {
            let verdict = desk.verdict(&doubled, twin, u32::MAX);
            assert_eq!(verdict, of_01, "question {twin}: {doubled:02x?}");
        }
    }
}

/// The request that a whole walk found, if any, and its visits.
fn end(verdict: Verdict) -> (Option<u32>, u32) {
    match verdict {
        Verdict::Holds { visits } => (None, visits),
        Verdict::Fails { request, visits } => (Some(request), visits),
        Verdict::Unfinished { .. } => panic!("unfinished with the largest budget"),
    }
}

/// The table in which every row and every question stands twice, that of number i under
/// 2i and 2i + 1, and no supplier. A body names the first of the two, and of two equal numbers both: so no
/// row's or question's body has equal numbers.
fn doubled(bytes: &[u8]) -> Vec<u8> {
    let plain = without_suppliers(bytes);
    let (constraints, rest) = split_constraints(&plain);
    let twins = |entry: &[u8]| {
        let mut twin = entry.to_vec();
        if !IF_PREDICATE.contains(&entry[0]) {
            twin[1..].iter_mut().for_each(|number| *number *= 2);
        }
        if matches!(entry, [_, x, y] if x == y) {
            twin[2] += 1;
        }
        twin.repeat(2)
    };
    constraints.iter().copied().chain(entries(rest).flat_map(twins)).collect()
}

/// How many rows are compared with themselves.
const COMPARED: usize = 16;

/// A table with an operator on each of its rows and itself behind its rows, and behind
/// its questions each question and itself, then comparisons of rows with themselves.
struct WithThemselves {
    bytes: Vec<u8>,
    /// The operators' kinds; there are as many as the table had rows.
    operators: Vec<u8>,
    /// How many questions the table had.
    questions: usize,
}

impl WithThemselves {
    fn new(tried: &Tried, random: &mut Random) -> WithThemselves {
        let (rows, questions) = (tried.table.rows.len(), tried.table.questions.len());
        let operators: Vec<u8> = (0..rows).map(|_| random.pick(&ON_TWO_ROWS)).collect();
        let (mut bytes, mut rest) = (Vec::new(), Vec::new());
        for entry in entries(tried.bytes) {
            let part = match Group::of(entry[0]).map(|group| group.part) {
                Some(Part::Questions) => &mut rest,
                _ => &mut bytes,
            };
            part.extend(entry);
        }
        bytes.extend((0..).zip(&operators).flat_map(|(row, &kind)| [kind, row, row]));
        bytes.extend(rest);
        bytes.extend((0..questions as u8).flat_map(|question| [BOTH, question, question]));
        for _ in 0..COMPARED {
            let row = random.below(2 * rows) as u8;
            bytes.extend([random.pick(&COMPARISONS), row, row]);
        }
        WithThemselves { bytes, operators, questions }
    }

    /// An operator's set on a row and itself is what it makes of each decision of the
    /// row's set and itself.
    fn check_rows(&self, desk: &mut Desk, random: &mut Random) {
        let bytes = &self.bytes[..];
        for (row, &kind) in self.operators.iter().enumerate() {
            let (known, yes) = facts(random);
            let of_row = desk.possible(bytes, row, known, yes);
            let members = Decision::ALL.iter().filter(|v| of_row >> v.code() & 1 == 1);
            let expected = members.fold(0, |set, &v| set | 1 << of_itself(kind, v).code());
            let set = desk.possible(bytes, row + self.operators.len(), known, yes);
            assert_eq!(set, expected, "{kind:02x} {row:02x} {row:02x}, {of_row}: {bytes:02x?}");
        }
    }

    /// A question and itself have the walk of that question.
    fn check_questions(&self, desk: &mut Desk, random: &mut Random) {
        let bytes = &self.bytes[..];
        for question in 0..self.questions {
            let (_, visits) = end(desk.verdict(bytes, question, u32::MAX));
            for budget in [u32::MAX, visits, random.below(visits as usize) as u32] {
                let verdict = desk.verdict(bytes, question, budget);
                let with_itself = desk.verdict(bytes, question + self.questions, budget);
                assert_eq!(with_itself, verdict, "question {question}: {bytes:02x?}");
            }
        }
    }

    /// That a row is at or below itself is settled at the root.
    fn check_comparisons(&self, desk: &mut Desk, random: &mut Random) {
        let (bytes, holds) = (&self.bytes[..], Verdict::Holds { visits: 1 });
        for question in (2 * self.questions..).take(COMPARED) {
            for budget in [1, random.number().max(1)] {
                let verdict = desk.verdict(bytes, question, budget);
                assert_eq!(verdict, holds, "question {question}, {budget}: {bytes:02x?}");
            }
        }
    }
}

/// What an operator makes of a decision and itself: that decision, but for implication
/// and guard where it does not grant.
fn of_itself(kind: u8, decision: Decision) -> Decision {
    match (kind, decision) {
        (0x34, Decision::U | Decision::D) => Decision::G,
        (0x35, Decision::U | Decision::D) => Decision::U,
        _ => decision,
    }
}
