//! The cases of document 01, "From the old desk's notebook", with the places that
//! document 02, L1, gives to refusals 3 and 4, cases of a row against itself (L3), of
//! constraints (L5), of suppliers (L6) and of files for a solver (L7), and a few beside them
//! of the same kind.

use crate::call::{Answer, Call, Case};
use crate::{crafted, Refusal, Verdict, CONSTRAINTS, FILE_BYTES, ROWS, SUPPLIERS};

/// The notebook's table A.
pub const TABLE_A: &str = "11 00 10 01 33 00 01 01 38 02 03 22 02 40 04 05 40 05 04 43 00 01";

/// The table whose rows the notebook strikes.
pub const STRIKING: &str = "00 02 20 01 40 01 02";

/// The bytes that a line of hex stands for.
pub fn hex(line: &str) -> Vec<u8> {
    line.split_whitespace()
        .map(|byte| u8::from_str_radix(byte, 16).expect("a byte in hex"))
        .collect()
}

/// Row 1: row 0, which grants if predicate 0, implies itself.
const IMPLIES_ITSELF: &str = "11 00 34 00 00";

/// Row 2: row 0 implies row 1, which says the same but has another number.
const IMPLIES_ITS_LIKE: &str = "11 00 11 00 34 00 01";

/// Every case of the notebook.
pub fn cases() -> Vec<Case> {
    let groups = [
        operators(),
        sets(),
        verdicts(),
        constrained_verdicts(),
        readings(),
        constrained_readings(),
        most_constraints(),
        supplied_readings(),
        most_supplied(),
        strikes(),
        supplied_strikes(),
        entries(),
        outside_constraints(),
        lists(),
        refused_lists(),
        beside_suppliers(),
        files(),
        refused_files(),
        judged(),
    ];
    groups.into_iter().flatten().collect()
}

fn refused(number: u32, place: usize) -> Answer {
    Answer::Refused(Refusal { number, place })
}

/// Operators on constants: the operand bytes, the operator, the code it gives.
/// The constants' kinds are also their codes: u 0, d 1, g 2, c 3.
fn operators() -> Vec<Case> {
    let expected: [(&[u8], u8, u32); 13] = [
        (&[3, 1], 0x34, 1), // c implies d is d
        (&[0, 1], 0x34, 2), // u implies d is g
        (&[0, 2], 0x35, 0), // u guards g is u
        (&[3, 2], 0x35, 2), // c guards g is g
        (&[0, 3], 0x30, 1), // truth meet of u and c is d
        (&[0, 3], 0x31, 2), // truth join of u and c is g
        (&[2, 1], 0x33, 3), // g and d give c by knowledge join
        (&[2, 1], 0x32, 0), // and u by knowledge meet
        (&[0], 0x21, 3),    // conflation of u is c
        (&[3, 2], 0x3B, 2), // override of c by g, on c, is g
        (&[3], 0x23, 2),    // open default of c is g
        (&[3, 3], 0x34, 3), // implication gives the second also where it is c
        (&[1], 0x20, 2),    // negation of d is g
    ];
    let case = |(operands, kind, code): (&[u8], u8, u32)| {
        let count = operands.len() as u8;
        let mut table = operands.to_vec();
        table.push(kind);
        table.extend(0..count);
        let call = Call::Decide { row: count.into(), yes: 0 };
        (table, call, Answer::Code(code))
    };
    Vec::from(expected.map(case))
}

fn sets() -> Vec<Case> {
    let expected = [
        ("11 00 01 34 00 01", 2, 0b00, 0b00, 6),
        (TABLE_A, 2, 0b01, 0b01, 12),
        (TABLE_A, 2, 0b11, 0b11, 8),
        // L3: one choice serves two equal numbers, and only those.
        (IMPLIES_ITSELF, 1, 0b00, 0b00, 4),
        (IMPLIES_ITSELF, 0, 0b00, 0b00, 5),
        (IMPLIES_ITS_LIKE, 2, 0b00, 0b00, 5),
        (IMPLIES_ITS_LIKE, 2, 0b01, 0b01, 4),
    ];
    let case = |(table, row, known, yes, mask)| {
        let call = Call::Possible { row, known, yes };
        (hex(table), call, Answer::Set(mask))
    };
    Vec::from(expected.map(case))
}

const fn fails(request: u32, visits: u32) -> Verdict {
    Verdict::Fails { request, visits }
}

const fn holds(visits: u32) -> Verdict {
    Verdict::Holds { visits }
}

fn verdicts() -> Vec<Case> {
    let expected = [
        (TABLE_A, 0, 1_000_000, fails(3, 5)),
        (TABLE_A, 1, 1_000_000, holds(5)),
        (TABLE_A, 2, 1_000_000, fails(3, 5)),
        (TABLE_A, 2, 4, Verdict::Unfinished { budget: 4 }),
        (TABLE_A, 2, 5, fails(3, 5)),
        (STRIKING, 0, 1_000_000, fails(0, 1)),
        (STRIKING, 0, 0, Verdict::Unfinished { budget: 0 }),
        // L3: that a row is at or below itself is settled at the root.
        ("11 00 40 00 00", 0, 1_000_000, holds(1)),
        ("11 17 41 00 00", 0, 1, holds(1)),
        ("11 17 41 00 00 42 00", 1, 1, fails(0, 1)),
        // That it is at or below one that says the same is not.
        ("11 00 11 00 40 00 01", 0, 1_000_000, holds(3)),
        // A question and itself have that question's walk.
        ("11 00 02 40 01 00 43 00 00", 1, 1_000_000, fails(0, 2)),
    ];
    let case = |(table, question, budget, verdict)| {
        let call = Call::Verdict { question, budget };
        (hex(table), call, Answer::Verdict(verdict))
    };
    Vec::from(expected.map(case))
}

/// The question whether a row that grants if predicate 0 is at or below one that is always
/// unspecified: it is broken where predicate 0 is yes.
const BROKEN_BY_0: &str = "11 00 00 40 00 01";

/// The same of predicate 1.
const BROKEN_BY_1: &str = "11 01 00 40 00 01";

/// The same of predicates 0 and 1 together.
const BROKEN_BY_0_AND_1: &str = "11 00 11 01 30 00 01 00 40 02 03";

/// A question that is never broken, but settled only once predicate 0 is known.
const UNSETTLED_BY_0: &str = "11 00 20 00 20 01 40 00 02";

/// Constraints, the rest of a table, and the verdict on its question 0.
const CONSTRAINED: [(&str, &str, Verdict); 25] = [
    // A request that is excluded, with another behind it and with none. The first goes on
    // where predicate 0 is yes, settled false, until predicate 2 is known; where that is no,
    // a visit finds nothing.
    ("51 00 02", BROKEN_BY_0, fails(5, 6)),
    ("50 00 00", BROKEN_BY_0, holds(3)),
    // 51 the other way round: predicate 2 waits for 0, so the request stands.
    ("51 02 00", BROKEN_BY_0, fails(1, 3)),
    ("51 01 00", BROKEN_BY_1, fails(3, 7)),
    ("51 00 01", BROKEN_BY_1, fails(2, 4)),
    // Two predicates that are no break neither kind.
    ("50 00 01 51 00 01", BROKEN_BY_1, fails(2, 4)),
    // A settled-false visit does not wait for a "never both", nor for an "only if"
    // whose first is no or unknown.
    ("50 00 01", BROKEN_BY_0, fails(1, 3)),
    ("51 01 02", BROKEN_BY_0, fails(1, 3)),
    ("51 00 01", "02 00 40 00 01", fails(0, 1)),
    // A settled-true visit does not wait.
    ("51 00 01", UNSETTLED_BY_0, holds(3)),
    // Nothing is below a visit that breaks a constraint, whatever its set.
    ("50 00 00", BROKEN_BY_0_AND_1, holds(3)),
    ("50 00 01", BROKEN_BY_0_AND_1, holds(5)),
    ("50 00 00", UNSETTLED_BY_0, holds(3)),
    // What an "only if" waits for is asked, and not taken to be yes.
    ("51 00 01 50 01 01", BROKEN_BY_0, holds(5)),
    ("51 00 01 50 00 01", BROKEN_BY_0, holds(5)),
    ("51 00 02 50 02 01", BROKEN_BY_0, fails(5, 6)),
    ("51 00 02 51 02 01", BROKEN_BY_0, fails(7, 9)),
    // Chains: 0 needs 1, 1 needs 2, 2 needs 3; and back, where nothing waits.
    ("51 00 01 51 01 02 51 02 03", BROKEN_BY_0, fails(15, 9)),
    ("51 02 03 51 01 02 51 00 01", BROKEN_BY_0, fails(15, 9)),
    ("51 01 00", BROKEN_BY_0_AND_1, fails(3, 5)),
    // A constraint with one predicate twice.
    ("51 00 00", BROKEN_BY_0, fails(1, 3)),
    ("50 01 01", BROKEN_BY_0, fails(1, 3)),
    // Only the request without a yes is left, and keeps the question or breaks it.
    ("50 00 00 51 01 00", BROKEN_BY_1, holds(5)),
    ("50 00 00 51 01 00", "11 01 02 40 01 00", fails(0, 3)),
    // A predicate far beyond the row's.
    ("51 00 17", BROKEN_BY_0, fails(1 << 23 | 1, 27)),
];

fn constrained_verdicts() -> Vec<Case> {
    let case = |(constraints, rest, verdict)| {
        let call = Call::Verdict { question: 0, budget: u32::MAX };
        (hex(&format!("{constraints} {rest}")), call, Answer::Verdict(verdict))
    };
    let mut cases = Vec::from(CONSTRAINED.map(case));
    for (budget, verdict) in [(5, Verdict::Unfinished { budget: 5 }), (6, fails(5, 6))] {
        let call = Call::Verdict { question: 0, budget };
        cases.push((hex("51 00 02 11 00 00 40 00 01"), call, Answer::Verdict(verdict)));
    }
    cases
}

fn counts(rows: u32, questions: u32, predicates: u32) -> Answer {
    Answer::Counts { rows, questions, predicates }
}

fn readings() -> Vec<Case> {
    let comparisons = |count| [hex("00"), hex("40 00 00").repeat(count)].concat();
    let expected = [
        (hex(TABLE_A), counts(6, 3, 2)),
        (hex(""), counts(0, 0, 0)),
        (hex("12"), refused(1, 0)),
        (hex("11"), refused(2, 0)),
        (hex("11 17"), counts(1, 0, 24)),
        (hex("11 18"), refused(3, 1)),
        (hex("20 00"), refused(4, 1)),
        (hex("00 30 05 05"), refused(4, 2)),
        (hex("00 30 00 05"), refused(4, 3)),
        (hex("33 00"), refused(2, 0)),
        (hex("33 05"), refused(2, 0)),
        (hex("00 40 00 00 00"), refused(5, 4)),
        (hex("00 40 00 00 20 05"), refused(5, 4)),
        (vec![0; 256], counts(256, 0, 0)),
        (vec![0; 257], refused(6, 256)),
        ([vec![0; 256], hex("11 18")].concat(), refused(6, 256)),
        (comparisons(64), counts(1, 64, 0)),
        (comparisons(65), refused(7, 193)),
        ([comparisons(64), hex("42 FF")].concat(), refused(7, 193)),
    ];
    Vec::from(expected.map(|(table, answer)| (table, Call::Read, answer)))
}

fn constrained_readings() -> Vec<Case> {
    let expected = [
        // They are no rows and no questions, but n counts their predicates.
        ("50 00 01", counts(0, 0, 2)),
        ("51 05 02", counts(0, 0, 6)),
        ("51 02 17", counts(0, 0, 24)),
        ("50 17 00", counts(0, 0, 24)),
        ("50 17 17 51 17 17", counts(0, 0, 24)),
        ("50 03 01 11 02", counts(1, 0, 4)),
        ("51 00 02 11 05 00 40 00 01", counts(2, 1, 6)),
        // The first number that is no predicate.
        ("50 18 00", refused(3, 1)),
        ("50 00 18", refused(3, 2)),
        ("51 18 18", refused(3, 1)),
        ("51 17 FF", refused(3, 2)),
        ("51 00 00 50 00 18", refused(3, 5)),
        // Cut short, before that.
        ("50", refused(2, 0)),
        ("51 18", refused(2, 0)),
        ("50 00 00 51 00", refused(2, 3)),
        // Behind a row or a question, before that.
        ("00 50 00 00", refused(5, 1)),
        ("00 51 18 18", refused(5, 1)),
        ("00 51", refused(5, 1)),
        ("00 40 00 00 50 00 00", refused(5, 4)),
        ("51 00 00 00 40 00 00 51 00", refused(5, 7)),
        ("51 00 00 00 40 00 00 00", refused(5, 7)),
        // Beside their kinds.
        ("4F", refused(1, 0)),
        ("52 00 00", refused(1, 0)),
        ("50 00 00 42 00", refused(4, 4)),
    ];
    Vec::from(expected.map(|(table, answer)| (hex(table), Call::Read, answer)))
}

/// As many constraints as there may be, and one more.
fn most_constraints() -> Vec<Case> {
    let most = hex("50 00 01").repeat(CONSTRAINTS);
    let behind_most = |line| [&most[..], &hex(line)].concat();
    let expected = [
        (most.clone(), counts(0, 0, 2)),
        (behind_most("00 40 00 00"), counts(1, 1, 2)),
        (behind_most("50 00 01"), refused(14, 96)),
        (behind_most("51 18 18"), refused(14, 96)),
        (behind_most("51 00"), refused(14, 96)),
        (behind_most("50"), refused(14, 96)),
        (behind_most("52"), refused(1, 96)),
        (behind_most("00 50 00 01"), refused(5, 97)),
        (behind_most("00 51"), refused(5, 97)),
        (behind_most("00 40 00 00 50"), refused(5, 100)),
        (most[3..].to_vec(), counts(0, 0, 2)),
        ([&most[3..], &hex("51 00 17")].concat(), counts(0, 0, 24)),
    ];
    Vec::from(expected.map(|(table, answer)| (table, Call::Read, answer)))
}

fn supplied_readings() -> Vec<Case> {
    let expected = [
        // They are no rows, and n does not count them.
        ("60 05 00", counts(1, 0, 0)),
        ("00 60 01 00 60 00 00", counts(3, 0, 0)),
        ("60 FF 11 02 60 18 10 01", counts(2, 0, 3)),
        ("50 00 01 60 05 00 40 00 00", counts(1, 1, 2)),
        // Rows are named by their own numbers.
        ("60 05 00 60 06 20 00", counts(2, 0, 0)),
        ("60 05 00 60 06 20 01", refused(4, 6)),
        // A supplier that is in force already; 0 is, before any is named.
        ("60 00 00", refused(15, 0)),
        ("60 05 00 60 05 00", refused(15, 3)),
        ("60 05 00 60 00 00 60 00 00", refused(15, 6)),
        ("00 60 00 00", refused(15, 1)),
        ("50 00 01 60 00 00", refused(15, 3)),
        // It holds until the next is named, behind every row.
        ("60 05 00 00 60 05 00", refused(15, 4)),
        ("60 05 00 00 60 00 00", counts(3, 0, 0)),
        // No row behind it: a constraint, another supplier, nothing, a question, no kind.
        ("60 05 50 00 01", refused(15, 0)),
        ("60 05 60 06 00", refused(15, 0)),
        ("60 05 60", refused(15, 0)),
        ("60 05", refused(15, 0)),
        ("60 05 40", refused(15, 0)),
        ("60 05 12", refused(15, 0)),
        ("60 00", refused(15, 0)),
        ("60 00 40 00 00", refused(15, 0)),
        ("00 60 05 40 00 00", refused(15, 1)),
        ("00 60 05", refused(15, 1)),
        ("00 60 05 50 00 01", refused(15, 1)),
        // Cut short, before that.
        ("60", refused(2, 0)),
        ("00 60", refused(2, 1)),
        ("60 05 00 60", refused(2, 3)),
        // What is announced is judged by the kind byte alone, and refused at its own entry.
        ("60 05 20", refused(2, 2)),
        ("60 05 20 00", refused(4, 3)),
        ("60 05 11 18", refused(3, 3)),
        ("60 05 33 00", refused(2, 2)),
        ("60 05 00 60 06 30 00 07", refused(4, 7)),
        // Behind a question, before all else.
        ("00 40 00 00 60 05 00", refused(5, 4)),
        ("00 40 00 00 60 00", refused(5, 4)),
        ("00 40 00 00 60", refused(5, 4)),
        ("60 05 00 40 00 00 60 05", refused(5, 6)),
        // A constraint behind a row is out of order, whosever the row is.
        ("60 05 00 50 00 01", refused(5, 3)),
        // Beside its kind.
        ("5F 05 00", refused(1, 0)),
        ("61 05 00", refused(1, 0)),
    ];
    Vec::from(expected.map(|(table, answer)| (hex(table), Call::Read, answer)))
}

/// As many rows as there may be, and a supplier behind them: it is no row.
fn most_supplied() -> Vec<Case> {
    let most = vec![0; 256];
    let behind_most = |line| [&most[..], &hex(line)].concat();
    let each_its_own = || (1..=255).flat_map(|supplier| [0x60, supplier, 0]).collect::<Vec<u8>>();
    let expected = [
        (behind_most("60 05"), refused(15, 256)),
        (behind_most("60 05 00"), refused(6, 258)),
        (behind_most("60 05 20"), refused(6, 258)),
        (behind_most("60 05 40 00 00"), refused(15, 256)),
        (behind_most("60 00 00"), refused(15, 256)),
        (behind_most("60"), refused(2, 256)),
        (behind_most("40 00 00 60"), refused(5, 259)),
        ([hex("60 05"), most.clone()].concat(), counts(256, 0, 0)),
        ([hex("60 05"), most.clone(), hex("60 05 00")].concat(), refused(15, 258)),
        ([hex("60 05"), most.clone(), hex("60 06 00")].concat(), refused(6, 260)),
        ([hex("50 00 01").repeat(CONSTRAINTS), hex("60 05 00")].concat(), counts(1, 0, 2)),
        ([hex("50 00 01").repeat(CONSTRAINTS), hex("60 05 50")].concat(), refused(15, 96)),
        (each_its_own(), counts(255, 0, 0)),
        ([each_its_own(), hex("60 00 00")].concat(), counts(256, 0, 0)),
        ([each_its_own(), hex("60 00 00 60 01 00")].concat(), refused(6, 770)),
    ];
    Vec::from(expected.map(|(table, answer)| (table, Call::Read, answer)))
}

/// Strikes of a row, with as much room as the table is long.
fn strikes() -> Vec<Case> {
    let written = |table| Answer::Written(hex(table));
    let expected = [
        (STRIKING, 0, written("02 20 00 40 00 01")),
        (STRIKING, 1, refused(9, 0)),
        (STRIKING, 3, refused(8, 0)),
        // Constraints stay as they are: their numbers are those of predicates.
        (
            "50 00 01 51 05 01 00 02 20 01 40 01 02",
            0,
            written("50 00 01 51 05 01 02 20 00 40 00 01"),
        ),
        ("50 00 01 51 05 01 00 02 20 01 40 01 02", 1, refused(9, 0)),
        ("50 00 01 51 05 01 00 02 20 01 40 01 02", 3, refused(8, 0)),
        ("51 00 00 11 17", 0, written("51 00 00")),
        ("51 00 00", 0, refused(8, 0)),
    ];
    let case = |(table, row, answer)| {
        let table = hex(table);
        let room = table.len();
        (table, Call::Strike { row, room }, answer)
    };
    Vec::from(expected.map(case))
}

/// Strikes from tables with suppliers: what is left, and that it takes as much room as it
/// is long.
fn supplied_strikes() -> Vec<Case> {
    let expected = [
        // A supplier is named only where it changes: two are left out, one, or none.
        ("00 60 01 00 60 00 00", 1, "00 00"),
        ("00 60 01 00 00", 1, "00 60 01 00"),
        ("00 60 01 00 60 02 00", 1, "00 60 02 00"),
        ("00 60 01 00", 1, "00"),
        ("60 05 00 60 00 00", 0, "00"),
        ("60 05 00 60 06 00", 0, "60 06 00"),
        ("60 05 00 00 60 06 00", 0, "60 05 00 60 06 00"),
        ("60 05 00 60 06 00 60 05 00", 1, "60 05 00 00"),
        ("60 05 00 60 06 00 60 05 00", 2, "60 05 00 60 06 00"),
        ("60 05 00", 0, ""),
        // A row of three bytes, one that names rows, questions and constraints.
        ("60 05 00 60 06 33 00 00 60 05 00", 1, "60 05 00 00"),
        ("50 00 01 60 07 00 02 60 08 20 01 40 01 02", 0, "50 00 01 60 07 02 60 08 20 00 40 00 01"),
    ];
    let mut cases = vec![
        (hex("60 05 00"), Call::Strike { row: 1, room: 0 }, refused(8, 0)),
        (hex("60 05 00 40 00 00"), Call::Strike { row: 0, room: 0 }, refused(9, 0)),
        (hex("60 05"), Call::Strike { row: 0, room: 0 }, refused(15, 0)),
    ];
    for (table, row, left) in expected {
        let (table, left) = (hex(table), hex(left));
        for room in [left.len(), table.len()] {
            let written = Answer::Written(left.clone());
            cases.push((table.clone(), Call::Strike { row, room }, written));
        }
        for room in 0..left.len() {
            cases.push((table.clone(), Call::Strike { row, room }, refused(11, 0)));
        }
    }
    cases
}

fn entries() -> Vec<Case> {
    let expected = [
        (TABLE_A, 0, Answer::Entry(0..2)),
        (TABLE_A, 2, Answer::Entry(4..7)),
        (TABLE_A, 3, Answer::Entry(7..8)),
        (TABLE_A, 5, Answer::Entry(11..13)),
        (TABLE_A, 6, refused(8, 0)),
        // Constraints are no rows.
        ("50 00 01 51 05 01 11 00 03", 0, Answer::Entry(6..8)),
        ("50 00 01 51 05 01 11 00 03", 1, Answer::Entry(8..9)),
        ("50 00 01 51 05 01 11 00 03", 2, refused(8, 0)),
        ("50 00 01", 0, refused(8, 0)),
        // A supplier is no row, and no part of one.
        ("60 05 00", 0, Answer::Entry(2..3)),
        ("60 05 00 60 06 33 00 00 00", 1, Answer::Entry(5..8)),
        ("60 05 00 60 06 33 00 00 00", 2, Answer::Entry(8..9)),
        ("60 05 00 60 06 33 00 00 00", 3, refused(8, 0)),
        ("50 00 01 60 05 11 00", 0, Answer::Entry(5..7)),
    ];
    let case = |(table, row, answer)| (hex(table), Call::Entry { row }, answer);
    Vec::from(expected.map(case))
}

/// Deciding, and the sets, do not look at constraints.
fn outside_constraints() -> Vec<Case> {
    let never_0 = || hex("50 00 00 51 00 01 11 00");
    vec![
        (never_0(), Call::Decide { row: 0, yes: 1 }, Answer::Code(2)),
        (never_0(), Call::Decide { row: 0, yes: 0xFF_FFFF }, Answer::Code(2)),
        (never_0(), Call::Possible { row: 0, known: 0, yes: 0 }, Answer::Set(5)),
        (never_0(), Call::Possible { row: 0, known: 1, yes: 1 }, Answer::Set(4)),
    ]
}

/// A table of four offices: rows 0 and 1 are of supplier 9 and 2, row 2 joins them and is
/// nobody's, row 3 is of supplier 5 alone, row 4 of supplier 2 overrides row 2 by row 3,
/// and row 5 is of supplier 9 and names row 1. Question 0 asks of rows 4 and 5.
const OFFICES: &str = "60 09 11 00 60 02 10 01 60 00 33 00 01 60 05 01 60 02 38 02 03 \
                       60 09 22 01 40 04 05";

/// The suppliers of all rows that a row reaches.
fn lists() -> Vec<Case> {
    let expected: [(&str, u32, &[u8]); 19] = [
        (OFFICES, 0, &[9]),
        (OFFICES, 1, &[2]),
        (OFFICES, 2, &[0, 2, 9]),
        (OFFICES, 3, &[5]),
        // Not of the rows that it names alone, and each once: supplier 2 has two rows.
        (OFFICES, 4, &[0, 2, 5, 9]),
        (OFFICES, 5, &[2, 9]),
        // Without suppliers there is 0 alone.
        (TABLE_A, 0, &[0]),
        (TABLE_A, 4, &[0]),
        // The row itself, though it is nobody's or names nothing.
        ("60 05 00 60 00 20 00", 1, &[0, 5]),
        ("60 05 00 60 00 00", 1, &[0]),
        // Through rows of one, and of two, one of them twice.
        ("60 03 00 60 02 20 00 60 01 20 01 60 00 20 02", 3, &[0, 1, 2, 3]),
        ("60 03 00 60 02 20 00 60 01 20 01 60 00 20 02", 2, &[1, 2, 3]),
        ("60 03 00 60 02 00 60 01 35 00 01", 2, &[1, 2, 3]),
        ("60 03 00 60 02 00 60 01 35 01 01", 2, &[1, 2]),
        ("60 03 00 60 02 00 60 01 35 00 00", 2, &[1, 3]),
        // A predicate is no row; nor is a supplier's number, or a question's.
        ("60 03 00 60 04 11 00", 1, &[4]),
        ("60 03 00 60 02 00 60 00 20 01 40 00 02", 2, &[0, 2]),
        // The least and the greatest.
        ("60 FF 00 60 00 20 00", 1, &[0, 255]),
        ("60 FF 00 60 FE 20 00", 1, &[254, 255]),
    ];
    let mut cases: Vec<Case> = expected
        .into_iter()
        .flat_map(|(table, row, list)| with_every_list_room(&hex(table), row, list))
        .collect();
    // Every supplier, falling from row to row.
    for table in [crafted::chain_of_rows(ROWS), crafted::ladder_of_rows(ROWS)] {
        for row in [0, 2, 100, 255] {
            let list: Vec<u8> = (255 - row..=255).collect();
            cases.extend(with_every_list_room(&table, row.into(), &list));
        }
    }
    cases
}

fn with_every_list_room(table: &[u8], row: u32, list: &[u8]) -> Vec<Case> {
    with_every_room(table, |room| Call::Suppliers { row, room }, SUPPLIERS, list)
}

/// What is written to an output that is long enough, up to one that always is, and the
/// refusal of one that is not.
fn with_every_room(
    table: &[u8],
    call: impl Fn(usize) -> Call,
    always: usize,
    written: &[u8],
) -> Vec<Case> {
    let case = |room, answer| (table.to_vec(), call(room), answer);
    let enough = [always, written.len() + 1, written.len()];
    let enough = enough.map(|room| case(room, Answer::Written(written.to_vec())));
    let too_short = [written.len() - 1, 0].map(|room| case(room, refused(11, 0)));
    enough.into_iter().chain(too_short).collect()
}

/// A list is refused as reading is; then with 8, and then with 11.
fn refused_lists() -> Vec<Case> {
    let expected = [
        ("60 05 00", 1, 0, refused(8, 0)),
        ("60 05 00", u32::MAX, SUPPLIERS, refused(8, 0)),
        ("", 0, 0, refused(8, 0)),
        ("50 00 01", 0, 0, refused(8, 0)),
        ("60 05 00", 0, 0, refused(11, 0)),
        ("60 05", 0, 0, refused(15, 0)),
        ("60 05 00 60", 9, 0, refused(2, 3)),
        ("12", 0, 0, refused(1, 0)),
        ("00 30 00 05", 0, SUPPLIERS, refused(4, 3)),
    ];
    let case = |(table, row, room, answer)| (hex(table), Call::Suppliers { row, room }, answer);
    Vec::from(expected.map(case))
}

/// Deciding, the sets and the walk do not look at suppliers.
fn beside_suppliers() -> Vec<Case> {
    let offices = || hex(OFFICES);
    vec![
        (offices(), Call::Read, counts(6, 1, 2)),
        (offices(), Call::Decide { row: 2, yes: 3 }, Answer::Code(3)),
        (offices(), Call::Decide { row: 4, yes: 0 }, Answer::Code(1)),
        (offices(), Call::Possible { row: 4, known: 1, yes: 1 }, Answer::Set(12)),
        (offices(), Call::Verdict { question: 0, budget: 1_000_000 }, Answer::Verdict(fails(1, 3))),
    ]
}

/// Tables, a question of each, and the lines of its file. The rows' variables come behind
/// those of the predicates, two for each row, and behind them those of the questions.
const FILES: [(&str, u32, &str); 6] = [
    // No predicate: 1 and 2 are row 0's claims, 3 is question 0.
    (
        "00 40 00 00",
        0,
        "p cnf 3 9/-1 0/-2 0/\
         -3 -1 1 0/-3 -2 2 0/3 1 2 0/3 1 -2 0/3 -1 2 0/3 -1 -2 0/-3 0/",
    ),
    // Predicate 0 is 1, row 0 has 2 and 3, question 0 has 4.
    (
        "11 00 40 00 00",
        0,
        "p cnf 4 10/-2 1 0/2 -1 0/-3 0/\
         -4 -2 2 0/-4 -3 3 0/4 2 3 0/4 2 -3 0/4 -2 3 0/4 -2 -3 0/-4 0/",
    ),
    // Constraints come first; predicates 0 to 2 are 1 to 3, rows have 4 to 7, questions 8
    // and 9. Only the last line goes by the question.
    (
        CONSTRAINED_FILE,
        0,
        "p cnf 9 16/-1 -2 0/-3 1 0/-4 1 0/4 -1 0/-5 0/-6 0/7 0/\
         -8 -4 6 0/-8 -5 7 0/8 4 5 0/8 4 -7 0/8 -6 5 0/8 -6 -7 0/-9 -8 0/9 8 0/-8 0/",
    ),
    (
        CONSTRAINED_FILE,
        1,
        "p cnf 9 16/-1 -2 0/-3 1 0/-4 1 0/4 -1 0/-5 0/-6 0/7 0/\
         -8 -4 6 0/-8 -5 7 0/8 4 5 0/8 4 -7 0/8 -6 5 0/8 -6 -7 0/-9 -8 0/9 8 0/-9 0/",
    ),
    // An operator on two rows, the higher first: rows have 1 to 6, question 0 has 7.
    (
        "02 01 38 01 00 40 02 00",
        0,
        "p cnf 7 19/1 0/-2 0/-3 0/4 0/\
         5 -3 0/5 4 -1 0/-5 3 -4 0/-5 3 1 0/6 -4 0/6 3 -2 0/-6 4 -3 0/-6 4 2 0/\
         -7 -5 1 0/-7 -2 6 0/7 5 2 0/7 5 -6 0/7 -1 2 0/7 -1 -6 0/-7 0/",
    ),
    // Suppliers give no clause and have no variable.
    (
        "60 05 11 00 60 00 20 00 40 00 01",
        0,
        "p cnf 6 14/-2 1 0/2 -1 0/-3 0/-4 3 0/4 -3 0/-5 2 0/5 -2 0/\
         -6 -2 4 0/-6 -5 3 0/6 2 5 0/6 2 -3 0/6 -4 5 0/6 -4 -3 0/-6 0/",
    ),
];

/// Predicates 0 and 1 are never both yes, and 2 is yes only if 0 is.
const CONSTRAINED_FILE: &str = "50 00 01 51 02 00 11 00 01 41 00 01 42 00";

fn files() -> Vec<Case> {
    let mut cases = Vec::new();
    for (table, question, lines) in FILES {
        let file = lines.replace('/', "\n").into_bytes();
        let call = |room| Call::Dimacs { question, room };
        cases.extend(with_every_room(&hex(table), call, FILE_BYTES, &file));
    }
    let call = |room| Call::Dimacs { question: 63, room };
    cases.push((crafted::longest_file(), call(FILE_BYTES - 1), refused(11, 0)));
    cases
}

/// A file is refused as reading is; then with 8, and then with 11.
fn refused_files() -> Vec<Case> {
    let expected = [
        ("", 0, 0, refused(8, 0)),
        ("50 00 01 11 00", 0, FILE_BYTES, refused(8, 0)),
        ("00 40 00 00", 1, 0, refused(8, 0)),
        ("00 40 00 00", u32::MAX, FILE_BYTES, refused(8, 0)),
        ("00 40 00 00", 0, 0, refused(11, 0)),
        ("12", 0, 0, refused(1, 0)),
        ("60 05", 9, 0, refused(15, 0)),
        ("00 40 00 01", 0, FILE_BYTES, refused(4, 3)),
    ];
    let case =
        |(table, question, room, answer)| (hex(table), Call::Dimacs { question, room }, answer);
    Vec::from(expected.map(case))
}

/// Constraints, the rest of a table, a question, a yes mask, and how that is judged.
fn judged() -> Vec<Case> {
    let breaks = Answer::Breaks;
    let expected = [
        ("", TABLE_A, 2, 3, breaks(true)),
        ("", TABLE_A, 2, 0, breaks(false)),
        ("", TABLE_A, 2, 1, breaks(false)),
        ("", TABLE_A, 2, 2, breaks(false)),
        ("", TABLE_A, 1, 3, breaks(false)),
        ("", TABLE_A, 0, 3, breaks(true)),
        // A bit from n up is refused: the table has two predicates.
        ("", TABLE_A, 2, 4, refused(10, 0)),
        ("", TABLE_A, 2, 7, refused(10, 0)),
        ("", TABLE_A, 2, 1 << 23, refused(10, 0)),
        ("", TABLE_A, 2, 1 << 24, refused(10, 0)),
        ("", TABLE_A, 2, u32::MAX, refused(10, 0)),
        // A question that is not there, before that.
        ("", TABLE_A, 3, 3, refused(8, 0)),
        ("", TABLE_A, 3, 4, refused(8, 0)),
        ("", TABLE_A, u32::MAX, u32::MAX, refused(8, 0)),
        ("", "", 0, 0, refused(8, 0)),
        ("", "12", 9, u32::MAX, refused(1, 0)),
        // A request that breaks the question, but a constraint too.
        ("50 00 00", BROKEN_BY_0, 0, 1, breaks(false)),
        ("50 00 01", BROKEN_BY_0, 0, 3, breaks(false)),
        ("50 00 01", BROKEN_BY_0, 0, 1, breaks(true)),
        ("51 00 02", BROKEN_BY_0, 0, 1, breaks(false)),
        ("51 00 02", BROKEN_BY_0, 0, 3, breaks(false)),
        ("51 00 02", BROKEN_BY_0, 0, 5, breaks(true)),
        ("51 00 02", BROKEN_BY_0, 0, 7, breaks(true)),
        ("51 02 00", BROKEN_BY_0, 0, 1, breaks(true)),
        ("51 00 02 50 01 02", BROKEN_BY_0, 0, 7, breaks(false)),
        // One that keeps the constraints and the question, and one that breaks a constraint
        // alone.
        ("51 00 02", BROKEN_BY_0, 0, 4, breaks(false)),
        ("51 02 00", BROKEN_BY_0, 0, 4, breaks(false)),
        // n counts the predicates of constraints.
        ("51 00 02", BROKEN_BY_0, 0, 8, refused(10, 0)),
        ("50 17 17", BROKEN_BY_0, 0, 1 << 22 | 1, breaks(true)),
        // No predicate, and all.
        ("", "02 00 40 00 01", 0, 0, breaks(true)),
        ("", "02 00 40 00 01", 0, 1, refused(10, 0)),
        ("", "11 17 00 40 00 01", 0, 1 << 23, breaks(true)),
        ("", "11 17 00 40 00 01", 0, 0x7F_FFFF, breaks(false)),
        ("", "11 17 00 40 00 01", 0, 1 << 24, refused(10, 0)),
    ];
    let case = |(constraints, rest, question, yes, answer)| {
        (hex(&format!("{constraints} {rest}")), Call::Breaks { question, yes }, answer)
    };
    Vec::from(expected.map(case))
}
