//! Tables made for a purpose: walks of a known length, every set there is, constraints
//! on predicates that a walk comes to, rows that reach as many others as they can, the
//! longest text, and the longest file for a solver.

use crate::kinds::*;
use crate::{CONSTRAINTS, PREDICATES, QUESTIONS, ROWS};

/// A table with a row that grants if an odd number of `count` predicates is yes
/// and otherwise denies, and last the negation of its negation. As long as a
/// predicate is unknown each of these two may grant or deny, so the two questions,
/// if the one is at or below the other in the truth and in the knowledge order,
/// take all 2^(n+1) - 1 visits, and hold.
pub fn parity(count: u8) -> Vec<u8> {
    let mut bytes = vec![0x01];
    let mut odd = 0;
    for predicate in 0..count {
        let fact = odd + 2;
        bytes.extend([0x11, predicate, 0x22, odd + 1]);
        bytes.extend([0x20, odd, 0x20, fact]);
        bytes.extend([0x30, odd, fact + 2, 0x30, fact + 1, fact]);
        bytes.extend([0x31, fact + 3, fact + 4]);
        odd = fact + 5;
    }
    let twin = odd + 2;
    bytes.extend([0x20, odd, 0x20, odd + 1, 0x40, odd, twin, 0x41, odd, twin]);
    bytes
}

/// A table of `count` predicates, at least one, of which each but the last is yes only if
/// the next is. Its question is broken by every request with predicate 0 yes, so the
/// first within the constraints that breaks it has all of them yes. Behind the visits
/// with nothing known and with predicate 0 no and yes, each further predicate takes two.
pub fn chain(count: u8) -> Vec<u8> {
    let links = (1..count).flat_map(|predicate| [ONLY_IF, predicate - 1, predicate]);
    links.chain([IF_PREDICATE[1], 0, CONSTANTS[0], COMPARISONS[0], 0, 1]).collect()
}

/// The same, but its last predicate is never yes, and so none of them is. The question
/// holds after as many visits.
pub fn shut_chain(count: u8) -> Vec<u8> {
    [vec![NEVER_BOTH, count - 1, count - 1], chain(count)].concat()
}

/// So many visits a walk makes over a chain of `count` predicates.
pub fn visits_of_chain(count: u8) -> u32 {
    2 * u32::from(count) + 1
}

/// As many constraints as a table may have, on the predicates below `count` and the last
/// there is. As long as that is unknown or no, no request breaks one and none waits.
pub fn idle_constraints(count: u8) -> Vec<u8> {
    let last = PREDICATES as u8 - 1;
    let pair = |predicate| [NEVER_BOTH, predicate, last, ONLY_IF, predicate, predicate];
    (0..count).cycle().flat_map(pair).take(3 * CONSTRAINTS).collect()
}

/// So many rows `rows_of_every_set` makes.
pub const ROWS_OF_EVERY_SET: usize = 25;

/// Rows that have, as long as the predicate is unknown, every set of decisions:
/// their bytes, and the number of a row for each mask from 1 to 15.
pub fn rows_of_every_set(predicate: u8) -> (Vec<u8>, Vec<u8>) {
    // Rows 0 to 3 are the constants, in the order of their codes. Row 4 grants
    // if the predicate; rows 5 to 7 are u, or else d, g and c, as it is u or g.
    let mut bytes = vec![0, 1, 2, 3, 0x11, predicate, 0x35, 4, 1, 0x35, 4, 2, 0x35, 4, 3];
    let mut rows = 8;
    let row_of = |mask: u8| {
        let mut members = (0..4).filter(|code| mask >> code & 1 == 1);
        let mut row = members.next().unwrap_or(0);
        for code in members {
            // Where the row of u or `code` is u, the row so far takes its place.
            bytes.extend([0x38, 4 + code, row]);
            row = rows;
            rows += 1;
        }
        row
    };
    let numbers = (1..16).map(row_of).collect();
    (bytes, numbers)
}

/// Those rows and a twin of each: its set under another number.
pub fn rows_of_every_set_twice() -> (Vec<u8>, Vec<[u8; 2]>) {
    let (mut bytes, numbers) = rows_of_every_set(0);
    // Row 2 always grants, so what it guards stays as it is.
    bytes.extend(numbers.iter().flat_map(|&row| [0x35, 2, row]));
    let twins = ROWS_OF_EVERY_SET as u8..;
    (bytes, numbers.into_iter().zip(twins).map(|(row, twin)| [row, twin]).collect())
}

/// Tables that put every operator, every comparison, "not" and "both" on every set,
/// or pair of sets; equal sets are put there under one number and under two.
pub fn operators_on_every_set() -> Vec<Vec<u8>> {
    let (rows, numbers) = rows_of_every_set_twice();
    let singles: Vec<_> = numbers.iter().map(|&[x, _]| vec![x]).collect();
    let pairs_with = |x| numbers.iter().map(move |&[_, y]| vec![x, y]).chain([vec![x, x]]);
    let pairs: Vec<_> = numbers.iter().flat_map(|&[x, _]| pairs_with(x)).collect();
    let mut tables = vec![questions_on_every_set()];
    let mut put = |kinds: &[u8], bodies: &[Vec<u8>]| {
        for &kind in kinds {
            let entries = bodies.iter().map(|body| [&[kind], &body[..]].concat());
            tables.push(rows.iter().copied().chain(entries.flatten()).collect());
        }
    };
    put(&ON_ONE_ROW, &singles);
    for pairs in pairs.chunks(ROWS / 2) {
        put(&ON_TWO_ROWS, pairs);
    }
    for pairs in pairs.chunks(QUESTIONS) {
        put(&COMPARISONS, pairs);
    }
    tables
}

/// A table that puts "not" and "both" on every set of truths, or pair of sets, as long
/// as predicate 0 is unknown.
fn questions_on_every_set() -> Vec<u8> {
    // Rows 0 and 1 are u and g, row 2 is either. Question 0 is true, 1 is false and 2
    // is either, for u is at or below g and g is not at or below u; 3 to 5 are alike.
    let mut bytes = vec![0, 2, 0x11, 0];
    bytes.extend([0x40, 0, 1, 0x40, 1, 0, 0x40, 1, 2].repeat(2));
    bytes.extend((0..6).flat_map(|a| [NOT, a]));
    bytes.extend((0..6).flat_map(|a| (0..6).flat_map(move |b| [BOTH, a, b])));
    bytes
}

/// A table of so many rows, of which each but the first negates the one before it; so
/// every row reaches all before it, by one way.
pub fn chain_of_rows(count: usize) -> Vec<u8> {
    supplied_falling(count, |number| match number {
        0 => vec![CONSTANTS[2]],
        _ => vec![ON_ONE_ROW[0], number - 1],
    })
}

/// A table of so many rows, of which each but the first two names both before it; so every
/// row reaches all before it, by far more ways than could be followed one by one.
pub fn ladder_of_rows(count: usize) -> Vec<u8> {
    supplied_falling(count, |number| match number {
        0 | 1 => vec![CONSTANTS[2]],
        _ => vec![ON_TWO_ROWS[0], number - 1, number - 2],
    })
}

/// A table of so many rows, of which each but the first two names two that stand next to
/// each other about halfway down; so a row reaches few others, and none right before it.
pub fn steps_of_rows(count: usize) -> Vec<u8> {
    supplied_falling(count, |number| match number {
        0 | 1 => vec![CONSTANTS[2]],
        _ => vec![ON_TWO_ROWS[0], number / 2, number / 2 - 1],
    })
}

/// A table of so many rows, of which each has a supplier of its own: 255 has row 0, and so
/// on, falling.
fn supplied_falling(count: usize, row: impl Fn(u8) -> Vec<u8>) -> Vec<u8> {
    let supplied = |number| [vec![SUPPLIER, 255 - number], row(number)].concat();
    (0..count).flat_map(|number| supplied(number as u8)).collect()
}

/// The table with the longest text: every entry has the longest word that it can
/// have, and the highest numbers. The first row can name no row. Before each row stands a
/// supplier of three digits, and next to each other two differ.
pub fn longest_text() -> Vec<u8> {
    let mut bytes = [NEVER_BOTH, 23, 23].repeat(CONSTRAINTS);
    bytes.extend([SUPPLIER, 255, 0x11, 23]);
    for number in 1..ROWS {
        let before = (number - 1) as u8;
        bytes.extend([SUPPLIER, 254 + before % 2, 0x38, before, before]);
    }
    bytes.extend([0x41, 255, 255].repeat(QUESTIONS));
    bytes
}

/// The table whose questions have the longest file for a solver: no entry has more clauses
/// or more negations than those that stand here, and each names the highest numbers that it
/// can.
pub fn longest_file() -> Vec<u8> {
    let mut bytes = [NEVER_BOTH, 23, 23].repeat(CONSTRAINTS);
    bytes.extend([IF_PREDICATE[0], 23]);
    bytes.extend((1..ROWS).flat_map(|number| [0x3B, (number - 1) as u8, (number - 1) as u8]));
    bytes.extend([COMPARISONS[0], 255, 255].repeat(QUESTIONS));
    bytes
}
