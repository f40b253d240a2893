//! Tables at every limit, and past it.

use crate::kinds::*;
use crate::{CONSTRAINTS, QUESTIONS, ROWS};

/// Tables at every limit of their length, and one past it.
pub fn tables() -> Vec<Vec<u8>> {
    let mut tables = vec![Vec::new()];
    tables.extend(around(CONSTRAINTS).map(|count| counting(count, 0, 0)));
    tables.extend(around(ROWS).map(|rows| counting(0, rows, 0)));
    tables.extend(around(QUESTIONS).map(|count| counting(0, 1, count)));
    tables.extend(last_constraints());
    tables.extend(announced());
    tables.extend(around_longest());
    tables
}

fn around(limit: usize) -> [usize; 3] {
    [limit - 1, limit, limit + 1]
}

/// So many constraints, so many rows, and so many questions that compare the first row
/// with itself.
fn counting(constraints: usize, rows: usize, questions: usize) -> Vec<u8> {
    [
        [ONLY_IF, 0, 0].repeat(constraints),
        vec![CONSTANTS[1]; rows],
        [COMPARISONS[1], 0, 0].repeat(questions),
    ]
    .concat()
}

/// A 32nd and a 33rd constraint, whole and cut short, in the front and behind a row or a
/// question.
fn last_constraints() -> Vec<Vec<u8>> {
    let before = [
        counting(CONSTRAINTS - 1, 0, 0),
        counting(CONSTRAINTS, 0, 0),
        counting(CONSTRAINTS, 1, 0),
        counting(CONSTRAINTS, 1, 1),
    ];
    let last: [&[u8]; 4] = [&[NEVER_BOTH, 0, 1], &[ONLY_IF, 23, 24], &[NEVER_BOTH, 0], &[ONLY_IF]];
    let and_then = |before: &Vec<u8>| last.map(|last| [&before[..], last].concat());
    before.iter().flat_map(and_then).collect()
}

/// Suppliers at every limit: one named, in force already or another, whole and cut short,
/// and what it announces: a row, whole and cut short, a question, a constraint, another
/// supplier, what is no kind, and nothing.
fn announced() -> Vec<Vec<u8>> {
    let before = [
        counting(0, 0, 0),
        counting(CONSTRAINTS, 0, 0),
        counting(0, 1, 0),
        [&[SUPPLIER, 5], &counting(0, 1, 0)[..]].concat(),
        counting(0, ROWS - 1, 0),
        counting(0, ROWS, 0),
        [&[SUPPLIER, 5], &counting(0, ROWS, 0)[..]].concat(),
        counting(0, 1, 1),
        counting(CONSTRAINTS, ROWS, QUESTIONS),
    ];
    let named: [&[u8]; 4] = [&[SUPPLIER, 0], &[SUPPLIER, 5], &[SUPPLIER, 255], &[SUPPLIER]];
    let behind: [&[u8]; 12] = [
        &[],
        &[CONSTANTS[2]],
        &[CONSTANTS[2], CONSTANTS[2]],
        &[CONSTANTS[2], SUPPLIER, 5, CONSTANTS[2]],
        &[IF_PREDICATE[0], 24],
        &[ON_ONE_ROW[0]],
        &[ON_TWO_ROWS[0], 255, 255],
        &[COMPARISONS[0], 0, 0],
        &[NEVER_BOTH, 0, 1],
        &[SUPPLIER, 6, CONSTANTS[2]],
        &[SUPPLIER],
        &[NOT_LISTED[0]],
    ];
    let mut tables = Vec::new();
    for before in &before {
        for named in named {
            tables.extend(behind.map(|behind| [before, named, behind].concat()));
        }
    }
    tables
}

/// An entry whose numbers lie around their limit.
#[derive(Debug)]
pub struct Probe {
    /// How many constraints stand before the entry.
    pub constraints: usize,
    /// How many rows stand before the entry.
    pub rows: usize,
    /// How many questions stand before the entry.
    pub questions: usize,
    /// Whether a supplier, the first of the table, stands right before the entry.
    pub announced: bool,
    pub group: Group,
    pub kind: u8,
    pub body: Vec<u8>,
}

impl Probe {
    /// What stands before the entry: an accepted table, and perhaps a supplier.
    pub fn before(&self) -> Vec<u8> {
        let supplier: &[u8] = if self.announced { &[SUPPLIER, 1] } else { &[] };
        [&counting(self.constraints, self.rows, self.questions)[..], supplier].concat()
    }

    /// What each number of the body must be below.
    pub fn limit(&self) -> usize {
        self.group.limit(self.rows, self.questions)
    }

    /// The table that ends with the entry.
    pub fn table(&self) -> Vec<u8> {
        [&self.before()[..], &[self.kind], &self.body].concat()
    }

    /// The table that ends with the entry, its body whole and cut to every
    /// length, and each with bytes behind it that are no entry.
    pub fn variants(&self) -> Vec<Vec<u8>> {
        let (table, cuts) = (self.table(), 0..=self.body.len());
        let shortened = cuts.map(|cut| &table[..table.len() - cut]);
        let rubbish: [&[u8]; 3] = [&[], &[0x12], &[0xFF; 3]];
        shortened.flat_map(|table| rubbish.map(|behind| [table, behind].concat())).collect()
    }
}

/// Entries of every kind behind few and behind many constraints, rows and questions, and
/// some of them right behind a supplier, each number of their bodies being 0, the last below its limit, at it, or beyond.
pub fn probes() -> Vec<Probe> {
    let mut probes = Vec::new();
    #[rustfmt::skip]
    let counts = [
        (0, 0, 0), (0, 1, 0), (0, 2, 0), (0, ROWS - 1, 0), (0, ROWS, 0),
        (0, 1, 1), (0, 3, 2), (0, 1, QUESTIONS - 1), (0, 2, QUESTIONS),
        (1, 0, 0), (CONSTRAINTS - 1, 0, 0), (CONSTRAINTS, 0, 0), (CONSTRAINTS, 1, 0),
        (2, 3, 2), (CONSTRAINTS, ROWS, QUESTIONS - 1),
    ];
    for (constraints, rows, questions) in counts {
        for group in LISTED {
            let numbers = numbers_around(group.limit(rows, questions));
            for &kind in group.kinds {
                for announced in [false, true] {
                    let probe =
                        |body| Probe { constraints, rows, questions, announced, group, kind, body };
                    probes.extend(bodies(&numbers, group.length).into_iter().map(probe));
                }
            }
        }
    }
    probes
}

/// 0, the last number below `limit`, `limit` itself, the next, and the highest,
/// as far as there are such.
fn numbers_around(limit: usize) -> Vec<u8> {
    let around = [Some(0), limit.checked_sub(1), Some(limit), Some(limit + 1), Some(255)];
    let mut numbers: Vec<u8> = around.into_iter().flatten().flat_map(u8::try_from).collect();
    numbers.sort_unstable();
    numbers.dedup();
    numbers
}

/// Every body of `length` of these numbers.
fn bodies(numbers: &[u8], length: usize) -> Vec<Vec<u8>> {
    if length == 0 {
        return vec![Vec::new()];
    }
    let shorter = bodies(numbers, length - 1);
    let and_then = |body: &[u8], number| [body, &[number]].concat();
    shorter
        .iter()
        .flat_map(|body| numbers.iter().map(move |&number| and_then(body, number)))
        .collect()
}

/// The longest table there is, what is a byte shorter, and longer inputs. Its first row
/// can name no row, so it has one byte less than the 1568 that 32 constraints, 256 rows
/// and 64 questions of three bytes, and a supplier of two before each row, would take.
fn around_longest() -> Vec<Vec<u8>> {
    let mut rows = [NEVER_BOTH, 22, 23].repeat(CONSTRAINTS);
    rows.extend([SUPPLIER, 255, IF_PREDICATE[1], 23]);
    for number in 1..ROWS {
        let (before, supplier) = ((number - 1) as u8, 255 - number as u8);
        let kind = ON_TWO_ROWS[number % ON_TWO_ROWS.len()];
        rows.extend([SUPPLIER, supplier, kind, before, before / 2]);
    }
    let longest = [&rows[..], &[COMPARISONS[0], 255, 254].repeat(QUESTIONS)].concat();
    let and_then = |more: &[u8]| [&longest[..], more].concat();
    vec![
        [&rows[..], &[ON_TWO_ROWS[0], 0, 0]].concat(),
        [&rows[..], &[SUPPLIER, 7, ON_TWO_ROWS[0], 0, 0]].concat(),
        longest[..longest.len() - 1].to_vec(),
        and_then(&[CONSTANTS[0]]),
        and_then(&[0xFF]),
        and_then(&[NOT]),
        and_then(&[NEVER_BOTH, 0, 1]),
        and_then(&[COMPARISONS[0], 0, 0]),
        and_then(&longest),
        vec![CONSTANTS[3]; 4097],
        rows,
        longest,
    ]
}
