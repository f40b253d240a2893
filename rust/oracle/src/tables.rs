//! Random tables of several shapes, damaged ones, and a mixture of all sorts.

use std::ops::RangeInclusive;

use crate::crafted::{rows_of_every_set, ROWS_OF_EVERY_SET};
use crate::kinds::*;
use crate::limits::{self, Probe};
use crate::random::Random;
use crate::supplied::{in_force, with_suppliers};
use crate::texts::entries;
use crate::{possible_by, read, verdict, Choice, Verdict, CONSTRAINTS, PREDICATES, ROWS};

/// What a random table is to look like.
pub struct Shape {
    /// How many constraints there are: one of these. Without any of them there is none,
    /// and nothing is drawn.
    pub constraints: &'static [usize],
    pub rows: RangeInclusive<usize>,
    pub questions: RangeInclusive<usize>,
    /// How many predicates there are for rows to draw from; constraints draw from a few
    /// more.
    pub predicates: RangeInclusive<usize>,
    /// How many of a hundred rows name no row.
    pub leaves: usize,
    /// How far before itself a row looks for its operands.
    pub reach: usize,
    /// How many of a hundred operators on two rows name one row twice, beside those
    /// that do by chance.
    pub repeats: usize,
    /// In how many of a hundred tables the rows of `rows_of_every_set` come first, by
    /// any of the predicates; if it is in some, `rows` must leave room for them.
    pub every_set: usize,
    /// In how many of a hundred tables suppliers are named.
    pub suppliers: usize,
}

/// The empty table, and what the shapes below take from here.
pub const EMPTY: Shape = Shape {
    constraints: &[],
    rows: 0..=0,
    questions: 0..=0,
    predicates: 0..=0,
    leaves: 50,
    reach: ROWS,
    repeats: 0,
    every_set: 0,
    suppliers: 0,
};

/// So many predicates beyond those of rows constraints draw from, if there are so many.
const BEYOND: usize = 2;

/// Mostly with suppliers.
const SUPPLIED: Shape = Shape { suppliers: 75, ..EMPTY };

/// Often without constraints, else mostly with few: with many of them on few predicates
/// hardly any request is left.
const LIMITED: Shape = Shape { constraints: &[0, 0, 0, 1, 2, 3, 5, 8], ..SUPPLIED };

/// From no constraint to as many as there may be.
const STRICT: Shape =
    Shape { constraints: &[0, 0, 1, 3, 10, 20, CONSTRAINTS - 1, CONSTRAINTS], ..SUPPLIED };

/// Tables small enough to try every request.
pub const SMALL: Shape =
    Shape { rows: 1..=12, questions: 1..=6, predicates: 0..=6, leaves: 40, repeats: 40, ..LIMITED };

/// The same, with every set.
#[rustfmt::skip]
pub const SMALL_WITH_SETS: Shape =
    Shape { rows: 28..=36, questions: 1..=6, predicates: 1..=4, leaves: 15, repeats: 70, every_set: 100, ..LIMITED };

/// Tables to walk in full, though they are too large to try every request.
pub const WALKED: Shape =
    Shape { rows: 10..=24, questions: 1..=3, predicates: 9..=12, repeats: 20, ..LIMITED };

/// The same, with every set.
#[rustfmt::skip]
pub const WALKED_WITH_SETS: Shape =
    Shape { rows: 30..=50, questions: 1..=3, predicates: 9..=12, leaves: 15, repeats: 50, every_set: 100, ..LIMITED };

/// Tables for single calls, with every set.
#[rustfmt::skip]
const WITH_SETS: Shape =
    Shape { rows: 40..=80, questions: 4..=12, predicates: 1..=10, leaves: 15, repeats: 70, every_set: 100, ..LIMITED };

/// Shapes of tables for single calls.
#[rustfmt::skip]
pub const SHAPES: [Shape; 9] = [
    // tiny
    Shape { rows: 0..=4, questions: 0..=3, predicates: 0..=3, repeats: 30, ..LIMITED },
    SMALL,
    // deep
    Shape { rows: 20..=60, questions: 0..=4, predicates: 1..=10, leaves: 10, reach: 2, repeats: 20, ..STRICT },
    // wide
    Shape { rows: 20..=60, questions: 0..=4, predicates: 4..=24, leaves: 80, repeats: 30, ..STRICT },
    // many questions
    Shape { rows: 1..=6, questions: 40..=64, predicates: 1..=6, repeats: 30, ..LIMITED },
    // few predicates
    Shape { rows: 10..=40, questions: 1..=8, predicates: 1..=2, leaves: 25, reach: 8, repeats: 30, ..LIMITED },
    // every predicate
    Shape { rows: 30..=90, questions: 1..=8, predicates: 24..=24, leaves: 45, repeats: 30, every_set: 50, ..STRICT },
    // nearly full, and full
    Shape { rows: 250..=256, questions: 60..=64, predicates: 0..=24, leaves: 20, repeats: 20, every_set: 50, ..STRICT },
    WITH_SETS,
];

/// A random table of a shape; it is always accepted.
pub fn table(random: &mut Random, shape: &Shape) -> Vec<u8> {
    let predicates = random.within(&shape.predicates);
    let rows = random.within(&shape.rows);
    let questions = if rows == 0 { 0 } else { random.within(&shape.questions) };
    let (mut bytes, first) = if random.percent(shape.every_set) {
        (rows_of_every_set(random.below(predicates) as u8).0, ROWS_OF_EVERY_SET)
    } else {
        (Vec::new(), 0)
    };
    for number in first..rows {
        if number == 0 || random.percent(shape.leaves) {
            push_leaf(random, predicates, &mut bytes);
        } else {
            push_operator(random, number, shape, &mut bytes);
        }
    }
    for number in 0..questions {
        push_question(random, number, rows, &mut bytes);
    }
    if !shape.constraints.is_empty() {
        let count = random.pick(shape.constraints);
        bytes = [constraints(random, count, predicates, &bytes), bytes].concat();
    }
    if random.percent(shape.suppliers) {
        bytes = with_suppliers(&bytes, &suppliers(random, rows));
    }
    bytes
}

/// A supplier for each of so many rows: of few who take turns or of any, in long runs, in
/// short ones, or drawn for each row.
pub fn suppliers(random: &mut Random, rows: usize) -> Vec<u8> {
    let every: Vec<u8> = (0..=u8::MAX).collect();
    let of = random.pick(&[&[0, 1][..], &[1, 2, 3], &[0, 9, 254, 255], &every]);
    let change = random.pick(&[10, 50, 100]);
    let mut supplier = random.pick(of);
    let mut draw = || {
        if random.percent(change) {
            supplier = random.pick(of);
        }
        supplier
    };
    (0..rows).map(|_| draw()).collect()
}

/// So many constraints to stand before the rest of a table. Every other one, as far as
/// there is such, forbids a request that is the first to break a question.
fn constraints(random: &mut Random, count: usize, predicates: usize, rest: &[u8]) -> Vec<u8> {
    let from = PREDICATES.min(predicates + BEYOND) as u8;
    let forbidden = if count == 0 { 0 } else { breaking_request(random, rest) };
    let (yes, no): (Vec<u8>, Vec<u8>) = (0..from).partition(|p| forbidden >> p & 1 == 1);
    let every: Vec<u8> = (0..from).collect();
    let constraint = |_| match random.below(4) {
        0 if !yes.is_empty() => [NEVER_BOTH, random.pick(&yes), random.pick(&yes)],
        1 if !yes.is_empty() && !no.is_empty() => [ONLY_IF, random.pick(&yes), random.pick(&no)],
        _ => {
            let kind = random.pick(&[NEVER_BOTH, ONLY_IF, ONLY_IF]);
            [kind, random.pick(&every), random.pick(&every)]
        }
    };
    (0..count).flat_map(constraint).collect()
}

/// How many questions are asked for a request that breaks one, and with which budget.
const ASKED: usize = 8;
const BUDGET: u32 = 40;

/// The first request that breaks some question, with a yes in it; 0 if none is found.
fn breaking_request(random: &mut Random, bytes: &[u8]) -> u32 {
    let questions = read(bytes).map_or(0, |table| table.questions.len());
    let ask = |_| match verdict(bytes, random.below(questions) as u32, BUDGET) {
        Ok(Verdict::Fails { request, .. }) if request != 0 => Some(request),
        _ => None,
    };
    (0..ASKED).find_map(ask).unwrap_or(0)
}

fn push_leaf(random: &mut Random, predicates: usize, bytes: &mut Vec<u8>) {
    if predicates == 0 || random.one_in(4) {
        bytes.push(random.pick(&CONSTANTS));
    } else {
        bytes.extend([random.pick(&IF_PREDICATE), random.below(predicates) as u8]);
    }
}

fn push_operator(random: &mut Random, number: usize, shape: &Shape, bytes: &mut Vec<u8>) {
    let reach = shape.reach.min(number);
    let operand = |random: &mut Random| (number - 1 - random.below(reach)) as u8;
    let (x, y) = (operand(random), operand(random));
    if random.one_in(4) {
        bytes.extend([random.pick(&ON_ONE_ROW), x]);
        return;
    }
    let kind = random.pick(&ON_TWO_ROWS);
    let body = if random.percent(shape.repeats) {
        let tells = |x| differs(&[&bytes[..], &[kind, x, x]].concat(), number);
        [first_that(tells, || operand(random)); 2]
    } else {
        [x, y]
    };
    bytes.push(kind);
    bytes.extend(body);
}

/// Of some that are drawn the first that is asked for, or else the last.
fn first_that<T: Copy>(is_asked_for: impl Fn(T) -> bool, mut draw: impl FnMut() -> T) -> T {
    let mut drawn = draw();
    for _ in 1..12 {
        if is_asked_for(drawn) {
            break;
        }
        drawn = draw();
    }
    drawn
}

/// Has this row, with nothing known, another set by L3 than by document 01?
fn differs(bytes: &[u8], row: usize) -> bool {
    let set = |choice| possible_by(choice, bytes, row as u32, 0, 0);
    set(Choice::OneForEqual) != set(Choice::Independent)
}

fn push_question(random: &mut Random, number: usize, rows: usize, bytes: &mut Vec<u8>) {
    if number == 0 || random.one_in(2) {
        let stays_open = |question: [u8; 3]| is_open(&[&bytes[..], &question].concat(), number);
        let question = if random.one_in(3) {
            first_that(stays_open, || comparison(random, rows))
        } else {
            comparison(random, rows)
        };
        bytes.extend(question);
    } else if random.one_in(2) {
        bytes.extend([NOT, random.below(number) as u8]);
    } else {
        let [a, b] = pair(random, number);
        bytes.extend([BOTH, a, b]);
    }
}

fn comparison(random: &mut Random, rows: usize) -> [u8; 3] {
    let [a, b] = pair(random, rows);
    [random.pick(&COMPARISONS), a, b]
}

/// Two numbers below `bound`, equal ones in a fifth of all cases and by chance.
fn pair(random: &mut Random, bound: usize) -> [u8; 2] {
    let (a, other) = (random.below(bound) as u8, random.below(bound) as u8);
    [a, if random.one_in(5) { a } else { other }]
}

/// Is this question neither settled at once nor broken by the request without a yes, which
/// no constraint forbids?
fn is_open(bytes: &[u8], question: usize) -> bool {
    !matches!(
        verdict(bytes, question as u32, 8),
        Ok(Verdict::Holds { visits: 1 }) | Ok(Verdict::Fails { request: 0, .. })
    )
}

/// What is left of a table after some mishap; it may still be accepted.
pub fn damaged(random: &mut Random, mut bytes: Vec<u8>) -> Vec<u8> {
    let place = random.below(bytes.len() + 1);
    match random.below(10) {
        0 => bytes.truncate(place),
        1 => bytes.insert(place, any_byte(random)),
        2 => bytes.extend_from_within(..),
        3 => bytes = garbage(random),
        4 => {
            bytes.truncate(place);
            bytes.extend(garbage(random));
        }
        5 => {
            let other = table(random, &SMALL);
            let from = random.below(other.len());
            bytes.truncate(place);
            bytes.extend_from_slice(&other[from..]);
        }
        6 => {
            let count = random.pick(&[1, CONSTRAINTS, CONSTRAINTS + 1]);
            bytes = [constraints(random, count, PREDICATES, &bytes), bytes].concat();
        }
        7 | 8 => bytes = with_one_supplier_more(random, &bytes),
        _ => {
            for _ in 0..random.within(&(1..=3)) {
                let place = random.below(bytes.len());
                if let Some(byte) = bytes.get_mut(place) {
                    *byte = any_byte(random);
                }
            }
        }
    }
    bytes
}

/// The bytes with one supplier more before some entry or behind the last: 0, the one in
/// force, or any.
fn with_one_supplier_more(random: &mut Random, bytes: &[u8]) -> Vec<u8> {
    let before = random.below(entries(bytes).count() + 1);
    let (before, behind) =
        bytes.split_at(entries(bytes).take(before).map(<[u8]>::len).sum::<usize>());
    let any = random.number() as u8;
    let supplier = random.pick(&[0, in_force(before), any]);
    [before, &[SUPPLIER, supplier], behind].concat()
}

/// A byte that is a kind, a small number, or anything.
fn any_byte(random: &mut Random) -> u8 {
    match random.below(3) {
        0 => {
            let group = random.pick(&LISTED);
            random.pick(group.kinds)
        }
        1 => random.below(PREDICATES + 2) as u8,
        _ => random.number() as u8,
    }
}

/// Bytes that are no table but by chance.
pub fn garbage(random: &mut Random) -> Vec<u8> {
    let bound = random.pick(&[8, 64, 1200]);
    (0..random.below(bound)).map(|_| any_byte(random)).collect()
}

/// Tables of every sort to draw from.
pub struct Mixture {
    limits: Vec<Vec<u8>>,
    probes: Vec<Probe>,
}

impl Default for Mixture {
    fn default() -> Mixture {
        Mixture { limits: limits::tables(), probes: limits::probes() }
    }
}

impl Mixture {
    /// A table of some shape, else one at a limit or with a number around one;
    /// of each sort a third is damaged.
    pub fn table(&self, random: &mut Random) -> Vec<u8> {
        let table = match random.below(24) {
            0 => self.limits[random.below(self.limits.len())].clone(),
            1..=5 => self.probes[random.below(self.probes.len())].table(),
            6..=9 => table(random, &WITH_SETS),
            _ => {
                let shape = &SHAPES[random.below(SHAPES.len())];
                table(random, shape)
            }
        };
        if random.one_in(3) {
            damaged(random, table)
        } else {
            table
        }
    }
}
