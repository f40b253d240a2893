//! Random calls, chosen to fall on both sides of every limit.

use crate::call::Call;
use crate::random::Random;
use crate::{dimacs, from_text, read, strike, suppliers, to_text, verdict, Verdict};
use crate::{FILE_BYTES, PREDICATES, QUESTIONS, ROWS, SUPPLIERS, TABLE_BYTES, TEXT_BYTES};

/// A random call that suits the table, whether that is accepted or not.
pub fn random_call(random: &mut Random, table: &[u8]) -> Call {
    let (rows, questions) =
        read(table).map_or((0, 0), |table| (table.rows.len(), table.questions.len()));
    match random.below(14) {
        0 => Call::Read,
        1 | 2 => Call::Decide { row: around(random, rows), yes: yes_mask(random) },
        3 | 4 => {
            let (known, yes) = masks(random);
            let row = around(random, rows);
            Call::Possible { row, known, yes }
        }
        5 => {
            let question = around(random, questions);
            let budget = budget(random, table, question, rows);
            Call::Verdict { question, budget }
        }
        6 => {
            let row = around(random, rows);
            let need = strike(table, row, &mut [0; TABLE_BYTES]).unwrap_or(0);
            Call::Strike { row, room: room(random, need, table.len()) }
        }
        7 => {
            let need = to_text(table, &mut [0; TEXT_BYTES]).unwrap_or(0);
            Call::ToText { room: room(random, need, TEXT_BYTES) }
        }
        8 | 9 => {
            let row = around(random, rows);
            let need = suppliers(table, row, &mut [0; SUPPLIERS]).unwrap_or(0);
            Call::Suppliers { row, room: room(random, need, SUPPLIERS) }
        }
        10 => {
            let question = around(random, questions);
            let need = dimacs(table, question, &mut [0; FILE_BYTES]).unwrap_or(0);
            Call::Dimacs { question, room: room(random, need, FILE_BYTES) }
        }
        11 | 12 => {
            let question = around(random, questions);
            Call::Breaks { question, yes: judged_mask(random, table, question) }
        }
        _ => Call::Entry { row: around(random, rows) },
    }
}

/// A call that reads a text, with a random room.
pub fn reading_a_text(random: &mut Random, text: &[u8]) -> Call {
    let need = from_text(text, &mut [0; TABLE_BYTES]).unwrap_or(0);
    Call::FromText { room: room(random, need, TABLE_BYTES) }
}

/// Mostly a number below `count`, else one at or past some limit.
fn around(random: &mut Random, count: usize) -> u32 {
    let near = [count, count + 1, QUESTIONS, ROWS - 1, ROWS, ROWS + 1];
    match random.below(12) {
        0 => random.pick(&near) as u32,
        1 => random.pick(&[1 << 16, 1 << 31, u32::MAX]),
        _ => random.below(count) as u32,
    }
}

const EVERY_PREDICATE: u32 = (1 << PREDICATES) - 1;

fn yes_mask(random: &mut Random) -> u32 {
    match random.below(8) {
        0 => 0,
        1 => EVERY_PREDICATE,
        2 => random.number(),
        3 => 1 << random.below(32),
        _ => random.mask(),
    }
}

/// Mostly a request of the table's own predicates, and often the first that breaks the
/// question; else one with a bit at their end or beyond it.
fn judged_mask(random: &mut Random, table: &[u8], question: u32) -> u32 {
    let predicates = read(table).map_or(0, |table| table.predicates());
    let own = random.mask() & ((1 << predicates) - 1);
    match (random.below(8), verdict(table, question, QUICK_JUDGEMENT)) {
        (0, _) => own | 1 << predicates,
        (1, _) => own | 1 << random.within(&(predicates as usize..=31)),
        (2, _) => yes_mask(random),
        (3 | 4, Ok(Verdict::Fails { request, .. })) => request,
        _ => own,
    }
}

/// How many visits may be made to find a request that breaks a question.
const QUICK_JUDGEMENT: u32 = 40;

/// A known and a yes mask: mostly proper, else with a bit that is refused.
fn masks(random: &mut Random) -> (u32, u32) {
    let (half, quarter) = (random.mask(), random.mask() & random.mask());
    let known = random.pick(&[0, 0, quarter, quarter, half, EVERY_PREDICATE]);
    let yes = random.number() & known;
    let any_bit = 1 << random.below(32);
    match random.below(12) {
        0 => (known | any_bit, yes),
        1 => (known | any_bit, yes | any_bit),
        2 => (known, yes | any_bit),
        _ => (known, yes),
    }
}

/// How much of a walk a random call may take, in rows formed.
const QUICK_WALK: usize = 4000;

/// A budget around the exact count of visits, or the largest, if the walk is
/// quick; otherwise some budget that it exceeds.
fn budget(random: &mut Random, table: &[u8], question: u32, rows: usize) -> u32 {
    let quick = (2 + QUICK_WALK / (rows + 1)) as u32;
    match verdict(table, question, quick) {
        Ok(Verdict::Holds { visits }) | Ok(Verdict::Fails { visits, .. }) => {
            random.pick(&[0, 1, visits - 1, visits, visits + 1, u32::MAX])
        }
        Ok(Verdict::Unfinished { .. }) => random.pick(&[0, 1, quick - 1, quick]),
        Err(_) => random.number(),
    }
}

/// Mostly the length that is needed or one beside it, else one that is always
/// enough, or any.
fn room(random: &mut Random, need: usize, enough: usize) -> usize {
    let any = random.below(enough + 8);
    random.pick(&[0, any, need.saturating_sub(1), need, need + 1, enough])
}
