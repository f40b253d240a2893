//! The words for what was asked of an accepted table and refused: 8 to 11.

use pierstride::{Numbered, Refusal, PREDICATES};

use super::from_zero;
use crate::asked::Asked;
use crate::table::{Entry, Table};
use crate::trouble::{Place, Refused};
use crate::words::listed;

/// So many entries that name a row are shown.
const SHOWN: usize = 4;

pub fn of_call(table: &Table, asked: &Asked, refusal: Refusal) -> Refused {
    let message = match refusal.number {
        8 => missing(table, asked),
        9 => still_named(table, asked),
        10 => no_predicate(table, asked),
        _ => None,
    };
    let message = message.unwrap_or_else(|| refusal.reason().to_owned());
    Refused { number: refusal.number, place: Place::Nothing, message, hint: None }
}

fn missing(table: &Table, asked: &Asked) -> Option<String> {
    let (what, number) = (asked.verb.operand?.of, asked.operand.as_ref()?);
    Some(format!("there is no {what} {number}; {}", has(what, table.count(what))))
}

/// "the table has rows 0 to 5"
fn has(what: Numbered, count: u32) -> String {
    match count {
        0 => format!("the table has no {what}s"),
        _ => format!("the table has {}", from_zero(what, count)),
    }
}

fn still_named(table: &Table, asked: &Asked) -> Option<String> {
    let row = asked.operand.as_ref()?;
    let entries = table.entries();
    let names_it = |entry: &&Entry| entry.named(Numbered::Row).any(|named| named == row.value);
    let naming: Vec<&Entry> = entries.iter().filter(names_it).collect();
    let shown = naming.iter().take(SHOWN);
    let mut shown: Vec<String> =
        shown.map(|entry| format!("{} (`{}`)", entry.label(), entry.line)).collect();
    if naming.len() > SHOWN {
        shown.push(format!("{} more", naming.len() - SHOWN));
    }
    let first = if naming.len() == 1 { "it must name another" } else { "they must name others" };
    Some(format!("row {row} is named by {}; {first} first", listed(shown, "and")))
}

/// A row is asked of all predicates that there are, a question of the table's own.
fn no_predicate(table: &Table, asked: &Asked) -> Option<String> {
    let (most, there) = match asked.verb.operand?.of {
        Numbered::Question => {
            let own = table.counts.predicates;
            (own, has(Numbered::Predicate, own))
        }
        _ => (PREDICATES, format!("the predicates are 0 to {}", PREDICATES - 1)),
    };
    let mut given = asked.options.yes.iter().chain(&asked.options.no).flatten();
    let number = given.find(|number| number.value >= most)?;
    Some(format!("there is no predicate {number}; {there}"))
}
