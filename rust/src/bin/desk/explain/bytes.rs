//! The words for a refused table's bytes.

use pierstride::{Kind, Refusal, KINDS};

use super::{one_of, takes, Bad, Before};
use crate::trouble::{Place, Refused};

pub fn of_bytes(table: &[u8], refusal: Refusal) -> Refused {
    let start = start_of_entry(table, refusal.place);
    let message = match kind_at(table, start) {
        Some(kind) => of_entry(table, start, kind, refusal),
        None => {
            let byte = in_hex(&table[start..=start]);
            format!("{byte} is no kind; the kinds are {}", all_kinds())
        }
    };
    let (place, hint) = (Place::Byte(refusal.place), meant_as_text(table));
    Refused { number: refusal.number, place, message, hint }
}

fn kind_at(table: &[u8], place: usize) -> Option<&'static Kind> {
    table.get(place).and_then(|&byte| Kind::of_byte(byte))
}

/// Where the entry begins that this place belongs to; every entry before it is whole.
fn start_of_entry(table: &[u8], place: usize) -> usize {
    let end = |start| start + 1 + kind_at(table, start).map_or(0, |kind| kind.names.len());
    let mut start = 0;
    while end(start) <= place {
        start = end(start);
    }
    start
}

/// The kinds and the numbers of whole entries.
fn entries(mut bytes: &[u8]) -> impl Iterator<Item = (&'static Kind, Vec<u32>)> + '_ {
    std::iter::from_fn(move || {
        let (&byte, rest) = bytes.split_first()?;
        let kind = Kind::of_byte(byte)?;
        let (body, rest) = rest.split_at(kind.names.len());
        bytes = rest;
        Some((kind, body.iter().map(|&byte| byte.into()).collect()))
    })
}

fn of_entry(table: &[u8], start: usize, kind: &'static Kind, refusal: Refusal) -> String {
    let body = table[start + 1..].iter().take(kind.names.len());
    let numbers: Vec<u32> = body.map(|&byte| byte.into()).collect();
    let own = in_hex(&table[start..=start + numbers.len()]);
    // An entry that is cut short is no line of a text.
    let is_whole = numbers.len() == kind.names.len();
    let line = numbers.iter().filter(|_| is_whole).map(|number| format!(" {number}"));
    let shown = format!("{own} ({}{})", kind.word, line.collect::<String>());
    if refusal.number == 2 {
        return format!("{shown} {}; {}", refusal.reason(), takes(kind));
    }
    let before = Before::of(entries(&table[..start]));
    let end = start + 1 + kind.names.len();
    let behind = match (end < table.len(), kind_at(table, end)) {
        (_, Some(kind)) => one_of(kind),
        (true, None) => "what is no kind",
        (false, None) => "nothing",
    };
    Bad { shown, kind, numbers, before, behind }.why(refusal.number)
}

fn in_hex(bytes: &[u8]) -> String {
    let digits: Vec<String> = bytes.iter().map(|byte| format!("{byte:02X}")).collect();
    format!("`{}`", digits.join(" "))
}

/// Every kind byte, in runs: "00 to 03, 10, 11".
fn all_kinds() -> String {
    let mut runs: Vec<Vec<u8>> = Vec::new();
    for Kind { byte, .. } in KINDS {
        match runs.last_mut() {
            Some(run) if run.last() == Some(&(byte - 1)) => run.push(*byte),
            _ => runs.push(vec![*byte]),
        }
    }
    let shown = runs.iter().map(|run| match run[..] {
        [first, _, .., last] => format!("{first:02X} to {last:02X}"),
        _ => run.iter().map(|byte| format!("{byte:02X}")).collect::<Vec<_>>().join(", "),
    });
    shown.collect::<Vec<_>>().join(", ")
}

/// What to say of bytes that look like a text, and are none since no small letter comes first.
fn meant_as_text(table: &[u8]) -> Option<&'static str> {
    let marks: [&[u8]; 3] = [b"\xEF\xBB\xBF", b"\xFF\xFE", b"\xFE\xFF"];
    let is_written = |c: char| !c.is_control() || matches!(c, '\n' | '\r' | '\t');
    if marks.iter().any(|mark| table.starts_with(mark)) {
        Some("if this is meant as a text: it has a byte order mark; save it as UTF-8 without one")
    } else if std::str::from_utf8(table).map_or(false, |text| text.chars().all(is_written)) {
        Some("if this is meant as a text: a text begins with a word, and so with a small letter")
    } else {
        None
    }
}
