//! A refusal in words that a clerk can act on: the entry, what was found, what is allowed.
//!
//! The library alone says what is refused, with which number and where. This only looks for the
//! words; where it finds none, the package's own reason stands.

mod bytes;
mod call;
mod text;

pub use bytes::of_bytes;
pub use call::of_call;
pub use text::of_text;

use pierstride::{Kind, Numbered, Part, Refusal, CONSTRAINTS};

use crate::table::count;
use crate::words::counted;

/// An entry that may not stand where it stands.
struct Bad {
    /// As it stands there.
    shown: String,
    kind: &'static Kind,
    numbers: Vec<u32>,
    before: Before,
    /// What stands behind it: "a question".
    behind: &'static str,
}

/// What the table has before an entry.
#[derive(Default)]
struct Before {
    rows: u32,
    questions: u32,
    /// The last supplier that is named.
    supplier: Option<u32>,
}

impl Before {
    /// Behind these entries.
    fn of(entries: impl Iterator<Item = (&'static Kind, Vec<u32>)>) -> Before {
        let mut before = Before::default();
        for (kind, numbers) in entries {
            match kind.part {
                Part::Constraints => {}
                Part::Suppliers => before.supplier = numbers.first().copied(),
                Part::Rows => before.rows += 1,
                Part::Questions => before.questions += 1,
            }
        }
        before
    }

    /// How many there are of what may be named.
    fn count(&self, of: Numbered) -> u32 {
        count(of, self.rows, self.questions)
    }
}

impl Bad {
    /// Why: refusals 3 to 7, 14 and 15.
    fn why(&self, number: u32) -> String {
        let shown = &self.shown;
        let reason = Refusal { number, place: 0 }.reason();
        match number {
            3 | 4 => self.misnamed().unwrap_or_else(|| format!("{shown}: {reason}")),
            5 => format!("{shown} {}", self.out_of_order()),
            15 => format!("{shown} {}", self.idle()),
            _ => format!("{shown} {reason}; a table has at most {}", self.most()),
        }
    }

    /// What it stands behind, and before what it should.
    fn out_of_order(&self) -> String {
        let is = self.kind.part.entry();
        let after = if self.before.questions > 0 { "question" } else { "row" };
        let before = match self.kind.part {
            Part::Constraints => "rows and questions",
            Part::Suppliers | Part::Rows | Part::Questions => "questions",
        };
        format!("is a {is} after a {after}; all {is}s stand before all {before}")
    }

    /// Why a supplier says nothing where it stands, and where it would.
    fn idle(&self) -> String {
        let changes = "a supplier stands only where it changes";
        let Bad { numbers, before, behind, .. } = self;
        match before.supplier {
            Some(supplier) if numbers[..] == [supplier] => {
                format!("names the supplier in force; {changes}")
            }
            None if numbers[..] == [0] => {
                format!("names the supplier in force, which is 0 until one is named; {changes}")
            }
            _ => format!("has {behind} behind it; a supplier stands right before a row"),
        }
    }

    /// How many of its part a table may have, where that many stand before it.
    fn most(&self) -> String {
        let most = match self.kind.part {
            Part::Constraints => CONSTRAINTS,
            Part::Suppliers | Part::Rows => self.before.rows,
            Part::Questions => self.before.questions,
        };
        counted(most, self.kind.part.entry())
    }

    /// The first number that may not be named there, and which may.
    fn misnamed(&self) -> Option<String> {
        let mut named = self.kind.names.iter().zip(&self.numbers);
        let (names, number) =
            named.find(|(names, number)| **number >= self.before.count(**names))?;
        let allowed = match self.before.count(*names) {
            0 => format!("no {names} stands before it"),
            most => {
                format!("a {} may name {}", self.kind.part.entry(), from_zero(*names, most))
            }
        };
        Some(format!("{} names {names} {number}; {allowed}", self.shown))
    }
}

/// An entry of a kind, as what stands behind another.
fn one_of(kind: &Kind) -> &'static str {
    match kind.part {
        Part::Constraints => "a constraint",
        Part::Suppliers => "another supplier",
        Part::Rows => "a row",
        Part::Questions => "a question",
    }
}

/// "row 0", "rows 0 to 5", where there are so many.
fn from_zero(things: Numbered, count: u32) -> String {
    match count {
        1 => format!("{things} 0"),
        _ => format!("{things}s 0 to {}", count - 1),
    }
}

/// "`truth-meet` takes 2 numbers: row, row"
fn takes(kind: &Kind) -> String {
    let names: Vec<String> = kind.names.iter().map(Numbered::to_string).collect();
    match names.len() {
        0 => format!("`{}` takes no number", kind.word),
        count => {
            format!("`{}` takes {}: {}", kind.word, counted(count, "number"), names.join(", "))
        }
    }
}
