//! The kinds of entries: of each its byte, its word, and what it and its numbers are.

use std::fmt;

/// What goes by a number.
#[derive(Clone, Copy, Debug, PartialEq, Eq)]
pub enum Numbered {
    Predicate,
    Row,
    Question,
    /// Whoever lent some rows: every number from 0 to 255 is one.
    Supplier,
}

impl fmt::Display for Numbered {
    fn fmt(&self, f: &mut fmt::Formatter) -> fmt::Result {
        f.write_str(match self {
            Numbered::Predicate => "predicate",
            Numbered::Row => "row",
            Numbered::Question => "question",
            Numbered::Supplier => "supplier",
        })
    }
}

/// The part of a table that an entry stands in: first come all constraints, then all rows,
/// then all questions. Suppliers stand among the rows.
#[derive(Clone, Copy, Debug, PartialEq, Eq)]
pub enum Part {
    /// These have no numbers.
    Constraints,
    /// Nor have these. Each stands before a row and says whose the rows from there on are.
    Suppliers,
    Rows,
    Questions,
}

impl Part {
    /// What an entry of this part is, in a word.
    pub fn entry(self) -> &'static str {
        match self {
            Part::Constraints => "constraint",
            Part::Suppliers => "supplier",
            Part::Rows => "row",
            Part::Questions => "question",
        }
    }
}

/// A kind of entry.
#[derive(Clone, Copy, Debug, PartialEq, Eq)]
pub struct Kind {
    /// The kind byte, with which the entry begins.
    pub byte: u8,
    /// The word with which the entry's line in a text begins.
    pub word: &'static str,
    /// Where an entry of this kind stands.
    pub part: Part,
    /// What each number of the entry's body names, in order.
    pub names: &'static [Numbered],
}

impl Kind {
    const fn constraint(byte: u8, word: &'static str, names: &'static [Numbered]) -> Kind {
        Kind { byte, word, part: Part::Constraints, names }
    }

    const fn supplier(byte: u8, word: &'static str, names: &'static [Numbered]) -> Kind {
        Kind { byte, word, part: Part::Suppliers, names }
    }

    const fn row(byte: u8, word: &'static str, names: &'static [Numbered]) -> Kind {
        Kind { byte, word, part: Part::Rows, names }
    }

    const fn question(byte: u8, word: &'static str, names: &'static [Numbered]) -> Kind {
        Kind { byte, word, part: Part::Questions, names }
    }

    /// The kind that a byte announces, if it announces one.
    pub fn of_byte(byte: u8) -> Option<&'static Kind> {
        KINDS.iter().find(|kind| kind.byte == byte)
    }

    /// The kind that a word stands for, if it stands for one.
    pub fn of_word(word: &[u8]) -> Option<&'static Kind> {
        KINDS.iter().find(|kind| kind.word.as_bytes() == word)
    }
}

use Numbered::{Predicate, Question, Row, Supplier};

/// Every kind, by rising bytes. That these are the library's is tested, not proved.
pub static KINDS: &[Kind] = &[
    Kind::row(0x00, "unspecified", &[]),
    Kind::row(0x01, "deny", &[]),
    Kind::row(0x02, "grant", &[]),
    Kind::row(0x03, "conflict", &[]),
    Kind::row(0x10, "deny-if", &[Predicate]),
    Kind::row(0x11, "grant-if", &[Predicate]),
    Kind::row(0x20, "negation", &[Row]),
    Kind::row(0x21, "conflation", &[Row]),
    Kind::row(0x22, "closed-default", &[Row]),
    Kind::row(0x23, "open-default", &[Row]),
    Kind::row(0x30, "truth-meet", &[Row, Row]),
    Kind::row(0x31, "truth-join", &[Row, Row]),
    Kind::row(0x32, "knowledge-meet", &[Row, Row]),
    Kind::row(0x33, "knowledge-join", &[Row, Row]),
    Kind::row(0x34, "implication", &[Row, Row]),
    Kind::row(0x35, "guard", &[Row, Row]),
    Kind::row(0x38, "override-unspecified", &[Row, Row]),
    Kind::row(0x39, "override-deny", &[Row, Row]),
    Kind::row(0x3A, "override-grant", &[Row, Row]),
    Kind::row(0x3B, "override-conflict", &[Row, Row]),
    Kind::question(0x40, "truth-at-or-below", &[Row, Row]),
    Kind::question(0x41, "knowledge-at-or-below", &[Row, Row]),
    Kind::question(0x42, "not", &[Question]),
    Kind::question(0x43, "both", &[Question, Question]),
    Kind::constraint(0x50, "never-both", &[Predicate, Predicate]),
    Kind::constraint(0x51, "only-if", &[Predicate, Predicate]),
    Kind::supplier(0x60, "supplier", &[Supplier]),
];
