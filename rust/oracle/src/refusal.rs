//! The fifteen refusals.

/// A refusal: its number and its place. For 3 and 4 that is the place of a number,
/// for the others of reading the place of a kind byte. Where a text is read, every
/// place but that of 11 is the number of a line, from 1.
#[derive(Clone, Copy, Debug, PartialEq, Eq)]
pub struct Refusal {
    pub number: u32,
    pub place: usize,
}

impl Refusal {
    /// A refusal of what is asked, not of the table: its place is 0.
    pub fn of_request(number: u32) -> Refusal {
        Refusal { number, place: 0 }
    }
}

pub const KIND_NOT_LISTED: u32 = 1;
pub const BODY_CUT_SHORT: u32 = 2;
pub const PREDICATE_TOO_HIGH: u32 = 3;
pub const MAY_NOT_BE_NAMED: u32 = 4;
/// A row or a supplier after a question, or a constraint after a row or question.
pub const OUT_OF_ORDER: u32 = 5;
pub const TOO_MANY_ROWS: u32 = 6;
pub const TOO_MANY_QUESTIONS: u32 = 7;
pub const NOT_THERE: u32 = 8;
pub const ROW_IS_NAMED: u32 = 9;
pub const BAD_MASK: u32 = 10;
pub const OUTPUT_TOO_SHORT: u32 = 11;
/// An unknown word, or a number above 255.
pub const UNKNOWN_WORD: u32 = 12;
/// Any other spelling that is not the writer's.
pub const MISSPELT_LINE: u32 = 13;
pub const TOO_MANY_CONSTRAINTS: u32 = 14;
/// A supplier that is in force already, or that is not followed by a row.
pub const IDLE_SUPPLIER: u32 = 15;

/// The refusals that reading a table gives.
pub const OF_READING: [u32; 9] = [
    KIND_NOT_LISTED,
    BODY_CUT_SHORT,
    PREDICATE_TOO_HIGH,
    MAY_NOT_BE_NAMED,
    OUT_OF_ORDER,
    TOO_MANY_ROWS,
    TOO_MANY_QUESTIONS,
    TOO_MANY_CONSTRAINTS,
    IDLE_SUPPLIER,
];

/// The refusals that reading a text gives: those of its spelling, then those of
/// reading a table that well-spelled bytes can bring.
pub const OF_READING_A_TEXT: [u32; 9] = [
    UNKNOWN_WORD,
    MISSPELT_LINE,
    PREDICATE_TOO_HIGH,
    MAY_NOT_BE_NAMED,
    OUT_OF_ORDER,
    TOO_MANY_ROWS,
    TOO_MANY_QUESTIONS,
    TOO_MANY_CONSTRAINTS,
    IDLE_SUPPLIER,
];
