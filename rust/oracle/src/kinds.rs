//! The listed kinds, and what numbers their bodies have: said a second time beside
//! `table`, so that tests of reading do not rest on it. The kinds' words stand here
//! alone.

use crate::refusal::{MAY_NOT_BE_NAMED, PREDICATE_TOO_HIGH};
use crate::{Part, PREDICATES, SUPPLIERS};

pub const CONSTANTS: [u8; 4] = [0x00, 0x01, 0x02, 0x03];
pub const IF_PREDICATE: [u8; 2] = [0x10, 0x11];
pub const ON_ONE_ROW: [u8; 4] = [0x20, 0x21, 0x22, 0x23];
pub const ON_TWO_ROWS: [u8; 10] = [0x30, 0x31, 0x32, 0x33, 0x34, 0x35, 0x38, 0x39, 0x3A, 0x3B];
pub const COMPARISONS: [u8; 2] = [0x40, 0x41];
pub const NOT: u8 = 0x42;
pub const BOTH: u8 = 0x43;
pub const NEVER_BOTH: u8 = 0x50;
pub const ONLY_IF: u8 = 0x51;
pub const ON_TWO_PREDICATES: [u8; 2] = [NEVER_BOTH, ONLY_IF];
pub const SUPPLIER: u8 = 0x60;

/// Kinds whose bodies are alike.
#[derive(Clone, Copy, Debug)]
pub struct Group {
    pub kinds: &'static [u8],
    /// Where in a table they stand.
    pub part: Part,
    /// How many numbers a body has.
    pub length: usize,
    /// What each of them is the number of; any, where there are none.
    names: Named,
}

#[derive(Clone, Copy, Debug)]
enum Named {
    Predicate,
    Row,
    Question,
    Supplier,
}

/// Every listed kind.
#[rustfmt::skip]
pub const LISTED: [Group; 9] = [
    Group { kinds: &CONSTANTS, part: Part::Rows, length: 0, names: Named::Row },
    Group { kinds: &IF_PREDICATE, part: Part::Rows, length: 1, names: Named::Predicate },
    Group { kinds: &ON_ONE_ROW, part: Part::Rows, length: 1, names: Named::Row },
    Group { kinds: &ON_TWO_ROWS, part: Part::Rows, length: 2, names: Named::Row },
    Group { kinds: &COMPARISONS, part: Part::Questions, length: 2, names: Named::Row },
    Group { kinds: &[NOT], part: Part::Questions, length: 1, names: Named::Question },
    Group { kinds: &[BOTH], part: Part::Questions, length: 2, names: Named::Question },
    Group { kinds: &ON_TWO_PREDICATES, part: Part::Constraints, length: 2, names: Named::Predicate },
    Group { kinds: &[SUPPLIER], part: Part::Suppliers, length: 1, names: Named::Supplier },
];

/// Declares the words from one list: each listed kind and the word for it.
macro_rules! words {
    ($($kind:literal: $word:literal,)*) => {
        /// Every listed kind and its word.
        pub const WORDS: [(u8, &[u8]); 27] = [$(($kind, $word)),*];

        /// The word for a kind, if that is listed.
        pub fn word_of(kind: u8) -> Option<&'static [u8]> {
            match kind {
                $($kind => Some($word),)*
                _ => None,
            }
        }

        /// The kind that a word stands for, if it stands for one.
        pub fn kind_of(word: &[u8]) -> Option<u8> {
            match word {
                $($word => Some($kind),)*
                _ => None,
            }
        }
    };
}

words! {
    0x00: b"unspecified",
    0x01: b"deny",
    0x02: b"grant",
    0x03: b"conflict",
    0x10: b"deny-if",
    0x11: b"grant-if",
    0x20: b"negation",
    0x21: b"conflation",
    0x22: b"closed-default",
    0x23: b"open-default",
    0x30: b"truth-meet",
    0x31: b"truth-join",
    0x32: b"knowledge-meet",
    0x33: b"knowledge-join",
    0x34: b"implication",
    0x35: b"guard",
    0x38: b"override-unspecified",
    0x39: b"override-deny",
    0x3A: b"override-grant",
    0x3B: b"override-conflict",
    0x40: b"truth-at-or-below",
    0x41: b"knowledge-at-or-below",
    0x42: b"not",
    0x43: b"both",
    0x50: b"never-both",
    0x51: b"only-if",
    0x60: b"supplier",
}

/// Kinds that are not listed.
pub const NOT_LISTED: [u8; 12] =
    [0x04, 0x0F, 0x12, 0x24, 0x36, 0x3C, 0x44, 0x4F, 0x52, 0x5F, 0x61, 0xFF];

impl Group {
    /// The group of a kind, if that is listed.
    pub fn of(kind: u8) -> Option<Group> {
        LISTED.into_iter().find(|group| group.kinds.contains(&kind))
    }

    /// What each number of a body must be below, behind so many rows and
    /// questions.
    pub fn limit(self, rows: usize, questions: usize) -> usize {
        match self.names {
            Named::Predicate => PREDICATES,
            Named::Row => rows,
            Named::Question => questions,
            Named::Supplier => SUPPLIERS,
        }
    }

    /// The refusal of a number that is not below its limit; none where every number is.
    pub fn refusal(self) -> Option<u32> {
        match self.names {
            Named::Predicate => Some(PREDICATE_TOO_HIGH),
            Named::Row | Named::Question => Some(MAY_NOT_BE_NAMED),
            Named::Supplier => None,
        }
    }
}
