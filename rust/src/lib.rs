//! Rule tables over four decisions: grant, deny, conflict and unspecified.
//!
//! A table is a byte string: a run of constraints, which say what requests can occur,
//! then a run of rows, then a run of questions about them. Among the rows suppliers may
//! stand, which say whose the rows behind them are. Each function takes the whole table
//! and reads it first; nothing is kept between calls, and any thread may call. Every byte
//! string and every number brings an answer or a [`Refusal`], so nothing need be checked
//! beforehand.
//! A table also has a text, one line an entry: [`to_text`] writes it, and
//! [`from_text`] reads any text, with an answer or a [`TextRefusal`].
//! A question whose answer takes long can be handed to a SAT solver: [`dimacs`] writes the
//! file that it reads, and [`breaks`] judges the request that it brings back.
//!
//! The functions call the static library `libpierstride.a`, which the build
//! looks for in the directory that the environment variable `PIERSTRIDE_LIB`
//! names, or else in the repository's `target/staticlib`. They panic only if the
//! library broke its promise: a decision, a reply or a judgement that has no name here,
//! or an entry outside the table.
//!
//! ```
//! use pierstride::{decide, possible, verdict, Decision, Verdict};
//!
//! // Row 0 grants if predicate 0; row 1 always denies; row 2: row 0 implies row 1.
//! // Question 0: is row 2 at or below row 1 in the truth order?
//! let table = [0x11, 0x00, 0x01, 0x34, 0x00, 0x01, 0x40, 0x02, 0x01];
//!
//! assert_eq!(decide(&table, 2, 0b1), Ok(Decision::Deny));
//!
//! let set = possible(&table, 2, 0, 0)?;
//! assert!(set.contains(Decision::Grant) && set.contains(Decision::Deny));
//! assert!(!set.contains(Decision::Conflict));
//!
//! let fails = Verdict::Fails { request: 0, visits: 2 };
//! assert_eq!(verdict(&table, 0, u32::MAX), Ok(fails));
//! # Ok::<(), pierstride::Refusal>(())
//! ```

mod kinds;
pub mod raw;

pub use kinds::{Kind, Numbered, Part, KINDS};

use std::fmt;

/// Declares [`Refusal`] and [`TextRefusal`] and their messages from one table: each
/// refusal's number; what its place among a table's bytes points at, if at anything,
/// and what is said of that; behind a bar, what is said of the line of a text.
macro_rules! refusals {
    ($(
        $number:literal:
        $($(the $pointed_at:ident at place)? $reason:literal)?
        $(| $of_a_line:literal)?;
    )*) => {
        /// Why a call was not answered.
        ///
        /// Refusals 1 to 7, 14 and 15 are those of reading and speak of the first bad
        /// entry of the table. Of these, 3 and 4 give the place of a number: the first in
        /// the entry's body that is not below its limit. The others give the place of
        /// the entry, which is that of its kind byte. Refusals 8 to 11 speak of what
        /// was asked, and their place is 0.
        ///
        /// | Number | Given when |
        /// |---|---|
        $($(
            #[doc = concat!(
                "| ", $number, " | ", $("the ", stringify!($pointed_at), " at the place ",)?
                $reason, " |"
            )]
        )?)*
        ///
        /// Displayed, it is a line for a reader who has the table at hand:
        ///
        /// ```
        /// let refusal = pierstride::read(&[0x00, 0x30, 0x00, 0x05]).unwrap_err();
        /// assert_eq!((refusal.number, refusal.place), (4, 3));
        /// let message = "refused 4: the number at place 3 may not be named there";
        /// assert_eq!(refusal.to_string(), message);
        /// ```
        #[derive(Clone, Copy, Debug, PartialEq, Eq)]
        pub struct Refusal {
            /// The number of the refusal: 1 to 11, 14 or 15.
            pub number: u32,
            /// Its place among the table's bytes, from 0; 0 if it points at nothing.
            pub place: usize,
        }

        impl Refusal {
            /// Why, in words: with 1 to 7, 14 and 15, what is said of what stands at the
            /// place.
            pub fn reason(&self) -> &'static str {
                match self.number {
                    $($($number => $reason,)?)*
                    _ => "unknown reason",
                }
            }
        }

        impl fmt::Display for Refusal {
            fn fmt(&self, f: &mut fmt::Formatter) -> fmt::Result {
                let Refusal { number, place } = *self;
                write!(f, "refused {number}: ")?;
                match number {
                    $($($($number => {
                        write!(f, "the {} at place {place} ", stringify!($pointed_at))?;
                    })?)?)*
                    _ => {}
                }
                f.write_str(self.reason())
            }
        }

        /// Why a text was not read.
        ///
        /// Refusals 12 and 13 speak of the first line that is not well spelled, and 13
        /// is given only if there is no cause for 12 on that line. If every line is
        /// well spelled, 3 to 7, 14 and 15 speak of the first line that is a bad entry
        /// of the table. Refusal 11 comes last: the output is shorter than the bytes to
        /// write. It speaks of no line.
        ///
        /// | Number | Given when, at the line |
        /// |---|---|
        $($(#[doc = concat!("| ", $number, " | ", $of_a_line, " |")])?)*
        ///
        /// Displayed, it is a line for a reader who has the text at hand:
        ///
        /// ```
        /// let text = b"grant-if 0\nnegation 1\n";
        /// let refusal = pierstride::from_text(text, &mut [0; 4]).unwrap_err();
        /// assert_eq!((refusal.number, refusal.place), (4, 2));
        /// let reason = "it names a row or question that does not stand before it";
        /// assert_eq!(refusal.to_string(), format!("refused 4 at line 2: {reason}"));
        /// ```
        #[derive(Clone, Copy, Debug, PartialEq, Eq)]
        pub struct TextRefusal {
            /// The number of the refusal: 3 to 7, or 11 to 15.
            pub number: u32,
            /// The number of the line that it speaks of, from 1; 0 if of none.
            pub place: usize,
        }

        impl TextRefusal {
            /// Why, in words: but with 11, what is said of the line.
            pub fn reason(&self) -> &'static str {
                match self.number {
                    $($($number => $of_a_line,)?)*
                    number => Refusal { number, place: 0 }.reason(),
                }
            }
        }

        impl fmt::Display for TextRefusal {
            fn fmt(&self, f: &mut fmt::Formatter) -> fmt::Result {
                let TextRefusal { number, place } = *self;
                match place {
                    0 => write!(f, "refused {number}: {}", self.reason()),
                    _ => write!(f, "refused {number} at line {place}: {}", self.reason()),
                }
            }
        }
    };
}

refusals! {
    1: the entry at place "has a kind that is not listed";
    2: the entry at place "is cut short";
    3: the number at place "is a predicate above 23"
        | "the predicate is above 23";
    4: the number at place "may not be named there"
        | "it names a row or question that does not stand before it";
    5: the entry at place "is a row or supplier after a question, or a constraint after a row or \
                           question"
        | "it is a row or supplier after a question, or a constraint after a row or question";
    6: the entry at place "is a 257th row"
        | "it is a 257th row";
    7: the entry at place "is a 65th question"
        | "it is a 65th question";
    8: "the row or question asked for is not there";
    9: "the row to strike is named by a row or question";
    10: "a mask has a bit above 23, or a yes that is not known";
    11: "the output is shorter than the bytes to write";
    12: | "the word is missing or unknown, or a number is above 255";
    13: | "it is misspelt (it needs a word and as many numbers as that takes, a single \
           space before each, no leading zero, and a line feed at the end)";
    14: the entry at place "is a 33rd constraint"
        | "it is a 33rd constraint";
    15: the entry at place "names the supplier in force, or no row follows it"
        | "it names the supplier in force, or no row follows it";
}

impl std::error::Error for Refusal {}

impl std::error::Error for TextRefusal {}

/// So many predicates there are: 0 to 23.
pub const PREDICATES: u32 = 24;

/// So many constraints a table may have, of both kinds together.
pub const CONSTRAINTS: u32 = 32;

/// So many suppliers there are: 0 to 255. So many bytes are always enough for a list of
/// them.
pub const SUPPLIERS: usize = 256;

/// So many bytes are always enough for a table.
pub const TABLE_BYTES: usize = 1568;

/// So many bytes are always enough for the text of a table.
pub const TEXT_BYTES: usize = 12_979;

/// So many bytes are always enough for the file of a question.
pub const FILE_BYTES: usize = 35_017;

/// What a table consists of.
#[derive(Clone, Copy, Debug, PartialEq, Eq)]
pub struct Counts {
    /// The number of rows.
    pub rows: u32,
    /// The number of questions.
    pub questions: u32,
    /// One more than the highest predicate that any constraint or row uses, or 0.
    pub predicates: u32,
}

/// What a row decides at a request.
#[derive(Clone, Copy, Debug, PartialEq, Eq)]
#[repr(u32)]
pub enum Decision {
    /// Neither grants nor denies (code 0).
    Unspecified = 0,
    /// Only denies (code 1).
    Deny = 1,
    /// Only grants (code 2).
    Grant = 2,
    /// Grants and denies (code 3).
    Conflict = 3,
}

impl Decision {
    /// The decisions, by rising codes.
    pub const ALL: [Decision; 4] =
        [Decision::Unspecified, Decision::Deny, Decision::Grant, Decision::Conflict];

    fn from_code(code: u32) -> Decision {
        let decision = Decision::ALL.into_iter().find(|decision| decision.code() == code);
        decision.unwrap_or_else(|| unreachable!("the library answered a decision with code {code}"))
    }

    /// The decision's code, 0 to 3.
    pub fn code(self) -> u32 {
        self as u32
    }
}

/// The decision in a word, with which a text says that a row always decides so.
impl fmt::Display for Decision {
    fn fmt(&self, f: &mut fmt::Formatter) -> fmt::Result {
        f.write_str(match self {
            Decision::Unspecified => "unspecified",
            Decision::Deny => "deny",
            Decision::Grant => "grant",
            Decision::Conflict => "conflict",
        })
    }
}

/// A set of decisions.
#[derive(Clone, Copy, Debug, PartialEq, Eq)]
pub struct DecisionSet(u32);

impl DecisionSet {
    /// The set as a mask: unspecified counts 1, deny 2, grant 4, conflict 8.
    pub fn mask(self) -> u32 {
        self.0
    }

    /// Is `decision` in the set?
    pub fn contains(self, decision: Decision) -> bool {
        self.0 >> decision.code() & 1 == 1
    }

    /// Its members, by rising codes.
    pub fn members(self) -> impl Iterator<Item = Decision> {
        Decision::ALL.into_iter().filter(move |&decision| self.contains(decision))
    }
}

/// The reply to a question.
#[derive(Clone, Copy, Debug, PartialEq, Eq)]
pub enum Verdict {
    /// The question is true at every request within the constraints.
    Holds {
        /// How many visits the walk made.
        visits: u32,
    },
    /// The question is false at some request within the constraints.
    Fails {
        /// The first of these at which it is false, as a yes mask. In the order
        /// of requests predicate 0 weighs most, and no comes before yes.
        request: u32,
        /// How many visits the walk made.
        visits: u32,
    },
    /// The whole walk makes more visits than the budget.
    Unfinished {
        /// The budget that was given.
        budget: u32,
    },
}

/// Turns the refusal fields of a reply into a result.
fn accepted(number: u32, place: usize) -> Result<(), Refusal> {
    match number {
        0 => Ok(()),
        _ => Err(Refusal { number, place }),
    }
}

/// Reads a table and answers how many rows, questions and predicates it has.
///
/// # Errors
///
/// Refusals 1 to 7, 14 and 15, for the first bad entry of the table.
pub fn read(table: &[u8]) -> Result<Counts, Refusal> {
    // SAFETY: the pointer and the length are those of a slice.
    let reply = unsafe { raw::pier_read(table.as_ptr(), table.len()) };
    accepted(reply.refusal, reply.place)?;
    Ok(Counts { rows: reply.rows, questions: reply.questions, predicates: reply.predicates })
}

/// Answers what row `row` decides at the request whose yes mask is `yes`, every
/// predicate being known; predicate i is bit i. A request outside the constraints is
/// answered too: they change nothing here, nor in [`possible`].
///
/// # Errors
///
/// In this order: refusals 1 to 7, 14 and 15, for the first bad entry of the table; 8, if
/// there is no such row; 10, if `yes` has a bit above 23.
pub fn decide(table: &[u8], row: u32, yes: u32) -> Result<Decision, Refusal> {
    // SAFETY: the pointer and the length are those of a slice.
    let reply = unsafe { raw::pier_decide(table.as_ptr(), table.len(), row, yes) };
    accepted(reply.refusal, reply.place)?;
    Ok(Decision::from_code(reply.code))
}

/// Answers which decisions of row `row` remain possible if only the predicates
/// of the mask `known` are known, those of `yes` being yes and the others no.
///
/// The set has the decision under every way of filling in the unknown facts.
/// Learning a fact adds no decision to it, and with nothing unknown it has only
/// what [`decide`] answers. It may also have decisions that no filling brings,
/// since an operator's two rows are chosen independently, even if they can only
/// decide alike; but where both are the same row, one choice serves both.
///
/// # Errors
///
/// In this order: refusals 1 to 7, 14 and 15, for the first bad entry of the table; 8, if
/// there is no such row; 10, if a mask has a bit above 23 or `yes` has a bit
/// that `known` has not.
pub fn possible(table: &[u8], row: u32, known: u32, yes: u32) -> Result<DecisionSet, Refusal> {
    // SAFETY: the pointer and the length are those of a slice.
    let reply = unsafe { raw::pier_possible(table.as_ptr(), table.len(), row, known, yes) };
    accepted(reply.refusal, reply.place)?;
    Ok(DecisionSet(reply.set))
}

/// Answers whether question `question` is true at every request within the table's
/// constraints and, if not, which of these is the first at which it is false. A request
/// is within them if it keeps each: of a `never-both` the two predicates are not both
/// yes, and of an `only-if` the first is yes only if the second is.
///
/// The walk that finds this out may make `budget` visits; if it needs more, the
/// reply is [`Verdict::Unfinished`]. For n predicates 2^(n+1) - 1 visits are
/// always enough, and every budget that is enough brings the same reply.
///
/// # Errors
///
/// In this order: refusals 1 to 7, 14 and 15, for the first bad entry of the table; 8, if
/// there is no such question.
pub fn verdict(table: &[u8], question: u32, budget: u32) -> Result<Verdict, Refusal> {
    // SAFETY: the pointer and the length are those of a slice.
    let reply = unsafe { raw::pier_verdict(table.as_ptr(), table.len(), question, budget) };
    accepted(reply.refusal, reply.place)?;
    let (request, visits) = (reply.request, reply.visits);
    Ok(match reply.reply {
        1 => Verdict::Holds { visits },
        2 => Verdict::Fails { request, visits },
        3 => Verdict::Unfinished { budget: visits },
        unknown => unreachable!("the library answered a question with reply {unknown}"),
    })
}

/// Writes the negation of question `question` to the front of `out`, as a file in DIMACS
/// CNF that SAT solvers read, and answers how many bytes that took; [`FILE_BYTES`] are
/// always enough.
///
/// `docs/SOLVERS.md` says which clauses it has. Variable i + 1 stands for predicate i, and
/// further ones for what rows decide and which questions are true. Every assignment that
/// satisfies the file, cut to the predicates' variables, is a request within the table's
/// constraints that breaks the question, and every such request is the front of one. So the
/// file is satisfiable exactly if the question does not hold. Nothing is claimed about a
/// solver: [`breaks`] judges the request that one shows, and its "unsatisfiable" is its own
/// word. The bytes of `out` behind those written keep what they had, and on a refusal all of
/// them do.
///
/// ```
/// // Row 0 grants if predicate 0: that is variable 1, and its claims are 2 and 3. Question 0
/// // asks whether it is at or below itself, and the last clause says that it is not.
/// let table = [0x11, 0x00, 0x41, 0x00, 0x00];
/// let mut file = [0; pierstride::FILE_BYTES];
/// let length = pierstride::dimacs(&table, 0, &mut file)?;
/// let row = "-2 1 0\n2 -1 0\n-3 0\n";
/// let question = "-4 -2 2 0\n-4 -3 3 0\n4 2 3 0\n4 2 -3 0\n4 -2 3 0\n4 -2 -3 0\n";
/// assert_eq!(file[..length], *format!("p cnf 4 10\n{row}{question}-4 0\n").as_bytes());
/// # Ok::<(), pierstride::Refusal>(())
/// ```
///
/// # Errors
///
/// In this order: refusals 1 to 7, 14 and 15, for the first bad entry of the table; 8, if
/// there is no such question; 11, if `out` is shorter than the file.
pub fn dimacs(table: &[u8], question: u32, out: &mut [u8]) -> Result<usize, Refusal> {
    let (table, table_len) = (table.as_ptr(), table.len());
    // SAFETY: the pointers and the lengths are those of two slices, which cannot
    // overlap as one of them is borrowed mutably.
    let reply =
        unsafe { raw::pier_dimacs(table, table_len, question, out.as_mut_ptr(), out.len()) };
    accepted(reply.refusal, reply.place)?;
    Ok(reply.length)
}

/// Answers whether the request whose yes mask is `yes`, every predicate being known, keeps
/// the table's constraints and breaks question `question`: whether that is false there.
///
/// The mask may come from anywhere, as from a solver that was handed the file of [`dimacs`].
/// It has a bit for each of the table's own predicates, those below [`Counts::predicates`],
/// and no other.
///
/// ```
/// use pierstride::{breaks, Refusal};
///
/// // Row 0 grants if predicate 0, row 1 is unspecified; question 0: is row 0 at or below row
/// // 1? Predicates 0 and 1 are never both yes.
/// let table = [0x50, 0x00, 0x01, 0x11, 0x00, 0x00, 0x40, 0x00, 0x01];
/// assert_eq!(breaks(&table, 0, 0b01), Ok(true));
/// assert_eq!(breaks(&table, 0, 0b10), Ok(false));
/// assert_eq!(breaks(&table, 0, 0b11), Ok(false));
/// assert_eq!(breaks(&table, 0, 0b100), Err(Refusal { number: 10, place: 0 }));
/// ```
///
/// # Errors
///
/// In this order: refusals 1 to 7, 14 and 15, for the first bad entry of the table; 8, if
/// there is no such question; 10, if `yes` has a bit from [`Counts::predicates`] up.
pub fn breaks(table: &[u8], question: u32, yes: u32) -> Result<bool, Refusal> {
    // SAFETY: the pointer and the length are those of a slice.
    let reply = unsafe { raw::pier_breaks(table.as_ptr(), table.len(), question, yes) };
    accepted(reply.refusal, reply.place)?;
    match reply.breaks {
        0 => Ok(false),
        1 => Ok(true),
        unknown => unreachable!("the library judged a request with {unknown}"),
    }
}

/// Writes the table without row `row` to the front of `out` and answers how many
/// bytes that took.
///
/// Each row number above `row` is lowered by one wherever it occurs, so every
/// other row decides as before under its new number; constraints and question
/// numbers stay, and every question keeps its verdict. Every other row keeps its
/// supplier, which is named just where it changes: so fewer may be named than before.
/// The bytes of `out` behind those written keep what they had, and on a refusal all
/// of them do. As many bytes as the table has are always enough.
///
/// # Errors
///
/// In this order: refusals 1 to 7, 14 and 15, for the first bad entry of the table; 8, if
/// there is no such row; 9, if a row or a question names it; 11, if `out` is
/// shorter than the bytes to write.
pub fn strike(table: &[u8], row: u32, out: &mut [u8]) -> Result<usize, Refusal> {
    let (table, table_len) = (table.as_ptr(), table.len());
    // SAFETY: the pointers and the lengths are those of two slices, which cannot
    // overlap as one of them is borrowed mutably.
    let reply = unsafe { raw::pier_strike(table, table_len, row, out.as_mut_ptr(), out.len()) };
    accepted(reply.refusal, reply.place)?;
    Ok(reply.length)
}

/// Gives back the bytes of row `row`, from its kind byte on, as a part of the
/// caller's table. A supplier before the row is no part of them.
///
/// # Errors
///
/// In this order: refusals 1 to 7, 14 and 15, for the first bad entry of the table; 8, if
/// there is no such row.
///
/// # Panics
///
/// If the part that the library answers is not within the table. The library
/// promises that it is, so nothing here makes up for it.
pub fn entry(table: &[u8], row: u32) -> Result<&[u8], Refusal> {
    // SAFETY: the pointer and the length are those of a slice.
    let reply = unsafe { raw::pier_entry(table.as_ptr(), table.len(), row) };
    accepted(reply.refusal, reply.place)?;
    Ok(&table[reply.start..][..reply.length])
}

/// Writes the suppliers of all rows that row `row` reaches to the front of `out` and
/// answers how many they are; [`SUPPLIERS`] bytes are always enough.
///
/// A row reaches itself, the rows that it names, and all that these reach. Each supplier
/// is one byte and stands there once, by rising numbers. A row's supplier is the last
/// that an entry 60 before it names, and 0 if there is none. The bytes of `out` behind
/// those written keep what they had, and on a refusal all of them do.
///
/// ```
/// // Row 0 is supplier 7's, row 1 supplier 3's; row 2, nobody's, is the join of these.
/// let table = [0x60, 0x07, 0x11, 0x00, 0x60, 0x03, 0x10, 0x01, 0x60, 0x00, 0x33, 0x00, 0x01];
/// let mut list = [0; pierstride::SUPPLIERS];
/// let length = pierstride::suppliers(&table, 2, &mut list)?;
/// assert_eq!(list[..length], [0, 3, 7]);
/// # Ok::<(), pierstride::Refusal>(())
/// ```
///
/// # Errors
///
/// In this order: refusals 1 to 7, 14 and 15, for the first bad entry of the table; 8, if
/// there is no such row; 11, if `out` is shorter than the list.
pub fn suppliers(table: &[u8], row: u32, out: &mut [u8]) -> Result<usize, Refusal> {
    let (table, table_len) = (table.as_ptr(), table.len());
    // SAFETY: the pointers and the lengths are those of two slices, which cannot
    // overlap as one of them is borrowed mutably.
    let reply = unsafe { raw::pier_suppliers(table, table_len, row, out.as_mut_ptr(), out.len()) };
    accepted(reply.refusal, reply.place)?;
    Ok(reply.length)
}

/// Writes the text of a table to the front of `out` and answers how many bytes that
/// took; [`TEXT_BYTES`] are always enough.
///
/// The text has one line for each entry, in their order: the word for its kind, its
/// numbers in decimal with a single space before each, and a line feed. So row r of a
/// table with c constraints is on line c + r + 1, and one line further down for each
/// supplier that is named before it. Every accepted table has exactly one text, and
/// [`from_text`] reads that as the same bytes. The bytes of `out` behind those written
/// keep what they had, and on a refusal all of them do.
///
/// ```
/// let table = [0x11, 0x05, 0x20, 0x00, 0x40, 0x00, 0x01];
/// let mut text = [0; pierstride::TEXT_BYTES];
/// let length = pierstride::to_text(&table, &mut text)?;
/// assert_eq!(&text[..length], b"grant-if 5\nnegation 0\ntruth-at-or-below 0 1\n");
/// # Ok::<(), pierstride::Refusal>(())
/// ```
///
/// # Errors
///
/// In this order: refusals 1 to 7, 14 and 15, for the first bad entry of the table; 11, if
/// `out` is shorter than the bytes to write.
pub fn to_text(table: &[u8], out: &mut [u8]) -> Result<usize, Refusal> {
    let (table, table_len) = (table.as_ptr(), table.len());
    // SAFETY: the pointers and the lengths are those of two slices, which cannot
    // overlap as one of them is borrowed mutably.
    let reply = unsafe { raw::pier_to_text(table, table_len, out.as_mut_ptr(), out.len()) };
    accepted(reply.refusal, reply.place)?;
    Ok(reply.length)
}

/// Writes the bytes of the table that a text spells to the front of `out` and answers
/// how many they are; as many as the text has are always enough, and so are
/// [`TABLE_BYTES`].
///
/// A text that is read is the one that [`to_text`] writes for these bytes, to the
/// letter. The bytes of `out` behind those written keep what they had, and on a
/// refusal all of them do.
///
/// ```
/// let text = b"grant-if 5\nnegation 0\ntruth-at-or-below 0 1\n";
/// let mut table = [0; pierstride::TABLE_BYTES];
/// let length = pierstride::from_text(text, &mut table)?;
/// assert_eq!(table[..length], [0x11, 0x05, 0x20, 0x00, 0x40, 0x00, 0x01]);
/// # Ok::<(), pierstride::TextRefusal>(())
/// ```
///
/// # Errors
///
/// In this order: refusals 12 and 13, for the first line that is not well spelled, 12
/// before 13 on that line; 3 to 7, 14 and 15, for the first line that is a bad entry of
/// the table; 11, if `out` is shorter than the bytes to write.
pub fn from_text(text: &[u8], out: &mut [u8]) -> Result<usize, TextRefusal> {
    let (text, text_len) = (text.as_ptr(), text.len());
    // SAFETY: the pointers and the lengths are those of two slices, which cannot
    // overlap as one of them is borrowed mutably.
    let reply = unsafe { raw::pier_from_text(text, text_len, out.as_mut_ptr(), out.len()) };
    match reply.refusal {
        0 => Ok(reply.length),
        number => Err(TextRefusal { number, place: reply.place }),
    }
}
