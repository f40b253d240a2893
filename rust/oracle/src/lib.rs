//! A second implementation of Pierstride's specification, which is document 01
//! with requests L1 to L7 of document 02, the words that `docs/WORDS.md` lists, and the
//! clauses that `docs/SOLVERS.md` lists.
//!
//! It is written from these alone and as plainly as possible, so that it can be
//! checked by reading; the library is then compared with it. It uses the library's
//! method (each row is formed once per visit from the rows before it, a text is read
//! line by line), so it is also what the benchmark times the library against.
//!
//! The first group of modules is that implementation. The second group is what
//! tests share, so that every implementation meets the same tests:
//!
//! - [`call`]: calls and answers as plain values;
//! - [`notebook`], [`spellings`]: the cases of document 01 and of the requests;
//! - [`random`], [`tables`], [`texts`], [`calls`]: random numbers, tables, texts and
//!   calls;
//! - [`kinds`]: the listed kinds, what numbers their bodies have, and their words;
//! - [`supplied`]: whose the rows of a table are;
//! - [`limits`], [`crafted`]: tables made for a purpose;
//! - [`lines`]: texts made for a purpose;
//! - [`cnf`]: files for a solver, read back;
//! - [`laws`]: what must be true of any right implementation, by brute force.

mod breaks;
mod decide;
mod decision;
mod dimacs;
mod output;
mod possible;
mod refusal;
mod request;
mod strike;
mod suppliers;
mod table;
mod text;
mod walk;

pub mod call;
pub mod calls;
pub mod cnf;
pub mod crafted;
pub mod kinds;
pub mod laws;
pub mod limits;
pub mod lines;
pub mod notebook;
pub mod random;
pub mod spellings;
pub mod supplied;
pub mod tables;
pub mod texts;

pub use crate::breaks::breaks;
pub use crate::decide::{decide, truths};
pub use crate::decision::Decision;
pub use crate::dimacs::{clauses, dimacs, FILE_BYTES};
pub use crate::possible::{possible, possible_by, Choice, DecisionSet};
pub use crate::refusal::{Refusal, OF_READING, OF_READING_A_TEXT};
pub use crate::strike::{entry, strike};
pub use crate::suppliers::{suppliers, suppliers_by_marks};
pub use crate::table::{read, Part, Table};
pub use crate::table::{CONSTRAINTS, PREDICATES, QUESTIONS, ROWS, SUPPLIERS, TABLE_BYTES};
pub use crate::text::{from_text, to_text, TEXT_BYTES};
pub use crate::walk::{verdict, verdict_by, Verdict};
