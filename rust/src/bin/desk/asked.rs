//! What is asked: a verb, its table, and the rest that was typed behind it.

use std::ffi::OsString;

use pierstride::Refusal;

use crate::explain;
use crate::number::Number;
use crate::output::Output;
use crate::table::{self, Table};
use crate::trouble::Trouble;
use crate::verbs::Verb;

pub struct Asked {
    pub verb: &'static Verb,
    pub path: OsString,
    /// The row or the question.
    pub operand: Option<Number>,
    pub options: Options,
}

#[derive(Default)]
pub struct Options {
    pub yes: Option<Vec<Number>>,
    pub no: Option<Vec<Number>>,
    pub budget: Option<Number>,
    pub file: Option<OsString>,
    pub json: bool,
}

impl Asked {
    pub fn table(&self) -> Result<Table, Trouble> {
        table::load(&self.path)
    }

    /// The row or the question, of a verb that must have one.
    pub fn number(&self) -> u32 {
        self.operand.as_ref().expect("a verb that takes a number").value
    }

    pub fn output(&self) -> Output<'_> {
        Output { json: self.options.json, file: self.options.file.as_deref() }
    }

    /// What the library answered for an accepted table, or its refusal in words.
    pub fn answered<T>(&self, table: &Table, answer: Result<T, Refusal>) -> Result<T, Trouble> {
        answer.map_err(|refusal| Trouble::Refused(explain::of_call(table, self, refusal)))
    }
}
