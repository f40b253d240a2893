//! `desk VERB TABLE …`: every service of the library from the command line.
//!
//! The program decides nothing itself: it reads a file, makes the library's calls, and puts
//! what comes back into words. `docs/DESK.md` is its page. A verb is an entry of the table in
//! `verbs`, which its usage, its help and its options follow from, and a function.

mod arguments;
mod asked;
mod explain;
mod help;
mod json;
mod line;
mod number;
mod output;
mod picture;
mod progress;
mod request;
mod table;
mod trouble;
mod verbs;
mod words;

use std::ffi::OsString;

use arguments::Typed;
use output::Output;
use trouble::Trouble;

/// How the program ended, as its exit status says.
#[derive(Clone, Copy)]
pub enum Status {
    Answered = 0,
    /// The answer is no: "fails", "unfinished", "no".
    No = 1,
    Refused = 2,
    /// Wrong usage, or a file that cannot be read or written.
    Failed = 3,
}

fn main() {
    let typed: Vec<OsString> = std::env::args_os().skip(1).collect();
    let status = run(&typed).unwrap_or_else(|trouble| trouble.tell());
    std::process::exit(status as i32);
}

fn run(typed: &[OsString]) -> Result<Status, Trouble> {
    let asked = match arguments::parse(typed)? {
        Typed::Help(words) => {
            Output::default().words(words)?;
            return Ok(Status::Answered);
        }
        Typed::Asked(asked) => asked,
    };
    let answered = (asked.verb.run)(&asked);
    if let Err(Trouble::Refused(refused)) = &answered {
        let status = refused.tell();
        asked.output().object(refused.object())?;
        return Ok(status);
    }
    answered
}
