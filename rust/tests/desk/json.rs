//! JSON: what objects must be, and what a real parser (jq) says of those that came.

use std::process::Command;

use pierstride_oracle::Verdict;

use crate::expected::predicates;
use crate::harness::{run, Outcome};

/// A string of printable characters and line feeds.
pub fn quoted(text: &str) -> String {
    format!("\"{}\"", text.replace('\\', "\\\\").replace('"', "\\\"").replace('\n', "\\n"))
}

pub fn array(numbers: &[u32]) -> String {
    let numbers: Vec<String> = numbers.iter().map(u32::to_string).collect();
    format!("[{}]", numbers.join(","))
}

/// The object of the verdict on a question.
pub fn verdict(question: u32, verdict: Verdict) -> String {
    let (word, visits, yes) = match verdict {
        Verdict::Holds { visits } => ("holds", visits, String::new()),
        Verdict::Unfinished { budget } => ("unfinished", budget, String::new()),
        Verdict::Fails { request, visits } => {
            ("fails", visits, format!(r#","yes":{}"#, array(&predicates(request))))
        }
    };
    format!(r#"{{"question":{question},"verdict":"{word}","visits":{visits}{yes}}}"#)
}

/// Objects that came, and what each must be, to be compared all at once.
#[derive(Default)]
pub struct Objects {
    /// What brought the object, the line that came, and the object that must come.
    lines: Vec<(String, String, String)>,
}

impl Objects {
    /// Adds the object on the standard output of an outcome, which must be one line.
    pub fn add(&mut self, cause: impl Into<String>, outcome: &Outcome, expected: String) {
        let line = outcome.out().strip_suffix('\n');
        let line = line.unwrap_or_else(|| panic!("not a line: {outcome:?}"));
        assert!(line.starts_with('{') && !line.contains('\n'), "no line of JSON: {outcome:?}");
        self.lines.push((cause.into(), line.to_owned(), expected));
    }

    /// Checks that each object has exactly the keys and values that it must have.
    pub fn check(self) {
        let found = parsed(self.lines.iter().map(|(_, found, _)| &found[..]));
        let expected = parsed(self.lines.iter().map(|(_, _, expected)| &expected[..]));
        for ((found, expected), (cause, ..)) in found.iter().zip(&expected).zip(&self.lines) {
            assert_eq!(found, expected, "{cause}");
        }
    }
}

/// Each of these values as jq writes it, with the keys in order.
fn parsed<'a>(lines: impl Iterator<Item = &'a str>) -> Vec<String> {
    let lines: Vec<&str> = lines.collect();
    let outcome = run(Command::new("jq").args(["-cS", "."]), lines.join("\n").as_bytes());
    assert_eq!(outcome.err(), "", "jq cannot parse one of {lines:#?}");
    let parsed: Vec<String> = outcome.out().lines().map(str::to_owned).collect();
    assert_eq!(parsed.len(), lines.len(), "not one value a line: {lines:#?}");
    parsed
}

/// What a filter of jq makes of a value, as raw text without the line feed behind it.
pub fn filtered(filter: &str, value: &str) -> String {
    let outcome = run(Command::new("jq").args(["-j", filter]), value.as_bytes());
    assert_eq!((outcome.status, outcome.err()), (0, ""), "jq {filter} on {value:?}");
    outcome.out().to_owned()
}
