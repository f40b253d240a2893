//! What the program says of itself. All of it follows from the table of verbs.

use crate::verbs::{Verb, VERBS};

pub fn version() -> String {
    concat!("desk ", env!("CARGO_PKG_VERSION")).to_owned()
}

/// "usage: desk decide TABLE ROW [--yes LIST] [--json]"
pub fn usage(verb: &Verb) -> String {
    let flags: String = verb.flags().map(|flag| format!(" [{}]", flag.usage())).collect();
    format!("usage: desk {}{flags}", verb.call())
}

pub fn of_verb(verb: &Verb) -> String {
    let mut words = format!("{}\n\n{}\n\n", usage(verb), verb.about);
    let flags: Vec<_> = verb.flags().map(|flag| (flag.usage(), flag.about)).collect();
    words += &columns(flags.iter().map(|(usage, about)| (usage.as_str(), *about)));
    words + "\n" + &example(verb)
}

fn example(verb: &Verb) -> String {
    let (command, answer) = verb.example;
    let answer: String = answer.lines().map(|line| format!("\n  {line}")).collect();
    format!("example:\n  $ {command}{answer}")
}

pub fn of_program() -> String {
    let verbs: Vec<_> = VERBS.iter().map(|verb| (verb.call(), verb.brief)).collect();
    let example = example(&VERBS[0]);
    let verbs = columns(verbs.iter().map(|(call, brief)| (call.as_str(), *brief)));
    format!(
        "usage: desk VERB TABLE ...\n\
         \n\
         Asks the proved library about a rule table, and says the answer in words.\n\
         \n\
         {verbs}\n\
         {example}\n\
         \n\
         TABLE is a file, or - for standard input: a table's bytes, or its text.\n\
         Every verb takes --json, for the answer as one JSON object on one line, and --help,\n\
         for what else it takes and an example. desk --version gives the version.\n\
         \n\
         exit status:\n  \
         0  an answer\n  \
         1  an answer that is no: \"fails\", \"unfinished\", \"no\"\n  \
         2  a refusal\n  \
         3  wrong usage, or a file that cannot be read or written"
    )
}

/// Lines of two columns.
fn columns<'a>(lines: impl Iterator<Item = (&'a str, &'a str)> + Clone) -> String {
    let width = lines.clone().map(|(left, _)| left.len()).max().unwrap_or_default();
    lines.map(|(left, right)| format!("  {left:width$}   {right}\n")).collect()
}
