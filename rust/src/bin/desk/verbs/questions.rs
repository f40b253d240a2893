//! The verbs about questions.

use pierstride::Verdict;

use crate::asked::Asked;
use crate::json::{array, object, Json};
use crate::progress;
use crate::request::{in_words, mask, predicates};
use crate::table::Table;
use crate::trouble::Trouble;
use crate::words::counted;
use crate::Status;

pub fn ask(asked: &Asked) -> Result<Status, Trouble> {
    let table = asked.table()?;
    match &asked.operand {
        Some(question) => ask_one(asked, &table, question.value),
        None => ask_all(asked, &table),
    }
}

fn ask_one(asked: &Asked, table: &Table, question: u32) -> Result<Status, Trouble> {
    let verdict = verdict(asked, table, question)?;
    asked.output().answer(words(verdict), in_json(question, verdict))?;
    Ok(status(&[verdict]))
}

/// Each verdict is told as soon as it is there.
fn ask_all(asked: &Asked, table: &Table) -> Result<Status, Trouble> {
    let mut verdicts = Vec::new();
    for question in 0..table.counts.questions {
        let verdict = verdict(asked, table, question)?;
        asked.output().words(format!("question {question}: {}", words(verdict)))?;
        verdicts.push(verdict);
    }
    if verdicts.is_empty() {
        asked.output().words("the table has no questions")?;
    }
    let objects = (0..).zip(&verdicts).map(|(question, verdict)| in_json(question, *verdict));
    asked.output().object(object([("verdicts", array(objects))]))?;
    Ok(status(&verdicts))
}

fn verdict(asked: &Asked, table: &Table, question: u32) -> Result<Verdict, Trouble> {
    let budget = asked.options.budget.as_ref().map_or(u32::MAX, |number| number.value);
    asked.answered(table, progress::verdict(table, question, budget))
}

fn status(verdicts: &[Verdict]) -> Status {
    match verdicts.iter().all(|verdict| matches!(verdict, Verdict::Holds { .. })) {
        true => Status::Answered,
        false => Status::No,
    }
}

/// A verdict's name, its count of visits, and the request that breaks the question.
fn parts(verdict: Verdict) -> (&'static str, u32, Option<u32>) {
    match verdict {
        Verdict::Holds { visits } => ("holds", visits, None),
        Verdict::Fails { request, visits } => ("fails", visits, Some(request)),
        Verdict::Unfinished { budget } => ("unfinished", budget, None),
    }
}

fn words(verdict: Verdict) -> String {
    let (name, visits, request) = parts(verdict);
    let request = request.map(|request| format!(" at {},", in_words(request)));
    format!("{name}{} after {}", request.unwrap_or_default(), counted(visits, "visit"))
}

fn in_json(question: u32, verdict: Verdict) -> Json {
    let (name, visits, request) = parts(verdict);
    let fields =
        [("question", question.into()), ("verdict", name.into()), ("visits", visits.into())];
    let yes = request.map(|request| ("yes", array(predicates(request))));
    object(fields.into_iter().chain(yes))
}

pub fn solver_file(asked: &Asked) -> Result<Status, Trouble> {
    let table = asked.table()?;
    let mut file = vec![0; pierstride::FILE_BYTES];
    let length = pierstride::dimacs(&table.bytes, asked.number(), &mut file);
    file.truncate(asked.answered(&table, length)?);
    asked.output().document(&file, "dimacs", &String::from_utf8_lossy(&file))?;
    Ok(Status::Answered)
}

pub fn breaks(asked: &Asked) -> Result<Status, Trouble> {
    let table = asked.table()?;
    let (question, yes) = (asked.number(), mask(&asked.options.yes));
    let breaks = asked.answered(&table, pierstride::breaks(&table.bytes, question, yes))?;
    let fields =
        [("question", question.into()), ("yes", array(predicates(yes))), ("breaks", breaks.into())];
    asked.output().answer(judged(question, yes, breaks), object(fields))?;
    Ok(if breaks { Status::Answered } else { Status::No })
}

/// The library does not tell which of two reasons there is for a no.
fn judged(question: u32, yes: u32, breaks: bool) -> String {
    let at = in_words(yes);
    match breaks {
        true => format!("yes: question {question} is broken, and every constraint kept, at {at}"),
        false => format!("no: question {question} is not broken, or a constraint is, at {at}"),
    }
}
