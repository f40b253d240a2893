//! The verbs about a whole table.

use pierstride::{Numbered, Part};

use crate::asked::Asked;
use crate::json::{array, object, Json};
use crate::table::{text_of, Entry, Form};
use crate::trouble::Trouble;
use crate::words::counted;
use crate::Status;

pub fn check(asked: &Asked) -> Result<Status, Trouble> {
    let table = asked.table()?;
    let counts = [
        ("rows", Numbered::Row, table.counts.rows),
        ("questions", Numbered::Question, table.counts.questions),
        ("predicates", Numbered::Predicate, table.counts.predicates),
    ];
    let words = counts.map(|(_, things, count)| counted(count, things)).join(", ");
    let fields = counts.map(|(name, _, count)| (name, count.into()));
    let form = ("form", table.form.name().into());
    asked.output().answer(words, object([form].into_iter().chain(fields)))?;
    Ok(Status::Answered)
}

pub fn text(asked: &Asked) -> Result<Status, Trouble> {
    write(asked, Form::Text, &asked.table()?.bytes)
}

pub fn bytes(asked: &Asked) -> Result<Status, Trouble> {
    write(asked, Form::Bytes, &asked.table()?.bytes)
}

pub fn strike(asked: &Asked) -> Result<Status, Trouble> {
    let table = asked.table()?;
    let mut struck = vec![0; table.bytes.len()];
    let length = pierstride::strike(&table.bytes, asked.number(), &mut struck);
    let length = asked.answered(&table, length)?;
    write(asked, table.form, &struck[..length])
}

/// The table of these bytes, in a form.
fn write(asked: &Asked, form: Form, bytes: &[u8]) -> Result<Status, Trouble> {
    let (out, name) = (asked.output(), form.name());
    match form {
        Form::Text => {
            let text = text_of(bytes);
            out.document(text.as_bytes(), name, &text)?;
        }
        Form::Bytes => {
            let digits: String = bytes.iter().map(|byte| format!("{byte:02x}")).collect();
            out.document(bytes, name, &digits)?;
        }
    }
    Ok(Status::Answered)
}

pub fn show(asked: &Asked) -> Result<Status, Trouble> {
    let entries = asked.table()?.entries();
    for line in listing(&entries) {
        asked.output().words(line)?;
    }
    let listed = |part: Part| {
        let entries = entries.iter().filter(|entry| entry.kind.part == part);
        array(entries.map(in_json))
    };
    let fields = [
        ("constraints", listed(Part::Constraints)),
        ("rows", listed(Part::Rows)),
        ("questions", listed(Part::Questions)),
    ];
    asked.output().object(object(fields))?;
    Ok(Status::Answered)
}

/// A line for each entry: its number, its supplier in a table that names any, and its text.
fn listing(entries: &[Entry]) -> Vec<String> {
    let width = |column: fn(&Entry) -> String| {
        entries.iter().map(|entry| column(entry).len()).max().unwrap_or_default()
    };
    let (number, whose) = (width(Entry::label), width(Entry::whose));
    let line = |entry: &Entry| match whose {
        0 => format!("{:number$}  {}", entry.label(), entry.line),
        _ => format!("{:number$}  {:whose$}  {}", entry.label(), entry.whose(), entry.line),
    };
    entries.iter().map(line).collect()
}

/// An entry with its number, if it goes by one, and its supplier, if it has one.
fn in_json(entry: &Entry) -> Json {
    let number = match entry.kind.part {
        Part::Constraints | Part::Suppliers => None,
        part @ (Part::Rows | Part::Questions) => Some((part.entry(), entry.number.into())),
    };
    let supplier = entry.supplier.map(|supplier| ("supplier", supplier.into()));
    let text = ("text", entry.line.as_str().into());
    object([number, supplier, Some(text)].into_iter().flatten())
}
