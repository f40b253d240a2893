//! The verbs about rows.

use crate::asked::Asked;
use crate::json::{array, object, Json};
use crate::picture::{self, Decided};
use crate::request::{in_words, mask, predicates};
use crate::table::Table;
use crate::trouble::Trouble;
use crate::words::listed;
use crate::Status;

pub fn decide(asked: &Asked) -> Result<Status, Trouble> {
    let table = asked.table()?;
    let (row, yes) = (asked.number(), mask(&asked.options.yes));
    let decision = asked.answered(&table, pierstride::decide(&table.bytes, row, yes))?;
    let fields =
        [("row", row.into()), ("yes", array(predicates(yes))), ("decision", decision.into())];
    asked.output().answer(decision, object(fields))?;
    Ok(Status::Answered)
}

pub fn possible(asked: &Asked) -> Result<Status, Trouble> {
    let table = asked.table()?;
    let (yes, no) = (mask(&asked.options.yes), mask(&asked.options.no));
    let set = pierstride::possible(&table.bytes, asked.number(), yes | no, yes);
    let set = asked.answered(&table, set)?;
    let fields = [
        ("row", asked.number().into()),
        ("yes", array(predicates(yes))),
        ("no", array(predicates(no))),
        ("possible", array(set.members())),
    ];
    asked.output().answer(listed(set.members(), "or"), object(fields))?;
    Ok(Status::Answered)
}

pub fn suppliers(asked: &Asked) -> Result<Status, Trouble> {
    let table = asked.table()?;
    match &asked.operand {
        Some(row) => {
            let list = list(asked, &table, row.value)?;
            asked
                .output()
                .answer(suppliers_in_words(&list), suppliers_in_json(row.value, &list))?;
        }
        None => every_list(asked, &table)?,
    }
    Ok(Status::Answered)
}

fn every_list(asked: &Asked, table: &Table) -> Result<(), Trouble> {
    let rows = 0..table.counts.rows;
    let lists: Result<Vec<_>, _> = rows.map(|row| list(asked, table, row)).collect();
    let lists = lists?;
    for (row, list) in lists.iter().enumerate() {
        asked.output().words(format!("row {row}: {}", suppliers_in_words(list)))?;
    }
    if lists.is_empty() {
        asked.output().words("the table has no rows")?;
    }
    let objects = (0..).zip(&lists).map(|(row, list)| suppliers_in_json(row, list));
    asked.output().object(object([("rows", array(objects))]))
}

/// The suppliers of all rows that a row reaches.
fn list(asked: &Asked, table: &Table, row: u32) -> Result<Vec<u8>, Trouble> {
    let mut list = vec![0; pierstride::SUPPLIERS];
    let length = pierstride::suppliers(&table.bytes, row, &mut list);
    list.truncate(asked.answered(table, length)?);
    Ok(list)
}

/// "supplier 3", "suppliers 0, 3 and 9"
fn suppliers_in_words(list: &[u8]) -> String {
    let plural = if list.len() == 1 { "" } else { "s" };
    format!("supplier{plural} {}", listed(list, "and"))
}

fn suppliers_in_json(row: u32, list: &[u8]) -> Json {
    let suppliers = list.iter().map(|&supplier| u32::from(supplier));
    object([("row", row.into()), ("suppliers", array(suppliers))])
}

pub fn picture(asked: &Asked) -> Result<Status, Trouble> {
    let table = asked.table()?;
    let row = asked.number();
    asked.answered(&table, pierstride::entry(&table.bytes, row))?;
    let decided = match asked.options.yes {
        Some(_) => Some(decided(asked, &table)?),
        None => None,
    };
    let dot = picture::draw(&table.entries(), row, decided.as_ref());
    asked.output().document(dot.as_bytes(), "picture", &dot)?;
    Ok(Status::Answered)
}

/// What every row up to the one asked for decides.
fn decided(asked: &Asked, table: &Table) -> Result<Decided, Trouble> {
    let yes = mask(&asked.options.yes);
    let decisions = (0..=asked.number()).map(|row| pierstride::decide(&table.bytes, row, yes));
    let decisions = asked.answered(table, decisions.collect())?;
    Ok(Decided { request: in_words(yes), decisions })
}
