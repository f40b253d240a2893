//! The cases of documents 01 and 02, and the examples, through the safe functions.

// Only part of what the tests share is used here.
#[allow(dead_code)]
mod library;

use pierstride_oracle::{call, notebook, spellings};

#[test]
fn the_library_answers_the_notebook() {
    call::check(notebook::cases(), library::answer);
}

#[test]
fn the_library_answers_the_spellings() {
    call::check(spellings::cases(), library::answer);
}

#[test]
fn the_example_is_the_text_of_table_a() {
    let table = include_bytes!("../../examples/table-a.bin");
    let text = include_bytes!("../../examples/table-a.txt");
    let mut out = vec![0; text.len()];
    assert_eq!(pierstride::to_text(table, &mut out), Ok(text.len()));
    assert_eq!(out, text);
    let mut out = vec![0; table.len()];
    assert_eq!(pierstride::from_text(text, &mut out), Ok(table.len()));
    assert_eq!(out, table);
}

#[test]
fn so_many_bytes_are_always_enough() {
    assert_eq!(pierstride::TABLE_BYTES, pierstride_oracle::TABLE_BYTES);
    assert_eq!(pierstride::TEXT_BYTES, pierstride_oracle::TEXT_BYTES);
    assert_eq!(pierstride::SUPPLIERS, pierstride_oracle::SUPPLIERS);
    assert_eq!(pierstride::FILE_BYTES, pierstride_oracle::FILE_BYTES);
}
