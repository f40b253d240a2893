//! Taking one entry of a table, and striking a row from it.

use std::ops::Range;

use crate::output::write;
use crate::refusal::{Refusal, ROW_IS_NAMED};
use crate::table::{entries, read, Entry, Kind, Part, Table};

/// Where the bytes of row `row` lie in the table, from its kind byte on.
pub fn entry(bytes: &[u8], row: u32) -> Result<Range<usize>, Refusal> {
    let table = read(bytes)?;
    let row = table.find_row(row)?;
    let mut end = 0;
    let places = entries(bytes).map(|entry| {
        let start = end;
        end += entry.bytes.len();
        (entry.kind.part(), start..end)
    });
    let mut rows = places.filter(|(part, _)| *part == Part::Rows).map(|(_, place)| place);
    Ok(rows.nth(row).expect("a row of the table"))
}

/// Writes the table without row `row` to the front of `out` and answers how
/// many bytes that took.
pub fn strike(bytes: &[u8], row: u32, out: &mut [u8]) -> Result<usize, Refusal> {
    let table = read(bytes)?;
    let row = table.find_row(row)?;
    if entries(bytes).any(|entry| entry.names(row)) {
        return Err(Refusal::of_request(ROW_IS_NAMED));
    }
    write(&without(bytes, &table, row), out)
}

/// The bytes of the table without row `struck`, which no entry names.
///
/// Document 02, L6: "Striking keeps every row's supplier, and writes a 60 only where the
/// supplier changes." So those that stand there are left out, and written anew.
fn without(bytes: &[u8], table: &Table, struck: usize) -> Vec<u8> {
    let mut left = Vec::with_capacity(bytes.len());
    let (mut number, mut in_force) = (0, 0);
    for entry in entries(bytes) {
        match entry.kind.part() {
            Part::Suppliers => {}
            Part::Rows => {
                if number != struck {
                    push_supplier(table.suppliers[number], &mut in_force, &mut left);
                    entry.push_without(struck, &mut left);
                }
                number += 1;
            }
            Part::Constraints | Part::Questions => entry.push_without(struck, &mut left),
        }
    }
    left
}

/// Adds the supplier of the next row, unless it is in force.
fn push_supplier(supplier: u8, in_force: &mut u8, bytes: &mut Vec<u8>) {
    if supplier != *in_force {
        bytes.extend([Kind::SUPPLIER, supplier]);
        *in_force = supplier;
    }
}

impl Entry<'_> {
    fn names(self, row: usize) -> bool {
        let body = &self.bytes[1..];
        self.kind.names_rows() && body.iter().any(|&number| usize::from(number) == row)
    }

    /// Adds the entry to `bytes`, each row number above `struck` lowered by one.
    fn push_without(self, struck: usize, bytes: &mut Vec<u8>) {
        let start = bytes.len();
        bytes.extend_from_slice(self.bytes);
        if self.kind.names_rows() {
            for number in &mut bytes[start + 1..] {
                *number -= u8::from(usize::from(*number) > struck);
            }
        }
    }
}
