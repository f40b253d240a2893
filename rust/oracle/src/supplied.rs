//! Whose the rows of a table are, read off its bytes and put into them: said a second time
//! beside `table` and `strike`, so that tests of these do not rest on them.

use crate::kinds::{Group, SUPPLIER};
use crate::texts::entries;
use crate::Part;

/// Does this byte announce a row?
pub fn is_row(kind: u8) -> bool {
    Group::of(kind).map_or(false, |group| group.part == Part::Rows)
}

/// The supplier in force behind the entries that `bytes` begin with: the last that they
/// name, or 0.
pub fn in_force(bytes: &[u8]) -> u8 {
    entries(bytes).filter(|entry| entry[0] == SUPPLIER).last().map_or(0, |entry| entry[1])
}

/// The supplier of each row of an accepted table.
pub fn suppliers_of(bytes: &[u8]) -> Vec<u8> {
    let (mut supplier, mut suppliers) = (0, Vec::new());
    for entry in entries(bytes) {
        match *entry {
            [SUPPLIER, named] => supplier = named,
            [kind, ..] if is_row(kind) => suppliers.push(supplier),
            _ => {}
        }
    }
    suppliers
}

/// The table without a word of whose its rows are.
pub fn without_suppliers(bytes: &[u8]) -> Vec<u8> {
    entries(bytes).filter(|entry| entry[0] != SUPPLIER).flatten().copied().collect()
}

/// Such a table with these suppliers of its rows: each is named where it is another than
/// that of the row before, or than 0 before the first.
pub fn with_suppliers(bytes: &[u8], suppliers: &[u8]) -> Vec<u8> {
    let (mut row, mut table) = (0, Vec::new());
    for entry in entries(bytes) {
        if is_row(entry[0]) {
            let before = if row == 0 { 0 } else { suppliers[row - 1] };
            if suppliers[row] != before {
                table.extend([SUPPLIER, suppliers[row]]);
            }
            row += 1;
        }
        table.extend(entry);
    }
    table
}
