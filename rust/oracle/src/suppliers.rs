//! Whose rows a row rests on.

use std::collections::BTreeSet;

use crate::output::write;
use crate::refusal::Refusal;
use crate::table::{read, Row, Table, ROWS, SUPPLIERS};

/// Writes the suppliers of all rows that row `row` reaches through whichever rows, itself
/// included, each once and rising, to the front of `out`, and answers how many they are.
pub fn suppliers(bytes: &[u8], row: u32, out: &mut [u8]) -> Result<usize, Refusal> {
    let table = read(bytes)?;
    let row = table.find_row(row)?;
    let suppliers = reached(&table.rows, row).into_iter().map(|row| table.suppliers[row]);
    let once: BTreeSet<u8> = suppliers.collect();
    write(&Vec::from_iter(once), out)
}

/// The rows that a row reaches, itself included: to the rows that are reached the ones
/// that they name are added, until this adds none.
fn reached(rows: &[Row], row: usize) -> BTreeSet<usize> {
    let mut reached = BTreeSet::from([row]);
    loop {
        let named = reached.iter().flat_map(|&row| rows[row].operands());
        let more: BTreeSet<usize> = reached.iter().copied().chain(named).collect();
        if more == reached {
            return reached;
        }
        reached = more;
    }
}

/// The same by another method, for the benchmark: a row names only rows before it, so one
/// way down from the asked row marks all that it reaches; then each of their suppliers is
/// flagged, and the flags are listed.
pub fn suppliers_by_marks(bytes: &[u8], row: u32, out: &mut [u8]) -> Result<usize, Refusal> {
    let table = read(bytes)?;
    let row = table.find_row(row)?;
    let flags = flags(&table, row);
    let mut list = [0; SUPPLIERS];
    let mut length = 0;
    for (supplier, _) in (0..=u8::MAX).zip(flags).filter(|(_, flag)| *flag) {
        list[length] = supplier;
        length += 1;
    }
    write(&list[..length], out)
}

/// Of each supplier, whether a row that this row reaches is theirs.
fn flags(table: &Table, row: usize) -> [bool; SUPPLIERS] {
    let (mut marks, mut flags) = ([false; ROWS], [false; SUPPLIERS]);
    marks[row] = true;
    for row in (0..=row).rev() {
        if marks[row] {
            flags[usize::from(table.suppliers[row])] = true;
            table.rows[row].operands().for_each(|operand| marks[operand] = true);
        }
    }
    flags
}
