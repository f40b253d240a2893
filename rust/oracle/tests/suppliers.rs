//! That random tests meet many lists of suppliers (document 02, L6) that a wrong program
//! would give otherwise, and many strikes that leave a supplier out; and that the method
//! which the benchmark times gives the oracle's lists.

mod share;

use pierstride_oracle::call::lend;
use pierstride_oracle::kinds::{ON_ONE_ROW, ON_TWO_ROWS};
use pierstride_oracle::random::Random;
use pierstride_oracle::supplied::suppliers_of;
use pierstride_oracle::{crafted, entry, read, strike, suppliers, suppliers_by_marks, tables};
use pierstride_oracle::{ROWS, SUPPLIERS, TABLE_BYTES};

use share::Share;

/// How many tables of each shape are tried.
const TABLES: usize = 60;

fn list(table: &[u8], row: u32) -> Vec<u8> {
    let mut out = [0; SUPPLIERS];
    let length = suppliers(table, row, &mut out).expect("a row of the table");
    out[..length].to_vec()
}

/// The suppliers of these rows, each once and rising.
fn listed(table: &[u8], rows: impl Iterator<Item = usize>) -> Vec<u8> {
    let suppliers = suppliers_of(table);
    let mut list: Vec<u8> = rows.map(|row| suppliers[row]).collect();
    list.sort_unstable();
    list.dedup();
    list
}

/// The rows that a row names.
fn named(table: &[u8], row: u32) -> Vec<usize> {
    match &table[entry(table, row).expect("a row of the table")] {
        [kind, numbers @ ..] if ON_ONE_ROW.contains(kind) || ON_TWO_ROWS.contains(kind) => {
            numbers.iter().map(|&number| number.into()).collect()
        }
        _ => Vec::new(),
    }
}

#[test]
fn random_tables_tell_whose_rows_are_reached() {
    let mut random = Random::new(10);
    let full = [&tables::SMALL_WITH_SETS, &tables::WALKED, &tables::WALKED_WITH_SETS];
    let mut shares = Shares::default();
    for shape in tables::SHAPES.iter().chain(full) {
        (0..TABLES).for_each(|_| shares.count(&tables::table(&mut random, shape)));
    }
    shares.without_itself.require(10, "lists without the row itself");
    shares.direct.require(10, "lists of the rows named alone");
    shares.of_all.require(20, "lists of all rows up to the row");
    shares.twice.require(20, "lists with a supplier twice");
    shares.strikes.require(15, "strikes that leave out a supplier");
}

/// Of the rows of tables that name suppliers, how many have another list if the row itself
/// is left out, if only it and the rows that it names are taken, if all rows up to it are,
/// or if its own supplier and the lists of the rows that it names are put one behind the
/// other; and of the strikes from these tables, how many leave out a supplier too.
#[derive(Default)]
struct Shares {
    without_itself: Share,
    direct: Share,
    of_all: Share,
    twice: Share,
    strikes: Share,
}

impl Shares {
    fn count(&mut self, table: &[u8]) {
        let rows = read(table).expect("an accepted table").rows.len();
        if suppliers_of(table).iter().all(|&supplier| supplier == 0) {
            return;
        }
        for row in 0..rows as u32 {
            self.count_list(table, row);
            if let Ok(left) = strike(table, row, &mut [0; TABLE_BYTES]) {
                let own = entry(table, row).expect("a row of the table").len();
                self.strikes.count(Ok(left < table.len() - own));
            }
        }
    }

    fn count_list(&mut self, table: &[u8], row: u32) {
        let (list, named, own) = (list(table, row), named(table, row), row as usize);
        let below: Vec<u8> = named.iter().flat_map(|&row| self::list(table, row as u32)).collect();
        self.without_itself.count(Ok(list.iter().any(|one| !below.contains(one))));
        self.direct.count(Ok(list != listed(table, named.into_iter().chain([own]))));
        self.of_all.count(Ok(list != listed(table, 0..=own)));
        self.twice.count(Ok(list.len() <= below.len()));
    }
}

#[test]
fn both_methods_give_one_list() {
    let mut random = Random::new(11);
    let mut random_tables = Vec::new();
    for shape in &tables::SHAPES {
        random_tables.extend((0..5).map(|_| tables::table(&mut random, shape)));
    }
    let crafted = [crafted::chain_of_rows, crafted::ladder_of_rows, crafted::steps_of_rows];
    let crafted = crafted.map(|table| table(ROWS));
    for table in random_tables.iter().chain(&crafted) {
        let rows = read(table).expect("an accepted table").rows.len() as u32;
        for row in 0..=rows {
            for room in [0, 1, 2, SUPPLIERS] {
                let by_marks = lend(room, |out| suppliers_by_marks(table, row, out));
                assert_eq!(by_marks, lend(room, |out| suppliers(table, row, out)), "row {row}");
            }
        }
    }
}
