//! Times the library against the oracle, which uses the same method in plain Rust.
//!
//! Run it with `cargo bench`, `PIERSTRIDE_LIB` naming the directory of the
//! `libpierstride.a` to time: on x86-64 the library itself, on Arm an archive of
//! its native object. Times taken under an emulator say nothing about speed.

use std::mem::ManuallyDrop;
use std::time::{Duration, Instant};

use pierstride::Verdict;
use pierstride_oracle::random::Random;
use pierstride_oracle::supplied::with_suppliers;
use pierstride_oracle::tables::{self, Shape};
use pierstride_oracle::{crafted, suppliers_by_marks, texts, FILE_BYTES, ROWS, SUPPLIERS};

const SEED: u64 = 1;
const BATCHES: usize = 5;
const BATCH: Duration = Duration::from_millis(40);

/// Every table uses this many predicates, and its question takes the whole walk.
const PREDICATES: u8 = 16;
const VISITS: u32 = (2 << PREDICATES) - 1;

/// How many lines the long texts have.
const LINES: [usize; 2] = [1000, 1_000_000];

/// Of which rows suppliers are listed, in tables of 256 rows.
const LISTED: [u32; 5] = [0, 15, 63, 127, 255];

const YES: u32 = 0b0101_0101_0101_0101;
const KNOWN: u32 = 0b0000_1111_1111_0000;

fn main() {
    println!("The library against the same method in plain Rust, {}.", std::env::consts::ARCH);
    println!(
        "Each call starts from the table's bytes, or from the text's. Output buffers are not \
         cleared between calls."
    );
    println!(
        "A walk makes {VISITS} visits and is given per visit, without constraints and with 32 of \
         which none is ever broken."
    );
    println!("Seven of eight rows have another supplier than the row before, where it says so.");
    println!();
    println!("rows  bytes  call                    library ns      Rust ns  library/Rust");
    for rows in [16, 64, ROWS] {
        let table = table(rows);
        time_calls(rows, &table);
        time_walk("walk, a visit", rows, &table);
        let constraints = crafted::idle_constraints(PREDICATES);
        let constrained = [constraints, table.clone()].concat();
        time_walk("walk, 32 constraints", rows, &constrained);
        time_judging("breaks", rows, &table);
        time_judging("breaks, 32 constr.", rows, &constrained);
        time_file("solver file", rows, &table);
        time_calls_that_write("", rows, &table);
        let supplied = supplied(rows, &table);
        time_reading("read, suppliers", rows, &supplied);
        time_list(rows, &supplied);
        time_calls_that_write(", suppliers", rows, &supplied);
    }
    time_file("solver file, longest", ROWS, &crafted::longest_file());
    println!();
    println!(
        "The list of a row's suppliers in tables of {ROWS} rows: in a chain each row names the"
    );
    println!("one before it, on a ladder the two before it, and on steps two about halfway down.");
    println!();
    println!(" row  suppliers  table    library ns   Rust ns  library/Rust");
    time_lists("chain", &crafted::chain_of_rows(ROWS));
    time_lists("ladder", &crafted::ladder_of_rows(ROWS));
    time_lists("steps", &crafted::steps_of_rows(ROWS));
    println!();
    println!("A text with more lines than a table may have is read to its end before it is");
    println!("refused, and is given per line.");
    println!();
    println!("  lines     bytes  call               library ns   Rust ns  library/Rust");
    for lines in LINES {
        time_long_text(lines);
    }
}

/// How many rows of a table are not random.
const LAST_ROWS: usize = 3;

/// A table of random rows, and behind them a row that is unknown until the last
/// predicate is, its negation, and the negation of that. The question asks if the
/// first of these is at or below the last, so the walk makes every visit; a row
/// against itself would be settled at the first.
fn table(rows: usize) -> Vec<u8> {
    let first = rows - LAST_ROWS;
    let shape = Shape {
        rows: first..=first,
        predicates: PREDICATES.into()..=PREDICATES.into(),
        leaves: 30,
        ..tables::EMPTY
    };
    let first = first as u8;
    let mut bytes = tables::table(&mut Random::new(SEED), &shape);
    bytes.extend([0x11, PREDICATES - 1, 0x20, first, 0x20, first + 1, 0x40, first, first + 2]);
    bytes
}

/// The table with another supplier for seven of eight rows than for the row before.
fn supplied(rows: usize, table: &[u8]) -> Vec<u8> {
    let suppliers: Vec<u8> = (0..rows).map(|row| (row % 8).max(1) as u8).collect();
    with_suppliers(table, &suppliers)
}

/// One line for a call on a table: the library's time, the oracle's, and their ratio.
fn reporter(rows: usize, table: &[u8]) -> impl Fn(&str, f64, f64) {
    let bytes = table.len();
    move |call, library, oracle| {
        println!(
            "{rows:>4}  {bytes:>5}  {call:<20}  {library:>12.1}  {oracle:>11.1}  {:>12.2}",
            library / oracle
        );
    }
}

fn time_calls(rows: usize, table: &[u8]) {
    let row = (rows - LAST_ROWS) as u32 - 1;
    let (known, yes) = (KNOWN, KNOWN & YES);
    let report = reporter(rows, table);
    time_reading("read", rows, table);
    report(
        "decide",
        time(|| pierstride::decide(hide(table), row, YES)),
        time(|| pierstride_oracle::decide(hide(table), row, YES)),
    );
    report(
        "possible",
        time(|| pierstride::possible(hide(table), row, known, yes)),
        time(|| pierstride_oracle::possible(hide(table), row, known, yes)),
    );
}

fn time_reading(call: &str, rows: usize, table: &[u8]) {
    reporter(rows, table)(
        call,
        time(|| pierstride::read(hide(table))),
        time(|| {
            let read = pierstride_oracle::read(hide(table));
            read.map(|table| (table.rows.len(), table.questions.len(), table.predicates()))
        }),
    );
}

fn time_list(rows: usize, table: &[u8]) {
    let (library, oracle) = times_of_list(rows as u32 - 1, table);
    reporter(rows, table)("list of suppliers", library, oracle);
}

/// The times that the list of a row's suppliers takes.
fn times_of_list(row: u32, table: &[u8]) -> (f64, f64) {
    let (mut out, mut oracle_out) = ([0; SUPPLIERS], [0; SUPPLIERS]);
    (
        time(|| pierstride::suppliers(hide(table), row, hide(&mut out[..]))),
        time(|| suppliers_by_marks(hide(table), row, hide(&mut oracle_out[..]))),
    )
}

/// Times the lists of some rows.
fn time_lists(name: &str, table: &[u8]) {
    for row in LISTED {
        let count = suppliers_by_marks(table, row, &mut [0; SUPPLIERS]).expect("a row");
        let (library, oracle) = times_of_list(row, table);
        println!(
            "{row:>4}  {count:>9}  {name:<7}  {library:>10.1}  {oracle:>8.1}  {:>12.2}",
            library / oracle
        );
    }
}

fn time_walk(call: &str, rows: usize, table: &[u8]) {
    let verdict = pierstride::verdict(table, 0, VISITS);
    assert_eq!(verdict, Ok(Verdict::Holds { visits: VISITS }), "a walk that makes every visit");
    reporter(rows, table)(
        call,
        time(|| pierstride::verdict(hide(table), 0, VISITS)) / f64::from(VISITS),
        time(|| pierstride_oracle::verdict(hide(table), 0, VISITS)) / f64::from(VISITS),
    );
}

/// Times the judging of a request, which breaks no constraint.
fn time_judging(call: &str, rows: usize, table: &[u8]) {
    reporter(rows, table)(
        call,
        time(|| pierstride::breaks(hide(table), 0, YES)),
        time(|| pierstride_oracle::breaks(hide(table), 0, YES)),
    );
}

/// Times the writing of a question's file for a solver.
fn time_file(call: &str, rows: usize, table: &[u8]) {
    let (mut out, mut oracle_out) = (vec![0; FILE_BYTES], vec![0; FILE_BYTES]);
    reporter(rows, table)(
        call,
        time(|| pierstride::dimacs(hide(table), 0, hide(&mut out[..]))),
        time(|| pierstride_oracle::dimacs(hide(table), 0, hide(&mut oracle_out[..]))),
    );
}

/// Times the calls that write a table or a text; what the table has stands behind their names.
fn time_calls_that_write(has: &str, rows: usize, table: &[u8]) {
    let text = texts::spelling(table);
    let (mut out, mut oracle_out) = (vec![0; text.len()], vec![0; text.len()]);
    let struck = (0..rows as u32)
        .find(|&row| pierstride_oracle::strike(table, row, &mut out).is_ok())
        .expect("a row that no entry names");
    let report = reporter(rows, table);
    report(
        &format!("strike{has}"),
        time(|| pierstride::strike(hide(table), struck, hide(&mut out))),
        time(|| pierstride_oracle::strike(hide(table), struck, hide(&mut oracle_out))),
    );
    report(
        &format!("to text{has}"),
        time(|| pierstride::to_text(hide(table), hide(&mut out))),
        time(|| pierstride_oracle::to_text(hide(table), hide(&mut oracle_out))),
    );
    report(
        &format!("from text{has}"),
        time(|| pierstride::from_text(hide(&text), hide(&mut out))),
        time(|| pierstride_oracle::from_text(hide(&text), hide(&mut oracle_out))),
    );
}

/// Times the reading of a text of so many lines, those of a table over and over.
fn time_long_text(lines: usize) {
    let once = texts::spelling(&table(ROWS));
    let text = texts::lines(&once).into_iter().cycle().take(lines).collect::<Vec<_>>().concat();
    let library = time(|| pierstride::from_text(hide(&text), &mut [])) / lines as f64;
    let oracle = time(|| pierstride_oracle::from_text(hide(&text), &mut [])) / lines as f64;
    println!(
        "{lines:>7}  {:>8}  from text, a line  {library:>10.1}  {oracle:>8.1}  {:>12.2}",
        text.len(),
        library / oracle
    );
}

/// The nanoseconds that a call takes, in the best of several batches.
fn time<T>(mut call: impl FnMut() -> T) -> f64 {
    let mut batch = |calls: u32| {
        let start = Instant::now();
        (0..calls).for_each(|_| drop(hide(call())));
        start.elapsed()
    };
    let mut calls = 1;
    while batch(calls) < BATCH {
        calls *= 2;
    }
    let best = (0..BATCHES).map(|_| batch(calls)).min().unwrap_or_default();
    best.as_nanos() as f64 / f64::from(calls)
}

/// Hides a value from the optimiser, as `std::hint::black_box` does in later
/// versions of Rust.
fn hide<T>(value: T) -> T {
    let value = ManuallyDrop::new(value);
    // SAFETY: the value is read once, and not dropped where it was.
    unsafe { std::ptr::read_volatile(&*value) }
}
