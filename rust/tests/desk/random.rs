//! Random tables and texts, good and damaged: the program answers as the oracle does.
//!
//! One test starts from a fixed seed, the other from the clock or, to repeat a run, from
//! the environment variable `PIERSTRIDE_SEED`.

use std::collections::BTreeMap;
use std::time::{SystemTime, UNIX_EPOCH};

use pierstride_oracle::random::Random;
use pierstride_oracle::{read, tables, texts, verdict, Verdict, TABLE_BYTES};

use crate::expected::{is_text, table_of, text_of, Request, Words};
use crate::harness::{answer_on, VERBS};
use crate::json::Objects;

/// How many inputs each test makes; each is asked about in words and with an object.
const INPUTS: usize = 168;

/// How many visits a walk may take.
const QUICK_WALK: u32 = 2000;

#[test]
fn answers_from_a_fixed_seed() {
    check_met(&check_inputs(0x4445_534B));
}

#[test]
fn answers_from_a_fresh_seed() {
    let seed = match std::env::var("PIERSTRIDE_SEED") {
        Ok(seed) => seed.parse().expect("PIERSTRIDE_SEED must be a decimal number"),
        Err(_) => {
            SystemTime::now().duration_since(UNIX_EPOCH).map_or(1, |since| since.as_nanos() as u64)
        }
    };
    check_inputs(seed);
}

/// Checks the answers on random inputs, and gives back how often each sort of case was met.
fn check_inputs(seed: u64) -> BTreeMap<String, usize> {
    println!("seed {seed}");
    let mut random = Random::new(seed);
    let inputs = Inputs::default();
    let mut objects = Objects::default();
    let mut met = BTreeMap::new();
    for number in 0..INPUTS {
        let input = inputs.input(&mut random, number);
        for with_object in [false, true] {
            let request = request(&mut random, &input, number);
            let label = check_answer(&input, request, with_object, &mut objects);
            *met.entry(label).or_insert(0) += 1;
        }
    }
    objects.check();
    met
}

/// Inputs of every sort to draw from.
#[derive(Default)]
struct Inputs {
    tables: tables::Mixture,
    texts: texts::Mixture,
}

impl Inputs {
    /// An accepted table as bytes or as a text, or what may be damaged.
    fn input(&self, random: &mut Random, number: usize) -> Vec<u8> {
        let shape = &tables::SHAPES[random.below(tables::SHAPES.len())];
        match number % 4 {
            0 => tables::table(random, shape),
            1 => text_of(&tables::table(random, shape)).into_bytes(),
            2 => self.tables.table(random),
            _ => self.texts.text(random),
        }
    }
}

/// A request that suits the input, mostly.
fn request(random: &mut Random, input: &[u8], number: usize) -> Request {
    let table = table_of(input).unwrap_or_default();
    let counts = read(&table).map(|table| (table.rows.len(), table.questions.len()));
    let (rows, questions) = counts.unwrap_or((0, 0));
    let row = near(random, rows);
    let question = near(random, questions);
    let (yes, no) = (mask(random), mask(random));
    match number / 4 % 14 {
        0 => Request::Check,
        1 => Request::Text,
        2 => Request::Bytes,
        3 => Request::Show,
        4 | 5 => Request::Decide { row, yes },
        6 => Request::Possible { row, yes, no: no & !yes },
        7 => Request::Ask { question: None, budget: Some(random.below(300) as u32) },
        8 => Request::Ask { question: Some(question), budget: budget(random, &table, question) },
        9 => Request::Suppliers { row: random.pick(&[Some(row), Some(row), None]) },
        10 => Request::SolverFile { question },
        11 | 12 => Request::Breaks { question, yes: judged_mask(random, &table) },
        _ => Request::Strike { row: unnamed(random, &table, row) },
    }
}

/// Mostly a number below `count`, else the next or a high one.
fn near(random: &mut Random, count: usize) -> u32 {
    match random.below(10) {
        0 => random.pick(&[count as u32, count as u32 + 1, 255, 256, u32::MAX]),
        _ => random.below(count) as u32,
    }
}

/// Mostly predicates that there are, else one more that there is not.
fn mask(random: &mut Random) -> u32 {
    let (half, quarter) = (random.mask(), random.mask() & random.mask());
    let mask = random.pick(&[0, quarter, half]);
    if random.one_in(10) {
        mask | 1 << random.within(&(24..=31))
    } else {
        mask
    }
}

/// Mostly predicates that the table has, else one more that it has not.
fn judged_mask(random: &mut Random, table: &[u8]) -> u32 {
    let own = read(table).map_or(0, |table| table.predicates());
    let mask = random.mask() & ((1 << own) - 1);
    match random.below(4) {
        0 => mask | 1 << random.within(&(own as usize..=31)),
        _ => mask,
    }
}

/// A budget around the exact count of visits, or none, if the walk is quick.
fn budget(random: &mut Random, table: &[u8], question: u32) -> Option<u32> {
    match verdict(table, question, QUICK_WALK) {
        Ok(Verdict::Holds { visits }) | Ok(Verdict::Fails { visits, .. }) => {
            let around = [visits - 1, visits, visits + 1, u32::MAX].map(Some);
            random.pick(&[None, around[0], around[1], around[2], around[3]])
        }
        Ok(Verdict::Unfinished { budget }) => Some(budget),
        Err(_) => None,
    }
}

/// Mostly a row that no other names, if there is one; else the row given.
fn unnamed(random: &mut Random, table: &[u8], row: u32) -> u32 {
    let strikes = |&row: &u32| pierstride_oracle::strike(table, row, &mut [0; TABLE_BYTES]).is_ok();
    match (0..256).find(strikes) {
        Some(unnamed) if !random.one_in(3) => unnamed,
        _ => row,
    }
}

/// Checks the program's answer, and gives back what sort of a case it was.
fn check_answer(
    input: &[u8],
    request: Request,
    with_object: bool,
    objects: &mut Objects,
) -> String {
    let mut arguments = request.arguments();
    let cause = format!("{arguments:?} on \"{}\"", input.escape_ascii());
    let expected = request.answer(input);
    let form = if is_text(input) { "text" } else { "bytes" };
    let how = if matches!(expected.words, Words::Refused(_)) { "refused" } else { "answered" };
    let label = format!("{} {form} {how}", arguments[0]);
    let told = OnPanic(&cause);
    if with_object {
        arguments.push("--json".to_string());
        let outcome = answer_on(input, &arguments);
        let object = expected.check_json(&outcome);
        objects.add(&cause[..], &outcome, object);
    } else {
        expected.check_words(&answer_on(input, &arguments));
    }
    drop(told);
    label
}

/// Tells what was asked if it is dropped by a panic.
struct OnPanic<'a>(&'a str);

impl Drop for OnPanic<'_> {
    fn drop(&mut self) {
        if std::thread::panicking() {
            eprintln!("asked: {}", self.0);
        }
    }
}

/// Every verb must have answered on both forms, and have refused some of each.
fn check_met(met: &BTreeMap<String, usize>) {
    // A picture is held to what Graphviz makes of it, elsewhere.
    let verbs = VERBS.map(|(verb, _)| verb);
    for verb in verbs.into_iter().filter(|verb| *verb != "picture") {
        for form in ["bytes", "text"] {
            let label = format!("{verb} {form} answered");
            assert!(met.contains_key(&label), "never met: {label}; but {met:?}");
        }
    }
    for form in ["bytes", "text"] {
        let refused = format!(" {form} refused");
        let count: usize =
            met.iter().filter(|(label, _)| label.ends_with(&refused)).map(|(_, count)| count).sum();
        assert!(count >= 20, "{count}{refused} of {INPUTS}; {met:?}");
    }
}
