//! Compares the library with the oracle on random calls, and checks on the
//! library what must be true of any right implementation.
//!
//! One test starts from a fixed seed, the other from the clock or, to repeat a
//! run, from the environment variable `PIERSTRIDE_SEED`.

mod library;

use std::collections::BTreeMap;
use std::time::{Duration, Instant, SystemTime, UNIX_EPOCH};

use pierstride_oracle::call::{self, Answer, Call};
use pierstride_oracle::calls::{random_call, reading_a_text};
use pierstride_oracle::kinds::{COMPARISONS, SUPPLIER};
use pierstride_oracle::random::Random;
use pierstride_oracle::tables::{self, Mixture, Shape};
use pierstride_oracle::{crafted, laws, limits, lines, texts};
use pierstride_oracle::{Verdict, OF_READING, OF_READING_A_TEXT};
use pierstride_oracle::{FILE_BYTES, PREDICATES, QUESTIONS, ROWS, SUPPLIERS};

/// How many random calls each test makes; the laws and walks come on top.
const RANDOM_CALLS: usize = 380_000;
const CALLS_PER_TABLE: usize = 10;
const TABLES_FOR_LAWS: [(usize, Shape); 2] = [(150, tables::SMALL), (50, tables::SMALL_WITH_SETS)];
const TABLES_TO_READ: usize = 2000;
const TABLES_TO_WALK: [(usize, Shape); 2] = [(30, tables::WALKED), (30, tables::WALKED_WITH_SETS)];
const MOST_PREDICATES_WALKED: u8 = 12;
const RANDOM_TEXTS: usize = 20_000;
const MANY_LINES: usize = 1_000_000;

#[test]
fn agrees_from_a_fixed_seed() {
    run("fixed seed", 0x5049_4552);
}

#[test]
fn agrees_from_a_fresh_seed() {
    run("fresh seed", fresh_seed());
}

#[test]
fn agrees_on_every_operator_and_set() {
    let mut comparison = Comparison::default();
    for table in crafted::operators_on_every_set() {
        let counts = pierstride::read(&table).expect("a table of operators");
        for row in 0..counts.rows {
            for (known, yes) in [(0, 0), (1, 0), (1, 1)] {
                comparison.compare(&table, Call::Possible { row, known, yes });
                comparison.compare(&table, Call::Decide { row, yes });
            }
        }
        for question in 0..counts.questions {
            let (budget, room) = (u32::MAX, FILE_BYTES);
            comparison.compare(&table, Call::Verdict { question, budget });
            comparison.compare(&table, Call::Dimacs { question, room });
            for yes in [0, 1, 2] {
                comparison.compare(&table, Call::Breaks { question, yes });
            }
        }
    }
}

/// Chains of constraints of every length, with every budget up to the one that is enough.
#[test]
fn agrees_on_every_chain() {
    let mut comparison = Comparison::default();
    for count in 1..=PREDICATES as u8 {
        for table in [crafted::chain(count), crafted::shut_chain(count)] {
            for budget in 0..=crafted::visits_of_chain(count) {
                comparison.compare(&table, Call::Verdict { question: 0, budget });
            }
            comparison.check_round_trip(&table);
        }
    }
}

/// Rows that reach as many others as they can, and lists of every length.
#[test]
fn agrees_on_every_list_of_suppliers() {
    let mut comparison = Comparison::default();
    let tables = [crafted::chain_of_rows, crafted::ladder_of_rows, crafted::steps_of_rows];
    for table in tables.map(|table| table(ROWS)) {
        for row in 0..=ROWS as u32 {
            for room in [0, row as usize, row as usize + 1, SUPPLIERS] {
                comparison.compare(&table, Call::Suppliers { row, room });
            }
        }
        comparison.check_round_trip(&table);
    }
}

/// The longest file, and files of as many rows and questions as there may be.
#[test]
fn agrees_on_the_longest_files() {
    let mut comparison = Comparison::default();
    for table in [crafted::longest_file(), crafted::longest_text()] {
        let mut file = [0; FILE_BYTES];
        let length = pierstride::dimacs(&table, 0, &mut file).expect("a question of the table");
        for question in 0..=QUESTIONS as u32 {
            for room in [0, length - 1, length, length + 1, FILE_BYTES] {
                comparison.compare(&table, Call::Dimacs { question, room });
            }
        }
    }
    let longest = pierstride::dimacs(&crafted::longest_file(), 63, &mut [0; FILE_BYTES]);
    assert_eq!(longest, Ok(FILE_BYTES));
}

/// A question of tables with every number of predicates, and masks with every bit.
#[test]
fn agrees_on_every_bit_of_a_mask() {
    let mut comparison = Comparison::default();
    for count in 1..=PREDICATES as u8 {
        for table in [crafted::chain(count), crafted::shut_chain(count)] {
            for bit in 0..u32::BITS {
                for yes in [0, 1 << bit, (1 << bit) - 1, u32::MAX >> bit] {
                    for question in [0, 1] {
                        comparison.compare(&table, Call::Breaks { question, yes });
                    }
                }
            }
        }
    }
}

/// Every supplier, named or in force, before every byte and at the end.
#[test]
fn agrees_on_suppliers_before_every_byte() {
    let mut random = Random::new(0x4C36);
    let mut comparison = Comparison::default();
    for supplier in 0..=u8::MAX {
        for next in 0..=u8::MAX {
            for before in [&[][..], &[SUPPLIER, 5, 0], &[0, COMPARISONS[0], 0, 0]] {
                let table = [before, &[SUPPLIER, supplier, next, 0, 0]].concat();
                comparison.compare(&table, Call::Read);
                comparison.compare(&table, random_call(&mut random, &table));
            }
        }
        comparison.check_reading(&mut random, &[SUPPLIER, supplier]);
    }
}

/// Tables at every limit, with suppliers behind as many rows as there may be among them.
#[test]
fn agrees_on_tables_at_every_limit() {
    let mut random = Random::new(0x4C37);
    let mut comparison = Comparison::default();
    for table in limits::tables() {
        comparison.compare(&table, Call::Read);
        (0..CALLS_PER_TABLE).for_each(|_| {
            comparison.compare(&table, random_call(&mut random, &table));
        });
        comparison.check_reading(&mut random, &table);
    }
}

#[test]
fn agrees_on_numbers_around_every_limit() {
    let mut random = Random::new(0x4C31);
    let mut comparison = Comparison::default();
    for probe in limits::probes() {
        for table in probe.variants() {
            comparison.compare(&table, Call::Read);
            comparison.compare(&table, random_call(&mut random, &table));
        }
        comparison.check_reading(&mut random, &probe.table());
    }
}

#[test]
fn agrees_around_every_rule_of_spelling() {
    let mut random = Random::new(0x4C32);
    let mut comparison = Comparison::default();
    for text in lines::texts() {
        comparison.check_text(&mut random, &text);
    }
}

#[test]
fn agrees_on_the_longest_text() {
    let mut comparison = Comparison::default();
    let table = crafted::longest_text();
    comparison.check_round_trip(&table);
    let mut text = [0; pierstride::TEXT_BYTES];
    assert_eq!(pierstride::to_text(&table, &mut text), Ok(text.len()));
    for room in 0..=table.len() + 1 {
        comparison.compare(&text, Call::FromText { room });
    }
    for room in text.len() - 100..=text.len() + 1 {
        comparison.compare(&table, Call::ToText { room });
    }
}

/// The cost of reading a text grows with its length alone. Ten times the lines take
/// about ten times the time, and would take a hundred times if each line cost as much
/// as there are lines; the limit lies between these.
#[test]
fn agrees_on_a_million_lines_in_time() {
    let mut comparison = Comparison::default();
    for (text, refusal) in lines::long(MANY_LINES) {
        let answer = comparison.compare(&text, Call::FromText { room: 0 });
        assert_eq!(answer, Answer::Refused(refusal));
    }
    let [short, long] = [MANY_LINES / 10, MANY_LINES].map(time_to_read);
    println!("{} lines: {short:?}; {MANY_LINES} lines: {long:?}", MANY_LINES / 10);
    assert!(long < 40 * short, "ten times the lines took {short:?} and then {long:?}");
}

/// The best time of several in which the library reads a text of so many lines.
fn time_to_read(count: usize) -> Duration {
    let (text, _) = &lines::long(count)[0];
    let time = |_| {
        let start = Instant::now();
        pierstride::from_text(text, &mut []).expect_err("more lines than a table may have");
        start.elapsed()
    };
    (0..5).map(time).min().unwrap_or_default()
}

fn fresh_seed() -> u64 {
    match std::env::var("PIERSTRIDE_SEED") {
        Ok(seed) => seed.parse().expect("PIERSTRIDE_SEED must be a decimal number"),
        Err(_) => {
            SystemTime::now().duration_since(UNIX_EPOCH).map_or(1, |since| since.as_nanos() as u64)
        }
    }
}

fn run(name: &str, seed: u64) {
    println!("{name}: {seed}");
    let mut random = Random::new(seed);
    let mut comparison = Comparison::default();
    let mixture = Mixture::default();
    make_random_calls(name, &mixture, &mut comparison, &mut random);
    println!("{name}: walks in full");
    walk_in_full(&mut comparison, &mut random);
    println!("{name}: laws, by brute force");
    for (count, shape) in TABLES_FOR_LAWS {
        for _ in 0..count {
            let table = tables::table(&mut random, &shape);
            let mut answer = |table: &[u8], call| comparison.compare(table, call);
            laws::check(&mut answer, &mut random, &table);
        }
    }
    println!("{name}: laws of reading");
    for _ in 0..TABLES_TO_READ {
        let table = mixture.table(&mut random);
        comparison.check_reading(&mut random, &table);
    }
    println!("{name}: texts, and their laws");
    let mixture = texts::Mixture::default();
    for _ in 0..RANDOM_TEXTS {
        let text = mixture.text(&mut random);
        comparison.compare(&text, reading_a_text(&mut random, &text));
        comparison.check_text(&mut random, &text);
    }
    comparison.report(name);
}

fn make_random_calls(
    name: &str,
    mixture: &Mixture,
    comparison: &mut Comparison,
    random: &mut Random,
) {
    for number in 0..RANDOM_CALLS / CALLS_PER_TABLE {
        if number % 2000 == 0 {
            println!("{name}: {} random calls so far", number * CALLS_PER_TABLE);
        }
        let table = mixture.table(random);
        for _ in 0..CALLS_PER_TABLE {
            comparison.compare(&table, random_call(random, &table));
        }
        if pierstride::read(&table).is_ok() {
            comparison.check_round_trip(&table);
        }
    }
}

/// Walks tables in full that have more predicates than the laws can try.
fn walk_in_full(comparison: &mut Comparison, random: &mut Random) {
    for predicates in 0..=MOST_PREDICATES_WALKED {
        let visits = (2 << predicates) - 1;
        let verdict = Answer::Verdict(Verdict::Holds { visits });
        let unfinished = Answer::Verdict(Verdict::Unfinished { budget: visits - 1 });
        let expected = [(visits - 1, unfinished), (visits, verdict.clone()), (u32::MAX, verdict)];
        for (budget, answer) in expected {
            let call = Call::Verdict { question: 0, budget };
            assert_eq!(comparison.compare(&crafted::parity(predicates), call), answer);
        }
    }
    for (count, shape) in TABLES_TO_WALK {
        for _ in 0..count {
            let table = tables::table(random, &shape);
            let call = Call::Verdict { question: 0, budget: u32::MAX };
            comparison.compare(&table, call);
        }
    }
}

/// Compares answers, and counts which were met.
#[derive(Default)]
struct Comparison {
    met: BTreeMap<(&'static str, String), usize>,
}

impl Comparison {
    /// Makes a call on the library, safely and through C, and on the oracle; all
    /// must agree.
    fn compare(&mut self, input: &[u8], call: Call) -> Answer {
        let expected = call::answer(input, call);
        // Bytes that an entry or a line could go on with stand behind the lent input,
        // so that an answer which looked at them would differ.
        let behind = if let Call::FromText { .. } = call { b'\n' } else { 0 };
        let longer = [input, &[behind; 4]].concat();
        let lent = &longer[..input.len()];
        let found = library::answer(lent, call);
        assert_eq!(found, expected, "{}", call.on(input));
        let fields = library::fields(lent, call);
        let expected_fields = library::expected_fields(call, &expected);
        assert_eq!(fields, expected_fields, "{}", call.on(input));
        *self.met.entry((call.name(), expected.label())).or_default() += 1;
        found
    }

    /// Checks the laws of reading on the library's answers.
    fn check_reading(&mut self, random: &mut Random, table: &[u8]) {
        laws::check_reading(&mut |table: &[u8], call| self.compare(table, call), random, table);
    }

    /// Checks on the library's answers that a table's text is read as the table.
    fn check_round_trip(&mut self, table: &[u8]) {
        laws::check_round_trip(&mut |input: &[u8], call| self.compare(input, call), table);
    }

    /// Checks the laws of reading a text on the library's answers.
    fn check_text(&mut self, random: &mut Random, text: &[u8]) {
        laws::check_text(&mut |input: &[u8], call| self.compare(input, call), random, text);
    }

    /// Prints how often each answer was met, and fails if one never was or if
    /// there was any other.
    fn report(mut self, name: &str) {
        let total: usize = self.met.values().sum();
        println!("{name}: {RANDOM_CALLS} random calls, {total} with walks and laws");
        for (call, labels) in every_answer() {
            let mut line = format!("{name}: {call}:");
            for label in labels {
                let count = self.met.remove(&(call, label.clone())).unwrap_or(0);
                assert_ne!(count, 0, "{call} never answered {label:?}");
                line += &format!(" {label}: {count};");
            }
            println!("{line}");
        }
        assert!(self.met.is_empty(), "unexpected answers: {:?}", self.met);
    }
}

/// Every answer that each call may give.
fn every_answer() -> Vec<(&'static str, Vec<String>)> {
    let numbered = |name, numbers: std::ops::Range<u32>| -> Vec<String> {
        numbers.map(|number| format!("{name} {number}")).collect()
    };
    let written = || vec!["written".to_string()];
    let judged = [true, false].map(|breaks| format!("breaks {breaks}"));
    let answers: [(_, Vec<String>, &[u32], &[u32]); 11] = [
        ("read", vec!["accepted".into()], &OF_READING, &[]),
        ("decide", numbered("code", 0..4), &OF_READING, &[8, 10]),
        ("possible", numbered("set", 1..16), &OF_READING, &[8, 10]),
        ("verdict", ["holds", "fails", "unfinished"].map(String::from).into(), &OF_READING, &[8]),
        ("strike", written(), &OF_READING, &[8, 9, 11]),
        ("entry", numbered("part of", 1..4), &OF_READING, &[8]),
        ("suppliers", written(), &OF_READING, &[8, 11]),
        ("dimacs", written(), &OF_READING, &[8, 11]),
        ("breaks", judged.into(), &OF_READING, &[8, 10]),
        ("to text", written(), &OF_READING, &[11]),
        ("from text", written(), &OF_READING_A_TEXT, &[11]),
    ];
    let with_refusals = |(call, mut labels, of_reading, own): (_, Vec<String>, &[u32], &[u32])| {
        let refusals = of_reading.iter().chain(own);
        labels.extend(refusals.map(|number| format!("refusal {number}")));
        (call, labels)
    };
    Vec::from(answers.map(with_refusals))
}
