//! The oracle's files for a solver and the requests that it judges: held to the page,
//! `docs/SOLVERS.md`, and on small tables to every assignment that there is.

mod share;

use std::collections::BTreeMap;

use pierstride_oracle::call::Call;
use pierstride_oracle::calls::random_call;
use pierstride_oracle::cnf::Cnf;
use pierstride_oracle::kinds::{Group, WORDS};
use pierstride_oracle::notebook::{hex, TABLE_A};
use pierstride_oracle::random::Random;
use pierstride_oracle::tables::{self, Mixture, Shape};
use pierstride_oracle::{breaks, clauses, crafted, dimacs, read, supplied, texts};
use pierstride_oracle::{Part, FILE_BYTES, QUESTIONS, ROWS};

use share::Share;

const PAGE: &str = include_str!("../../../docs/SOLVERS.md");

/// The page's letters, by their numbers.
const LETTERS: [&str; 12] = ["", "g", "d", "gx", "dx", "gy", "dy", "p", "r", "t", "x", "y"];

fn file(table: &[u8], question: u32) -> Vec<u8> {
    let mut file = vec![0; FILE_BYTES];
    let length = dimacs(table, question, &mut file).expect("a question of the table");
    file.truncate(length);
    file
}

fn cnf(table: &[u8], question: u32) -> Cnf {
    Cnf::read(&file(table, question)).expect("a file as the page says")
}

/// What stands in backticks on a line, piece by piece.
fn quoted(line: &str) -> Vec<&str> {
    line.split('`').skip(1).step_by(2).collect()
}

/// Of each kind on the page, its word and its clauses.
fn on_the_page() -> BTreeMap<u8, (&'static str, Vec<&'static str>)> {
    let line = |line: &'static str| {
        let mut cells = line.strip_prefix("| ")?.strip_suffix('|')?.split('|');
        let kind = u8::from_str_radix(cells.next()?.trim(), 16).ok()?;
        let word = *quoted(cells.next()?).first()?;
        Some((kind, (word, quoted(cells.next_back()?))))
    };
    PAGE.lines().filter_map(line).collect()
}

#[test]
fn the_page_lists_these_clauses() {
    let page = on_the_page();
    for (kind, word) in WORDS {
        let literal = |&letter: &i8| {
            let sign = if letter < 0 { "-" } else { "" };
            format!("{sign}{}", LETTERS[usize::from(letter.unsigned_abs())])
        };
        let shown = |clause: &&[i8]| clause.iter().map(literal).collect::<Vec<_>>().join(" ");
        let clauses: Vec<String> = clauses(kind).iter().map(shown).collect();
        let (on_page, listed) = &page[&kind];
        assert_eq!(on_page.as_bytes(), word, "kind {kind:02X}");
        assert_eq!(*listed, clauses, "kind {kind:02X}");
    }
    assert_eq!(page.len(), WORDS.len());
    let most = WORDS.map(|(kind, _)| clauses(kind).len()).into_iter().max();
    let longest = WORDS.iter().flat_map(|(kind, _)| clauses(*kind)).map(|clause| clause.len());
    assert_eq!((most, longest.max()), (Some(8), Some(3)));
}

/// The file stands on the page twice: with the entries beside it, and as it is printed.
#[test]
fn the_page_has_the_file_of_table_a() {
    let (_, section) = PAGE.split_once("\n## Table A, question 2\n").expect("the section");
    let (table, rest) = section.split_once("```console\n").expect("what is printed");
    let lines = table.lines().filter(|line| line.starts_with('|')).skip(2);
    let beside: Vec<&str> = lines.flat_map(quoted).collect();
    let (printed, _) = rest.split_once("```\n").expect("its end");
    let (command, printed) = printed.split_once('\n').expect("the command");
    assert_eq!(command, "$ desk solver-file examples/table-a.txt 2");
    assert_eq!(printed.as_bytes(), file(&hex(TABLE_A), 2));
    assert_eq!(printed.lines().collect::<Vec<_>>(), beside);
}

/// Tables with so few variables that every assignment can be tried.
#[rustfmt::skip]
const TINY: Shape =
    Shape { rows: 1..=4, questions: 1..=2, predicates: 0..=3, constraints: &[0, 1, 2, 3], suppliers: 20, ..tables::EMPTY };

/// Every assignment that satisfies a file begins with a request that breaks the question,
/// and each such request begins one, which is what single clauses make of it.
#[test]
fn assignments_are_the_breaking_requests() {
    let mut random = Random::new(12);
    let (mut satisfiable, mut assignments) = (0, 0);
    for _ in 0..300 {
        let table = tables::table(&mut random, &TINY);
        let counts = read(&table).expect("an accepted table");
        for question in 0..counts.questions.len() as u32 {
            let (cnf, predicates) = (cnf(&table, question), counts.predicates());
            let values = |number: u32| -> Vec<bool> {
                (0..cnf.variables).map(|variable| number >> variable & 1 == 1).collect()
            };
            let satisfies = |number: &u32| cnf.is_satisfied_by(&values(*number));
            let found: Vec<u32> = (0..1 << cnf.variables).filter(satisfies).collect();
            let is_breaking = |yes: &u32| breaks(&table, question, *yes) == Ok(true);
            let breaking: Vec<u32> = (0..1 << predicates).filter(is_breaking).collect();
            let mut cut: Vec<u32> =
                found.iter().map(|number| number & ((1 << predicates) - 1)).collect();
            cut.sort_unstable();
            assert_eq!(cut, breaking, "question {question}: {table:02x?}");
            for number in &found {
                let forced = cnf.forced_by(predicates, number & ((1 << predicates) - 1));
                let values = values(*number).into_iter().map(Some).collect();
                assert_eq!(forced, Some(values), "question {question}: {table:02x?}");
            }
            satisfiable += usize::from(!found.is_empty());
            assignments += found.len();
        }
    }
    println!("{satisfiable} files with {assignments} assignments");
    assert!(satisfiable > 80 && assignments > 300);
}

/// Every kind, on rows that take every decision, in files of up to 600 variables: there
/// single clauses tell as much as a solver would.
#[test]
fn files_of_every_kind_say_what_the_question_does() {
    for table in crafted::operators_on_every_set() {
        let counts = read(&table).expect("a table of operators");
        for question in 0..counts.questions.len() as u32 {
            let cnf = cnf(&table, question);
            for yes in [0, 1] {
                let forced = cnf.forced_by(counts.predicates(), yes);
                let is_forced = forced.map(|values| values.iter().all(Option::is_some));
                let expected = breaks(&table, question, yes).expect("a question of the table");
                assert_eq!(is_forced, expected.then_some(true), "{question}: {table:02x?}");
            }
        }
    }
}

/// An entry's clauses go by its kind, its numbers, its own number and the counts. So a file
/// is the longest if no entry of its table can be replaced by one with more to say.
#[test]
fn writes_the_longest_file() {
    let table = crafted::longest_file();
    let longest = cnf(&table, 0);
    assert_eq!((longest.variables, longest.clauses.len()), (600, 2460));
    let lengths: Vec<usize> = (0..QUESTIONS as u32).map(|q| file(&table, q).len()).collect();
    assert_eq!(lengths, [FILE_BYTES; QUESTIONS]);
    assert_eq!(FILE_BYTES, 35_017);
    let entries: Vec<&[u8]> = texts::entries(&table).collect();
    for (place, entry) in entries.iter().enumerate() {
        for other in in_the_place_of(entry, &entries[..place]) {
            let (before, behind) = (entries[..place].concat(), entries[place + 1..].concat());
            let table = [before, other, behind].concat();
            assert!(file(&table, 0).len() <= FILE_BYTES, "{table:02x?}");
        }
    }
}

/// Every entry of the same part that may stand behind these with the highest numbers.
fn in_the_place_of(entry: &[u8], before: &[&[u8]]) -> Vec<Vec<u8>> {
    let part = |entry: &[u8]| Group::of(entry[0]).expect("a listed kind").part;
    let count = |of: Part| before.iter().filter(|entry| part(entry) == of).count();
    let (rows, questions) = (count(Part::Rows), count(Part::Questions));
    let kinds =
        WORDS.map(|(kind, _)| kind).into_iter().filter(|&kind| part(&[kind]) == part(entry));
    let with_numbers = |kind| {
        let group = Group::of(kind).expect("a listed kind");
        let highest = group.limit(rows, questions).checked_sub(1);
        match (group.length, highest) {
            (0, _) => Some(vec![kind]),
            (length, Some(highest)) => Some([vec![kind], vec![highest as u8; length]].concat()),
            (_, None) => None,
        }
    };
    kinds.filter_map(with_numbers).collect()
}

/// The calls that the library is compared with the oracle on.
#[test]
fn random_calls_tell_what_is_judged() {
    let mut random = Random::new(13);
    let mixture = Mixture::default();
    let (mut broken, mut by_constraints) = (Share::default(), Share::default());
    let (mut files, mut suppliers) = (0, 0);
    for _ in 0..4000 {
        let table = mixture.table(&mut random);
        for _ in 0..5 {
            match random_call(&mut random, &table) {
                Call::Breaks { question, yes } => {
                    let judged = breaks(&table, question, yes);
                    broken.count(judged);
                    let (constraints, rest) = texts::split_constraints(&table);
                    if !constraints.is_empty() {
                        let without = breaks(rest, question, yes);
                        by_constraints.count(judged.map(|judged| without != Ok(judged)));
                    }
                }
                Call::Dimacs { question, room }
                    if dimacs(&table, question, &mut vec![0; room]).is_ok() =>
                {
                    files += 1;
                    suppliers += usize::from(supplied::without_suppliers(&table) != table);
                }
                _ => {}
            }
        }
    }
    broken.require(25, "requests that break a question");
    by_constraints.require(15, "requests that constraints speak of");
    println!("{files} files, {suppliers} of tables with suppliers");
    assert!(files > 300 && suppliers > 100);
}

/// As many rows and questions as there may be.
#[test]
fn writes_files_of_full_tables() {
    let mut random = Random::new(14);
    let full = Shape {
        rows: ROWS..=ROWS,
        questions: QUESTIONS..=QUESTIONS,
        predicates: 0..=24,
        ..tables::EMPTY
    };
    for _ in 0..20 {
        let table = tables::table(&mut random, &full);
        for question in [0, 1, 62, 63] {
            let predicates = read(&table).expect("an accepted table").predicates();
            let cnf = cnf(&table, question);
            assert_eq!(cnf.variables, predicates as usize + 2 * ROWS + QUESTIONS);
            let yes = random.mask() & ((1 << predicates) - 1);
            let is_satisfied = cnf.forced_by(predicates, yes).is_some();
            assert_eq!(breaks(&table, question, yes), Ok(is_satisfied));
        }
    }
}
