//! The library's files for a solver, read by real ones: what each says of a question is what
//! the walk says, and the request that it shows breaks the question.
//!
//! They need minisat, cadical, picosat and cryptominisat5, which are started as they are:
//! where the tests run under an emulator, the solvers do not.

use std::collections::BTreeMap;
use std::path::{Path, PathBuf};
use std::process::Command;

use pierstride::{breaks, Verdict};
use pierstride_oracle::cnf::Cnf;
use pierstride_oracle::kinds::{BOTH, COMPARISONS, NOT};
use pierstride_oracle::random::Random;
use pierstride_oracle::tables::{self, Shape};
use pierstride_oracle::{crafted, texts, CONSTRAINTS, PREDICATES};

/// Each solver, and how to have it say no more than its answer.
const SOLVERS: [(&str, &[&str]); 4] = [
    ("minisat", &["-verb=0"]),
    ("cadical", &["-q"]),
    ("picosat", &[]),
    ("cryptominisat5", &["--verb", "0"]),
];

/// How solvers end that have an answer.
const SATISFIABLE: i32 = 10;
const UNSATISFIABLE: i32 = 20;

/// How many random questions are asked.
const QUESTIONS: usize = 400;

/// How many visits a walk may make to say the same.
const BUDGET: u32 = 50_000;

/// With so few predicates every request is judged.
const FEW_PREDICATES: u32 = 8;

const EXAMPLE: &[u8] = include_bytes!("../../examples/districts.txt");

/// A directory for the solvers' files, which is removed again.
struct Scratch(PathBuf);

impl Scratch {
    fn new(name: &str) -> Scratch {
        let name = format!("pierstride-{name}-{}", std::process::id());
        let directory = std::env::temp_dir().join(name);
        std::fs::create_dir_all(&directory).expect("a new directory");
        Scratch(directory)
    }
}

impl Drop for Scratch {
    fn drop(&mut self) {
        drop(std::fs::remove_dir_all(&self.0));
    }
}

/// What a solver says of a file: an assignment that satisfies it, or nothing if there is none.
fn solve((solver, options): (&str, &[&str]), file: &Path) -> Option<Vec<bool>> {
    let mut command = Command::new(solver);
    command.args(options).arg(file);
    // This one says it in a file of its own.
    let own = file.with_extension("model");
    if solver == "minisat" {
        command.arg(&own);
    }
    let output = command.output();
    let output =
        output.unwrap_or_else(|error| panic!("{solver}: {error}; scripts/rust-tests installs it"));
    match output.status.code() {
        Some(UNSATISFIABLE) => None,
        Some(SATISFIABLE) if solver == "minisat" => {
            Some(assignment(&std::fs::read(own).expect("minisat's answer")))
        }
        Some(SATISFIABLE) => Some(assignment(&output.stdout)),
        _ => panic!("{solver} does not take {}: {output:?}", file.display()),
    }
}

/// The assignment that an answer shows: all variables from 1 on in their order, and a 0.
fn assignment(answer: &[u8]) -> Vec<bool> {
    let answer = String::from_utf8_lossy(answer);
    let literals = answer.split_whitespace().filter_map(|word| word.parse::<i32>().ok());
    let literals: Vec<i32> = literals.take_while(|&literal| literal != 0).collect();
    assert!(literals.iter().map(|literal| literal.abs()).eq(1..=literals.len() as i32), "{answer}");
    literals.iter().map(|&literal| literal > 0).collect()
}

/// A question of a table, and what it takes to ask solvers about it.
struct Asked<'a> {
    table: &'a [u8],
    question: u32,
    predicates: u32,
    cnf: Cnf,
    file: PathBuf,
}

impl Asked<'_> {
    fn new<'a>(scratch: &Scratch, table: &'a [u8], question: u32) -> Asked<'a> {
        let predicates = pierstride::read(table).expect("an accepted table").predicates;
        let mut bytes = vec![0; pierstride::FILE_BYTES];
        let length = pierstride::dimacs(table, question, &mut bytes).expect("a question");
        let cnf = Cnf::read(&bytes[..length]).expect("a file as the page says");
        let file = scratch.0.join("question.cnf");
        std::fs::write(&file, &bytes[..length]).expect("a file in a new directory");
        Asked { table, question, predicates, cnf, file }
    }

    /// What all solvers say alike: whether some request breaks the question. What each shows
    /// satisfies the file and breaks the question.
    fn is_broken(&self) -> bool {
        let Asked { table, question, .. } = *self;
        let answers = SOLVERS.map(|solver| {
            let assignment = solve(solver, &self.file);
            if let Some(values) = &assignment {
                assert_eq!(values.len(), self.cnf.variables, "{solver:?}");
                assert!(self.cnf.is_satisfied_by(values), "{solver:?} on {table:02x?}");
                let request = self.request(values);
                let judged = breaks(table, question, request);
                assert_eq!(judged, Ok(true), "{solver:?}, {request:b}: {question}, {table:02x?}");
            }
            assignment.is_some()
        });
        assert!(
            answers.iter().all(|answer| *answer == answers[0]),
            "{answers:?}: question {question} of {table:02x?}"
        );
        answers[0]
    }

    /// The request that an assignment begins with.
    fn request(&self, values: &[bool]) -> u32 {
        (0..self.predicates).filter(|&i| values[i as usize]).fold(0, |mask, i| mask | 1 << i)
    }

    /// Does some request break the question? By the walk, if its budget is enough; by all
    /// requests, if they are few.
    fn is_known_to_break(&self) -> Option<bool> {
        let Asked { table, question, predicates, .. } = *self;
        let by_walk = match pierstride::verdict(table, question, BUDGET).expect("a question") {
            Verdict::Holds { .. } => Some(false),
            Verdict::Fails { .. } => Some(true),
            Verdict::Unfinished { .. } => None,
        };
        if predicates <= FEW_PREDICATES {
            let breaks = |yes| breaks(table, question, yes) == Ok(true);
            assert_eq!(Some((0..1 << predicates).any(breaks)), by_walk, "{table:02x?}");
        }
        by_walk
    }
}

/// The shape of the tables whose rows draw from so many predicates.
fn shape(predicates: usize) -> Shape {
    Shape {
        constraints: &[0, 0, 1, 3, 8, CONSTRAINTS],
        rows: 6..=40,
        questions: 6..=12,
        predicates: predicates..=predicates,
        leaves: 30,
        repeats: 10,
        suppliers: 30,
        ..tables::EMPTY
    }
}

/// The question of this kind, if there is one, whose walk goes on for the longest.
fn hardest(table: &[u8], kind: u8) -> Option<u32> {
    let questions = texts::entries(table).map(|entry| entry[0]);
    let questions =
        questions.filter(|kind| COMPARISONS.contains(kind) || [NOT, BOTH].contains(kind));
    let of_kind = (0..).zip(questions).filter(|(_, found)| *found == kind);
    let visits = |question| match pierstride::verdict(table, question, BUDGET).expect("a question")
    {
        Verdict::Holds { visits } | Verdict::Fails { visits, .. } => visits,
        Verdict::Unfinished { budget } => budget,
    };
    of_kind.map(|(question, _)| question).max_by_key(|&question| visits(question))
}

#[test]
fn solvers_say_what_the_walk_says() {
    let mut random = Random::new(0x4C37);
    let scratch = Scratch::new("random");
    let mut met: BTreeMap<String, usize> = BTreeMap::new();
    let kinds = [COMPARISONS[0], COMPARISONS[1], NOT, BOTH];
    for number in 0..QUESTIONS {
        let (predicates, kind) = (number % (PREDICATES + 1), kinds[number % kinds.len()]);
        let (table, question) =
            std::iter::repeat_with(|| tables::table(&mut random, &shape(predicates)))
                .find_map(|table| hardest(&table, kind).map(|question| (table, question)))
                .expect("a question of every kind");
        let asked = Asked::new(&scratch, &table, question);
        let is_broken = asked.is_broken();
        let known = asked.is_known_to_break();
        assert_eq!(is_broken, known.unwrap_or(is_broken), "question {question} of {table:02x?}");
        let constrained = !texts::split_constraints(&table).0.is_empty();
        for label in [
            format!("kind {kind:02X}, broken {is_broken}"),
            format!("constraints {constrained}, broken {is_broken}"),
            format!("predicates {:02}", asked.predicates),
            format!("known by the walk {}", known.is_some()),
        ] {
            *met.entry(label).or_default() += 1;
        }
    }
    println!("{met:#?}");
    let least = |label: String, least: usize| {
        let count = met.get(&label).copied().unwrap_or(0);
        assert!(count >= least, "{label}: {count}, and not {least}");
    };
    for is_broken in [true, false] {
        kinds.iter().for_each(|kind| least(format!("kind {kind:02X}, broken {is_broken}"), 15));
        for constrained in [true, false] {
            least(format!("constraints {constrained}, broken {is_broken}"), 20);
        }
    }
    (0..=PREDICATES).for_each(|count| least(format!("predicates {count:02}"), 3));
    least("known by the walk true".to_string(), QUESTIONS * 3 / 4);
}

/// The largest files: entries in them name one row twice, so that clauses have a literal
/// twice, or a literal and its negation.
#[test]
fn solvers_take_the_longest_files() {
    let scratch = Scratch::new("longest");
    for table in [crafted::longest_file(), crafted::longest_text(), crafted::parity(24)] {
        let asked = Asked::new(&scratch, &table, 0);
        // A row is at or below itself; so is a parity, and the negation of its negation.
        assert!(!asked.is_broken());
    }
    for count in [1, 12, 24] {
        assert!(Asked::new(&scratch, &crafted::chain(count), 0).is_broken());
        assert!(!Asked::new(&scratch, &crafted::shut_chain(count), 0).is_broken());
    }
}

/// The walk leaves both questions of the example unfinished that the page asks solvers.
#[test]
fn solvers_settle_the_hard_example() {
    let scratch = Scratch::new("example");
    let table = texts::spelled_by(EXAMPLE).expect("a text");
    for (question, is_broken) in [(2, false), (5, true)] {
        let unfinished = Verdict::Unfinished { budget: 1_000_000 };
        assert_eq!(pierstride::verdict(&table, question, 1_000_000), Ok(unfinished));
        assert_eq!(Asked::new(&scratch, &table, question).is_broken(), is_broken);
    }
}
