//! Wrong files for a solver, and wrongly judged requests: the laws reject each, and so do the
//! notebook's cases.

use std::panic::{catch_unwind, set_hook, take_hook, AssertUnwindSafe};

use pierstride_oracle::call::{self, answer, Answer, Call};
use pierstride_oracle::cnf::Cnf;
use pierstride_oracle::kinds::{ONLY_IF, ON_TWO_ROWS};
use pierstride_oracle::random::Random;
use pierstride_oracle::{laws, notebook, read, tables, texts};
use pierstride_oracle::{Refusal, Table, FILE_BYTES};

/// How many tables the laws are tried on.
const TABLES: usize = 60;

/// What is wrong with an implementation, and what it answers.
type Wrong = (&'static str, fn(&[u8], Call) -> Answer);

const WRONG: [Wrong; 23] = [
    ("a sign is wrong", |table, call| {
        file(table, call, |cnf, _| {
            let middle = cnf.clauses.len() / 2;
            cnf.clauses[middle][0] *= -1;
        })
    }),
    ("operands are exchanged", |table, call| match call {
        Call::Dimacs { .. } => answer(&exchanged(table, &ON_TWO_ROWS), call),
        _ => answer(table, call),
    }),
    ("the last clause is missing", |table, call| {
        file(table, call, |cnf, _| drop(cnf.clauses.pop()))
    }),
    ("the last clause says that the question is true", |table, call| {
        file(table, call, |cnf, _| {
            let last = cnf.clauses.len() - 1;
            cnf.clauses[last][0] *= -1;
        })
    }),
    ("the last clause speaks of question 0", |table, call| {
        file(table, call, |cnf, table| {
            let last = cnf.clauses.len() - 1;
            cnf.clauses[last][0] = table.questions.len() as i32 - 1 - cnf.variables as i32;
        })
    }),
    ("51 is the other way round in the file", |table, call| match call {
        Call::Dimacs { .. } => answer(&exchanged(table, &[ONLY_IF]), call),
        _ => answer(table, call),
    }),
    ("constraints are left out of the file", |table, call| {
        file(table, call, |cnf, table| drop(cnf.clauses.drain(..table.constraints.len())))
    }),
    ("the rows' variables begin one too early", |table, call| {
        file(table, call, |cnf, table| {
            let predicates = table.predicates() as i32;
            let literals = cnf.clauses.iter_mut().flatten();
            literals.filter(|literal| literal.abs() > predicates.max(1)).for_each(|literal| {
                *literal -= literal.signum();
            });
        })
    }),
    ("a row's two claims are exchanged", |table, call| {
        file(table, call, |cnf, table| {
            let (predicates, rows) = (table.predicates() as i32, table.rows.len() as i32);
            let claims = predicates + 1..=predicates + 2 * rows;
            for literal in cnf.clauses.iter_mut().flatten() {
                if claims.contains(&literal.abs()) {
                    let other = ((literal.abs() - predicates - 1) ^ 1) + predicates + 1;
                    *literal = other * literal.signum();
                }
            }
        })
    }),
    ("the clauses of the last question are left out", |table, call| {
        file(table, call, |cnf, table| {
            let last = cnf.variables as i32;
            if table.questions.len() > 1 {
                cnf.clauses.retain(|clause| clause.len() == 1 || clause[0].abs() != last);
            }
        })
    }),
    ("a clause too many is announced", |table, call| {
        spelled(table, call, |lines| {
            let (front, count) = lines[0].rsplit_once(' ').expect("a count");
            let count: usize = count.parse().expect("a number");
            lines[0] = format!("{front} {}", count + 1);
        })
    }),
    ("a variable too many is announced", |table, call| {
        file(table, call, |cnf, _| cnf.variables += 1)
    }),
    ("a comment is written", |table, call| {
        spelled(table, call, |lines| lines.insert(0, "c a question".to_owned()))
    }),
    ("two spaces are written", |table, call| {
        spelled(table, call, |lines| lines[1] = lines[1].replace(' ', "  "))
    }),
    ("a short output is refused before a missing question", |table, call| match call {
        Call::Dimacs { room: 0, .. } => refused(11),
        _ => answer(table, call),
    }),
    ("a bit from n up is accepted", |table, call| match call {
        Call::Breaks { question, yes } if yes >> 24 == 0 => {
            let own = read(table).map_or(0, |table| (1 << table.predicates()) - 1);
            answer(table, Call::Breaks { question, yes: yes & own })
        }
        _ => answer(table, call),
    }),
    ("a bit from n - 1 up is refused", |table, call| match call {
        Call::Breaks { yes, .. } => match answer(table, call) {
            Answer::Breaks(_)
                if yes << 1 >> read(table).map_or(0, |table| table.predicates()) != 0 =>
            {
                refused(10)
            }
            other => other,
        },
        _ => answer(table, call),
    }),
    ("a mask is refused before a missing question", |table, call| match call {
        Call::Breaks { yes, .. } if yes >> 24 != 0 => refused(10),
        _ => answer(table, call),
    }),
    ("yes is said where a constraint is broken", |table, call| {
        let (constraints, rest) = texts::split_constraints(table);
        match (call, answer(table, call), answer(rest, call)) {
            (Call::Breaks { .. }, Answer::Breaks(false), Answer::Breaks(without))
                if !constraints.is_empty() =>
            {
                Answer::Breaks(without)
            }
            (_, right, _) => right,
        }
    }),
    ("51 is the other way round in judging", |table, call| match call {
        Call::Breaks { .. } => answer(&exchanged(table, &[ONLY_IF]), call),
        _ => answer(table, call),
    }),
    ("yes and no are exchanged", |table, call| match answer(table, call) {
        Answer::Breaks(breaks) => Answer::Breaks(!breaks),
        other => other,
    }),
    ("every request breaks a question of a table without constraints", |table, call| match answer(
        table, call,
    ) {
        Answer::Breaks(_) if texts::split_constraints(table).0.is_empty() => Answer::Breaks(true),
        other => other,
    }),
    ("no request breaks a question", |table, call| match answer(table, call) {
        Answer::Breaks(_) => Answer::Breaks(false),
        other => other,
    }),
];

fn refused(number: u32) -> Answer {
    Answer::Refused(Refusal { number, place: 0 })
}

/// What a question's file says, changed.
fn file(table: &[u8], call: Call, change: fn(&mut Cnf, &Table)) -> Answer {
    with_file(table, call, |file| {
        let mut cnf = Cnf::read(&file).expect("a right file");
        change(&mut cnf, &read(table).expect("an accepted table"));
        cnf.spelled()
    })
}

/// The lines of a question's file, changed.
fn spelled(table: &[u8], call: Call, change: fn(&mut Vec<String>)) -> Answer {
    with_file(table, call, |file| {
        let file = String::from_utf8(file).expect("a right file");
        let mut lines: Vec<String> = file.lines().map(str::to_owned).collect();
        change(&mut lines);
        lines.iter().flat_map(|line| [line.as_bytes(), b"\n"].concat()).collect()
    })
}

/// The answer to a call, but with another file, if that is what is written. It is given as
/// much room as it takes.
fn with_file(table: &[u8], call: Call, change: impl Fn(Vec<u8>) -> Vec<u8>) -> Answer {
    let (question, room) = match call {
        Call::Dimacs { question, room } => (question, room),
        _ => return answer(table, call),
    };
    match answer(table, Call::Dimacs { question, room: FILE_BYTES }) {
        Answer::Written(file) => match change(file) {
            file if file.len() > room => refused(11),
            file => Answer::Written(file),
        },
        other => other,
    }
}

/// The table with the two numbers of each entry of these kinds exchanged, if it is accepted.
fn exchanged(table: &[u8], kinds: &[u8]) -> Vec<u8> {
    if read(table).is_err() {
        return table.to_vec();
    }
    let exchange = |entry: &[u8]| match *entry {
        [kind, x, y] if kinds.contains(&kind) => vec![kind, y, x],
        _ => entry.to_vec(),
    };
    texts::entries(table).flat_map(exchange).collect()
}

/// Does this panic? What it says is not shown.
fn panics(test: impl FnOnce()) -> bool {
    catch_unwind(AssertUnwindSafe(test)).is_err()
}

/// It is the only test of this file, for meanwhile no panic is shown.
#[test]
fn wrong_implementations_are_rejected() {
    let mut random = Random::new(15);
    let tables: Vec<Vec<u8>> =
        (0..TABLES).map(|_| tables::table(&mut random, &tables::SMALL)).collect();
    let hook = take_hook();
    set_hook(Box::new(|_| {}));
    let mut accepted = Vec::new();
    for (what, mut wrong) in WRONG {
        let mut breaks_laws =
            |table: &Vec<u8>| panics(|| laws::check(&mut wrong, &mut Random::new(16), table));
        let by_laws = tables.iter().filter(|table| breaks_laws(table)).count();
        let by_notebook = panics(|| call::check(notebook::cases(), wrong));
        println!(
            "{what}: by the laws on {by_laws} of {TABLES} tables; by the notebook: {by_notebook}"
        );
        if by_laws == 0 || !by_notebook {
            accepted.push(what);
        }
    }
    let mut right = |table: &[u8], call| answer(table, call);
    let keeps_laws =
        |table: &Vec<u8>| !panics(|| laws::check(&mut right, &mut Random::new(16), table));
    let is_right_accepted = tables.iter().all(keeps_laws);
    set_hook(hook);
    assert!(is_right_accepted);
    assert!(accepted.is_empty(), "not rejected: {accepted:#?}");
}
