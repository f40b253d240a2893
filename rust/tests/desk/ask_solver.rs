//! `examples/ask-solver`: a question handed to a solver, and the request that it shows judged
//! by the program. Every solver that the page names must be there.

use std::os::unix::fs::PermissionsExt;
use std::path::PathBuf;
use std::process::Command;

use crate::harness::{program, run, Outcome, Scratch, ROOT};

const SOLVERS: [&str; 4] = ["minisat", "cadical", "picosat", "cryptominisat5"];

/// The example, of whose questions 2 holds and 5 fails.
const TABLE: &str = "examples/districts.txt";

/// A directory with the program as `desk`, to be put first on the PATH.
struct Programs(Scratch);

impl Programs {
    fn new() -> Programs {
        let programs = Programs(Scratch::new());
        let desk = program().into_string().expect("the program's path is UTF-8");
        programs.add("desk", &format!("exec '{desk}' \"$@\""));
        programs
    }

    /// Adds a shell script.
    fn add(&self, name: &str, script: &str) {
        self.0.write(name, format!("#!/bin/sh\n{script}\n").as_bytes());
        let mode = std::fs::Permissions::from_mode(0o755);
        std::fs::set_permissions(self.path(name), mode).expect("the test's own file");
    }

    fn path(&self, name: &str) -> PathBuf {
        self.0.path(name)
    }

    /// What the script answers, with these programs before all others.
    fn ask(&self, arguments: &[&str]) -> Outcome {
        let path = std::env::var("PATH").expect("a PATH");
        self.ask_on(&format!("{}:{path}", self.path("").display()), arguments)
    }

    fn ask_on(&self, path: &str, arguments: &[&str]) -> Outcome {
        let mut command = Command::new(format!("{ROOT}/examples/ask-solver"));
        run(command.args(arguments).current_dir(ROOT).env("PATH", path), b"")
    }
}

fn on_its_word(solver: &str, question: u32) -> Outcome {
    let said = "holds, on the word of the solver alone";
    Outcome::answer(0, format!("{solver} says \"unsatisfiable\": question {question} {said}\n"))
}

/// Checks that a solver's request was shown and judged, and gives back its predicates.
fn check_request(outcome: &Outcome, solver: &str, table: &str, question: u32) -> String {
    assert_eq!((outcome.status, outcome.err()), (1, ""), "{outcome:?}");
    let lines: Vec<&str> = outcome.out().lines().collect();
    assert_eq!(lines[0], format!("{solver} says \"satisfiable\", and shows a request:"));
    let command = format!("desk breaks {table} {question} --yes ");
    let list = lines[1].strip_prefix(&command).unwrap_or_else(|| panic!("{outcome:?}"));
    let judged = format!("yes: question {question} is broken, and every constraint kept, at ");
    assert!(lines[2].starts_with(&judged) && lines.len() == 3, "{outcome:?}");
    list.to_owned()
}

#[test]
fn every_solver_is_asked() {
    let programs = Programs::new();
    for solver in SOLVERS {
        assert_eq!(programs.ask(&[TABLE, "2", solver]), on_its_word(solver, 2));
        check_request(&programs.ask(&[TABLE, "5", solver]), solver, TABLE, 5);
        let table = "examples/table-a.txt";
        let outcome = programs.ask(&[table, "2", solver]);
        assert_eq!(check_request(&outcome, solver, table, 2), "0,1");
        assert_eq!(programs.ask(&[table, "1", solver]), on_its_word(solver, 1));
    }
}

#[test]
fn a_request_may_be_without_a_yes() {
    let programs = Programs::new();
    let table = programs.0.write("table", b"\x02\x00\x40\x00\x01");
    for solver in SOLVERS {
        let outcome = programs.ask(&[&table, "0", solver]);
        assert_eq!(check_request(&outcome, solver, &table, 0), "none");
    }
}

#[test]
fn the_first_solver_that_is_installed_is_asked() {
    let programs = Programs::new();
    assert_eq!(programs.ask(&[TABLE, "2"]), on_its_word(SOLVERS[0], 2));
    // A PATH on which there are no solvers but one that says what this test has it say.
    for command in ["awk", "bash", "dirname", "mktemp", "readlink", "rm"] {
        programs.add(command, &format!("exec /usr/bin/{command} \"$@\""));
    }
    let path = programs.path("");
    let path = path.to_str().expect("a path in UTF-8");
    let outcome = programs.ask_on(path, &[TABLE, "2"]);
    assert_eq!((outcome.status, outcome.out()), (3, ""), "{outcome:?}");
    assert!(outcome.err().starts_with("ask-solver: none of minisat cadical "), "{outcome:?}");
    let outcome = programs.ask_on(path, &[TABLE, "2", "cadical"]);
    assert_eq!(outcome, Outcome::complaint(3, "ask-solver: cadical is not installed\n"));
    programs.add("picosat", "echo 's UNSATISFIABLE'; exit 20");
    assert_eq!(programs.ask_on(path, &[TABLE, "2"]), on_its_word("picosat", 2));
}

/// No trust in a solver is left where it shows a request; where it does not, that is told.
#[test]
fn a_solver_that_is_wrong_is_found_out() {
    let programs = Programs::new();
    programs.add("cadical", "echo 's SATISFIABLE'; echo 'v 1 2 -3'; echo 'v 4 0'; exit 10");
    let outcome = programs.ask(&[TABLE, "5", "cadical"]);
    let judged = "no: question 5 is not broken, or a constraint is, at predicates 0, 1 and 3 yes, \
                  all others no\n";
    assert_eq!(outcome.status, 3, "{outcome:?}");
    assert!(outcome.out().ends_with(judged), "{outcome:?}");
    assert!(outcome.err().starts_with("ask-solver: so cadical is wrong, "), "{outcome:?}");
    for (script, status) in [("exit 0", 0), ("echo 's UNKNOWN'", 0), ("exit 1", 1)] {
        programs.add("cadical", script);
        let said = format!("cadical came to no answer (its exit status is {status})\n");
        assert_eq!(programs.ask(&[TABLE, "5", "cadical"]), Outcome::answer(1, said), "{script}");
    }
}

#[test]
fn what_desk_says_is_passed_on() {
    let programs = Programs::new();
    let outcome = programs.ask(&["examples/table-a.txt", "3"]);
    let said = "refused 8: there is no question 3; the table has questions 0 to 2\n";
    assert_eq!(outcome, Outcome::complaint(2, said));
    let table = programs.0.write("bad", b"deny\nnegation 1\n");
    let outcome = programs.ask(&[&table, "0"]);
    let said = "refused 4 at line 2: `negation 1` names row 1; a row may name row 0\n";
    assert_eq!(outcome, Outcome::complaint(2, said));
    let outcome = programs.ask(&["none.txt", "0"]);
    let said = "desk: `none.txt` cannot be read: No such file or directory\n";
    assert_eq!(outcome, Outcome::complaint(3, said));
}

#[test]
fn wrong_usage() {
    let programs = Programs::new();
    let usage = Outcome::complaint(3, "ask-solver: usage: ask-solver TABLE QUESTION [SOLVER]\n");
    for arguments in [&[][..], &[TABLE], &[TABLE, "2", "cadical", "more"]] {
        assert_eq!(programs.ask(arguments), usage, "{arguments:?}");
    }
    for arguments in [&[TABLE, "2", "zchaff"][..], &["-", "2"], &[TABLE, "x"]] {
        let outcome = programs.ask(arguments);
        assert_eq!((outcome.status, outcome.out()), (3, ""), "{arguments:?}: {outcome:?}");
    }
}
