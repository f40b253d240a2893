//! A long walk: a terminal sees how far it is and nothing else does, it can be interrupted,
//! and the verdict is the same everywhere.

use std::process::Command;
use std::time::{Duration, Instant};

use pierstride_oracle::{verdict, Verdict};

use crate::expected::{table_of, verdict_words};
use crate::harness::{program, run, Outcome, Scratch};

/// So many visits the walks of `long_walk` make: 2^25 - 1.
const VISITS: u32 = 33_554_431;

/// How soon a program must have ended that is interrupted after a few seconds; the walk
/// itself would take longer.
const SOON: Duration = Duration::from_secs(8);

/// A table whose last question holds, but is unsettled as long as predicate 23 is unknown:
/// each row negates the one before it, and an even one above 0 is compared with row 0.
/// Question 0, a row against itself, is settled at once. The more rows there are, the longer
/// a visit takes.
fn long_walk(last: u32) -> String {
    let negations: String = (0..last).map(|row| format!("negation {row}\n")).collect();
    let always = last + 1;
    format!(
        "grant-if 23\n{negations}deny\n\
         truth-at-or-below {always} {always}\ntruth-at-or-below 0 {last}\n"
    )
}

/// A table whose question 2 fails, after some 262,000 visits, where predicates 0 and 17 are
/// yes: question 0 is unsettled as long as predicate 17 is unknown.
const FAILS_LATE: &str = "\
grant-if 17
grant-if 0
guard 1 0
unspecified
negation 0
negation 4
truth-at-or-below 0 5
truth-at-or-below 2 3
both 0 1
";

/// Runs a command in the directory; in it, `$DESK` is the program.
fn in_shell(scratch: &Scratch, shell: &mut Command) -> Outcome {
    run(shell.current_dir(scratch.path("")).env("DESK", program()).env("SHELL", "/bin/sh"), b"")
}

/// Runs a command with pipes.
fn elsewhere(scratch: &Scratch, command: &str) -> Outcome {
    in_shell(scratch, Command::new("sh").args(["-c", command]))
}

/// Runs a command on a terminal of its own; all that this shows is the output.
fn on_terminal(scratch: &Scratch, command: &str) -> Outcome {
    let outcome = in_shell(scratch, Command::new("script").args(["-qec", command, "/dev/null"]));
    let out = String::from_utf8(outcome.out).expect("a terminal's output is UTF-8");
    Outcome { out: out.replace("\r\n", "\n").into_bytes(), ..outcome }
}

fn long_table(last: u32) -> Scratch {
    let scratch = Scratch::new();
    scratch.write("long.txt", long_walk(last).as_bytes());
    scratch
}

/// The lines of progress on a question, as visits so far and seconds.
fn progress(shown: &str, question: u32) -> Vec<(u32, u32)> {
    let head = format!("question {question}: more than ");
    let pieces = shown.split(&head[..]).skip(1);
    let parts = |piece: &str| {
        let (visits, rest) = piece.split_once(" of at most 33554431 visits, ")?;
        let (seconds, _) = rest.split_once(" s")?;
        Some((visits.parse().ok()?, seconds.parse().ok()?))
    };
    pieces.map(|piece| parts(piece).unwrap_or_else(|| panic!("{piece:?} in {shown:?}"))).collect()
}

/// Checks that progress was shown, and that it grew.
fn check_progress(shown: &str, question: u32) {
    let progress = progress(shown, question);
    assert!(!progress.is_empty(), "{shown:?}");
    assert!(progress[0].1 >= 1, "before the first second: {shown:?}");
    for pair in progress.windows(2) {
        assert!(pair[0].0 <= pair[1].0 && pair[0].1 <= pair[1].1, "{pair:?} in {shown:?}");
    }
    assert!(progress.iter().all(|&(visits, _)| visits < VISITS), "{shown:?}");
}

/// What wipes out a line on a terminal.
const WIPED_OUT: &str = "\r\x1b[K";

/// The verdict on a long walk.
const HOLDS: &str = "holds after 33554431 visits\n";

#[test]
fn a_terminal_sees_how_far_a_walk_is() {
    let scratch = long_table(4);
    let outcome = on_terminal(&scratch, r#""$DESK" ask long.txt 1"#);
    assert_eq!(outcome.status, 0, "{outcome:?}");
    check_progress(outcome.out(), 1);
    assert!(outcome.out().ends_with(HOLDS), "{outcome:?}");
}

#[test]
fn nothing_else_sees_it() {
    let scratch = long_table(2);
    let outcome = elsewhere(&scratch, r#""$DESK" ask long.txt 1"#);
    assert_eq!(outcome, Outcome::answer(0, HOLDS));
    // Standard output is a terminal, and standard error is none.
    let command = r#""$DESK" ask long.txt 1 --budget 9000000 2>errors"#;
    let outcome = on_terminal(&scratch, command);
    assert_eq!(scratch.read("errors"), b"");
    assert_eq!(outcome, Outcome::answer(1, "unfinished after 9000000 visits\n"));
}

#[test]
fn a_walk_can_be_interrupted() {
    let scratch = long_table(40);
    let start = Instant::now();
    let outcome = elsewhere(&scratch, r#"timeout -s INT 1 "$DESK" ask long.txt"#);
    assert!(start.elapsed() < SOON, "{:?}", start.elapsed());
    let verdict = "question 0: holds after 1 visit\n";
    assert_eq!(outcome, Outcome { status: 124, out: verdict.into(), err: Vec::new() });
    assert_eq!(scratch.names(), ["long.txt"]);
}

#[test]
fn a_walk_on_a_terminal_can_be_interrupted() {
    let scratch = long_table(40);
    let start = Instant::now();
    let outcome = on_terminal(&scratch, r#"timeout -s INT 3 "$DESK" ask long.txt >verdicts"#);
    assert!(start.elapsed() < SOON, "{:?}", start.elapsed());
    assert_eq!(outcome.status, 124, "{outcome:?}");
    check_progress(outcome.out(), 1);
    assert_eq!(scratch.read("verdicts"), b"question 0: holds after 1 visit\n");
    assert_eq!(scratch.names(), ["long.txt", "verdicts"]);
}

#[test]
fn a_verdict_is_the_same_on_a_terminal() {
    let table = table_of(FAILS_LATE.as_bytes()).expect("an accepted table");
    let verdict = verdict(&table, 2, u32::MAX).expect("a question of the table");
    let visits = match verdict {
        Verdict::Fails { request: 0x2_0001, visits } => visits,
        other => panic!("{other:?}"),
    };
    let scratch = Scratch::with_examples();
    scratch.write("fails.txt", FAILS_LATE.as_bytes());
    let asked = [
        ("fails.txt".to_string(), 1),
        (format!("fails.txt 2 --budget {}", visits - 1), 1),
        (format!("fails.txt 2 --budget {visits} --json"), 1),
        ("fails.txt 2 --budget 18446744073709551616".to_string(), 1),
        ("fails.txt 0 --budget 1".to_string(), 1),
        ("fails.txt 0 --budget 0".to_string(), 1),
        ("examples/table-a.txt".to_string(), 1),
        ("examples/table-a.bin 1 --json".to_string(), 0),
    ];
    for (asked, status) in asked {
        let command = format!(r#""$DESK" ask {asked}"#);
        let (here, there) = (on_terminal(&scratch, &command), elsewhere(&scratch, &command));
        assert_eq!((there.status, there.err()), (status, ""), "{asked}");
        assert_eq!((here.status, here.err()), (status, ""), "{asked}");
        // On a slow machine the progress may have been shown before, and wiped out.
        let before = here.out().strip_suffix(there.out());
        let before = before.unwrap_or_else(|| panic!("{asked}: {here:?}, but {there:?}"));
        let before = before.replace(WIPED_OUT, "");
        assert!(before.is_empty() || before.contains(" of at most "), "{asked}: {here:?}");
    }
    let outcome = elsewhere(&scratch, r#""$DESK" ask fails.txt 2"#);
    let fails = format!("{}\n", verdict_words(verdict));
    assert_eq!(outcome, Outcome::answer(1, fails));
}
