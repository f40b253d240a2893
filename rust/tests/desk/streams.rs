//! Standard output and standard error that cannot be written to.

use std::io::Write;
use std::process::Child;

use crate::harness::{desk, outcome, run, shell, spawn, words, Outcome};
use crate::harness::{TABLE_A, TABLE_A_BYTES, VERBS};

/// Runs the program on an input that comes only when nobody reads its standard output.
fn answer_unread(arguments: &[&str], input: &[u8]) -> Outcome {
    let mut child = spawn(&mut desk(arguments));
    drop(child.stdout.take());
    feed(child, input)
}

/// The same, when nobody reads its standard error.
fn complain_unread(arguments: &[&str], input: &[u8]) -> Outcome {
    let mut child = spawn(&mut desk(arguments));
    drop(child.stderr.take());
    feed(child, input)
}

fn feed(mut child: Child, input: &[u8]) -> Outcome {
    let mut stdin = child.stdin.take().expect("a pipe");
    stdin.write_all(input).expect("an input that is read");
    drop(stdin);
    outcome(child)
}

/// What a verb is asked of a table on standard input so that it answers.
fn asked(verb: &'static str, rest: &[&'static str]) -> (Vec<&'static str>, &'static [u8]) {
    match verb {
        "strike" => (vec![verb, "-", "0"], b"deny\ngrant\n"),
        _ => (words(verb, "-", rest), TABLE_A_BYTES[1]),
    }
}

#[test]
fn nobody_reads_the_answer() {
    let quiet = Outcome::complaint(3, "");
    for (verb, rest) in VERBS {
        let (mut arguments, input) = asked(verb, rest);
        assert_eq!(answer_unread(&arguments, input), quiet, "{verb}");
        arguments.push("--json");
        assert_eq!(answer_unread(&arguments, input), quiet, "{verb} --json");
    }
}

#[test]
fn nobody_reads_the_help() {
    for arguments in [&["--help"][..], &["--version"], &["decide", "--help"]] {
        // The program starts once there is a line to read.
        let mut child = spawn(&mut shell(r#"read line; exec "$0" "$@""#, arguments));
        drop(child.stdout.take());
        assert_eq!(feed(child, b"\n"), Outcome::complaint(3, ""), "{arguments:?}");
    }
}

#[test]
fn nobody_reads_the_refusal() {
    let refused: [(&[&str], &[u8]); 3] = [
        (&["check", "-"], b"grand\n"),
        (&["decide", "-", "1"], b"grant\n"),
        (&["strike", "-", "0"], b"grant\nnegation 0\n"),
    ];
    for (arguments, input) in refused {
        assert_eq!(complain_unread(arguments, input), Outcome::complaint(2, ""), "{arguments:?}");
    }
    let outcome = complain_unread(&["check", "-", "--json"], b"grand\n");
    assert_eq!(outcome.status, 2, "{outcome:?}");
    assert!(outcome.out().starts_with("{\"refused\":12,\"line\":1,"), "{outcome:?}");
}

#[test]
fn there_is_no_room_for_the_answer() {
    for (verb, rest) in VERBS {
        let (mut arguments, input) = asked(verb, rest);
        for option in [None, Some("--json")] {
            arguments.extend(option);
            check_no_room(&arguments, input);
        }
    }
    for arguments in [&["--help"][..], &["--version"], &["decide", "--help"]] {
        check_no_room(arguments, b"");
    }
}

fn check_no_room(arguments: &[&str], input: &[u8]) {
    let outcome = run(&mut shell(r#""$0" "$@" >/dev/full"#, arguments), input);
    assert_eq!(outcome.status, 3, "{arguments:?}: {outcome:?}");
    let said = outcome.err();
    let is_said = said.starts_with("desk: ")
        && said.ends_with(" cannot be written: No space left on device\n")
        && said.lines().count() == 1;
    assert!(is_said, "{arguments:?}: {outcome:?}");
}

#[test]
fn there_is_no_room_for_the_refusal() {
    let script = r#""$0" "$@" 2>/dev/full"#;
    let calls: [(&[&str], i32); 4] = [
        (&["decide", TABLE_A[0], "6"], 2),
        (&["check", "none"], 3),
        (&["decide", TABLE_A[0]], 3),
        (&["xyzzy"], 3),
    ];
    for (arguments, status) in calls {
        let outcome = run(&mut shell(script, arguments), b"");
        assert_eq!(outcome, Outcome::complaint(status, ""), "{arguments:?}");
    }
}

/// A stream that is closed from the start is taken as an empty one, or one that takes all.
#[test]
fn a_stream_is_closed_from_the_start() {
    let counts = |script, table| run(&mut shell(script, &["check", table]), b"");
    let nothing = Outcome::answer(0, "0 rows, 0 questions, 0 predicates\n");
    assert_eq!(counts(r#""$0" "$@" <&-"#, "-"), nothing);
    assert_eq!(counts(r#""$0" "$@" >&-"#, TABLE_A[0]), Outcome::answer(0, ""));
    let refused = run(&mut shell(r#""$0" "$@" 2>&-"#, &["decide", TABLE_A[0], "6"]), b"");
    assert_eq!(refused, Outcome::complaint(2, ""));
}

#[test]
fn a_stream_is_open_the_wrong_way() {
    for (script, table) in
        [(r#""$0" "$@" 0>/dev/null"#, "-"), (r#""$0" "$@" 1</dev/null"#, TABLE_A[0])]
    {
        let outcome = run(&mut shell(script, &["check", table]), b"");
        assert_eq!((outcome.status, outcome.out()), (3, ""), "{script}: {outcome:?}");
        let said = outcome.err().starts_with("desk: ") && outcome.err().contains(" cannot be ");
        assert!(said, "{script}: {outcome:?}");
    }
}

#[test]
fn a_verdict_that_somebody_reads_is_whole() {
    let script = r#""$0" "$@" | head -n 1"#;
    let outcome = run(&mut shell(script, &["ask", TABLE_A[1]]), b"");
    let line = "question 0: fails at predicates 0 and 1 yes, all others no, after 5 visits\n";
    assert_eq!(outcome, Outcome::answer(0, line));
}
