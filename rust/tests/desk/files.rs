//! What is read: files that are not there or no files, and inputs without an end.

use std::ffi::OsStr;
use std::io::Write;
use std::os::unix::ffi::OsStrExt;

use crate::harness::{answer, desk, outcome, run, shell, spawn, words, Outcome, Scratch};
use crate::harness::{TABLE_A_BYTES, VERBS};

#[test]
fn a_file_that_is_not_there() {
    let scratch = Scratch::new();
    let said = "desk: `none.txt` cannot be read: No such file or directory\n";
    for (verb, rest) in VERBS {
        for option in [None, Some("--json")] {
            let mut arguments = words(verb, "none.txt", rest);
            arguments.extend(option);
            assert_eq!(scratch.answer(&arguments), Outcome::complaint(3, said), "{arguments:?}");
        }
    }
    assert!(scratch.names().is_empty());
}

#[test]
fn a_directory() {
    let scratch = Scratch::with_examples();
    for (verb, rest) in VERBS {
        let outcome = scratch.answer(&words(verb, "examples", rest));
        let said = "desk: `examples` cannot be read: Is a directory\n";
        assert_eq!(outcome, Outcome::complaint(3, said), "{verb}");
    }
}

#[test]
fn a_file_that_may_not_be_read() {
    let scratch = Scratch::new();
    scratch.write("secret.txt", b"deny\n");
    scratch.allow("secret.txt", 0o000);
    let said = "desk: `secret.txt` cannot be read: Permission denied\n";
    scratch.check_as_nobody(&["check", "secret.txt"], Outcome::complaint(3, said));
}

#[test]
fn standard_input_that_is_no_file() {
    let outcome = run(&mut shell(r#""$0" "$@" <examples"#, &["check", "-"]), b"");
    assert_eq!((outcome.status, outcome.out()), (3, ""), "{outcome:?}");
    assert!(outcome.err().ends_with(" cannot be read: Is a directory\n"), "{outcome:?}");
}

#[test]
fn a_file_whose_name_is_no_utf_8() {
    let scratch = Scratch::new();
    let name = OsStr::from_bytes(b"table-\xFF");
    std::fs::write(scratch.path(name), TABLE_A_BYTES[0]).expect("a file in a new directory");
    let outcome = scratch.answer(&[OsStr::new("check"), name]);
    assert_eq!(outcome, Outcome::answer(0, "6 rows, 3 questions, 2 predicates\n"));
}

/// What refuses zeros without an end.
const ENDLESS: &str =
    "refused 6 at byte 256: `00` (unspecified) is a 257th row; a table has at most 256 rows\n";

/// A script that has a minute's time and some gigabytes for a command.
fn limited(command: &str) -> String {
    format!("ulimit -d 4000000; exec timeout 60 {command}")
}

#[test]
fn zeros_without_an_end() {
    let endless = Outcome::complaint(2, ENDLESS);
    for (verb, rest) in VERBS {
        let calls = [(r#""$0" "$@""#, "/dev/zero"), (r#""$0" "$@" </dev/zero"#, "-")];
        for (command, table) in calls {
            let mut shell = shell(&limited(command), &words(verb, table, rest));
            assert_eq!(run(&mut shell, b""), endless, "{verb} {table}");
        }
    }
}

/// Far more than any table or a well-meant text has.
const FAR_TOO_MUCH: usize = 100 << 20;

/// Of bytes without an end, no more are read than it takes to see that they are no table.
#[test]
fn bytes_without_an_end_are_not_all_read() {
    for byte in [0x00, 0x02, 0x12] {
        let mut child = spawn(&mut desk(&["check", "-"]));
        let mut stdin = child.stdin.take().expect("a pipe");
        let part = [byte; 65536];
        let taken =
            (0..=FAR_TOO_MUCH).step_by(part.len()).find(|_| stdin.write_all(&part).is_err());
        drop(stdin);
        let outcome = outcome(child);
        assert_eq!((outcome.status, outcome.out()), (2, ""), "{outcome:?}");
        assert!(taken.is_some(), "{FAR_TOO_MUCH} bytes {byte:02X} were read");
    }
}

/// A misspelt line may come at any place of a text, but texts beyond 64 MiB are not read.
#[test]
fn a_text_without_an_end() {
    let script = limited(r#"sh -c 'yes deny | "$0" "$@"' "$0" "$@""#);
    let outcome = run(&mut shell(&script, &["check", "-"]), b"");
    assert_eq!((outcome.status, outcome.out()), (3, ""), "{outcome:?}");
    let said = outcome.err().starts_with("desk: ") && outcome.err().contains("64 MiB");
    assert!(said && outcome.err().lines().count() == 1, "{outcome:?}");
}

#[test]
fn a_file_that_is_longer_than_any_table() {
    let scratch = Scratch::new();
    let long = [&[0x00; 256][..], &[0x40, 0x00, 0x00].repeat(64), &[0x12; 5000]].concat();
    let file = scratch.write("long", &long);
    let outcome = answer(&["check", &file]);
    let said = "refused 1 at byte 448: `12` is no kind; ";
    assert!(outcome.status == 2 && outcome.err().starts_with(said), "{outcome:?}");
    let long = [&b"deny\n".repeat(300_000)[..], b"grand\n"].concat();
    let file = scratch.write("long", &long);
    let said = "refused 12 at line 300001: `grand` is no word; perhaps `grant` was meant\n";
    assert_eq!(answer(&["check", &file]), Outcome::complaint(2, said));
}
