//! Tables that would do a terminal harm: nothing of them is printed raw, or at length.

use std::ffi::{OsStr, OsString};
use std::os::unix::ffi::{OsStrExt, OsStringExt};

use crate::expected::Request;
use crate::harness::{answer, answer_on, Outcome, Scratch, TABLE_A};
use crate::json::Objects;
use crate::said::{check_harmless, LONGEST};

/// Lines with control characters, escape sequences, what is no UTF-8, and quotes.
fn lines() -> Vec<Vec<u8>> {
    let hostile: [&[u8]; 17] = [
        b"\x1b[31m\x1b[2J",
        b"\x1b]0;title\x07",
        b"\x00\x01\x02\x7f",
        b"\r",
        b"\t",
        b"\x08\x08\x08",
        b"\xff\xfe\x80",
        b"\xc3",
        b"\xed\xa0\x80",
        b"\xc2\x9b31m",
        b"\xe2\x80\xa8",
        b"\xe2\x80\xae",
        b"\xf0\x9f\x97\xba",
        b"`'\"$(reboot)`",
        b"\\n\\x1b",
        b"\"}{\"refused\":0",
        b"%s%n{}",
    ];
    let places = |hostile: &[u8]| {
        [
            [b"deny", hostile, b"\n"].concat(),
            [b"deny\ndeny-if ", hostile, b"\n"].concat(),
            [b"deny\ndeny-if 3", hostile].concat(),
            [b"deny-if 300 ", hostile, b"\n"].concat(),
        ]
    };
    hostile.into_iter().flat_map(places).collect()
}

/// Lines of a megabyte.
fn long_lines() -> Vec<Vec<u8>> {
    let megabyte = 1 << 20;
    vec![
        [&b"d".repeat(megabyte)[..], b"\n"].concat(),
        b"deny".repeat(megabyte / 4),
        [b"deny-if ", &b"3".repeat(megabyte)[..], b"\n"].concat(),
        [b"deny-if ", &b"0".repeat(megabyte)[..], b"\n"].concat(),
        [b"deny", &b" 0".repeat(megabyte / 2)[..], b"\n"].concat(),
        [b"deny-if ", &b"\x1b".repeat(megabyte)[..], b"\n"].concat(),
        [b"deny-if ", &b"\xff".repeat(megabyte)[..], b"\n"].concat(),
        [b"deny-if ", &"é".repeat(megabyte / 2).into_bytes()[..], b"\n"].concat(),
        [b"deny-if 3", &b" ".repeat(megabyte)[..], b"\n"].concat(),
    ]
}

#[test]
fn a_hostile_text_is_refused_in_harmless_words() {
    let mut objects = Objects::default();
    for text in lines().into_iter().chain(long_lines()) {
        let expected = Request::Check.answer(&text);
        let outcome = answer_on(&text, &["check", "-"]);
        expected.check_words(&outcome);
        let with_object = answer_on(&text, &["check", "-", "--json"]);
        let object = expected.check_json(&with_object);
        assert_eq!(with_object.err(), outcome.err());
        let shown = format!("\"{}\"", text[..text.len().min(60)].escape_ascii());
        objects.add(shown, &with_object, object);
    }
    objects.check();
}

/// Arguments that would do a terminal harm if they were printed raw.
const ARGUMENTS: [&[u8]; 6] =
    [b"\x1b[31mred", b"a\nb", b"a\rb", b"\x07", b"\xff\xfe", b"\xc2\x9b31m"];

/// Checks that a complaint comes, of at most so many lines, about each such argument at the
/// end of the others.
fn check_arguments(others: &[&str], lines: usize) {
    let scratch = Scratch::with_examples();
    for argument in ARGUMENTS.map(OsStr::from_bytes) {
        let others: Vec<&OsStr> = others.iter().map(OsStr::new).collect();
        let outcome = scratch.answer(&[&others[..], &[argument]].concat());
        check_complaint(&outcome, lines);
    }
}

fn check_complaint(outcome: &Outcome, lines: usize) {
    assert_eq!((outcome.status, outcome.out()), (3, ""), "{outcome:?}");
    check_harmless(outcome.err(), LONGEST);
    let said = outcome.err().starts_with("desk: ") && outcome.err().lines().count() <= lines;
    assert!(said, "{outcome:?}");
}

#[test]
fn a_hostile_argument_is_said_harmlessly() {
    check_arguments(&[], 2);
    check_arguments(&["check", "-"], 2);
    check_arguments(&["decide", "-"], 2);
    check_arguments(&["decide", TABLE_A[0], "4", "--yes"], 2);
    check_arguments(&["ask", TABLE_A[0], "--budget"], 2);
    check_arguments(&["breaks", TABLE_A[0], "2", "--yes"], 2);
}

#[test]
fn a_hostile_file_name_is_said_harmlessly() {
    check_arguments(&["check"], 1);
    let scratch = Scratch::with_examples();
    for name in ARGUMENTS.map(OsStr::from_bytes) {
        let file = OsString::from_vec([b"none/", name.as_bytes()].concat());
        let others = ["text", TABLE_A[0], "-o"].map(OsStr::new);
        let outcome = scratch.answer(&[&others[..], &[&file]].concat());
        check_complaint(&outcome, 1);
    }
}

#[test]
fn a_long_argument_is_not_said_at_length() {
    let long = "x".repeat(100_000);
    let calls: [&[&str]; 4] = [
        &[&long],
        &["decide", TABLE_A[0], &long],
        &["decide", TABLE_A[0], "4", "--yes", &long],
        &["check", "-", &long],
    ];
    for arguments in calls {
        check_complaint(&answer(arguments), 2);
    }
}
