//! What is written with `-o FILE`: a file is written whole or not at all.

use std::ffi::OsStr;
use std::os::unix::ffi::OsStrExt;
use std::path::Path;

use crate::harness::{answer, run, shell, words, Outcome, Scratch};
use crate::harness::{TABLE_A, TABLE_A_BYTES, VERBS, WRITING};
use crate::json::{filtered, Objects};

/// Table B: its row 0 may be struck.
const TABLE_B: &[u8] = b"unspecified\ngrant\nnegation 1\ntruth-at-or-below 1 2\n";

/// Table B without row 0.
const STRUCK: &[u8] = b"grant\nnegation 0\ntruth-at-or-below 0 1\n";

fn done() -> Outcome {
    Outcome::answer(0, "")
}

/// A directory with table B alone, in a file `b.txt`.
fn with_table_b() -> Scratch {
    let scratch = Scratch::new();
    scratch.write("b.txt", TABLE_B);
    scratch
}

/// The verbs that take `-o`, with their operands for table B.
fn writing() -> impl Iterator<Item = (&'static str, Vec<&'static str>)> {
    let operands =
        |verb, rest: &[_]| words(verb, "b.txt", if rest.is_empty() { &[] } else { &["0"] });
    let verbs = VERBS.into_iter().filter(|(verb, _)| WRITING.contains(verb));
    verbs.map(move |(verb, rest)| (verb, operands(verb, rest)))
}

#[test]
fn a_file_has_what_would_be_printed() {
    for (verb, arguments) in writing() {
        let scratch = with_table_b();
        let printed = scratch.answer(&arguments);
        assert_eq!(printed.status, 0, "{verb}");
        assert!(!printed.out.is_empty(), "{verb}");
        for file in ["new", "b.txt"] {
            let to_file = [&arguments[..], &["-o", file]].concat();
            assert_eq!(scratch.answer(&to_file), done(), "{to_file:?}");
            assert_eq!(scratch.read(file), printed.out, "{to_file:?}");
        }
        assert_eq!(scratch.names(), ["b.txt", "new"], "{verb}");
    }
}

#[test]
fn a_minus_is_standard_output() {
    for (verb, arguments) in writing() {
        let scratch = with_table_b();
        let printed = scratch.answer(&arguments);
        assert!(!printed.out.is_empty(), "{verb}");
        assert_eq!(scratch.answer(&[&arguments[..], &["-o", "-"]].concat()), printed, "{verb}");
        assert_eq!(scratch.names(), ["b.txt"], "{verb}");
    }
}

#[test]
fn an_object_tells_of_the_file() {
    let mut objects = Objects::default();
    for (verb, arguments) in writing() {
        let scratch = with_table_b();
        let outcome = scratch.answer(&[&arguments[..], &["--json", "-o", "new"]].concat());
        assert_eq!((outcome.status, outcome.err()), (0, ""), "{verb}");
        let written = scratch.read("new");
        assert_eq!(written, scratch.answer(&arguments).out, "{verb}");
        objects.add(verb, &outcome, format!(r#"{{"file":"new","length":{}}}"#, written.len()));
    }
    objects.check();
}

#[test]
fn an_object_has_any_file_s_name() {
    let scratch = with_table_b();
    let name = "a \"b\" \\c\\\n\u{1b}[31m\u{7f}é";
    let outcome = scratch.answer(&["bytes", "b.txt", "--json", "-o", name]);
    assert_eq!((outcome.status, outcome.err()), (0, ""));
    assert_eq!(filtered(".file", outcome.out()), name);
    let name = OsStr::from_bytes(b"no-utf-8-\xFF");
    let arguments = ["bytes", "b.txt", "--json", "-o"].map(OsStr::new);
    let outcome = scratch.answer(&[&arguments[..], &[name]].concat());
    assert_eq!((outcome.status, outcome.err()), (0, ""));
    assert_eq!(filtered("[.file, .length] | join(\" \")", outcome.out()), "no-utf-8-\u{fffd} 7");
    assert_eq!(std::fs::read(scratch.path(name)).expect("the file that was written").len(), 7);
}

#[test]
fn the_table_itself_may_be_the_output() {
    let scratch = with_table_b();
    assert_eq!(scratch.answer(&["strike", "b.txt", "0", "-o", "b.txt"]), done());
    assert_eq!(scratch.read("b.txt"), STRUCK);
    assert_eq!(scratch.answer(&["bytes", "b.txt", "-o", "./b.txt"]), done());
    assert_eq!(scratch.read("b.txt"), b"\x02\x20\x00\x40\x00\x01");
    assert_eq!(scratch.answer(&["strike", "-o", "b.txt", "b.txt", "2"]).status, 2);
    assert_eq!(scratch.answer(&["text", "b.txt", "-o", "b.txt"]), done());
    assert_eq!(scratch.read("b.txt"), STRUCK);
    assert_eq!(scratch.names(), ["b.txt"]);
}

#[test]
fn a_refusal_leaves_the_old_file() {
    let refused: [&[&str]; 6] = [
        &["strike", "b.txt", "1"],
        &["solver-file", "b.txt", "1"],
        &["strike", "b.txt", "3"],
        &["picture", "b.txt", "0", "--yes", "24"],
        &["text", "bad"],
        &["bytes", "bad", "--json"],
    ];
    for arguments in refused {
        for file in ["old", "new"] {
            let scratch = with_table_b();
            scratch.write("bad", b"\x12");
            scratch.write("old", b"old bytes");
            let outcome = scratch.answer(&[arguments, &["-o", file]].concat());
            assert_eq!(outcome.status, 2, "{arguments:?}: {outcome:?}");
            assert_eq!(scratch.read("old"), b"old bytes", "{arguments:?}");
            assert_eq!(scratch.names(), ["b.txt", "bad", "old"], "{arguments:?}");
        }
    }
}

/// Checks that nothing was written: this is the directory's content still.
fn check_nothing_written(scratch: &Scratch, outcome: &Outcome, names: &[&str]) {
    assert_eq!((outcome.status, outcome.out()), (3, ""), "{outcome:?}");
    assert_eq!(scratch.read("b.txt"), TABLE_B);
    assert_eq!(scratch.names(), names);
}

#[test]
fn a_file_that_cannot_be_written() {
    for (verb, arguments) in writing() {
        for option in [&[][..], &["--json"]] {
            let scratch = with_table_b();
            let to_nowhere = [&arguments, option, &["-o", "none/new"]].concat();
            let outcome = scratch.answer(&to_nowhere);
            check_nothing_written(&scratch, &outcome, &["b.txt"]);
            let said = "desk: `none/new` cannot be written: No such file or directory\n";
            assert_eq!(outcome.err(), said, "{verb}");
        }
    }
}

#[test]
fn a_file_that_may_not_be_written() {
    let scratch = with_table_b();
    scratch.allow("b.txt", 0o444);
    let forbidden = |file: &str| {
        let said = format!("desk: `{file}` cannot be written: Permission denied\n");
        let arguments = ["strike", "b.txt", "0", "-o", file];
        scratch.check_as_nobody(&arguments, Outcome::complaint(3, said));
        assert_eq!(scratch.read("b.txt"), TABLE_B);
        assert_eq!(scratch.names(), ["b.txt"]);
    };
    // The directory may not be written, and then only the file may not.
    scratch.allow("", 0o755);
    forbidden("b.txt");
    forbidden("new");
    scratch.allow("", 0o777);
    forbidden("b.txt");
}

#[test]
fn a_directory_is_not_written() {
    let scratch = with_table_b();
    std::fs::create_dir(scratch.path("directory")).expect("a new directory");
    for file in ["directory", "directory/", "."] {
        let outcome = scratch.answer(&["text", "b.txt", "-o", file]);
        check_nothing_written(&scratch, &outcome, &["b.txt", "directory"]);
        let said = outcome.err().starts_with(&format!("desk: `{file}` "));
        assert!(said && outcome.err().contains("cannot be written: "), "{file:?}: {outcome:?}");
        let inside = std::fs::read_dir(scratch.path("directory")).expect("the directory");
        assert_eq!(inside.count(), 0, "{file:?}");
    }
}

#[test]
fn a_table_that_cannot_be_read_leaves_the_old_file() {
    let scratch = with_table_b();
    scratch.write("old", b"old bytes");
    for file in ["old", "new", "none"] {
        let outcome = scratch.answer(&["text", "none", "-o", file]);
        check_nothing_written(&scratch, &outcome, &["b.txt", "old"]);
        assert_eq!(scratch.read("old"), b"old bytes");
    }
}

/// A limit on the size of files makes every write to one fail, as a full disk does.
#[test]
fn a_disk_that_is_full_leaves_the_old_file() {
    let scratch = with_table_b();
    let script = r#"trap '' XFSZ; ulimit -f 0; exec "$0" "$@""#;
    for (verb, arguments) in writing() {
        for file in ["b.txt", "new"] {
            let to_file = [&arguments[..], &["-o", file]].concat();
            let mut command = shell(script, &to_file);
            let outcome = run(command.current_dir(scratch.path("")), b"");
            check_nothing_written(&scratch, &outcome, &["b.txt"]);
            let said = format!("desk: `{file}` cannot be written: File too large\n");
            assert_eq!(outcome.err(), said, "{verb}");
        }
    }
}

/// The devices are written to by a user who could not put files in their place.
#[test]
fn a_device_is_written_to_directly() {
    let scratch = with_table_b();
    scratch.allow("", 0o755);
    scratch.allow("b.txt", 0o644);
    for (_, arguments) in writing() {
        let to = |device| [&arguments[..], &["-o", device]].concat();
        scratch.check_as_nobody(&to("/dev/null"), done());
        let said = "desk: `/dev/full` cannot be written: No space left on device\n";
        scratch.check_as_nobody(&to("/dev/full"), Outcome::complaint(3, said));
    }
}

#[test]
fn a_pipe_is_written_to_directly() {
    for (verb, arguments) in writing() {
        let scratch = with_table_b();
        let printed = scratch.answer(&arguments);
        assert!(!printed.out.is_empty(), "{verb}");
        let script = r#"mkfifo pipe && { timeout 10 cat pipe & "$0" "$@" -o pipe; wait; }"#;
        let outcome = run(shell(script, &arguments).current_dir(scratch.path("")), b"");
        assert_eq!(outcome, printed, "{verb}");
        assert_eq!(scratch.names(), ["b.txt", "pipe"], "{verb}");
    }
}

/// Checks that a link is there still and where it leads to.
fn check_link(scratch: &Scratch, link: &str, target: &str) {
    let leads = std::fs::read_link(scratch.path(link));
    assert_eq!(leads.expect("a link that stayed"), Path::new(target));
}

#[test]
fn a_link_stays_and_its_target_is_written() {
    let scratch = with_table_b();
    std::fs::create_dir(scratch.path("far")).expect("a new directory");
    scratch.write("far/old", b"old bytes");
    for (link, target) in [("near", "b.txt"), ("across", "far/old"), ("twice", "near")] {
        std::os::unix::fs::symlink(target, scratch.path(link)).expect("a new link");
    }
    assert_eq!(scratch.answer(&["strike", "b.txt", "0", "-o", "across"]), done());
    assert_eq!(scratch.read("far/old"), STRUCK);
    assert_eq!(scratch.read("b.txt"), TABLE_B);
    assert_eq!(scratch.answer(&["strike", "near", "1", "-o", "near"]).status, 2);
    assert_eq!(scratch.read("b.txt"), TABLE_B);
    assert_eq!(scratch.answer(&["strike", "near", "0", "-o", "twice"]), done());
    assert_eq!(scratch.read("b.txt"), STRUCK);
    check_link(&scratch, "near", "b.txt");
    check_link(&scratch, "across", "far/old");
    check_link(&scratch, "twice", "near");
    assert_eq!(scratch.names(), ["across", "b.txt", "far", "near", "twice"]);
    let far = std::fs::read_dir(scratch.path("far")).expect("the directory");
    assert_eq!(far.count(), 1);
}

#[test]
fn a_link_to_nothing_stays_and_its_target_is_made() {
    let scratch = with_table_b();
    std::os::unix::fs::symlink("new", scratch.path("link")).expect("a new link");
    assert_eq!(scratch.answer(&["strike", "b.txt", "0", "-o", "link"]), done());
    check_link(&scratch, "link", "new");
    assert_eq!(scratch.read("new"), STRUCK);
    assert_eq!(scratch.names(), ["b.txt", "link", "new"]);
}

#[test]
fn a_link_to_itself_stays() {
    let scratch = with_table_b();
    std::os::unix::fs::symlink("link", scratch.path("link")).expect("a new link");
    let why = "desk: `link` cannot be written: Too many levels of symbolic links\n";
    let outcome = scratch.answer(&["strike", "b.txt", "0", "-o", "link"]);
    assert_eq!(outcome, Outcome::complaint(3, why));
    check_link(&scratch, "link", "link");
    assert_eq!(scratch.names(), ["b.txt", "link"]);
}

/// Any name that the disk takes.
#[test]
fn a_file_with_the_longest_name() {
    let scratch = with_table_b();
    let name = "n".repeat(255);
    for _ in ["new", "old"] {
        assert_eq!(scratch.answer(&["strike", "b.txt", "0", "-o", &name]), done());
        assert_eq!(scratch.read(&name), STRUCK);
        assert_eq!(scratch.names(), ["b.txt", &name]);
    }
}

#[test]
fn a_file_in_another_directory() {
    let scratch = with_table_b();
    std::fs::create_dir(scratch.path("far")).expect("a new directory");
    let file = scratch.path("far/new");
    let file = file.to_str().expect("a path in UTF-8");
    assert_eq!(answer(&["text", TABLE_A[0], "-o", file]), done());
    assert_eq!(scratch.read("far/new"), TABLE_A_BYTES[1]);
    assert_eq!(scratch.answer(&["bytes", "b.txt", "-o", "far/new"]), done());
    assert_eq!(scratch.read("far/new"), b"\x00\x02\x20\x01\x40\x01\x02");
    assert_eq!(std::fs::read_dir(scratch.path("far")).expect("the directory").count(), 1);
}
