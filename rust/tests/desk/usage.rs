//! Wrong usage: nothing on standard output, words on standard error, and status 3.

use std::ffi::OsStr;
use std::os::unix::ffi::OsStrExt;

use crate::harness::{answer, number_of, words, Outcome, Scratch};
use crate::harness::{NUMBER_OPTIONAL, TABLE_A, VERBS, WRITING};
use crate::said::{check_harmless, LONGEST};

const TABLE: &str = TABLE_A[1];

/// Checks that a call of the program is wrong usage, and gives back what it says.
fn check_wrong<Argument: AsRef<OsStr>>(arguments: &[Argument]) -> String {
    let outcome = answer(arguments);
    let shown: Vec<&OsStr> = arguments.iter().map(AsRef::as_ref).collect();
    assert_eq!((outcome.status, outcome.out()), (3, ""), "{shown:?}: {outcome:?}");
    check_harmless(outcome.err(), LONGEST);
    let says = outcome.err().starts_with("desk: ") && outcome.err().ends_with('\n');
    assert!(says, "{shown:?}: {outcome:?}");
    outcome.err().to_owned()
}

/// The line that says how a verb is used.
fn usage_of(verb: &str) -> String {
    let help = answer(&[verb, "--help"]);
    help.out().lines().next().unwrap_or_default().to_owned()
}

/// Checks that a call of a verb is wrong usage, that all of these are named, and that the
/// verb's usage comes last.
fn check_wrong_verb(arguments: &[&str], named: &[&str]) {
    let says = check_wrong(arguments);
    let (first, last) = says.trim_end().split_once('\n').unwrap_or((&says, ""));
    let usage = format!("usage: desk {} TABLE", arguments[0]);
    assert!(last.starts_with(&usage) && !last.contains('\n'), "{arguments:?}: {says:?}");
    let all = named.iter().all(|name| first.contains(name));
    assert!(all, "{arguments:?}: {first:?} does not name {named:?}");
}

#[test]
fn without_a_verb() {
    let says = check_wrong::<&str>(&[]);
    assert!(says.contains("desk --help lists the verbs\n"), "{says:?}");
    check_wrong(&[""]);
    check_wrong(&["--json"]);
    check_wrong(&["--json", "check", TABLE]);
    check_wrong(&["-"]);
    check_wrong(&[TABLE]);
}

#[test]
fn an_unknown_verb() {
    let near = [
        ("decid", "decide"),
        ("chek", "check"),
        ("pictures", "picture"),
        ("byte", "bytes"),
        ("solver_file", "solver-file"),
        ("break", "breaks"),
    ];
    for (verb, meant) in near {
        let says = format!(
            "desk: there is no verb `{verb}`; perhaps `{meant}` was meant\n\
             desk --help lists the verbs\n"
        );
        assert_eq!(answer(&[verb, TABLE, "4"]), Outcome::complaint(3, says), "{verb}");
    }
    for verb in ["xyzzy", "Check", "--frob", "-x"] {
        let says = check_wrong(&[verb, TABLE]);
        let (first, last) = says.split_once('\n').expect("a line");
        assert!(first.contains(&format!("`{verb}`")), "{says:?}");
        assert_eq!(last, "desk --help lists the verbs\n");
    }
}

#[test]
fn an_unknown_option() {
    for (verb, rest) in VERBS {
        for option in ["--frob", "-x", "--jsn"] {
            let arguments = [words(verb, TABLE, rest), vec![option]].concat();
            check_wrong_verb(&arguments, &[option]);
        }
    }
}

/// Options and values that suit them, and the verbs that take each.
const OPTIONS: [(&[&str], &[&str]); 4] = [
    (&["--yes", "0"], &["decide", "possible", "breaks", "picture"]),
    (&["--no", "0"], &["possible"]),
    (&["--budget", "9"], &["ask"]),
    (&["-o", "none/new"], &WRITING),
];

#[test]
fn an_option_that_another_verb_takes() {
    for (option, takers) in OPTIONS {
        for (verb, rest) in VERBS {
            if !takers.contains(&verb) {
                let arguments = [words(verb, TABLE, rest), option.to_vec()].concat();
                check_wrong_verb(&arguments, &option[..1]);
            }
        }
    }
}

#[test]
fn an_option_twice() {
    for (verb, rest) in VERBS {
        let arguments = [words(verb, TABLE, rest), vec!["--json", "--json"]].concat();
        check_wrong_verb(&arguments, &["--json"]);
    }
    for (option, takers) in OPTIONS {
        for &(verb, rest) in VERBS.iter().filter(|(verb, _)| takers.contains(verb)) {
            let arguments = [&words(verb, TABLE, rest), option, option].concat();
            check_wrong_verb(&arguments, &option[..1]);
        }
    }
}

#[test]
fn an_option_without_its_value() {
    for (option, takers) in OPTIONS {
        for &(verb, rest) in VERBS.iter().filter(|(verb, _)| takers.contains(verb)) {
            let arguments = [&words(verb, TABLE, rest), &option[..1]].concat();
            check_wrong_verb(&arguments, &option[..1]);
        }
    }
}

#[test]
fn a_missing_operand() {
    for (verb, rest) in VERBS {
        let usage = usage_of(verb);
        let complaint =
            |name: &str| Outcome::complaint(3, format!("desk: {name} is missing\n{usage}\n"));
        assert_eq!(answer(&[verb]), complaint("TABLE"));
        assert_eq!(answer(&[verb, "--json"]), complaint("TABLE"));
        if !rest.is_empty() {
            assert_eq!(answer(&[verb, TABLE]), complaint(number_of(verb)));
            assert_eq!(answer(&[verb, "--json", "-"]), complaint(number_of(verb)));
        }
    }
}

#[test]
fn an_operand_too_many() {
    for (verb, rest) in VERBS {
        let is_optional = NUMBER_OPTIONAL.contains(&verb);
        let one_more = if is_optional { &["1", "extra"][..] } else { &["extra"] };
        let arguments = [&words(verb, TABLE, rest), one_more].concat();
        check_wrong_verb(&arguments, &["extra"]);
    }
}

#[test]
fn a_number_that_is_none() {
    for number in ["x", "", "4x", "4.0", "0x4", "4,5", "four", " 4", "4 ", "-1"] {
        for (verb, rest) in VERBS {
            if NUMBER_OPTIONAL.contains(&verb) || !rest.is_empty() {
                check_wrong_verb(&[verb, TABLE, number], &[number]);
            }
        }
        check_wrong_verb(&["ask", TABLE, "--budget", number], &[number]);
    }
    check_wrong_verb(&["decide", TABLE, "٤"], &["ROW"]);
}

#[test]
fn a_list_that_is_none() {
    let lists = [",", "0,", ",0", "0,,1", "0, 1", " 0", "0 1", "x", "0,x", "-1", "0;1", "0-3"];
    for list in lists.into_iter().chain(["None", "none,0", "0,none", "0.5", "all"]) {
        check_wrong_verb(&["decide", TABLE, "4", "--yes", list], &[list]);
        check_wrong_verb(&["possible", TABLE, "4", "--no", list], &[list]);
        check_wrong_verb(&["picture", TABLE, "4", "--yes", list], &[list]);
        check_wrong_verb(&["breaks", TABLE, "2", "--yes", list], &[list]);
    }
}

#[test]
fn a_value_for_what_takes_none() {
    for option in ["--json=", "--json=1", "--help=x"] {
        check_wrong_verb(&["check", TABLE, option], &[]);
    }
}

#[test]
fn a_predicate_that_is_yes_and_no() {
    let usage = "usage: desk possible TABLE ROW [--yes LIST] [--no LIST] [--json]\n";
    let complaint = format!("desk: predicate 1 is given with --yes and with --no\n{usage}");
    for (yes, no) in [("0,1", "1"), ("1", "1"), ("1,2", "0,1"), ("1,3", "22,1,4")] {
        for table in TABLE_A {
            let outcome = answer(&["possible", table, "4", "--no", no, "--yes", yes]);
            assert_eq!(outcome, Outcome::complaint(3, &complaint[..]), "--yes {yes} --no {no}");
        }
    }
    assert_eq!(usage_of("possible") + "\n", usage);
}

#[test]
fn arguments_that_are_no_utf_8() {
    let calls: [&[&str]; 5] = [
        &[],
        &["check"],
        &["decide", TABLE],
        &["decide", TABLE, "4", "--yes"],
        &["ask", TABLE, "--budget"],
    ];
    for arguments in calls {
        let mut arguments: Vec<&OsStr> = arguments.iter().map(OsStr::new).collect();
        arguments.push(OsStr::from_bytes(b"x\xFF\xFE"));
        check_wrong(&arguments);
    }
}

#[test]
fn wrong_usage_brings_no_object_and_no_file() {
    let scratch = Scratch::with_examples();
    let wrong: [&[&str]; 5] = [
        &["text", TABLE, "--json", "-o", "new", "extra"],
        &["solver-file", TABLE, "-o", "new"],
        &["strike", TABLE, "--json", "-o", "new"],
        &["picture", TABLE, "4", "-o", "new", "--yes", "x"],
        &["bytes", TABLE, "-o", "new", "-o", "newer"],
    ];
    for arguments in wrong {
        let outcome = scratch.answer(arguments);
        assert_eq!((outcome.status, outcome.out()), (3, ""), "{arguments:?}");
        assert_eq!(scratch.names(), ["examples"], "{arguments:?}");
    }
}
