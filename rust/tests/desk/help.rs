//! What the program says about itself.

use crate::harness::{answer, number_of, Outcome, NUMBER_OPTIONAL, TABLE_A, VERBS, WRITING};
use crate::transcript::{steps, Session};

/// What `desk VERB --help` says.
fn help_of(verb: &str) -> String {
    let outcome = answer(&[verb, "--help"]);
    assert_eq!((outcome.status, outcome.err()), (0, ""), "{verb} --help");
    outcome.out().to_owned()
}

#[test]
fn help_lists_the_verbs() {
    let outcome = answer(&["--help"]);
    assert_eq!((outcome.status, outcome.err()), (0, ""));
    assert_eq!(answer(&["-h"]), outcome);
    for (verb, _) in VERBS {
        let has_line =
            outcome.out().lines().any(|line| line.split_whitespace().any(|word| word == verb));
        assert!(has_line, "{verb} is not in {}", outcome.out());
    }
}

#[test]
fn version_gives_the_version() {
    let outcome = answer(&["--version"]);
    assert_eq!((outcome.status, outcome.err()), (0, ""));
    assert_eq!(answer(&["-V"]), outcome);
    let version = concat!(" ", env!("CARGO_PKG_VERSION"), "\n");
    let has_version = outcome.out().ends_with(version) && outcome.out().lines().count() == 1;
    assert!(has_version, "{outcome:?}");
}

#[test]
fn a_verb_s_help_says_what_it_takes() {
    for (verb, rest) in VERBS {
        let help = help_of(verb);
        let operand = match (rest, NUMBER_OPTIONAL.contains(&verb)) {
            ([], false) => String::new(),
            ([], true) => format!(" [{}]", number_of(verb)),
            _ => format!(" {}", number_of(verb)),
        };
        let usage = format!("usage: desk {verb} TABLE{operand} ");
        assert!(help.starts_with(&usage), "{help}");
        for option in options_of(verb) {
            let listed = help.lines().any(|line| line.starts_with(&format!("  {option} ")));
            let in_usage = help.lines().next().map_or(false, |line| line.contains(option));
            assert!(listed && in_usage, "{option} is not in {help}");
        }
    }
}

/// The options that docs/DESK.md gives to a verb.
fn options_of(verb: &str) -> Vec<&'static str> {
    let of_verb: &[&str] = match verb {
        "decide" | "breaks" | "picture" => &["--yes"],
        "possible" => &["--yes", "--no"],
        "ask" => &["--budget"],
        _ => &[],
    };
    let writing: &[&str] = if WRITING.contains(&verb) { &["-o"] } else { &[] };
    [of_verb, writing, &["--json"]].concat()
}

#[test]
fn a_verb_s_help_stands_anywhere() {
    let help = Outcome::answer(0, help_of("decide"));
    assert!(!help.out.is_empty());
    assert_eq!(answer(&["decide", TABLE_A[0], "4", "--help"]), help);
    assert_eq!(answer(&["decide", TABLE_A[0], "--help"]), help);
}

#[test]
fn a_verb_s_examples_print_what_they_say() {
    for (verb, _) in VERBS {
        let help = help_of(verb);
        let lines = help.lines().zip(1..).skip_while(|(line, _)| !line.starts_with("example"));
        let lines =
            lines.skip(1).filter_map(|(line, number)| Some((number, line.strip_prefix("  ")?)));
        let steps = steps(lines);
        assert!(!steps.is_empty(), "no example in {help}");
        assert!(steps[0].command.contains(&format!("desk {verb} ")), "{}", steps[0].command);
        let mut session = Session::new();
        for step in &steps {
            assert_eq!(session.run(&format!("desk {verb} --help"), step), None);
        }
    }
}
