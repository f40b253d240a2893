//! Numbers beyond what a table can have, and beyond what a machine's numbers hold: they are
//! refused or too large to matter, and never taken for others.

use crate::harness::{answer, words, Outcome, TABLE_A};
use crate::json::Objects;
use crate::said::{self, Said};

/// Each is above every row, question and predicate of table A. Cut to 8, 16, 32, 64 or 128
/// bits, with or without a sign, most would be a number that table A has.
const HUGE: [&str; 12] = [
    "255",
    "256",
    "65536",
    "2147483648",
    "4294967295",
    "4294967296",
    "4294967297",
    "9223372036854775808",
    "18446744073709551615",
    "18446744073709551616",
    "18446744073709551617",
    "340282366920938463463374607431768211456",
];

/// A number with more digits than any machine's number has.
fn longest() -> String {
    "9".repeat(1000)
}

/// Checks that table A brings a refusal: one form of it in words, the other as an object.
fn check_refused(asked: &[&str], said: &Said, objects: &mut Objects) {
    let [in_words, as_object] = TABLE_A.map(|table| words(asked[0], table, &asked[1..]));
    let outcome = answer(&in_words);
    assert_eq!((outcome.status, outcome.out()), (2, ""), "{asked:?}: {outcome:?}");
    said.check(outcome.err());
    let outcome = answer(&[&as_object[..], &["--json"]].concat());
    assert_eq!(outcome.status, 2, "{asked:?}: {outcome:?}");
    let object = said.object(said.check(outcome.err()));
    objects.add(format!("{asked:?}"), &outcome, object);
}

#[test]
fn a_huge_row_is_not_there() {
    let mut objects = Objects::default();
    let verbs = ["decide", "possible", "suppliers", "strike", "picture"];
    for (number, verb) in HUGE.iter().zip(verbs.iter().cycle()) {
        check_refused(&[verb, number], &said::not_there("row", number, 6), &mut objects);
    }
    objects.check();
}

#[test]
fn a_huge_question_is_not_there() {
    let mut objects = Objects::default();
    let verbs = ["ask", "solver-file", "breaks"];
    for (number, verb) in HUGE.iter().zip(verbs.iter().cycle()) {
        let said = said::not_there("question", number, 3);
        check_refused(&[verb, number], &said, &mut objects);
    }
    objects.check();
}

#[test]
fn a_huge_predicate_is_not_there() {
    let options =
        [("decide", "--yes"), ("possible", "--yes"), ("possible", "--no"), ("picture", "--yes")];
    let mut objects = Objects::default();
    let numbers = ["24", "31", "32", "63", "64"].into_iter().chain(HUGE);
    for (number, (verb, option)) in numbers.zip(options.iter().cycle()) {
        let list = format!("0,{number},1");
        let said = said::no_predicate(&[number]);
        check_refused(&[verb, "4", option, &list], &said, &mut objects);
    }
    objects.check();
}

#[test]
fn a_predicate_beyond_the_table_s_is_not_judged() {
    let mut objects = Objects::default();
    for number in ["2", "3", "23", "24", "31", "32"].into_iter().chain(HUGE) {
        let (list, said) = (format!("0,{number},1"), said::not_of_table(&[number], 2));
        check_refused(&["breaks", "2", "--yes", &list], &said, &mut objects);
    }
    objects.check();
}

#[test]
fn a_huge_row_goes_before_a_huge_predicate() {
    for table in TABLE_A {
        let outcome =
            answer(&["decide", table, "18446744073709551616", "--yes", "18446744073709551616"]);
        let said = "refused 8: there is no row 18446744073709551616; the table has rows 0 to 5\n";
        assert_eq!(outcome, Outcome::complaint(2, said));
        let outcome = answer(&["breaks", table, "4294967296", "--yes", "4294967296"]);
        let said = "refused 8: there is no question 4294967296; the table has questions 0 to 2\n";
        assert_eq!(outcome, Outcome::complaint(2, said));
    }
}

#[test]
fn a_huge_budget_is_enough() {
    let fails = "fails at predicates 0 and 1 yes, all others no, after 5 visits\n";
    let longest = longest();
    // Cut to 32 or 64 bits, the last two would be too small.
    let more = ["4294967300", "18446744073709551620", &longest];
    for budget in HUGE.into_iter().chain(more) {
        for table in TABLE_A {
            let outcome = answer(&["ask", table, "2", "--budget", budget]);
            assert_eq!(outcome, Outcome::answer(1, fails), "{budget:.50}");
        }
    }
    let outcome = answer(&["ask", TABLE_A[1], "1", "--budget", &longest, "--json"]);
    let holds = "{\"question\":1,\"verdict\":\"holds\",\"visits\":5}\n";
    assert_eq!(outcome, Outcome::answer(0, holds));
}

#[test]
fn the_longest_number_is_refused() {
    let longest = longest();
    let calls: [(&[&str], &str); 7] = [
        (&["solver-file", TABLE_A[0], &longest], "refused 8: "),
        (&["breaks", TABLE_A[1], "2", "--yes", &longest], "refused 10: "),
        (&["decide", TABLE_A[0], &longest], "refused 8: "),
        (&["strike", TABLE_A[1], &longest], "refused 8: "),
        (&["ask", TABLE_A[1], &longest], "refused 8: "),
        (&["decide", TABLE_A[1], "4", "--yes", &longest], "refused 10: "),
        (&["possible", TABLE_A[0], "4", "--no", &longest], "refused 10: "),
    ];
    for (arguments, said) in calls {
        let outcome = answer(arguments);
        let is_refused = outcome.status == 2 && outcome.err().starts_with(said);
        assert!(is_refused && outcome.out.is_empty(), "{said}: {outcome:?}");
    }
}
