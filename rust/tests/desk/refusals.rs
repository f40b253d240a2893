//! Every refusal, of tables in both forms and of what is asked about them.

use pierstride_oracle::call::Call;
use pierstride_oracle::{notebook, spellings};

use crate::expected::{text_of, Request};
use crate::harness::{answer, answer_on, words, Outcome, Scratch, TABLE_A, VERBS};
use crate::json::{quoted, Objects};
use crate::said::MEANT_AS_TEXT;

/// Texts that are refused: the number and line, and the words behind these. They are those
/// of the page, or what these make clear; after an ellipsis stands what must come later.
#[rustfmt::skip]
const OF_TEXTS: &[(&str, u32, usize, &str)] = &[
    ("grant-if 0\ndeny-if 24\n", 3, 2,
     "`deny-if 24` names predicate 24; a row may name predicates 0 to 23"),
    ("grant-if 255\n", 3, 1,
     "`grant-if 255` names predicate 255; a row may name predicates 0 to 23"),
    ("grant-if 0\ndeny\nnegation 2\n", 4, 3,
     "`negation 2` names row 2; a row may name rows 0 to 1"),
    ("deny\nconflation 1\n", 4, 2, "`conflation 1` names row 1; a row may name row 0"),
    ("negation 0\n", 4, 1, "`negation 0` names row 0; …"),
    ("deny\nguard 5 0\n", 4, 2, "`guard 5 0` names row 5; a row may name row 0"),
    ("deny\nguard 0 7\n", 4, 2, "`guard 0 7` names row 7; a row may name row 0"),
    ("deny\nguard 9 8\n", 4, 2, "`guard 9 8` names row 9; a row may name row 0"),
    ("deny\ndeny\ntruth-at-or-below 1 2\n", 4, 3,
     "`truth-at-or-below 1 2` names row 2; …rows 0 to 1"),
    ("deny\nknowledge-at-or-below 255 0\n", 4, 2,
     "`knowledge-at-or-below 255 0` names row 255; …row 0"),
    ("not 0\n", 4, 1, "`not 0` names question 0; …"),
    ("deny\ntruth-at-or-below 0 0\nboth 0 1\n", 4, 3,
     "`both 0 1` names question 1; …question 0"),
    ("deny\ntruth-at-or-below 0 0\nnot 0\nnot 2\n", 4, 4,
     "`not 2` names question 2; …questions 0 to 1"),
    ("deny\ntruth-at-or-below 0 0\ngrant\n", 5, 3,
     "`grant` is a row after a question; all rows stand before all questions"),
    ("deny\ntruth-at-or-below 0 0\ndeny-if 24\n", 5, 3,
     "`deny-if 24` is a row after a question; all rows stand before all questions"),
    ("never-both 3 24\n", 3, 1,
     "`never-both 3 24` names predicate 24; a constraint may name predicates 0 to 23"),
    ("only-if 0 1\nonly-if 99 24\n", 3, 2,
     "`only-if 99 24` names predicate 99; a constraint may name predicates 0 to 23"),
    ("deny\nnever-both 0 1\n", 5, 2,
     "`never-both 0 1` is a constraint after a row; \
      all constraints stand before all rows and questions"),
    ("deny\ntruth-at-or-below 0 0\nonly-if 24 0\n", 5, 3,
     "`only-if 24 0` is a constraint after a question; \
      all constraints stand before all rows and questions"),
    ("deny\ntruth-at-or-below 0 0\nsupplier 5\ndeny\n", 5, 3,
     "`supplier 5` is a supplier after a question; all suppliers stand before all questions"),
    ("supplier 5\nnegation 0\n", 4, 2, "`negation 0` names row 0; …"),
    ("supplier 5\ndeny\nsupplier 6\nnegation 1\n", 4, 4,
     "`negation 1` names row 1; a row may name row 0"),
    ("supplier 0\ndeny\n", 15, 1,
     "`supplier 0` names the supplier in force, which is 0 until one is named; \
      a supplier stands only where it changes"),
    ("supplier 5\ndeny\ndeny\nsupplier 5\ndeny\n", 15, 4,
     "`supplier 5` names the supplier in force; a supplier stands only where it changes"),
    ("supplier 5\ndeny\nsupplier 0\ndeny\nsupplier 0\ndeny\n", 15, 5,
     "`supplier 0` names the supplier in force; a supplier stands only where it changes"),
    ("deny\nsupplier 5\ntruth-at-or-below 0 0\n", 15, 2,
     "`supplier 5` has a question behind it; a supplier stands right before a row"),
    ("supplier 5\nnever-both 0 1\n", 15, 1,
     "`supplier 5` has a constraint behind it; a supplier stands right before a row"),
    ("supplier 5\nsupplier 6\ndeny\n", 15, 1,
     "`supplier 5` has another supplier behind it; a supplier stands right before a row"),
    ("deny\nsupplier 5\n", 15, 2,
     "`supplier 5` has nothing behind it; a supplier stands right before a row"),
    ("suplier 5\ndeny\n", 12, 1, "`suplier 5` …is no word; perhaps `supplier` was meant"),
    ("supplier 256\ndeny\n", 12, 1, "`supplier 256` has the number 256; no number is above 255"),
    ("supplier\ndeny\n", 13, 1, "`supplier` has 0 numbers; `supplier` takes 1 number: supplier"),
    ("grant-if 0\ngrand\n", 12, 2, "`grand` is no word; perhaps `grant` was meant"),
    ("deny\nDeny\n", 12, 2, "`Deny` is no word; …"),
    ("deny\nforbid-if 3\n", 12, 2, "`forbid-if…is no word; …"),
    ("deny\n# harbour sheets\n", 12, 2, "`# harbour sheets` …; …"),
    ("never both 0 1\n", 12, 1, "`never both 0 1` …is no word; perhaps `never-both` was meant"),
    ("only 0 1\n", 12, 1, "`only 0 1` …is no word; …"),
    ("deny-if 256\n", 12, 1, "`deny-if 256` has the number 256; no number is above 255"),
    ("deny 300\n", 12, 1, "`deny 300` has the number 300; no number is above 255"),
    ("deny\ntruth-meet 0 4294967297\n", 12, 2,
     "`truth-meet 0 4294967297` has the number 4294967297; no number is above 255"),
    ("deny-if x 300\n", 12, 1, "`deny-if x 300` has …300; no number is above 255"),
    ("deny-if 0300\n", 12, 1, "`deny-if 0300` has …300…; no number is above 255"),
    ("deny-if 03\n", 13, 1, "`deny-if 03` has the number `03` with a leading zero; write `3`"),
    ("deny-if 00\n", 13, 1, "`deny-if 00` has the number `00` with a leading zero; write `0`"),
    ("grant-if 0\nnegation\n", 13, 2, "`negation` has 0 numbers; `negation` takes 1 number: row"),
    ("truth-meet 0\n", 13, 1,
     "`truth-meet 0` has 1 number; `truth-meet` takes 2 numbers: row, row"),
    ("deny-if 3 4\n", 13, 1, "`deny-if 3 4` has 2 numbers; `deny-if` takes 1 number: predicate"),
    ("both 1 2 3\n", 13, 1,
     "`both 1 2 3` has 3 numbers; `both` takes 2 numbers: question, question"),
    ("only-if 3\n", 13, 1,
     "`only-if 3` has 1 number; `only-if` takes 2 numbers: predicate, predicate"),
    ("not\n", 13, 1, "`not` has 0 numbers; `not` takes 1 number: question"),
    ("deny 3\n", 13, 1, "`deny 3` has 1 number; `deny` takes …"),
    ("grant\nnegation 0", 13, 2,
     "`negation 0` has no line feed behind it; every line ends with one, the last too"),
    ("deny-if  3\n", 13, 1, "`deny-if  3` …"),
    ("deny-if 3 \n", 13, 1, "`deny-if 3 ` …"),
    ("deny-if x\n", 13, 1, "`deny-if x` …`x`…"),
    ("deny-if -3\n", 13, 1, "`deny-if -3` …`-3`…"),
    ("deny-if 3 # pilots\n", 13, 1, "`deny-if 3 # pilots` …"),
];

/// Tables' bytes that are refused, in hex; all else as above.
#[rustfmt::skip]
const OF_BYTES: &[(&str, u32, usize, &str)] = &[
    ("12", 1, 0, NO_KIND_12),
    ("00 FF", 1, 1,
     "`FF` is no kind; the kinds are 00 to 03, 10, 11, 20 to 23, 30 to 35, 38 to 3B, 40 to 43, \
      50, 51, 60"),
    ("33 00", 2, 0,
     "`33 00` (knowledge-join) is cut short; `knowledge-join` takes 2 numbers: row, row"),
    ("00 3B", 2, 1,
     "`3B` (override-conflict) is cut short; `override-conflict` takes 2 numbers: row, row"),
    ("11", 2, 0, "`11` (grant-if) is cut short; `grant-if` takes 1 number: predicate"),
    ("00 22", 2, 1, "`22` (closed-default) is cut short; `closed-default` takes 1 number: row"),
    ("00 40 00 00 42", 2, 4, "`42` (not) is cut short; `not` takes 1 number: question"),
    ("00 40 00 00 43 07", 2, 4,
     "`43 07` (both) is cut short; `both` takes 2 numbers: question, question"),
    ("50 07", 2, 0,
     "`50 07` (never-both) is cut short; `never-both` takes 2 numbers: predicate, predicate"),
    ("51 00 18", 3, 2,
     "`51 00 18` (only-if 0 24) names predicate 24; a constraint may name predicates 0 to 23"),
    ("00 10 18", 3, 2,
     "`10 18` (deny-if 24) names predicate 24; a row may name predicates 0 to 23"),
    ("11 FF", 3, 1,
     "`11 FF` (grant-if 255) names predicate 255; a row may name predicates 0 to 23"),
    ("00 30 00 05", 4, 3, "`30 00 05` (truth-meet 0 5) names row 5; a row may name row 0"),
    ("00 30 06 05", 4, 2, "`30 06 05` (truth-meet 6 5) names row 6; a row may name row 0"),
    ("00 00 00 3A 0A 00", 4, 4,
     "`3A 0A 00` (override-grant 10 0) names row 10; a row may name rows 0 to 2"),
    ("20 00", 4, 1, "`20 00` (negation 0) names row 0; …"),
    ("00 40 00 01", 4, 3, "`40 00 01` (truth-at-or-below 0 1) names row 1; …row 0"),
    ("42 00", 4, 1, "`42 00` (not 0) names question 0; …"),
    ("00 40 00 00 43 00 01", 4, 6, "`43 00 01` (both 0 1) names question 1; …question 0"),
    ("00 40 00 00 00", 5, 4,
     "`00` (unspecified) is a row after a question; all rows stand before all questions"),
    ("00 40 00 00 20 05", 5, 4,
     "`20 05` (negation 5) is a row after a question; all rows stand before all questions"),
    ("51 00 01 00 50 00 01", 5, 4,
     "`50 00 01` (never-both 0 1) is a constraint after a row; \
      all constraints stand before all rows and questions"),
    ("00 51 07", 5, 1,
     "`51 07` (only-if) is a constraint after a row; \
      all constraints stand before all rows and questions"),
    ("00 40 00 00 51 18 18", 5, 4,
     "`51 18 18` (only-if 24 24) is a constraint after a question; \
      all constraints stand before all rows and questions"),
    ("00 60", 2, 1, "`60` (supplier) is cut short; `supplier` takes 1 number: supplier"),
    ("60 05 20", 2, 2, "`20` (negation) is cut short; `negation` takes 1 number: row"),
    ("60 05 00 60 06 30 00 01", 4, 7,
     "`30 00 01` (truth-meet 0 1) names row 1; a row may name row 0"),
    ("60 00 00", 15, 0,
     "`60 00` (supplier 0) names the supplier in force, which is 0 until one is named; \
      a supplier stands only where it changes"),
    ("60 05 00 60 05 40", 15, 3,
     "`60 05` (supplier 5) names the supplier in force; a supplier stands only where it changes"),
    ("60 05 40", 15, 0,
     "`60 05` (supplier 5) has a question behind it; a supplier stands right before a row"),
    ("60 05 50 00 01", 15, 0,
     "`60 05` (supplier 5) has a constraint behind it; a supplier stands right before a row"),
    ("60 05 60 06 00", 15, 0,
     "`60 05` (supplier 5) has another supplier behind it; a supplier stands right before a row"),
    ("60 05 12", 15, 0,
     "`60 05` (supplier 5) has what is no kind behind it; a supplier stands right before a row"),
    ("60 05", 15, 0,
     "`60 05` (supplier 5) has nothing behind it; a supplier stands right before a row"),
    ("00 40 00 00 60", 5, 4,
     "`60` (supplier) is a supplier after a question; \
      all suppliers stand before all questions"),
];

const NO_KIND_12: &str =
    "`12` is no kind; the kinds are 00 to 03, 10, 11, 20 to 23, 30 to 35, 38 to 3B, 40 to 43, 50, 51, \
     60";

/// Checks the words of a refusal, in which what an ellipsis stands for may be anything.
fn check_message(said: &str, pattern: &str) {
    let (first, rest) = pattern.split_once('…').unwrap_or((pattern, ""));
    if first == pattern {
        return assert_eq!(said, pattern);
    }
    let mut behind = said.strip_prefix(first).unwrap_or_else(|| panic!("{said:?}: {pattern:?}"));
    assert!(!behind.is_empty(), "{said:?} does not say what is allowed: {pattern:?}");
    for part in rest.split('…') {
        let place = behind.find(part).unwrap_or_else(|| panic!("{said:?}: {pattern:?}"));
        behind = &behind[place + part.len()..];
    }
}

/// Checks a refusal in words and with an object, which goes to the others.
fn check_refusal(input: &[u8], head: &str, keys: &str, pattern: &str, objects: &mut Objects) {
    let outcome = answer_on(input, &["check", "-"]);
    let said = outcome.err().strip_prefix(head).and_then(|said| said.strip_suffix('\n'));
    let said = said.unwrap_or_else(|| panic!("{pattern:?}, but {outcome:?}"));
    assert_eq!((outcome.status, outcome.out()), (2, ""), "{pattern:?}");
    check_message(said, pattern);
    let with_object = answer_on(input, &["check", "-", "--json"]);
    assert_eq!((with_object.status, with_object.err()), (2, outcome.err()), "{pattern:?}");
    objects.add(pattern, &with_object, format!("{{{keys},\"message\":{}}}", quoted(said)));
}

#[test]
fn a_text_is_refused_in_words() {
    let rows = "deny\n".repeat(256);
    let questions = "deny\n".to_string() + &"truth-at-or-below 0 0\n".repeat(64);
    let constraints = "only-if 0 1\n".repeat(32);
    let too_many = [
        (
            rows + "deny-if 24\n",
            6,
            257,
            "`deny-if 24` is a 257th row; a table has at most 256 rows",
        ),
        (
            questions + "not 99\n",
            7,
            66,
            "`not 99` is a 65th question; a table has at most 64 questions",
        ),
        (
            constraints + "never-both 24 0\n",
            14,
            33,
            "`never-both 24 0` is a 33rd constraint; a table has at most 32 constraints",
        ),
    ];
    let too_many =
        too_many.iter().map(|(text, number, line, said)| (&text[..], *number, *line, *said));
    let mut objects = Objects::default();
    for (text, number, line, said) in OF_TEXTS.iter().copied().chain(too_many) {
        let head = format!("refused {number} at line {line}: ");
        let keys = format!(r#""refused":{number},"line":{line}"#);
        check_refusal(text.as_bytes(), &head, &keys, said, &mut objects);
    }
    objects.check();
}

#[test]
fn bytes_are_refused_in_words() {
    let rows = "00 ".repeat(256);
    let questions = "00 ".to_string() + &"40 00 00 ".repeat(64);
    let constraints = "50 00 01 ".repeat(32);
    let too_many = [
        (rows + "00", 6, 256, "`00` (unspecified) is a 257th row; a table has at most 256 rows"),
        (
            questions + "42 FF",
            7,
            193,
            "`42 FF` (not 255) is a 65th question; a table has at most 64 questions",
        ),
        (
            constraints + "51 01 02",
            14,
            96,
            "`51 01 02` (only-if 1 2) is a 33rd constraint; a table has at most 32 constraints",
        ),
    ];
    let too_many =
        too_many.iter().map(|(hex, number, byte, said)| (&hex[..], *number, *byte, *said));
    let mut objects = Objects::default();
    for (hex, number, byte, said) in OF_BYTES.iter().copied().chain(too_many) {
        let head = format!("refused {number} at byte {byte}: ");
        let keys = format!(r#""refused":{number},"byte":{byte}"#);
        check_refusal(&notebook::hex(hex), &head, &keys, said, &mut objects);
    }
    objects.check();
}

#[test]
fn every_spelling_is_refused_where_it_is() {
    for (text, call, _) in spellings::cases() {
        if let Call::FromText { .. } = call {
            let outcome = answer_on(&text, &["check", "-"]);
            Request::Check.answer(&text).check_words(&outcome);
        }
    }
}

/// Beginnings that no text has, but a file that was meant as one may have.
const MEANT_AS_TEXTS: [&str; 11] = [
    "Grant-if 0\n",
    "Closed-default 2\n",
    "Both 0 1\n",
    "GRANT\n",
    "\u{feff}grant-if 0\n",
    " grant-if 0\n",
    "\tgrant-if 0\n",
    "\ngrant-if 0\n",
    "# harbour sheets\ngrant-if 0\n",
    "0 grant-if 0\n",
    "\"grant-if 0\"\n",
];

#[test]
fn bytes_that_seem_to_be_a_text_are_refused_with_a_hint() {
    let mut objects = Objects::default();
    for text in MEANT_AS_TEXTS {
        let expected = Request::Check.answer(text.as_bytes());
        let outcome = answer_on(text.as_bytes(), &["check", "-"]);
        expected.check_words(&outcome);
        let last = outcome.err().lines().last().unwrap_or_default();
        assert!(last.starts_with(MEANT_AS_TEXT), "{text:?}: {outcome:?}");
        let outcome = answer_on(text.as_bytes(), &["check", "-", "--json"]);
        objects.add(text, &outcome, expected.check_json(&outcome));
    }
    objects.check();
}

#[test]
fn bytes_that_seem_to_be_none_are_refused_without_a_hint() {
    for hex in ["12", "33 00", "00 30 00 05", "11 18", "00 40 00 00 00", "00 FF"] {
        let outcome = answer_on(&notebook::hex(hex), &["check", "-"]);
        assert_eq!((outcome.status, outcome.out()), (2, ""), "{hex}: {outcome:?}");
        assert_eq!(outcome.err().lines().count(), 1, "{hex}: {outcome:?}");
    }
}

#[test]
fn every_verb_gives_the_table_s_refusal_first() {
    let scratch = Scratch::new();
    let message = "refused 3 at line 2: `deny-if 24` names predicate 24; a row may name \
                   predicates 0 to 23\n";
    let text = scratch.write("text", b"grant-if 0\ndeny-if 24\n");
    let bytes = scratch.write("bytes", b"\x12");
    let files =
        [(text, message.to_string()), (bytes, format!("refused 1 at byte 0: {NO_KIND_12}\n"))];
    for (file, message) in &files {
        for (verb, rest) in VERBS {
            let expected = Outcome::complaint(2, &message[..]);
            assert_eq!(answer(&words(verb, file, rest)), expected, "{verb}");
        }
        // Before a row or question that is not there, and a predicate that there is not.
        let asked = ["decide 99 --yes 99", "possible 99 --no 99", "strike 99", "ask 99"];
        let more = ["suppliers 99", "solver-file 99", "breaks 99 --yes 99"];
        for asked in asked.into_iter().chain(more) {
            let asked: Vec<&str> = asked.split(' ').collect();
            let outcome = answer(&words(asked[0], file, &asked[1..]));
            assert_eq!(outcome, Outcome::complaint(2, &message[..]), "{asked:?}");
        }
    }
}

/// What is asked about table A in vain, and the words of the refusal.
#[rustfmt::skip]
const IN_VAIN: [(&str, &str); 24] = [
    ("decide 6", "8: there is no row 6; the table has rows 0 to 5"),
    ("possible 6", "8: there is no row 6; the table has rows 0 to 5"),
    ("suppliers 6", "8: there is no row 6; the table has rows 0 to 5"),
    ("strike 6", "8: there is no row 6; the table has rows 0 to 5"),
    ("picture 6", "8: there is no row 6; the table has rows 0 to 5"),
    ("picture 256 --yes 0", "8: there is no row 256; the table has rows 0 to 5"),
    ("ask 3", "8: there is no question 3; the table has questions 0 to 2"),
    ("ask 3 --budget 0", "8: there is no question 3; the table has questions 0 to 2"),
    ("solver-file 3", "8: there is no question 3; the table has questions 0 to 2"),
    ("breaks 3", "8: there is no question 3; the table has questions 0 to 2"),
    ("breaks 3 --yes 2", "8: there is no question 3; the table has questions 0 to 2"),
    ("breaks 3 --yes 24", "8: there is no question 3; the table has questions 0 to 2"),
    ("breaks 2 --yes 0,2,1", "10: there is no predicate 2; the table has predicates 0 to 1"),
    ("breaks 2 --yes 23", "10: there is no predicate 23; the table has predicates 0 to 1"),
    ("breaks 2 --yes 0,31", "10: there is no predicate 31; the table has predicates 0 to 1"),
    ("decide 6 --yes 24", "8: there is no row 6; the table has rows 0 to 5"),
    ("possible 6 --yes 24", "8: there is no row 6; the table has rows 0 to 5"),
    ("picture 6 --yes 24", "8: there is no row 6; the table has rows 0 to 5"),
    ("decide 4 --yes 3,30", "10: there is no predicate 30; the predicates are 0 to 23"),
    ("possible 4 --yes 24", "10: there is no predicate 24; the predicates are 0 to 23"),
    ("possible 4 --yes 0 --no 31", "10: there is no predicate 31; the predicates are 0 to 23"),
    ("picture 4 --yes 32", "10: there is no predicate 32; the predicates are 0 to 23"),
    ("strike 2",
     "9: row 2 is named by row 4 (`override-unspecified 2 3`) and \
      row 5 (`closed-default 2`); they must name others first"),
    ("strike 4",
     "9: row 4 is named by question 0 (`truth-at-or-below 4 5`) and \
      question 1 (`truth-at-or-below 5 4`); they must name others first"),
];

#[test]
fn what_is_asked_in_vain_is_refused() {
    let mut objects = Objects::default();
    for (asked, said) in IN_VAIN {
        let asked: Vec<&str> = asked.split(' ').collect();
        for table in TABLE_A {
            let mut arguments = words(asked[0], table, &asked[1..]);
            let expected = Outcome::complaint(2, format!("refused {said}\n"));
            assert_eq!(answer(&arguments), expected, "{arguments:?}");
            arguments.push("--json");
            let outcome = answer(&arguments);
            assert_eq!((outcome.status, &outcome.err), (2, &expected.err), "{arguments:?}");
            let (number, message) = said.split_once(": ").expect("a number and a message");
            let message = quoted(message);
            let object = format!(r#"{{"refused":{number},"message":{message}}}"#);
            objects.add(said, &outcome, object);
        }
    }
    objects.check();
}

#[test]
fn a_row_that_one_entry_names_is_not_struck() {
    let table = notebook::hex("02 20 00 40 01 01");
    for input in [table.clone(), text_of(&table).into_bytes()] {
        for row in [0, 1] {
            let request = Request::Strike { row };
            let outcome = answer_on(&input, &request.arguments());
            request.answer(&input).check_words(&outcome);
        }
    }
}
