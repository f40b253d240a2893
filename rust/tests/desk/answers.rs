//! Every verb on tables in both forms, from a file and from standard input.

use pierstride_oracle::call::Call;
use pierstride_oracle::{crafted, notebook, texts};

use crate::expected::{text_of, Request};
use crate::harness::{answer, answer_on, words, Outcome, Scratch, TABLE_A, TABLE_A_BYTES};
use crate::json::Objects;

/// A verb with what follows the table A, and the status and the words of the answer. The
/// words are those of the page, or what these make clear.
#[rustfmt::skip]
const ANSWERS: &[(&str, i32, &str)] = &[
    ("check", 0, "6 rows, 3 questions, 2 predicates\n"),
    ("text", 0, TEXT_A),
    ("show", 0, "\
row 0       grant-if 0
row 1       deny-if 1
row 2       knowledge-join 0 1
row 3       deny
row 4       override-unspecified 2 3
row 5       closed-default 2
question 0  truth-at-or-below 4 5
question 1  truth-at-or-below 5 4
question 2  both 0 1
"),
    ("decide 4", 0, "deny\n"),
    ("decide 4 --yes none", 0, "deny\n"),
    ("decide 4 --yes ", 0, "deny\n"),
    ("decide 4 --yes 0", 0, "grant\n"),
    ("decide 4 --yes 1", 0, "deny\n"),
    ("decide 4 --yes 0,1", 0, "conflict\n"),
    ("decide 4 --yes 1,0,23", 0, "conflict\n"),
    ("decide 2", 0, "unspecified\n"),
    ("decide 3 --yes 2,3,4,5,6,7,8,9,10,11,12,13,14,15,16,17,18,19,20,21,22,23", 0, "deny\n"),
    ("possible 4", 0, "deny, grant or conflict\n"),
    ("possible 2", 0, "unspecified, deny, grant or conflict\n"),
    ("possible 4 --yes none --no none", 0, "deny, grant or conflict\n"),
    ("possible 4 --yes  --no ", 0, "deny, grant or conflict\n"),
    ("possible 4 --yes 0", 0, "grant or conflict\n"),
    ("possible 4 --yes 0 --no 1", 0, "grant\n"),
    ("possible 4 --no 0,1", 0, "deny\n"),
    ("possible 4 --no 0 --yes 1,22", 0, "deny\n"),
    ("suppliers 4", 0, "supplier 0\n"),
    ("suppliers", 0, "\
row 0: supplier 0
row 1: supplier 0
row 2: supplier 0
row 3: supplier 0
row 4: supplier 0
row 5: supplier 0
"),
    ("ask", 1, "\
question 0: fails at predicates 0 and 1 yes, all others no, after 5 visits
question 1: holds after 5 visits
question 2: fails at predicates 0 and 1 yes, all others no, after 5 visits
"),
    ("ask 0", 1, "fails at predicates 0 and 1 yes, all others no, after 5 visits\n"),
    ("ask 1", 0, "holds after 5 visits\n"),
    ("ask 1 --budget 5", 0, "holds after 5 visits\n"),
    ("ask 1 --budget 4", 1, "unfinished after 4 visits\n"),
    ("ask 2 --budget 0", 1, "unfinished after 0 visits\n"),
    ("ask 2 --budget 1", 1, "unfinished after 1 visit\n"),
    ("ask --budget 4", 1, "\
question 0: unfinished after 4 visits
question 1: unfinished after 4 visits
question 2: unfinished after 4 visits
"),
    ("breaks 2", 1, "no: question 2 is not broken, or a constraint is, at all predicates no\n"),
    ("breaks 2 --yes none", 1,
     "no: question 2 is not broken, or a constraint is, at all predicates no\n"),
    ("breaks 2 --yes 1", 1,
     "no: question 2 is not broken, or a constraint is, at predicate 1 yes, all others no\n"),
    ("breaks 2 --yes 1,0", 0,
     "yes: question 2 is broken, and every constraint kept, \
      at predicates 0 and 1 yes, all others no\n"),
    ("breaks 1 --yes 0,1", 1,
     "no: question 1 is not broken, or a constraint is, at predicates 0 and 1 yes, all others no\n"),
    ("picture 5", 0, "\
digraph \"row 5\" {
    graph [ordering=out, fontname=\"Helvetica\"];
    node [shape=box, style=filled, fillcolor=white, fontname=\"Helvetica\"];
    5 [label=\"row 5\\nclosed-default 2\"];
    2 [label=\"row 2\\nknowledge-join 0 1\"];
    1 [label=\"row 1\\ndeny-if 1\"];
    0 [label=\"row 0\\ngrant-if 0\"];
    5 -> 2;
    2 -> 0;
    2 -> 1;
}
"),
];

const TEXT_A: &str = pierstride_oracle::spellings::TEXT_A;

/// The same with `--json`, where both forms have the same object.
#[rustfmt::skip]
const OBJECTS: &[(&str, i32, &str)] = &[
    ("bytes", 0, r#"{"bytes":"11001001330001013802032202400405400504430001"}"#),
    ("decide 4 --yes 0", 0, r#"{"row":4,"yes":[0],"decision":"grant"}"#),
    ("decide 2", 0, r#"{"row":2,"yes":[],"decision":"unspecified"}"#),
    ("possible 2 --no 0,1", 0, r#"{"row":2,"yes":[],"no":[0,1],"possible":["unspecified"]}"#),
    ("possible 4", 0, r#"{"row":4,"yes":[],"no":[],"possible":["deny","grant","conflict"]}"#),
    ("suppliers 4", 0, r#"{"row":4,"suppliers":[0]}"#),
    ("breaks 2 --yes 1,0", 0, r#"{"question":2,"yes":[0,1],"breaks":true}"#),
    ("breaks 2", 1, r#"{"question":2,"yes":[],"breaks":false}"#),
    ("ask 0", 1, r#"{"question":0,"verdict":"fails","visits":5,"yes":[0,1]}"#),
    ("ask 1", 0, r#"{"question":1,"verdict":"holds","visits":5}"#),
    ("ask 2 --budget 4", 1, r#"{"question":2,"verdict":"unfinished","visits":4}"#),
    ("ask", 1, concat!(
        r#"{"verdicts":[{"question":0,"verdict":"fails","visits":5,"yes":[0,1]},"#,
        r#"{"question":1,"verdict":"holds","visits":5},"#,
        r#"{"question":2,"verdict":"fails","visits":5,"yes":[0,1]}]}"#,
    )),
];

/// Runs a verb on both forms of a table, each from a file and from standard input; what is
/// asked is the verb and what follows the table.
fn every_way(asked: &str, forms: [&[u8]; 2]) -> [Outcome; 4] {
    let scratch = Scratch::new();
    let asked: Vec<&str> = asked.split(' ').collect();
    // The form goes by the first byte: a name says nothing.
    let [bytes, text] = [("a.txt", forms[0]), ("b.bin", forms[1])];
    let [bytes_file, text_file] = [bytes, text].map(|(name, form)| scratch.write(name, form));
    [
        answer(&words(asked[0], &bytes_file, &asked[1..])),
        answer(&words(asked[0], &text_file, &asked[1..])),
        answer_on(forms[0], &words(asked[0], "-", &asked[1..])),
        answer_on(forms[1], &words(asked[0], "-", &asked[1..])),
    ]
}

#[test]
fn every_verb_answers_in_words() {
    for &(asked, status, out) in ANSWERS {
        for outcome in every_way(asked, TABLE_A_BYTES) {
            assert_eq!(outcome, Outcome::answer(status, out), "{asked}");
        }
    }
    for outcome in every_way("bytes", TABLE_A_BYTES) {
        assert_eq!(outcome, Outcome::answer(0, TABLE_A_BYTES[0]));
    }
}

#[test]
fn every_verb_answers_with_an_object() {
    let mut objects = Objects::default();
    for &(asked, status, object) in OBJECTS {
        for outcome in every_way(&format!("{asked} --json"), TABLE_A_BYTES) {
            assert_eq!((outcome.status, outcome.err()), (status, ""), "{asked}");
            objects.add(asked, &outcome, object.to_string());
        }
    }
    let file = Request::SolverFile { question: 2 };
    for request in [Request::Check, Request::Text, Request::Show, file] {
        let outcomes = every_way(&asked(request, "--json"), TABLE_A_BYTES);
        for (way, outcome) in outcomes.iter().enumerate() {
            let expected = request.answer(TABLE_A_BYTES[way % 2]);
            objects.add(asked(request, ""), outcome, expected.check_json(outcome));
        }
    }
    objects.check();
}

/// A request without its table.
fn asked(request: Request, option: &str) -> String {
    let mut arguments = request.arguments();
    arguments.remove(1);
    arguments.push(option.to_string());
    arguments.join(" ").trim_end().to_string()
}

#[test]
fn a_table_is_struck_in_the_form_of_the_old() {
    let table = notebook::hex(notebook::STRIKING);
    let text = text_of(&table);
    let forms = [&table[..], text.as_bytes()];
    let struck: [&[u8]; 2] =
        [b"\x02\x20\x00\x40\x00\x01", b"grant\nnegation 0\ntruth-at-or-below 0 1\n"];
    for (way, outcome) in every_way("strike 0", forms).into_iter().enumerate() {
        assert_eq!(outcome, Outcome::answer(0, struck[way % 2]));
    }
    let mut objects = Objects::default();
    for (way, outcome) in every_way("strike 0 --json", forms).iter().enumerate() {
        let expected = Request::Strike { row: 0 }.answer(forms[way % 2]);
        objects.add("strike 0", outcome, expected.check_json(outcome));
    }
    objects.check();
}

#[test]
fn options_stand_anywhere_behind_the_verb() {
    let expected = Outcome::answer(0, "{\"row\":4,\"yes\":[0],\"decision\":\"grant\"}\n");
    let table = TABLE_A[0];
    let orders: [[&str; 6]; 4] = [
        ["decide", "--yes", "0", "--json", table, "4"],
        ["decide", "--json", table, "--yes", "0", "4"],
        ["decide", table, "--yes", "0", "4", "--json"],
        ["decide", table, "4", "--json", "--yes", "0"],
    ];
    for order in orders {
        assert_eq!(answer(&order), expected, "{order:?}");
    }
    let joined: [&[&str]; 3] = [
        &["decide", table, "4", "--yes=0", "--json"],
        &["decide", "--yes=0", "--json", "--", table, "4"],
        &["decide", "--json", table, "--yes", "0", "--", "4"],
    ];
    for arguments in joined {
        assert_eq!(answer(arguments), expected, "{arguments:?}");
    }
}

#[test]
fn an_option_may_be_joined_with_its_value() {
    let joined: [(&[&str], i32, &str); 4] = [
        (&["possible", TABLE_A[1], "4", "--yes=0", "--no=1"], 0, "grant\n"),
        (&["ask", TABLE_A[1], "2", "--budget=4"], 1, "unfinished after 4 visits\n"),
        (&["decide", TABLE_A[1], "4", "--yes="], 0, "deny\n"),
        (&["decide", TABLE_A[1], "--yes=0,1", "4"], 0, "conflict\n"),
    ];
    for (arguments, status, out) in joined {
        assert_eq!(answer(arguments), Outcome::answer(status, out), "{arguments:?}");
    }
}

#[test]
fn behind_two_minuses_nothing_is_an_option() {
    let scratch = Scratch::new();
    scratch.write("--json", TABLE_A_BYTES[0]);
    let counts = Outcome::answer(0, "6 rows, 3 questions, 2 predicates\n");
    assert_eq!(scratch.answer(&["check", "--", "--json"]), counts);
    assert_eq!(scratch.answer(&["check", "./--json"]), counts);
    let decision = Outcome::answer(0, "grant\n");
    assert_eq!(scratch.answer(&["decide", "--yes", "0", "--", "--json", "4"]), decision);
}

#[test]
fn the_empty_table_is_a_table() {
    let nothing: [&[u8]; 2] = [b"", b""];
    let answers = [
        ("check", "0 rows, 0 questions, 0 predicates\n"),
        ("check --json", "{\"form\":\"bytes\",\"rows\":0,\"questions\":0,\"predicates\":0}\n"),
        ("text", ""),
        ("text --json", "{\"text\":\"\"}\n"),
        ("bytes", ""),
        ("bytes --json", "{\"bytes\":\"\"}\n"),
        ("show", ""),
        ("show --json", "{\"constraints\":[],\"rows\":[],\"questions\":[]}\n"),
        ("suppliers", "the table has no rows\n"),
        ("suppliers --json", "{\"rows\":[]}\n"),
        ("ask", "the table has no questions\n"),
        ("ask --json", "{\"verdicts\":[]}\n"),
    ];
    for (asked, out) in answers {
        for outcome in every_way(asked, nothing) {
            assert_eq!(outcome, Outcome::answer(0, out), "{asked}");
        }
    }
    let of_rows = ["decide 0", "possible 0", "suppliers 0", "strike 0", "picture 0"];
    let of_questions = ["ask 0", "solver-file 0", "breaks 0", "breaks 0 --yes 0"];
    for asked in of_rows.into_iter().chain(of_questions) {
        for outcome in every_way(asked, nothing) {
            let what = if of_questions.contains(&asked) { "question" } else { "row" };
            let said = outcome.err().starts_with(&format!("refused 8: there is no {what} 0; "));
            assert!(outcome.status == 2 && said && outcome.out.is_empty(), "{asked}: {outcome:?}");
        }
    }
}

/// One office grants what is current (predicate 1), another denies what is withdrawn (0); is
/// there never a conflict? A sheet is withdrawn only if another has replaced it (2), and it is
/// never withdrawn and reserved (3).
const CONSTRAINED: &str = "\
only-if 0 2
never-both 0 3
grant-if 1
deny-if 0
knowledge-join 0 1
conflict
knowledge-at-or-below 3 2
not 0
";

/// What is asked about that table, and the status and the words of the answer.
#[rustfmt::skip]
const ON_CONSTRAINED: &[(&str, i32, &str)] = &[
    ("check", 0, "4 rows, 2 questions, 4 predicates\n"),
    ("text", 0, CONSTRAINED),
    ("show", 0, "\
constraint  only-if 0 2
constraint  never-both 0 3
row 0       grant-if 1
row 1       deny-if 0
row 2       knowledge-join 0 1
row 3       conflict
question 0  knowledge-at-or-below 3 2
question 1  not 0
"),
    // Without the constraints, predicates 0 and 1 are yes, after 5 visits.
    ("ask 1", 1, "fails at predicates 0, 1 and 2 yes, all others no, after 7 visits\n"),
    ("ask 1 --budget 6", 1, "unfinished after 6 visits\n"),
    // A request that breaks the question and none of them, and one that breaks one too.
    ("breaks 1 --yes 0,1,2", 0,
     "yes: question 1 is broken, and every constraint kept, \
      at predicates 0, 1 and 2 yes, all others no\n"),
    ("breaks 1 --yes 0,1", 1,
     "no: question 1 is not broken, or a constraint is, at predicates 0 and 1 yes, all others no\n"),
    ("breaks 1 --yes 0,1,2,3", 1,
     "no: question 1 is not broken, or a constraint is, \
      at predicates 0, 1, 2 and 3 yes, all others no\n"),
    // Deciding does not look at them.
    ("decide 2 --yes 0", 0, "deny\n"),
    ("decide 2 --yes 0,1,3", 0, "conflict\n"),
    ("possible 2 --yes 0,3", 0, "deny or conflict\n"),
    ("picture 1", 0, "\
digraph \"row 1\" {
    graph [ordering=out, fontname=\"Helvetica\"];
    node [shape=box, style=filled, fillcolor=white, fontname=\"Helvetica\"];
    1 [label=\"row 1\\ndeny-if 0\"];
}
"),
];

#[test]
fn constraints_are_shown_and_kept() {
    let bytes = texts::spelled_by(CONSTRAINED.as_bytes()).expect("a text");
    let forms = [&bytes[..], CONSTRAINED.as_bytes()];
    for &(asked, status, out) in ON_CONSTRAINED {
        for outcome in every_way(asked, forms) {
            assert_eq!(outcome, Outcome::answer(status, out), "{asked}");
        }
    }
    let mut objects = Objects::default();
    for outcome in every_way("show --json", forms) {
        let object = Request::Show.answer(forms[0]).check_json(&outcome);
        objects.add("show", &outcome, object);
    }
    objects.check();
    let longer = CONSTRAINED.replace("knowledge-at", "deny\nknowledge-at");
    let struck = answer_on(longer.as_bytes(), &["strike", "-", "4"]);
    assert_eq!(struck, Outcome::answer(0, CONSTRAINED));
}

/// Offices 12 and 3 lend their terms, which row 2 joins and nobody's row 3 makes whole; row 4
/// is office 12's again.
const SUPPLIED: &str = "\
only-if 0 2
supplier 12
grant-if 1
supplier 3
deny-if 0
knowledge-join 0 1
supplier 0
closed-default 2
supplier 12
negation 0
knowledge-at-or-below 3 2
";

/// What is asked about that table, and the words of the answer; the question fails.
#[rustfmt::skip]
const ON_SUPPLIED: &[(&str, i32, &str)] = &[
    ("check", 0, "5 rows, 1 question, 3 predicates\n"),
    ("text", 0, SUPPLIED),
    ("show", 0, "\
constraint               only-if 0 2
row 0       supplier 12  grant-if 1
row 1       supplier 3   deny-if 0
row 2       supplier 3   knowledge-join 0 1
row 3       supplier 0   closed-default 2
row 4       supplier 12  negation 0
question 0               knowledge-at-or-below 3 2
"),
    ("show --json", 0, concat!(
        r#"{"constraints":[{"text":"only-if 0 2"}],"#,
        r#""rows":[{"row":0,"supplier":12,"text":"grant-if 1"},"#,
        r#"{"row":1,"supplier":3,"text":"deny-if 0"},"#,
        r#"{"row":2,"supplier":3,"text":"knowledge-join 0 1"},"#,
        r#"{"row":3,"supplier":0,"text":"closed-default 2"},"#,
        r#"{"row":4,"supplier":12,"text":"negation 0"}],"#,
        r#""questions":[{"question":0,"text":"knowledge-at-or-below 3 2"}]}"#, "\n",
    )),
    ("suppliers 0", 0, "supplier 12\n"),
    ("suppliers 3", 0, "suppliers 0, 3 and 12\n"),
    ("suppliers 3 --json", 0, "{\"row\":3,\"suppliers\":[0,3,12]}\n"),
    ("suppliers", 0, "\
row 0: supplier 12
row 1: supplier 3
row 2: suppliers 3 and 12
row 3: suppliers 0, 3 and 12
row 4: supplier 12
"),
    ("suppliers --json", 0, concat!(
        r#"{"rows":[{"row":0,"suppliers":[12]},{"row":1,"suppliers":[3]},"#,
        r#"{"row":2,"suppliers":[3,12]},{"row":3,"suppliers":[0,3,12]},"#,
        r#"{"row":4,"suppliers":[12]}]}"#, "\n",
    )),
    // Deciding and the walk do not look at them.
    ("decide 3 --yes 1", 0, "grant\n"),
    ("ask 0", 1, "fails at all predicates no, after 3 visits\n"),
    ("picture 3 --yes 1", 0, "\
digraph \"row 3\" {
    graph [ordering=out, fontname=\"Helvetica\"];
    node [shape=box, style=filled, fillcolor=white, fontname=\"Helvetica\"];
    label=\"predicate 1 yes, all others no\";
    3 [label=\"row 3, supplier 0\\nclosed-default 2\\ndecides grant\", fillcolor=\"#c8e6c9\"];
    2 [label=\"row 2, supplier 3\\nknowledge-join 0 1\\ndecides grant\", color=\"0.8540,0.9,0.7\", penwidth=3, fillcolor=\"#c8e6c9\"];
    1 [label=\"row 1, supplier 3\\ndeny-if 0\\ndecides unspecified\", color=\"0.8540,0.9,0.7\", penwidth=3, fillcolor=\"#eeeeee\"];
    0 [label=\"row 0, supplier 12\\ngrant-if 1\\ndecides grant\", color=\"0.4160,0.9,0.7\", penwidth=3, fillcolor=\"#c8e6c9\"];
    3 -> 2;
    2 -> 0;
    2 -> 1;
}
"),
];

#[test]
fn suppliers_are_shown_and_kept() {
    let bytes = texts::spelled_by(SUPPLIED.as_bytes()).expect("a text");
    let forms = [&bytes[..], SUPPLIED.as_bytes()];
    for &(asked, status, out) in ON_SUPPLIED {
        for outcome in every_way(asked, forms) {
            assert_eq!(outcome, Outcome::answer(status, out), "{asked}");
        }
    }
    // Where a row goes, a supplier is named for what is left, or no more.
    let longer =
        SUPPLIED.replace("knowledge-join", "supplier 12\ndeny\nsupplier 3\nknowledge-join");
    let longer = longer.replace("default 2", "default 3").replace("below 3 2", "below 4 3");
    let struck = answer_on(longer.as_bytes(), &["strike", "-", "2"]);
    assert_eq!(struck, Outcome::answer(0, SUPPLIED));
    let left = SUPPLIED.replace("supplier 12\nnegation 0\n", "");
    let struck = answer_on(SUPPLIED.as_bytes(), &["strike", "-", "4"]);
    assert_eq!(struck, Outcome::answer(0, left));
}

#[test]
fn the_largest_table_is_a_table() {
    let table = crafted::longest_text();
    let text = text_of(&table);
    let forms = [&table[..], text.as_bytes()];
    let file = Request::SolverFile { question: 63 };
    for request in [Request::Check, Request::Text, Request::Bytes, Request::Show, file] {
        for (way, outcome) in every_way(&asked(request, ""), forms).iter().enumerate() {
            request.answer(forms[way % 2]).check_words(outcome);
        }
    }
}

#[test]
fn all_questions_that_hold_give_status_0() {
    let text = b"\
deny-if 0
negation 0
negation 1
truth-at-or-below 0 2
knowledge-at-or-below 0 2
both 0 1
truth-at-or-below 0 0
knowledge-at-or-below 0 0
";
    // Row 2 decides as row 0 does, but only a row and itself are settled at the root.
    let out = "\
question 0: holds after 3 visits
question 1: holds after 3 visits
question 2: holds after 3 visits
question 3: holds after 1 visit
question 4: holds after 1 visit
";
    assert_eq!(answer_on(text, &["ask", "-"]), Outcome::answer(0, out));
    let unfinished = answer_on(text, &["ask", "-", "--budget", "2"]);
    assert_eq!(unfinished.status, 1, "{unfinished:?}");
}

#[test]
fn the_notebook_is_answered() {
    for (table, call, _) in notebook::cases() {
        let request = match call {
            Call::Read => Request::Check,
            Call::Decide { row, yes } => Request::Decide { row, yes },
            Call::Possible { row, known, yes } => Request::Possible { row, yes, no: known & !yes },
            Call::Verdict { question, budget } => {
                Request::Ask { question: Some(question), budget: Some(budget) }
            }
            Call::Strike { row, .. } => Request::Strike { row },
            Call::Suppliers { row, .. } => Request::Suppliers { row: Some(row) },
            Call::Dimacs { question, .. } => Request::SolverFile { question },
            Call::Breaks { question, yes } => Request::Breaks { question, yes },
            _ => continue,
        };
        let text = text_of(&table).into_bytes();
        for input in [table, text] {
            request.answer(&input).check_words(&answer_on(&input, &request.arguments()));
        }
    }
}
