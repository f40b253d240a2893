//! The cases of document 02, L2, with the words of L5 and L6: texts, and what reading and
//! writing them must answer. Each is written out by hand.

use crate::call::{Answer, Call, Case};
use crate::notebook::{hex, TABLE_A};
use crate::{Refusal, TABLE_BYTES, TEXT_BYTES};

/// The text of the notebook's table A.
pub const TEXT_A: &str = "\
grant-if 0
deny-if 1
knowledge-join 0 1
deny
override-unspecified 2 3
closed-default 2
truth-at-or-below 4 5
truth-at-or-below 5 4
both 0 1
";

/// A table with every kind once, and its text.
const EVERY_KIND: (&str, &str) = (
    "50 00 17 51 0A 09 00 01 60 FF 02 03 10 17 11 00 20 00 21 01 22 02 23 03 \
     30 08 09 31 09 08 32 00 00 33 01 02 34 0A 0B 35 0C 0D \
     38 0E 0F 39 01 10 3A 02 11 3B 12 03 40 13 00 41 00 13 42 01 43 02 01",
    "\
never-both 0 23
only-if 10 9
unspecified
deny
supplier 255
grant
conflict
deny-if 23
grant-if 0
negation 0
conflation 1
closed-default 2
open-default 3
truth-meet 8 9
truth-join 9 8
knowledge-meet 0 0
knowledge-join 1 2
implication 10 11
guard 12 13
override-unspecified 14 15
override-deny 1 16
override-grant 2 17
override-conflict 18 3
truth-at-or-below 19 0
knowledge-at-or-below 0 19
not 1
both 2 1
",
);

/// Every case.
pub fn cases() -> Vec<Case> {
    let groups = [tables(), first_lines(), orders(), entries(), rooms(), refused_tables()];
    groups.into_iter().flatten().collect()
}

fn refused(number: u32, place: usize) -> Answer {
    Answer::Refused(Refusal { number, place })
}

fn reading(text: impl Into<Vec<u8>>, answer: Answer) -> Case {
    (text.into(), Call::FromText { room: TABLE_BYTES }, answer)
}

/// Accepted tables and their texts, both ways.
fn tables() -> Vec<Case> {
    let rows = |count| [vec![3; count], hex("40 FF 64 41 63 0A 40 09 00")].concat();
    let questions =
        "truth-at-or-below 255 100\nknowledge-at-or-below 99 10\ntruth-at-or-below 9 0\n";
    let pairs = [
        (hex(""), String::new()),
        (hex("00"), "unspecified\n".to_string()),
        (hex("11 17"), "grant-if 23\n".to_string()),
        (hex("50 07 07"), "never-both 7 7\n".to_string()),
        (hex("51 17 00 00"), "only-if 23 0\nunspecified\n".to_string()),
        (hex("50 00 17").repeat(32), "never-both 0 23\n".repeat(32)),
        (hex("60 05 00"), "supplier 5\nunspecified\n".to_string()),
        (
            hex("00 60 64 00 60 00 00"),
            "unspecified\nsupplier 100\nunspecified\nsupplier 0\nunspecified\n".to_string(),
        ),
        (
            hex("51 00 00 60 09 00 00 40 01 00"),
            "only-if 0 0\nsupplier 9\nunspecified\nunspecified\ntruth-at-or-below 1 0\n"
                .to_string(),
        ),
        (hex(TABLE_A), TEXT_A.to_string()),
        (hex(EVERY_KIND.0), EVERY_KIND.1.to_string()),
        (rows(256), "conflict\n".repeat(256) + questions),
        (hex(&"02 ".repeat(256)), "grant\n".repeat(256)),
    ];
    let both_ways = |(table, text): (Vec<u8>, String)| {
        let text = text.into_bytes();
        let writing = Call::ToText { room: TEXT_BYTES };
        let written = Answer::Written(text.clone());
        [(table.clone(), writing, written), reading(text, Answer::Written(table))]
    };
    pairs.into_iter().flat_map(both_ways).collect()
}

/// Lines that are refused with 12: the word is unknown, or a number is above 255,
/// wherever on the line it stands.
#[rustfmt::skip]
const UNKNOWN: [&str; 89] = [
    // A number above 255 goes before every other slip, and is above it by value.
    "deny 300\n", "deny-if  300\n", "deny-if x 300\n", "deny-if 0300\n", "deny-if 4294967297\n",
    // At the limit, and at the limits of a machine's numbers.
    "deny-if 256\n", "deny-if 0256\n", "deny-if 260\n", "deny-if 1000\n", "deny-if 65536\n",
    "deny-if 65539\n", "deny-if 4294967296\n", "deny-if 4294967299\n",
    "deny-if 18446744073709551615\n", "deny-if 18446744073709551616\n",
    "deny-if 18446744073709551619\n", "deny-if 99999999999999999999999999999999999999999999\n",
    "deny-if 340282366920938463463374607431768211459\n",
    // Beyond the numbers that the kind has, and before or behind another slip.
    "deny-if 3 256\n", "deny-if 256 3\n", "deny-if 256 x\n", "deny-if 03 256\n",
    "deny-if 256 \n", "deny 0 0 0 256\n", "truth-meet 0 256\n", "truth-meet 256\n",
    "truth-meet 0 0 256\n", "deny-if 3\r 256\n", "deny-if 256 3\r\n", "deny 256", "deny-if 0300",
    "deny-if x 300",
    // Words that are unknown.
    "\n", " \n", "  \n", " deny\n", " deny-if 3\n", "3\n", "Deny\n", "DENY\n", "den\n", "denyy\n",
    "deny-\n", "deny_if 3\n", "denyif 3\n", "deny-If 3\n", "deny-i 3\n", "eny\n", "deny-if-3\n",
    "nor 0\n", "override 0 0\n", "truth-at-or-above 0 0\n", "unspecifie\n", "unspec\n",
    "neg 0\n", "u\n", "xyz", " ",
    "never 0 1\n", "never-bot 0 1\n", "neverboth 0 1\n", "only 0 1\n", "only-iff 0 1\n",
    "Only-if 0 1\n", "never-both 0 256\n",
    "supplie 5\n", "suppliers 5\n", "Supplier 5\n", "supplier 256\n", "supplier 5 256\n",
    "supplier-5\n",
    "unknown 0300 x\n", "unknown 03\n",
    // Space and line feed alone separate.
    "deny\r\n", "deny\t\n", "\tdeny\n", "deny-if\t3\n", "deny-if\r 3\n", "\r\n", "deny\0\n",
    "deny\u{b}\n", "deny-if\u{a0}3\n", "\u{feff}deny\n", "deny\r\ngrant\r\n", "\rdeny\n",
    "deny-if\r\n", "deny-if\t\n", "deny\t3\n", "\0",
];

/// Lines that are refused with 13.
#[rustfmt::skip]
const MISSPELT: [&str; 73] = [
    // A leading zero.
    "deny-if 03\n", "deny-if 00\n", "deny-if 000\n", "deny-if 023\n", "deny-if 0255\n",
    "deny-if 00000000000000000000000000003\n", "truth-meet 00 0\n", "truth-meet 0 00\n",
    // An empty piece.
    "deny \n", "deny-if \n", "deny-if  3\n", "deny-if 3 \n", "deny-if  \n", "truth-meet 0  0\n",
    "truth-meet  0 0\n", "truth-meet 0 0 \n", "deny  \n",
    // A piece that is not digits alone.
    "deny-if x\n", "deny-if 3x\n", "deny-if -3\n", "deny-if +3\n", "deny-if 3.\n",
    "deny-if 0x3\n", "deny-if 1e1\n", "deny-if 300x\n", "deny-if -300\n", "deny deny\n",
    "deny x\n", "truth-meet 0 y\n", "truth-meet y 0\n", "truth-meet 0,0\n", "deny-if \u{663}\n",
    // A number too many or too few.
    "deny 3\n", "deny 0\n", "deny-if\n", "deny-if 3 4\n", "truth-meet\n", "truth-meet 0\n",
    "truth-meet 0 0 0\n", "not\n", "not 0 0\n", "both 0\n", "both 0 0 0\n", "negation\n",
    "truth-at-or-below 0\n", "grant 255 255\n", "never-both 0\n", "only-if\n",
    "only-if 0 1 2\n", "never-both 0 01\n", "only-if 0  1\n", "never-both 0 1",
    "supplier\n", "supplier 5 6\n", "supplier 05\n", "supplier 00\n", "supplier x\n", "supplier 5",
    // A missing line feed.
    "deny", "deny-if 3", "deny-if 23", "truth-meet 0 0", "deny-if 24", "deny-if 03", "deny ",
    // Space and line feed alone separate.
    "deny-if 3\r\n", "deny-if 3\t\n", "deny-if \t3\n", "deny-if 3\t4\n", "deny \r\n",
    "truth-meet 0\t0\n", "deny-if 3\0\n", "deny-if 300\r\n",
];

/// Texts whose first line is refused with 12 or with 13.
fn first_lines() -> Vec<Case> {
    let unknown = UNKNOWN.map(|text| reading(text, refused(12, 1)));
    let misspelt = MISSPELT.map(|text| reading(text, refused(13, 1)));
    let long = [
        reading("d".repeat(5000) + "\n", refused(12, 1)),
        reading("deny-if ".to_string() + &"1".repeat(5000) + "\n", refused(12, 1)),
        reading("deny-if ".to_string() + &"0".repeat(5000) + "\n", refused(13, 1)),
        reading("deny".to_string() + &" 0".repeat(5000) + "\n", refused(13, 1)),
    ];
    unknown.into_iter().chain(misspelt).chain(long).collect()
}

/// Texts with several slips: the first bad line speaks, on one line 12 goes before
/// 13, and both go before what is wrong with the table.
fn orders() -> Vec<Case> {
    let cases = [
        ("deny\ndeny-if 03\n", refused(13, 2)),
        ("deny\nxyz\n", refused(12, 2)),
        ("deny-if 03\nxyz\n", refused(13, 1)),
        ("xyz\ndeny-if 03\n", refused(12, 1)),
        ("deny-if 03\ndeny-if 300\n", refused(13, 1)),
        ("deny-if 300\ndeny-if 03\n", refused(12, 1)),
        ("deny\ndeny-if 03 300\n", refused(12, 2)),
        ("deny\ndeny-if 300 03\n", refused(12, 2)),
        ("deny\n\ndeny\n", refused(12, 2)),
        ("deny\n\n", refused(12, 2)),
        ("deny\n ", refused(12, 2)),
        ("\ndeny\n", refused(12, 1)),
        ("deny\ndeny", refused(13, 2)),
        ("deny\nden", refused(12, 2)),
        ("deny\ndeny 256", refused(12, 2)),
        ("deny\ngrant\ndeny-if 3\r\ngrant\n", refused(13, 3)),
        ("deny-if 24\nxyz\n", refused(12, 2)),
        ("deny-if 24\ndeny-if 03\n", refused(13, 2)),
        ("deny-if 24\ndeny", refused(13, 2)),
        ("negation 7\ndeny\nnegation 0 0\n", refused(13, 3)),
        ("deny\nnot 0\ndeny\n\n", refused(12, 4)),
        ("supplier 0\ndeny\nden\n", refused(12, 3)),
        ("supplier 5\nsupplier 6\nsupplier\n", refused(13, 3)),
        ("supplier 5\nden\n", refused(12, 2)),
        ("supplier 5\ndeny", refused(13, 2)),
    ];
    let mut cases: Vec<Case> = cases.map(|(text, answer)| reading(text, answer)).into();
    // Also far behind the lines that are past every limit.
    let (rows, questions) = ("deny\n".repeat(999), "truth-at-or-below 0 0\n".repeat(998));
    cases.push(reading(rows.clone() + "deny 256\n", refused(12, 1000)));
    cases.push(reading(rows + "deny", refused(13, 1000)));
    cases.push(reading("deny\n".to_string() + &questions + "\n", refused(12, 1000)));
    cases
}

/// Well-spelled texts of bytes that document 01 refuses, at the entry's line.
fn entries() -> Vec<Case> {
    let cases = [
        ("deny-if 24\n", refused(3, 1)),
        ("deny\ngrant-if 255\n", refused(3, 2)),
        ("negation 0\n", refused(4, 1)),
        ("negation 255\n", refused(4, 1)),
        ("deny\nnegation 1\n", refused(4, 2)),
        ("deny\ntruth-meet 0 1\n", refused(4, 2)),
        ("deny\ntruth-meet 1 0\n", refused(4, 2)),
        ("deny\ntruth-meet 5 5\ndeny-if 24\n", refused(4, 2)),
        ("deny\ndeny-if 24\ntruth-meet 5 5\n", refused(3, 2)),
        ("deny\ntruth-at-or-below 0 1\n", refused(4, 2)),
        ("not 0\n", refused(4, 1)),
        ("deny\ntruth-at-or-below 0 0\nboth 0 1\n", refused(4, 3)),
        ("deny\ntruth-at-or-below 0 0\ndeny\n", refused(5, 3)),
        ("deny\ntruth-at-or-below 0 0\ndeny-if 24\n", refused(5, 3)),
        ("deny\ntruth-at-or-below 0 0\nnot 0\nnegation 9\nnot 9\n", refused(5, 4)),
        ("never-both 24 0\n", refused(3, 1)),
        ("only-if 0 0\nonly-if 0 255\n", refused(3, 2)),
        ("deny\nnever-both 0 1\n", refused(5, 2)),
        ("only-if 0 1\ndeny\nonly-if 24 24\n", refused(5, 3)),
        ("deny\ntruth-at-or-below 0 0\nonly-if 0 1\n", refused(5, 3)),
        ("only-if 0 1\nnegation 0\n", refused(4, 2)),
        // A supplier is a line, and so no row's line is its number.
        ("supplier 5\ndeny\nnegation 1\n", refused(4, 3)),
        ("supplier 5\ndeny-if 24\n", refused(3, 2)),
        ("supplier 5\nnegation 0\n", refused(4, 2)),
        ("supplier 0\ndeny\n", refused(15, 1)),
        ("supplier 5\ndeny\nsupplier 5\ndeny\n", refused(15, 3)),
        ("supplier 5\ndeny\ndeny\nsupplier 5\ndeny-if 24\n", refused(15, 4)),
        ("supplier 5\n", refused(15, 1)),
        ("supplier 5\nsupplier 6\ndeny\n", refused(15, 1)),
        ("supplier 5\nnever-both 0 1\n", refused(15, 1)),
        ("never-both 0 1\ndeny\nsupplier 5\ntruth-at-or-below 0 0\n", refused(15, 3)),
        ("deny\nsupplier 5\n", refused(15, 2)),
        ("deny\ntruth-at-or-below 0 0\nsupplier 5\ndeny\n", refused(5, 3)),
        ("deny\ntruth-at-or-below 0 0\nsupplier 0\n", refused(5, 3)),
        ("supplier 5\ndeny\nonly-if 0 1\n", refused(5, 3)),
        ("deny-if 24\nsupplier 0\n", refused(3, 1)),
    ];
    let mut cases: Vec<Case> = cases.map(|(text, answer)| reading(text, answer)).into();
    let (rows, questions) = ("unspecified\n".repeat(256), "truth-at-or-below 0 0\n".repeat(64));
    cases.push(reading(rows.clone() + "unspecified\n", refused(6, 257)));
    cases.push(reading(rows.clone() + "deny-if 24\n", refused(6, 257)));
    cases.push(reading(rows.clone() + "supplier 5\nunspecified\n", refused(6, 258)));
    cases.push(reading(rows.clone() + "supplier 5\nnot 0\n", refused(15, 257)));
    cases.push(reading(rows.clone() + "supplier 5\n", refused(15, 257)));
    cases.push(reading(rows.clone() + &questions + "not 0\n", refused(7, 321)));
    cases.push(reading(rows + &questions + "deny\n", refused(5, 321)));
    cases.push(reading("unspecified\n".to_string() + &questions + "not 255\n", refused(7, 66)));
    let constraints = "only-if 0 1\n".repeat(32);
    cases.push(reading(constraints.clone() + "never-both 0 1\n", refused(14, 33)));
    cases.push(reading(constraints.clone() + "never-both 24 24\n", refused(14, 33)));
    cases.push(reading(constraints.clone() + "deny\nnever-both 0 1\n", refused(5, 34)));
    cases.push(reading(constraints.clone() + "deny\nonly-if 0\n", refused(13, 34)));
    cases.push(reading(constraints + "only-if 0 256\n", refused(12, 33)));
    cases
}

/// An output that is too short, at place 0, after all else.
fn rooms() -> Vec<Case> {
    let long = TEXT_A.len();
    let text = |room, answer| (TEXT_A.into(), Call::FromText { room }, answer);
    let table = |room, answer| (hex(TABLE_A), Call::ToText { room }, answer);
    let no_room = |text: &str, answer| (text.into(), Call::FromText { room: 0 }, answer);
    vec![
        text(0, refused(11, 0)),
        text(21, refused(11, 0)),
        text(22, Answer::Written(hex(TABLE_A))),
        text(23, Answer::Written(hex(TABLE_A))),
        table(0, refused(11, 0)),
        table(long - 1, refused(11, 0)),
        table(long, Answer::Written(TEXT_A.into())),
        table(long + 1, Answer::Written(TEXT_A.into())),
        no_room("", Answer::Written(Vec::new())),
        no_room("deny\n", refused(11, 0)),
        no_room("deny-if 24\n", refused(3, 1)),
        no_room("deny\nnegation 1\n", refused(4, 2)),
        no_room("deny-if 03\n", refused(13, 1)),
        no_room("deny\nxyz\n", refused(12, 2)),
        no_room("supplier 5\ndeny\n", refused(11, 0)),
        no_room("supplier 5\n", refused(15, 1)),
        (hex(""), Call::ToText { room: 0 }, Answer::Written(Vec::new())),
    ]
}

/// Tables that are refused have no text: the refusal is reading's own, with its
/// place among the table's bytes, before 11.
fn refused_tables() -> Vec<Case> {
    let cases = [
        ("12", refused(1, 0)),
        ("00 FF", refused(1, 1)),
        ("11", refused(2, 0)),
        ("11 18", refused(3, 1)),
        ("20 00", refused(4, 1)),
        ("00 30 00 05", refused(4, 3)),
        ("00 40 00 00 00", refused(5, 4)),
        ("00 50 00 00", refused(5, 1)),
        ("51 00 18", refused(3, 2)),
        ("60 05", refused(15, 0)),
        ("60 05 20", refused(2, 2)),
    ];
    let rooms = [0, TEXT_BYTES];
    let case = |(table, answer): (&str, Answer)| {
        rooms.map(|room| (hex(table), Call::ToText { room }, answer.clone()))
    };
    let mut cases: Vec<Case> = cases.into_iter().flat_map(case).collect();
    cases.push((vec![0; 257], Call::ToText { room: 0 }, refused(6, 256)));
    let comparisons = [hex("00"), hex("40 00 00").repeat(65)].concat();
    cases.push((comparisons, Call::ToText { room: 0 }, refused(7, 193)));
    cases.push((hex("50 00 00").repeat(33), Call::ToText { room: 0 }, refused(14, 96)));
    cases
}
