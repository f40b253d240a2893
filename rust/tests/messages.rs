//! What a refusal tells its reader.

use pierstride::{Refusal, TextRefusal};

/// The refusals of calls on a table.
const OF_TABLES: [u32; 13] = [1, 2, 3, 4, 5, 6, 7, 8, 9, 10, 11, 14, 15];

fn message(number: u32, place: usize) -> String {
    Refusal { number, place }.to_string()
}

fn text_message(number: u32, place: usize) -> String {
    TextRefusal { number, place }.to_string()
}

#[test]
fn a_message_says_what_the_place_points_at() {
    for number in OF_TABLES {
        let pointed_at = match number {
            3 | 4 => "the number at place 120 ",
            1..=7 | 14 | 15 => "the entry at place 120 ",
            _ => "",
        };
        let message = message(number, 120);
        assert!(message.starts_with(&format!("refused {number}: {pointed_at}")), "{message}");
        assert_eq!(message.contains(" at place 120 "), !pointed_at.is_empty(), "{message}");
    }
}

#[test]
fn a_message_says_why() {
    let expected = [
        (1, 0, "refused 1: the entry at place 0 has a kind that is not listed"),
        (2, 0, "refused 2: the entry at place 0 is cut short"),
        (3, 1, "refused 3: the number at place 1 is a predicate above 23"),
        (4, 121, "refused 4: the number at place 121 may not be named there"),
        (
            5,
            4,
            "refused 5: the entry at place 4 is a row or supplier after a question, or a \
             constraint after a row or question",
        ),
        (7, 193, "refused 7: the entry at place 193 is a 65th question"),
        (9, 0, "refused 9: the row to strike is named by a row or question"),
        (14, 96, "refused 14: the entry at place 96 is a 33rd constraint"),
        (
            15,
            3,
            "refused 15: the entry at place 3 names the supplier in force, or no row follows it",
        ),
    ];
    for (number, place, text) in expected {
        assert_eq!(message(number, place), text);
    }
    for number in OF_TABLES {
        assert!(!message(number, 0).contains("unknown"), "refusal {number} has no message");
    }
}

#[test]
fn a_text_s_message_speaks_of_the_line() {
    for number in [3, 4, 5, 6, 7, 12, 13, 14, 15] {
        let message = text_message(number, 120);
        assert!(message.starts_with(&format!("refused {number} at line 120: ")), "{message}");
        assert!(!message.contains(" place "), "{message}");
        assert!(!message.contains("unknown reason"), "{message}");
    }
}

#[test]
fn a_text_s_message_says_why() {
    let expected = [
        (3, 1, "refused 3 at line 1: the predicate is above 23"),
        (4, 2, "refused 4 at line 2: it names a row or question that does not stand before it"),
        (
            5,
            2,
            "refused 5 at line 2: it is a row or supplier after a question, or a constraint \
             after a row or question",
        ),
        (7, 66, "refused 7 at line 66: it is a 65th question"),
        (11, 0, "refused 11: the output is shorter than the bytes to write"),
        (12, 4, "refused 12 at line 4: the word is missing or unknown, or a number is above 255"),
        (
            13,
            4,
            "refused 13 at line 4: it is misspelt (it needs a word and as many numbers as that \
             takes, a single space before each, no leading zero, and a line feed at the end)",
        ),
        (14, 33, "refused 14 at line 33: it is a 33rd constraint"),
        (15, 2, "refused 15 at line 2: it names the supplier in force, or no row follows it"),
    ];
    for (number, place, text) in expected {
        assert_eq!(text_message(number, place), text);
    }
}
