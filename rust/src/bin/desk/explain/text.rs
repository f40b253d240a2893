//! The words for a refused text.

use pierstride::{Kind, TextRefusal, KINDS};

use super::{one_of, takes, Bad, Before};
use crate::line::{lines, Line};
use crate::number::value;
use crate::trouble::{Place, Refused};
use crate::words::{counted, listed, meant, quoted, shortened};

const CARRIAGE_RETURN: &str =
    "has a carriage return; a line ends with a line feed alone (Unix line ends)";

pub fn of_text(text: &[u8], refusal: TextRefusal) -> Refused {
    let TextRefusal { number, place } = refusal;
    let line = lines(text).nth(place.saturating_sub(1));
    let message = line.and_then(|line| match (number, line.kind()) {
        (12, None) => Some(unknown_word(line)),
        (12, Some(_)) => too_large(line),
        (13, Some(kind)) => Some(misspelt(line, kind)),
        (3..=7 | 14 | 15, Some(kind)) => Some(of_line(text, place, line, kind).why(number)),
        _ => None,
    });
    let message = message.unwrap_or_else(|| refusal.reason().to_owned());
    Refused { number, place: Place::Line(place), message, hint: None }
}

fn unknown_word(line: Line) -> String {
    let shown = quoted(line.whole);
    match line.word() {
        [] if line.whole.is_empty() => "the line is empty; take it out".to_owned(),
        [] => format!("{shown} begins with a space; a line begins with its word"),
        [b'#', ..] => format!("{shown} is no entry, and a text has no comments; take it out"),
        word if word.contains(&b'\r') => format!("{shown} {CARRIAGE_RETURN}"),
        word if word.contains(&b'\t') => {
            format!("{shown} has a tab; a single space stands before each number")
        }
        word if word.len() == line.whole.len() => format!("{shown} is no word; {}", perhaps(line)),
        word => {
            format!("{shown} begins with {}, which is no word; {}", quoted(word), perhaps(line))
        }
    }
}

/// The word that was meant, or all of them.
fn perhaps(line: Line) -> String {
    let words = KINDS.iter().map(|kind| kind.word);
    match hyphenated(line).or_else(|| meant(line.word(), words.clone())) {
        Some(word) => format!("perhaps `{word}` was meant"),
        None => format!("the words are {}", listed(words, "and")),
    }
}

/// The word that a line begins with if a hyphen stands for its first space.
fn hyphenated(line: Line) -> Option<&'static str> {
    let word = [line.word(), line.pieces().next()?].join(&b'-');
    Kind::of_word(&word).map(|kind| kind.word)
}

fn too_large(line: Line) -> Option<String> {
    let most = u8::MAX.into();
    let large = line.pieces().find(|piece| value(piece).map_or(false, |value| value > most))?;
    let (shown, large) = (quoted(line.whole), shortened(large));
    Some(format!("{shown} has the number {large}; no number is above {most}"))
}

fn misspelt(line: Line, kind: &Kind) -> String {
    let shown = quoted(line.whole);
    let count = line.pieces().count();
    if let Some(word) = hyphenated(line) {
        format!("{shown} has a space within its word; perhaps `{word}` was meant")
    } else if let Some(found) = line.pieces().find_map(misspelt_piece) {
        format!("{shown} {found}")
    } else if count != kind.names.len() {
        format!("{shown} has {}; {}", counted(count, "number"), takes(kind))
    } else {
        format!("{shown} has no line feed behind it; every line ends with one, the last too")
    }
}

/// What is wrong with a piece of a line that should be a number.
fn misspelt_piece(piece: &[u8]) -> Option<String> {
    let shown = quoted(piece);
    match (piece, value(piece)) {
        ([], _) => Some("has a space too many; one stands before each number".to_owned()),
        ([b'#', ..], _) => Some("has a comment, and a text has none".to_owned()),
        (_, None) if piece.contains(&b'\r') => Some(CARRIAGE_RETURN.to_owned()),
        (_, None) => Some(format!("has {shown} for a number; a number is digits alone")),
        ([b'0', _, ..], Some(value)) => {
            Some(format!("has the number {shown} with a leading zero; write `{value}`"))
        }
        _ => None,
    }
}

/// A line that may not stand there, of a text whose lines are all well spelled.
fn of_line(text: &[u8], place: usize, line: Line, kind: &'static Kind) -> Bad {
    let lines_before = lines(text).take(place - 1);
    let before = Before::of(lines_before.filter_map(|line| Some((line.kind()?, line.numbers()))));
    let behind = lines(text).nth(place).and_then(Line::kind).map_or("nothing", one_of);
    Bad { shown: quoted(line.whole), kind, numbers: line.numbers(), before, behind }
}
