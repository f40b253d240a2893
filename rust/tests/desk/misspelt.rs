//! What a refusal must say of a line that is not well spelled.

use pierstride_oracle::kinds::{self, Group};
use pierstride_oracle::Refusal;

use crate::said::Message::{self, Parts, Whole};
use crate::said::{counted, line, takes};

/// A line up to this length is shown whole; a line of a table has at most 29 letters.
const SHOWN_WHOLE: usize = 40;

/// Refusals 12 and 13. The page has words for a line with a single slip of some sorts; of
/// others, a line that is short and printable must be shown.
pub fn message(input: &[u8], refusal: Refusal) -> Message {
    let (line, ends) = line(input, refusal.place);
    let printable = line.bytes().all(|byte| byte == b' ' || byte.is_ascii_graphic());
    if !printable || line.len() > SHOWN_WHOLE {
        return Parts(Vec::new());
    }
    match refusal.number {
        12 => of_unknown(&line),
        _ => of_misspelt(&line, ends),
    }
}

/// Refusal 12: an unknown word, or a number above 255.
fn of_unknown(line: &str) -> Message {
    let mut pieces = line.split(' ');
    let word = pieces.next().unwrap_or_default();
    match word {
        _ if kind_of(word).is_some() => {}
        // There is no word of which to say something.
        "" => return Parts(Vec::new()),
        _ if !word.starts_with(|letter: char| letter.is_ascii_alphabetic()) => {
            return Parts(vec![format!("`{word}")]);
        }
        _ => return Parts(vec![format!("`{word}"), "is no word; ".to_string()]),
    }
    let above: Vec<&str> = pieces.filter(|piece| is_above_255(piece)).collect();
    match above[..] {
        [number] if !number.starts_with('0') => {
            Whole(format!("`{line}` has the number {number}; no number is above 255"))
        }
        _ => Parts(vec![format!("`{line}` has "), "; no number is above 255".to_string()]),
    }
}

fn kind_of(word: &str) -> Option<u8> {
    kinds::kind_of(word.as_bytes())
}

fn is_digits(piece: &str) -> bool {
    !piece.is_empty() && piece.bytes().all(|byte| byte.is_ascii_digit())
}

fn is_above_255(piece: &str) -> bool {
    let add =
        |value: u32, digit: u8| value.saturating_mul(10).saturating_add((digit - b'0').into());
    is_digits(piece) && piece.bytes().fold(0, add) > 255
}

/// Refusal 13: any other slip.
fn of_misspelt(line: &str, ends: bool) -> Message {
    let mut pieces = line.split(' ');
    let word = pieces.next().unwrap_or_default();
    let numbers: Vec<&str> = pieces.collect();
    let kind = kind_of(word).expect("a known word");
    let takes = takes(kind);
    let zeros: Vec<_> = numbers.iter().filter(|piece| has_leading_zero(piece)).collect();
    let digits = numbers.iter().all(|piece| is_digits(piece));
    let count = Group::of(kind).expect("a listed kind").length;
    match (ends, digits, numbers.len() == count, &zeros[..]) {
        (false, true, true, []) => Whole(format!(
            "`{line}` has no line feed behind it; every line ends with one, the last too"
        )),
        (true, true, false, []) if count > 0 => {
            Whole(format!("`{line}` has {}; {takes}", counted(numbers.len(), "number")))
        }
        (true, true, false, []) => {
            let found = format!("`{line}` has {}; ", counted(numbers.len(), "number"));
            Parts(vec![found, format!("`{word}` takes")])
        }
        (true, true, true, [number]) => Whole(format!(
            "`{line}` has the number `{number}` with a leading zero; write `{}`",
            without_leading_zeros(number)
        )),
        _ => Parts(vec![format!("`{line}` "), "; ".to_string()]),
    }
}

fn has_leading_zero(piece: &str) -> bool {
    is_digits(piece) && piece.len() > 1 && piece.starts_with('0')
}

fn without_leading_zeros(piece: &str) -> &str {
    match piece.trim_start_matches('0') {
        "" => "0",
        number => number,
    }
}
