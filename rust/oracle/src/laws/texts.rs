//! The laws of texts. They go by the list of words in `kinds` and by the spelling in
//! `texts`, not by the implementation's own reading of a text.

use super::Desk;
use crate::call::{Answer, Call};
use crate::kinds::WORDS;
use crate::random::Random;
use crate::refusal::{Refusal, MISSPELT_LINE, OUTPUT_TOO_SHORT, UNKNOWN_WORD};
use crate::texts::{glued, lines, pieces, spelled_by, spelling};
use crate::TEXT_BYTES;

/// Checks that the text of an accepted table is its spelling, and that reading it
/// gives the table's bytes back.
pub fn check_round_trip(answer: &mut dyn FnMut(&[u8], Call) -> Answer, bytes: &[u8]) {
    let mut desk = Desk { answer };
    let text = desk.text_of(bytes);
    assert_eq!(text, spelling(bytes), "the text of {bytes:02x?}");
    assert_eq!(desk.table_of(&text), Ok(bytes.to_vec()), "{}", shown(&text));
}

/// Checks every law of reading a text on the answers that `answer` gives on any one.
pub fn check_text(answer: &mut dyn FnMut(&[u8], Call) -> Answer, random: &mut Random, text: &[u8]) {
    let mut desk = Desk { answer };
    match desk.table_of(text) {
        Ok(bytes) => {
            assert_eq!(spelling(&bytes), text, "the spelling of {bytes:02x?}");
            assert_eq!(desk.text_of(&bytes), text, "the text of {bytes:02x?}");
            check_rooms(&mut desk, &bytes, |room| Call::ToText { room }, text);
            check_rooms(&mut desk, text, |room| Call::FromText { room }, &bytes);
        }
        Err(refused) => {
            if is_of_spelling(refused) {
                check_misspelt(&mut desk, random, text, refused);
            } else {
                check_bad_entry(&mut desk, text, refused);
            }
            let room = random.below(text.len() + 1);
            let again = (desk.answer)(text, Call::FromText { room });
            assert_eq!(again, Answer::Refused(refused), "room {room}, {}", shown(text));
        }
    }
}

impl Desk<'_> {
    /// The text of an accepted table.
    fn text_of(&mut self, bytes: &[u8]) -> Vec<u8> {
        match (self.answer)(bytes, Call::ToText { room: TEXT_BYTES }) {
            Answer::Written(text) => text,
            other => panic!("{other:?} for the text of {bytes:02x?}"),
        }
    }

    /// The bytes of the table that a text spells. As many bytes as the text has are
    /// always enough for them.
    fn table_of(&mut self, text: &[u8]) -> Result<Vec<u8>, Refusal> {
        match (self.answer)(text, Call::FromText { room: text.len() }) {
            Answer::Written(bytes) => Ok(bytes),
            Answer::Refused(refusal) => Err(refusal),
            other => panic!("{other:?} for {}", shown(text)),
        }
    }

    /// The line at which a text is refused for its spelling, if it is.
    fn misspelt_line(&mut self, text: &[u8]) -> Option<usize> {
        let refused = self.table_of(text).err()?;
        is_of_spelling(refused).then_some(refused.place)
    }
}

fn is_of_spelling(refused: Refusal) -> bool {
    matches!(refused.number, UNKNOWN_WORD | MISSPELT_LINE)
}

/// An output that is shorter than what is to be written is refused, and every other
/// is written to.
pub(super) fn check_rooms(
    desk: &mut Desk,
    input: &[u8],
    call: impl Fn(usize) -> Call,
    written: &[u8],
) {
    let need = written.len();
    for room in (0..need.min(2)).chain(need.saturating_sub(2)..need + 3) {
        let expected = if room < need {
            Answer::Refused(Refusal::of_request(OUTPUT_TOO_SHORT))
        } else {
            Answer::Written(written.to_vec())
        };
        let call = call(room);
        assert_eq!((desk.answer)(input, call), expected, "{}", call.on(input));
    }
}

/// A refusal 12 or 13 speaks of the first line that is not well spelled, and goes by
/// that line alone: lines before and behind it change nothing. Once the line is put
/// right, reading comes further.
fn check_misspelt(desk: &mut Desk, random: &mut Random, text: &[u8], refused: Refusal) {
    let Refusal { number, place } = refused;
    let lines = lines(text);
    assert!((1..=lines.len()).contains(&place), "{refused:?} of {}", shown(text));
    let (before, line, behind) = (&lines[..place - 1], lines[place - 1], &lines[place..]);

    let before = before.concat();
    assert!(spelled_by(&before).is_some(), "{refused:?}, though not the first: {}", shown(text));
    assert!(spelled_by(line).is_none(), "{refused:?}, though well spelled: {}", shown(text));
    let expected = if calls_for_12(line) { UNKNOWN_WORD } else { MISSPELT_LINE };
    assert_eq!(number, expected, "{}", shown(line));

    assert_eq!(desk.misspelt_line(&before), None, "before line {place}: {}", shown(text));
    let mended = [&before[..], b"deny\n", &behind.concat()].concat();
    let is_further = desk.misspelt_line(&mended).map_or(true, |line| line > place);
    assert!(is_further, "no further than line {place}: {}", shown(&mended));

    assert_eq!(desk.table_of(line), Err(Refusal { number, place: 1 }), "{}", shown(line));
    let others = if line.ends_with(b"\n") { glued(random) } else { Vec::new() };
    for behind in [Vec::new(), others] {
        let other = [&before[..], line, &behind].concat();
        assert_eq!(desk.table_of(&other), Err(refused), "{}", shown(&other));
    }
}

/// Has the line an unknown word, or a number above 255?
fn calls_for_12(line: &[u8]) -> bool {
    let pieces = pieces(line.strip_suffix(b"\n").unwrap_or(line));
    let is_known = WORDS.iter().any(|&(_, word)| word == pieces[0]);
    !is_known || pieces[1..].iter().any(|piece| is_above_255(piece))
}

/// Is the piece digits alone, and their value above 255?
fn is_above_255(piece: &[u8]) -> bool {
    let zeros = piece.iter().take_while(|&&byte| byte == b'0').count();
    let digits = &piece[zeros..];
    let has_more_digits = digits.len() > 3 || digits.len() == 3 && digits > &b"255"[..];
    has_more_digits && digits.iter().all(u8::is_ascii_digit)
}

/// A refusal 3 to 7, 14 or 15 speaks of the line of the first bad entry of the bytes that
/// the text spells, and reading those bytes refuses them with its number. Lines behind
/// that one change nothing, unless one is not well spelled or, with 15, it is a row's. The
/// lines before it, or before a supplier's right before it, are an accepted text.
fn check_bad_entry(desk: &mut Desk, text: &[u8], refused: Refusal) {
    let Refusal { number, place } = refused;
    let bytes = spelled_by(text);
    let bytes = bytes.unwrap_or_else(|| panic!("{refused:?}, though misspelt: {}", shown(text)));
    let lines = lines(text);
    assert!((1..=lines.len()).contains(&place), "{refused:?} of {}", shown(text));
    let up_to = |count: usize| lines[..count].concat();

    let is_announced = place > 1 && lines[place - 2].starts_with(b"supplier ");
    let before = desk.table_of(&up_to(place - 1 - usize::from(is_announced)));
    let before = before.unwrap_or_else(|_| panic!("{refused:?}, not the first: {}", shown(text)));
    assert!(bytes.starts_with(&before), "before line {place}: {}", shown(text));
    let [start, end] = [place - 1, place].map(|count| length_of(&up_to(count)));
    let of_bytes = desk.read(&bytes).err();
    let of_bytes = of_bytes.unwrap_or_else(|| panic!("{refused:?}, but accepted: {bytes:02x?}"));
    assert_eq!(of_bytes.number, number, "{refused:?} of the text of {bytes:02x?}");
    assert!((start..end).contains(&of_bytes.place), "{of_bytes:?} and {refused:?}");

    assert_eq!(desk.table_of(&up_to(place)), Err(refused), "{}", shown(text));
    let more = [text, b"deny 256\n"].concat();
    let at_end = Refusal { number: UNKNOWN_WORD, place: lines.len() + 1 };
    assert_eq!(desk.table_of(&more), Err(at_end), "{}", shown(&more));
}

/// How many bytes a well-spelled text spells.
fn length_of(text: &[u8]) -> usize {
    spelled_by(text).expect("a well-spelled text").len()
}

fn shown(text: &[u8]) -> String {
    format!("\"{}\"", text.escape_ascii())
}
