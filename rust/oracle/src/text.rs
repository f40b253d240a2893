//! The written table: a text of one line an entry, and reading one.
//!
//! A line is the word for the entry's kind, then the numbers of its body in
//! decimal, a single space before each, and one line feed.

use crate::kinds::{kind_of, word_of};
use crate::output::write;
use crate::refusal::{Refusal, MISSPELT_LINE, UNKNOWN_WORD};
use crate::table::{entries, read, Entry, Kind, Table, TABLE_BYTES};

/// The longest text that a table has.
pub const TEXT_BYTES: usize = 12_979;

/// Writes the text of a table to the front of `out` and answers how many bytes
/// that took.
pub fn to_text(bytes: &[u8], out: &mut [u8]) -> Result<usize, Refusal> {
    read(bytes)?;
    let mut text = Vec::with_capacity(TEXT_BYTES);
    for entry in entries(bytes) {
        push_line(entry, &mut text);
    }
    write(&text, out)
}

fn push_line(entry: Entry, text: &mut Vec<u8>) {
    let (kind, numbers) = (entry.bytes[0], &entry.bytes[1..]);
    text.extend_from_slice(word_of(kind).expect("every listed kind has a word"));
    for &number in numbers {
        text.push(b' ');
        push_number(number, text);
    }
    text.push(b'\n');
}

/// Adds a number in decimal, without leading zeros.
fn push_number(number: u8, text: &mut Vec<u8>) {
    if number >= 100 {
        text.push(b'0' + number / 100);
    }
    if number >= 10 {
        text.push(b'0' + number / 10 % 10);
    }
    text.push(b'0' + number % 10);
}

/// Writes the bytes of the table that a text spells to the front of `out` and
/// answers how many they are.
///
/// Document 02, L2: 12 and 13 "are looked for through the whole text before 01's
/// own for the bytes, of which 1 and 2 cannot occur; last 11 at place 0".
pub fn from_text(text: &[u8], out: &mut [u8]) -> Result<usize, Refusal> {
    let bytes = spelled(text)?;
    check_entries(&bytes)?;
    write(&bytes, out)
}

/// The bytes that a text spells, or refusal 12 or 13 at the first line that is not
/// well spelled.
fn spelled(text: &[u8]) -> Result<Vec<u8>, Refusal> {
    let mut bytes = Vec::with_capacity(TABLE_BYTES);
    let lines = text.split_inclusive(|&byte| byte == b'\n');
    for (line, place) in lines.zip(1..) {
        push_entry(line, &mut bytes).map_err(|number| Refusal { number, place })?;
    }
    Ok(bytes)
}

/// Adds the entry that a line spells, or gives the number of its refusal: 12, as
/// soon as there is cause for it, and 13 only if there is none on the whole line.
fn push_entry(line: &[u8], bytes: &mut Vec<u8>) -> Result<(), u32> {
    let (line, mut well_spelled) = match line.strip_suffix(b"\n") {
        Some(line) => (line, true),
        None => (line, false),
    };
    let mut pieces = line.split(|&byte| byte == b' ');
    let word = pieces.next().unwrap_or_default();
    let byte = kind_of(word).ok_or(UNKNOWN_WORD)?;
    let kind = Kind::of(byte).expect("every word has a listed kind");
    bytes.push(byte);
    let mut count = 0;
    for piece in pieces {
        match number(piece) {
            Ok(number) => bytes.push(number),
            Err(MISSPELT_LINE) => well_spelled = false,
            Err(refusal) => return Err(refusal),
        }
        count += 1;
    }
    if well_spelled && count == kind.body_length() {
        Ok(())
    } else {
        Err(MISSPELT_LINE)
    }
}

/// The number that a piece behind the word spells, or the number of its refusal:
/// 12, if it is digits alone and their value is above 255, by whatever spelling.
fn number(piece: &[u8]) -> Result<u8, u32> {
    let value = value(piece).ok_or(MISSPELT_LINE)?;
    let number = u8::try_from(value).map_err(|_| UNKNOWN_WORD)?;
    match piece {
        [] | [b'0', _, ..] => Err(MISSPELT_LINE),
        _ => Ok(number),
    }
}

/// The value of a piece that is digits alone, however many; from the largest
/// 32-bit number on, that number.
fn value(piece: &[u8]) -> Option<u32> {
    piece.iter().try_fold(0_u32, |value, &byte| {
        let digit = char::from(byte).to_digit(10)?;
        Some(value.saturating_mul(10).saturating_add(digit))
    })
}

/// Refuses with one of 3 to 7, 14 and 15, at its line, the first bad entry of spelled bytes.
fn check_entries(bytes: &[u8]) -> Result<(), Refusal> {
    let mut table = Table::empty();
    let (mut place, mut line) = (0, 1);
    while place < bytes.len() {
        let entry = table.read_entry(bytes, place);
        place = entry.map_err(|refusal| Refusal { place: line, ..refusal })?;
        line += 1;
    }
    Ok(())
}
