//! Texts of any entries, random texts, damaged ones, and a mixture of all sorts.

use crate::kinds::{kind_of, word_of, Group, ON_TWO_PREDICATES, SUPPLIER, WORDS};
use crate::random::Random;
use crate::tables;

/// The text of the entries that `bytes` begin with, whether a table may have them or
/// not: said a second time beside `text`, so that tests of writing do not rest on it.
pub fn spelling(bytes: &[u8]) -> Vec<u8> {
    entries(bytes).flat_map(line).collect()
}

/// The bytes whose text this is, if it is well spelled: then it is their spelling.
pub fn spelled_by(text: &[u8]) -> Option<Vec<u8>> {
    let mut bytes = Vec::new();
    for line in std::str::from_utf8(text).ok()?.split_terminator('\n') {
        let mut pieces = line.split(' ');
        bytes.push(kind_of(pieces.next()?.as_bytes())?);
        for piece in pieces {
            bytes.push(piece.parse().ok()?);
        }
    }
    (spelling(&bytes) == text).then_some(bytes)
}

/// The entries that `bytes` begin with, as far as their kinds are listed and their
/// bodies whole.
pub fn entries(bytes: &[u8]) -> impl Iterator<Item = &[u8]> {
    let mut rest = bytes;
    std::iter::from_fn(move || {
        let length = 1 + Group::of(*rest.first()?)?.length;
        let entry = rest.get(..length)?;
        rest = &rest[length..];
        Some(entry)
    })
}

/// The bytes of the constraints that a table begins with, and the rest of it.
pub fn split_constraints(bytes: &[u8]) -> (&[u8], &[u8]) {
    let constraints = entries(bytes).take_while(|entry| ON_TWO_PREDICATES.contains(&entry[0]));
    bytes.split_at(constraints.map(<[u8]>::len).sum())
}

fn line(entry: &[u8]) -> Vec<u8> {
    let mut line = word_of(entry[0]).expect("a listed kind").to_vec();
    for number in &entry[1..] {
        line.extend(format!(" {number}").bytes());
    }
    line.push(b'\n');
    line
}

/// The lines of a text, with their line feeds.
pub fn lines(text: &[u8]) -> Vec<&[u8]> {
    text.split_inclusive(|&byte| byte == b'\n').collect()
}

/// The pieces of a line.
pub fn pieces(line: &[u8]) -> Vec<&[u8]> {
    line.split(|&byte| byte == b' ').collect()
}

/// Digits around every limit, and beyond what a machine's numbers hold; 2 to the
/// powers 8, 16, 32, 64 and 128 come with what is beside them.
#[rustfmt::skip]
pub const NUMERALS: [&str; 38] = [
    "0", "1", "9", "10", "22", "23", "24", "25", "63", "64", "99", "100", "199", "200",
    "249", "250", "254", "255", "256", "257", "259", "260", "279", "300", "999", "1000",
    "2550", "65535", "65536", "65539", "4294967295", "4294967296", "4294967297",
    "18446744073709551615", "18446744073709551616", "18446744073709551619",
    "340282366920938463463374607431768211455", "340282366920938463463374607431768211456",
];

/// Pieces that are no numeral at all.
#[rustfmt::skip]
pub const NO_NUMERALS: [&str; 16] = [
    "", "x", "3x", "x3", "-1", "+1", "-0", "3.", "1e1", "0x3", "3\r", "\r", "\t", "\t3", "3\0",
    "\u{663}",
];

/// A numeral from the list, or a long one, or one with leading zeros.
fn numeral(random: &mut Random) -> Vec<u8> {
    let short = random.pick(&NUMERALS).as_bytes();
    let length = random.within(&(1..=40));
    match random.below(6) {
        0 => (0..length).map(|_| digit(random)).collect(),
        1 => [&b"0".repeat(length), short].concat(),
        _ => short.to_vec(),
    }
}

fn digit(random: &mut Random) -> u8 {
    b'0' + random.below(10) as u8
}

/// What is left of a text after one mishap or two; it may still be well spelled.
pub fn damaged(random: &mut Random, text: &[u8]) -> Vec<u8> {
    let mut lines: Vec<Vec<u8>> = lines(text).into_iter().map(<[u8]>::to_vec).collect();
    if lines.is_empty() {
        return glued(random);
    }
    let (one, other) = (random.below(lines.len()), random.below(lines.len()));
    match random.below(17) {
        0 => lines.swap(one, other),
        1 => lines[one] = Vec::new(),
        2 => lines[one] = lines[other].clone(),
        3 => lines.insert(one, b"\n".to_vec()),
        4 => drop(lines[one].pop()),
        5 => lines.iter_mut().for_each(|line| line.insert(line.len() - 1, b'\r')),
        6 => return drop_end(random, text),
        7 => lines.extend_from_within(..),
        16 => lines.insert(one, supplier(random)),
        8 | 9 => {
            spoil(random, &mut lines[one]);
            spoil(random, &mut lines[one]);
        }
        10 | 11 => {
            spoil(random, &mut lines[one]);
            spoil(random, &mut lines[other]);
        }
        _ => spoil(random, &mut lines[one]),
    }
    lines.concat()
}

/// The line of a supplier.
fn supplier(random: &mut Random) -> Vec<u8> {
    let any = random.number() as u8;
    spelling(&[SUPPLIER, random.pick(&[0, 1, any])])
}

/// Drops the last line feed, or everything from some place on.
fn drop_end(random: &mut Random, text: &[u8]) -> Vec<u8> {
    let (last, any) = (text.len() - 1, random.below(text.len()));
    text[..random.pick(&[last, any])].to_vec()
}

/// Spoils a line that has its line feed still, if it was not spoilt before; by chance
/// it stays well spelled.
fn spoil(random: &mut Random, line: &mut Vec<u8>) {
    match random.below(4) {
        _ if line.is_empty() => {}
        0 => spoil_word(random, line),
        1 | 2 => spoil_numbers(random, line),
        _ => spoil_byte(random, line),
    }
}

/// Flips, drops, doubles or puts in a byte, or takes out a space.
fn spoil_byte(random: &mut Random, line: &mut Vec<u8>) {
    let place = random.below(line.len());
    let space = line.iter().position(|&byte| byte == b' ');
    match random.below(6) {
        0 => line[place] ^= 1 << random.below(8),
        1 => line[place] = random.number() as u8,
        2 => drop(line.remove(place)),
        3 => line.insert(place, line[place]),
        4 => drop(space.map(|space| line.remove(space))),
        _ => line.insert(place, random.pick(b"  \n\n\r\t0159-x\0\xFF")),
    }
}

/// Cuts the word, changes a letter, or puts another word in its place.
fn spoil_word(random: &mut Random, line: &mut Vec<u8>) {
    let end = line.iter().position(|&byte| byte == b' ' || byte == b'\n').unwrap_or(line.len());
    let mut word = line[..end].to_vec();
    let place = random.below(end);
    match random.below(5) {
        0 => word.truncate(place),
        1 => word = word.split_off(place),
        2 => word.make_ascii_uppercase(),
        3 => word.iter_mut().skip(place).take(1).for_each(|letter| *letter = any_letter(random)),
        _ => word = random.pick(&WORDS).1.to_vec(),
    }
    line.splice(..end, word);
}

fn any_letter(random: &mut Random) -> u8 {
    random.pick(b"abcdefghijklmnopqrstuvwxyz-")
}

/// Changes a number of the line, if there is one, or how many there are.
fn spoil_numbers(random: &mut Random, line: &mut Vec<u8>) {
    let ending = line.pop();
    let mut pieces: Vec<Vec<u8>> = pieces(line).into_iter().map(<[u8]>::to_vec).collect();
    let at = 1 + random.below(pieces.len() - 1);
    let no_numeral = random.pick(&NO_NUMERALS).as_bytes().to_vec();
    match (pieces.get_mut(at), random.below(7)) {
        (Some(number), 0) => number.push(digit(random)),
        (Some(number), 1) => number.splice(..0, b"0".repeat(1 + random.below(3))).for_each(drop),
        (Some(number), 2) => *number = no_numeral,
        (Some(number), 3) => *number = numeral(random),
        (Some(_), 4) => drop(pieces.remove(at)),
        (_, 5) => pieces.insert(at, no_numeral),
        _ => pieces.insert(at, numeral(random)),
    }
    *line = pieces.join(&b' ');
    line.extend(ending);
}

/// Random lines of words, numerals and what is neither.
pub fn glued(random: &mut Random) -> Vec<u8> {
    let mut text = Vec::new();
    for _ in 0..random.below(8) {
        text.extend(random.pick(&WORDS).1);
        for _ in 0..random.below(4) {
            text.push(b' ');
            text.extend(numeral(random));
        }
        if random.one_in(6) {
            text.extend(random.pick(&NO_NUMERALS).bytes());
        }
        text.push(random.pick(b"\n\n\n\n\n\n\n "));
    }
    text
}

/// Bytes that are no text but by chance.
fn garbage(random: &mut Random) -> Vec<u8> {
    let bound = random.pick(&[4, 64, 1200]);
    (0..random.below(bound)).map(|_| random.number() as u8).collect()
}

/// Texts of every sort to draw from.
#[derive(Default)]
pub struct Mixture {
    tables: tables::Mixture,
}

impl Mixture {
    /// The text of a table of some sort, accepted or not; half of them damaged. Else
    /// what is no table's text but by chance.
    pub fn text(&self, random: &mut Random) -> Vec<u8> {
        let text = match random.below(12) {
            0 => return garbage(random),
            1 => return glued(random),
            _ => spelling(&self.tables.table(random)),
        };
        if random.one_in(2) {
            damaged(random, &text)
        } else {
            text
        }
    }
}
