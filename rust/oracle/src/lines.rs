//! Texts around every rule of spelling, one after the other.

use crate::kinds::{word_of, Group, LISTED, WORDS};
use crate::limits;
use crate::refusal::{Refusal, MAY_NOT_BE_NAMED, MISSPELT_LINE, UNKNOWN_WORD};
use crate::texts::{spelling, NO_NUMERALS, NUMERALS};

/// Texts with a line around every rule, alone and among other lines, and texts at
/// every limit of a table, and past it.
pub fn texts() -> Vec<Vec<u8>> {
    let lines = [words(), counts(), one_piece(), two_pieces()].concat();
    lines.iter().flat_map(|line| among_others(line)).chain(at_limits()).collect()
}

/// The line with its line feed, with none, and with a carriage return before it; and
/// behind and before a line that is well spelled, one that calls for refusal 12 and
/// one that calls for 13.
fn among_others(line: &[u8]) -> Vec<Vec<u8>> {
    let whole = [line, b"\n"].concat();
    let mut texts = vec![whole.clone(), line.to_vec(), [line, b"\r\n"].concat()];
    let others: [&[u8]; 3] = [b"grant-if 24\n", b"grant-of 1\n", b"grant-if 01\n"];
    texts.extend(others.map(|other| [other, &whole].concat()));
    texts.extend(others.map(|other| [&whole, other].concat()));
    texts
}

/// Every word, and what is nearly one: cut at each end, a letter longer, another
/// letter in each place, in upper case, and behind a space. Each with as many numbers
/// as the kind has.
fn words() -> Vec<Vec<u8>> {
    let mut lines = vec![Vec::new(), b" ".to_vec(), b"0".to_vec(), b" 0".to_vec()];
    for (kind, word) in WORDS {
        let numbers = b" 0".repeat(length_of(kind));
        let mut put = |word: &[u8]| lines.push([word, &numbers].concat());
        put(word);
        put(&word.to_ascii_uppercase());
        (0..word.len()).for_each(|end| put(&word[..end]));
        (1..word.len()).for_each(|start| put(&word[start..]));
        for more in [" ", "s", "-", "\t", "\r", "\0", "0"] {
            put(&[word, more.as_bytes()].concat());
            put(&[more.as_bytes(), word].concat());
        }
        for place in 0..word.len() {
            let mut other = word.to_vec();
            for byte in [word[place] ^ 1, word[place] ^ 0x20, b' ', b'_', 0x80 | word[place]] {
                other[place] = byte;
                put(&other);
            }
        }
    }
    lines
}

/// How many numbers a kind has.
fn length_of(kind: u8) -> usize {
    Group::of(kind).map_or(0, |group| group.length)
}

/// Every word with every count of numbers up to 4, one of them perhaps above 255.
fn counts() -> Vec<Vec<u8>> {
    let mut lines = Vec::new();
    for (_, word) in WORDS {
        for count in 0..=4 {
            lines.push([word, &b" 0".repeat(count)].concat());
            for above in 0..count {
                let zeros = |count| b" 0".repeat(count);
                lines.push([word, &zeros(above), b" 256", &zeros(count - above - 1)].concat());
            }
        }
    }
    lines
}

/// Numerals, numerals with leading zeros, very long ones, and what is none.
fn every_piece() -> Vec<Vec<u8>> {
    let mut pieces: Vec<Vec<u8>> = NO_NUMERALS.map(|piece| piece.into()).to_vec();
    for numeral in NUMERALS {
        pieces.extend(["", "0", "00000"].map(|zeros| [zeros, numeral].concat().into_bytes()));
    }
    pieces.extend([b"0".repeat(1000), b"9".repeat(1000), [&b"0".repeat(1000)[..], b"1"].concat()]);
    pieces
}

/// Every word with every piece behind it and, if the kind has two numbers, before
/// and behind a well-spelled one.
fn one_piece() -> Vec<Vec<u8>> {
    let mut lines = Vec::new();
    for (kind, word) in WORDS {
        for piece in every_piece() {
            if length_of(kind) == 2 {
                lines.push([word, b" 0 ", &piece].concat());
                lines.push([word, b" ", &piece, b" 0"].concat());
            } else {
                lines.push([word, b" ", &piece].concat());
            }
        }
    }
    lines
}

/// A kind of each group with every two pieces behind it of a shorter list.
fn two_pieces() -> Vec<Vec<u8>> {
    let pieces = ["", "0", "00", "7", "07", "255", "256", "0256", "x", "4294967297", "3\r"];
    let mut lines = Vec::new();
    for group in LISTED {
        let word = word_of(group.kinds[0]).expect("a listed kind");
        for one in pieces {
            for other in pieces {
                let line = [one, other].map(|piece| [b" ", piece.as_bytes()].concat()).concat();
                lines.push([word, &line].concat());
            }
        }
    }
    lines
}

/// The texts of the tables at every limit, accepted or not, and of those tables with
/// one line more, good or bad.
pub fn at_limits() -> Vec<Vec<u8>> {
    let probes = limits::probes().into_iter().map(|probe| probe.table());
    let texts = limits::tables().into_iter().chain(probes).map(|table| spelling(&table));
    let behind: [&[u8]; 4] = [b"", b"deny\n", b"deny 256\n", b"deny-if 007\n"];
    texts.flat_map(|text| behind.map(|line| [&text[..], line].concat())).collect()
}

/// Texts of so many lines, more than a table may have, and how each is refused: none
/// is misspelt, only the last is, or only its line feed is missing.
pub fn long(count: usize) -> Vec<(Vec<u8>, Refusal)> {
    let refused = |number, place| Refusal { number, place };
    let line = b"override-unspecified 255 0\n";
    let before = [b"grant\n", &line.repeat(count - 2)[..]].concat();
    let first_bad = refused(MAY_NOT_BE_NAMED, 2);
    let ends: [(&[u8], Refusal); 4] = [
        (line, first_bad),
        (b"override-unspecified 256 0\n", refused(UNKNOWN_WORD, count)),
        (b"override-unspecified 00 0\n", refused(MISSPELT_LINE, count)),
        (b"override-unspecified 0 0", refused(MISSPELT_LINE, count)),
    ];
    ends.map(|(end, refusal)| ([&before, end].concat(), refusal)).to_vec()
}
