//! The oracle's texts alone: the cases written out by hand, and the laws.

use pierstride_oracle::call::{self, answer};
use pierstride_oracle::kinds::{Group, LISTED, WORDS};
use pierstride_oracle::notebook::{hex, TABLE_A};
use pierstride_oracle::random::Random;
use pierstride_oracle::texts::{spelling, Mixture};
use pierstride_oracle::{
    crafted, from_text, laws, limits, lines, read, spellings, tables, to_text,
};
use pierstride_oracle::{Part, CONSTRAINTS, QUESTIONS, ROWS, TEXT_BYTES};

#[test]
fn answers_the_spellings() {
    call::check(spellings::cases(), answer);
}

#[test]
fn the_example_is_the_text_of_table_a() {
    let text = include_str!("../../../examples/table-a.txt");
    assert_eq!(text, spellings::TEXT_A);
    assert_eq!(include_bytes!("../../../examples/table-a.bin")[..], hex(TABLE_A));
}

#[test]
fn every_listed_kind_has_one_word() {
    let listed = LISTED.iter().flat_map(|group| group.kinds);
    assert!(listed.eq(WORDS.iter().map(|(kind, _)| kind)));
    for (number, (_, word)) in WORDS.iter().enumerate() {
        let is_plain = |byte: &u8| byte.is_ascii_lowercase() || *byte == b'-';
        assert!(!word.is_empty() && word.iter().all(is_plain), "{word:?}");
        assert!(WORDS[..number].iter().all(|(_, before)| before != word), "{word:?} twice");
    }
}

#[test]
fn keeps_the_laws_of_texts() {
    let mut random = Random::new(4);
    let mixture = Mixture::default();
    for _ in 0..20_000 {
        let text = mixture.text(&mut random);
        laws::check_text(&mut answer, &mut random, &text);
    }
}

#[test]
fn keeps_the_laws_around_every_rule_of_spelling() {
    let mut random = Random::new(5);
    for text in lines::texts() {
        laws::check_text(&mut answer, &mut random, &text);
    }
}

#[test]
fn comes_back_to_every_accepted_table() {
    let mut random = Random::new(6);
    for shape in &tables::SHAPES {
        for _ in 0..200 {
            laws::check_round_trip(&mut answer, &tables::table(&mut random, shape));
        }
    }
    let accepted = limits::tables().into_iter().filter(|table| read(table).is_ok());
    accepted.for_each(|table| laws::check_round_trip(&mut answer, &table));
}

/// In the longest text every line is the longest that can stand in its place, so a text of
/// 32 constraints, 256 rows, each with a supplier before it, and 64 questions is as long as
/// all of these together.
#[test]
fn writes_the_longest_text() {
    let constraints = CONSTRAINTS * longest_line(Part::Constraints, 0);
    let suppliers = ROWS * longest_line(Part::Suppliers, 0);
    let rows: usize = (0..ROWS).map(|before| longest_line(Part::Rows, before)).sum();
    let questions = QUESTIONS * longest_line(Part::Questions, ROWS);
    assert_eq!(constraints + suppliers + rows + questions, TEXT_BYTES);
    let table = crafted::longest_text();
    assert_eq!(to_text(&table, &mut [0; TEXT_BYTES]), Ok(TEXT_BYTES));
}

/// How long a line of a part behind so many rows can be. Of the numbers that an entry may
/// name the highest has the most digits.
fn longest_line(part: Part, rows: usize) -> usize {
    let mut longest = 0;
    for group in LISTED.iter().filter(|group| group.part == part) {
        let limit = group.limit(rows, QUESTIONS);
        if group.length == 0 || limit > 0 {
            let body = vec![limit.saturating_sub(1) as u8; group.length];
            let line = |&kind: &u8| spelling(&[&[kind], &body[..]].concat()).len();
            longest = longest.max(group.kinds.iter().map(line).max().unwrap_or(0));
        }
    }
    longest
}

/// A line is longer than its entry, so a text's own length is always enough.
#[test]
fn no_line_is_shorter_than_its_entry() {
    for (kind, word) in WORDS {
        let length = Group::of(kind).map_or(0, |group| group.length);
        let line = [word, &b" 0".repeat(length), b"\n"].concat();
        assert!(line.len() > 1 + length);
    }
}

#[test]
fn reads_a_million_lines() {
    for (text, refusal) in lines::long(1_000_000) {
        assert_eq!(from_text(&text, &mut []), Err(refusal));
    }
}
