//! What a refusal must say, as far as docs/DESK.md settles it: to the letter where the page
//! has words for the case, and else its number and place, the entry, and what was found.

use pierstride_oracle::kinds::{word_of, Group};
use pierstride_oracle::kinds::{BOTH, IF_PREDICATE, NOT, ON_TWO_PREDICATES, SUPPLIER};
use pierstride_oracle::{texts, Part, Refusal};

use crate::expected::{is_text, names_row};
use crate::{json, misspelt};

/// How a second line begins, which the refusal of bytes has that seem to be meant as a text.
pub const MEANT_AS_TEXT: &str = "if this is meant as a text: ";

pub const KINDS: &str = "00 to 03, 10, 11, 20 to 23, 30 to 35, 38 to 3B, 40 to 43, 50, 51, 60";

/// More than a refusal needs, and little on a terminal.
pub const LONGEST: usize = 1000;

/// Enough for a row that all other rows and all questions name.
const NAMED_BY_MANY: usize = 20_000;

/// The row to strike is named.
const NAMED: u32 = 9;

/// What a refusal must say.
#[derive(Debug)]
pub struct Said {
    number: u32,
    /// Its place, if it has one, as "line" or "byte" and a number.
    place: Option<(&'static str, usize)>,
    message: Message,
}

/// What must be said behind number and place.
#[derive(Debug)]
pub enum Message {
    Whole(String),
    /// What must stand in it in this order; the first of these begins it.
    Parts(Vec<String>),
}

use Message::{Parts, Whole};

impl Said {
    /// Checks what stands on standard error, and gives back what it says behind number
    /// and place.
    pub fn check<'a>(&self, err: &'a str) -> &'a str {
        check_harmless(err, if self.number == NAMED { NAMED_BY_MANY } else { LONGEST });
        let said = err.strip_prefix(&self.head()[..]).and_then(|said| said.strip_suffix('\n'));
        let said = said.unwrap_or_else(|| panic!("{err:?} is not {self:?}"));
        match &self.message {
            Whole(message) => assert_eq!(with_hint(said).0, message, "in {err:?}"),
            Parts(parts) => check_parts(with_hint(said).0, parts),
        }
        said
    }

    /// Number and place, as in "refused 4 at line 3: ".
    fn head(&self) -> String {
        let place = self.place.map_or(String::new(), |(unit, place)| format!(" at {unit} {place}"));
        format!("refused {}{place}: ", self.number)
    }

    /// The object for this refusal, of which `said` stood on standard error.
    pub fn object(&self, said: &str) -> String {
        let place =
            self.place.map_or(String::new(), |(unit, place)| format!(r#""{unit}":{place},"#));
        let (message, hint) = with_hint(said);
        let message = json::quoted(message);
        let hint = hint.map_or(String::new(), |hint| format!(r#","hint":{}"#, json::quoted(hint)));
        format!(r#"{{"refused":{},{place}"message":{message}{hint}}}"#, self.number)
    }
}

/// What is said, and the line more that may stand behind it.
fn with_hint(said: &str) -> (&str, Option<&str>) {
    match said.split_once('\n') {
        Some((message, hint)) if hint.starts_with(MEANT_AS_TEXT) => (message, Some(hint)),
        _ => (said, None),
    }
}

fn check_parts(said: &str, parts: &[String]) {
    let begins = parts.first().map_or(true, |part| said.starts_with(&part[..]));
    assert!(begins, "{said:?} does not begin with {parts:?}");
    let mut rest = said;
    for part in parts {
        let place = rest.find(&part[..]);
        let place = place.unwrap_or_else(|| panic!("{said:?} has not {parts:?} in order"));
        rest = &rest[place + part.len()..];
    }
    assert!(said.contains("; "), "{said:?} does not say what would be allowed");
    assert!(!said.contains('\n'), "{said:?} is more than a line");
}

/// Checks that words do a terminal no harm: they are not long and have no control characters.
pub fn check_harmless(err: &str, longest: usize) {
    assert!(err.len() <= longest, "{} bytes: {err:.200}", err.len());
    assert_eq!(err.chars().find(is_harmful), None, "in {err:?}");
}

/// Is this a control character but a line feed, or one that turns the order of letters?
fn is_harmful(letter: &char) -> bool {
    match letter {
        '\n' => false,
        '\u{202a}'..='\u{202e}' | '\u{2066}'..='\u{2069}' => true,
        _ => letter.is_control(),
    }
}

/// What the refusal of an input must say, when it is read.
pub fn of_reading(input: &[u8], refusal: Refusal) -> Said {
    let Refusal { number, place } = refusal;
    let unit = if is_text(input) { "line" } else { "byte" };
    let message = match number {
        12 | 13 => misspelt::message(input, refusal),
        _ if is_text(input) => {
            let bytes = texts::spelled_by(input).expect("a well-spelled text");
            let line = line(input, place).0;
            Entry::new(&bytes, place - 1, format!("`{line}`")).message(number)
        }
        _ => {
            let (at, entry) = entry_with(input, place);
            Entry::new(input, at, shown(entry)).message(number)
        }
    };
    Said { number, place: Some((unit, place)), message }
}

/// The line of this number, from 1, and whether it has a line feed.
pub fn line(text: &[u8], number: usize) -> (String, bool) {
    let line = texts::lines(text)[number - 1];
    let ends = line.ends_with(b"\n");
    let line = line.strip_suffix(b"\n").unwrap_or(line);
    (String::from_utf8_lossy(line).into_owned(), ends)
}

/// The entries that bytes begin with, up to one that is cut short or of no listed kind.
fn entries(bytes: &[u8]) -> Vec<&[u8]> {
    let mut entries = Vec::new();
    let mut rest = bytes;
    while !rest.is_empty() {
        let length = 1 + Group::of(rest[0]).map_or(0, |group| group.length);
        let (entry, after) = rest.split_at(length.min(rest.len()));
        entries.push(entry);
        rest = after;
    }
    entries
}

/// The entry that has a byte of this place, and its number among the entries.
fn entry_with(bytes: &[u8], place: usize) -> (usize, &[u8]) {
    let mut end = 0;
    let has_place = |&(_, entry): &(usize, &[u8])| {
        end += entry.len();
        end > place
    };
    entries(bytes).into_iter().enumerate().find(has_place).expect("an entry at the place")
}

/// An entry of a table's bytes in hex, and behind it as a line of the text.
fn shown(entry: &[u8]) -> String {
    let hex: Vec<String> = entry.iter().map(|byte| format!("{byte:02X}")).collect();
    let line = texts::spelling(entry);
    let line = if line.is_empty() { word_of(entry[0]).unwrap_or_default() } else { &line };
    let line = String::from_utf8_lossy(line);
    match line.trim_end() {
        "" => format!("`{}`", hex.join(" ")),
        line => format!("`{}` ({line})", hex.join(" ")),
    }
}

/// A bad entry, what stands before it, and what stands right behind it.
struct Entry<'a> {
    bytes: &'a [u8],
    rows: usize,
    questions: usize,
    /// The last supplier that is named before it.
    supplier: Option<u8>,
    next: Option<&'a [u8]>,
    shown: String,
}

impl<'a> Entry<'a> {
    /// The entry of this number, which is shown so.
    fn new(bytes: &'a [u8], number: usize, shown: String) -> Entry<'a> {
        let entries = entries(bytes);
        let before = |part| entries[..number].iter().filter(|entry| part_of(entry) == part).count();
        let (rows, questions) = (before(Part::Rows), before(Part::Questions));
        let supplier = entries[..number].iter().rev().find(|entry| entry[0] == SUPPLIER);
        let (supplier, next) = (supplier.map(|entry| entry[1]), entries.get(number + 1).copied());
        Entry { bytes: entries[number], rows, questions, supplier, next, shown }
    }

    fn message(&self, refusal: u32) -> Message {
        let shown = &self.shown;
        match refusal {
            1 => Whole(format!("{shown} is no kind; the kinds are {KINDS}")),
            2 => Whole(format!("{shown} is cut short; {}", takes(self.bytes[0]))),
            3 | 4 => self.names(),
            5 => Whole(format!("{shown} is {}", self.out_of_order())),
            6 => Whole(format!("{shown} is a 257th row; a table has at most 256 rows")),
            7 => Whole(format!("{shown} is a 65th question; a table has at most 64 questions")),
            14 => {
                Whole(format!("{shown} is a 33rd constraint; a table has at most 32 constraints"))
            }
            15 => Whole(format!("{shown} {}", self.idle())),
            _ => panic!("reading gives no refusal {refusal}"),
        }
    }

    /// Refusal 5, behind the entry.
    fn out_of_order(&self) -> &'static str {
        match (part_of(self.bytes), self.questions) {
            (Part::Constraints, 0) => {
                "a constraint after a row; all constraints stand before all rows and questions"
            }
            (Part::Constraints, _) => {
                "a constraint after a question; all constraints stand before all rows and questions"
            }
            (Part::Suppliers, _) => {
                "a supplier after a question; all suppliers stand before all questions"
            }
            _ => "a row after a question; all rows stand before all questions",
        }
    }

    /// Refusal 15, behind the entry.
    fn idle(&self) -> String {
        let behind = match self.next.map(|next| Group::of(next[0]).map(|group| group.part)) {
            None => "nothing",
            Some(None) => "what is no kind",
            Some(Some(Part::Constraints)) => "a constraint",
            Some(Some(Part::Suppliers)) => "another supplier",
            Some(Some(Part::Rows)) => "a row",
            Some(Some(Part::Questions)) => "a question",
        };
        match (self.supplier, self.bytes[1]) {
            (None, 0) => "names the supplier in force, which is 0 until one is named; \
                          a supplier stands only where it changes"
                .to_string(),
            (Some(supplier), named) if supplier == named => {
                "names the supplier in force; a supplier stands only where it changes".to_string()
            }
            _ => format!("has {behind} behind it; a supplier stands right before a row"),
        }
    }

    /// Refusals 3 and 4: the page has words for a constraint, and for a row that may name
    /// something, and none for others.
    fn names(&self) -> Message {
        let (kind, what) = (self.bytes[0], named_by(self.bytes[0]));
        let group = Group::of(kind).expect("a listed kind");
        let limit = group.limit(self.rows, self.questions);
        let number = self.bytes[1..].iter().find(|&&number| usize::from(number) >= limit);
        let number = number.expect("a number that may not be named");
        let found = format!("{} names {what} {number}; ", self.shown);
        match limit {
            0 => Parts(vec![found]),
            _ => match group.part {
                Part::Questions => Parts(vec![found, numbered(what, limit)]),
                Part::Rows => Whole(format!("{found}a row may name {}", numbered(what, limit))),
                Part::Constraints => {
                    Whole(format!("{found}a constraint may name {}", numbered(what, limit)))
                }
                Part::Suppliers => unreachable!("every number is a supplier's"),
            },
        }
    }
}

/// The part of a table that an entry of a listed kind stands in.
fn part_of(entry: &[u8]) -> Part {
    Group::of(entry[0]).expect("a listed kind").part
}

/// What the numbers of a kind name.
fn named_by(kind: u8) -> &'static str {
    match kind {
        NOT | BOTH => "question",
        SUPPLIER => "supplier",
        _ if IF_PREDICATE.contains(&kind) || ON_TWO_PREDICATES.contains(&kind) => "predicate",
        _ => "row",
    }
}

/// So many, from 0 on.
fn numbered(what: &str, count: usize) -> String {
    match count {
        1 => format!("{what} 0"),
        _ => format!("{what}s 0 to {}", count - 1),
    }
}

/// As in "`knowledge-join` takes 2 numbers: row, row".
pub fn takes(kind: u8) -> String {
    let word = String::from_utf8_lossy(word_of(kind).expect("a listed kind"));
    let group = Group::of(kind).expect("a listed kind");
    let names = vec![named_by(kind); group.length].join(", ");
    format!("`{word}` takes {}: {names}", counted(group.length, "number"))
}

/// As in "1 row" and "2 rows".
pub fn counted(count: usize, what: &str) -> String {
    match count {
        1 => format!("1 {what}"),
        _ => format!("{count} {what}s"),
    }
}

/// Refusal 8: there is no row, or question, of this number, but so many.
pub fn not_there(what: &str, number: &str, count: usize) -> Said {
    let found = format!("there is no {what} {number}; ");
    let message = match count {
        0 => Parts(vec![found]),
        1 => Parts(vec![found, format!("{what} 0")]),
        _ => Whole(format!("{found}the table has {}", numbered(what, count))),
    };
    Said { number: 8, place: None, message }
}

/// Refusal 9: a row of a table's bytes is named by others.
pub fn named(table: &[u8], row: u32) -> Said {
    let (mut rows, mut questions) = (0, 0);
    let mut names = Vec::new();
    for entry in entries(table) {
        let (what, number) = match part_of(entry) {
            Part::Constraints | Part::Suppliers => continue,
            Part::Rows => ("row", &mut rows),
            Part::Questions => ("question", &mut questions),
        };
        if names_row(entry, row) {
            let line = String::from_utf8_lossy(&texts::spelling(entry)).trim_end().to_owned();
            names.push(format!("{what} {number} (`{line}`)"));
        }
        *number += 1;
    }
    let found = format!("row {row} is named by ");
    let message = match &names[..] {
        [one, other] => Whole(format!("{found}{one} and {other}; they must name others first")),
        [one] => Parts(vec![format!("{found}{one}; ")]),
        // The page does not say whether all of many are listed.
        many => Parts(vec![format!("{found}{}", many[0]), "; ".to_string()]),
    };
    Said { number: NAMED, place: None, message }
}

/// Refusal 10: there are no predicates of these numbers.
pub fn no_predicate(numbers: &[&str]) -> Said {
    one_of_these(numbers, "the predicates are 0 to 23".to_string())
}

/// Refusal 10: the table has no predicates of these numbers, but so many.
pub fn not_of_table(numbers: &[&str], count: usize) -> Said {
    let there = match count {
        0 => "the table has no predicates".to_string(),
        _ => format!("the table has {}", numbered("predicate", count)),
    };
    one_of_these(numbers, there)
}

/// The page has words for one number that is no predicate's.
fn one_of_these(numbers: &[&str], there: String) -> Said {
    let message = match numbers {
        [number] => Whole(format!("there is no predicate {number}; {there}")),
        _ => Parts(vec!["there is no predicate ".into(), format!("; {there}")]),
    };
    Said { number: 10, place: None, message }
}
