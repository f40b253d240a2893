//! How people say things: counts, lists, quotations, what was perhaps meant.

use std::fmt::Display;

/// The most characters of a quotation.
const MOST_SHOWN: usize = 60;

/// "1 row", "2 rows".
pub fn counted<N: Display + From<u8> + PartialEq>(count: N, thing: impl Display) -> String {
    match count == 1.into() {
        true => format!("1 {thing}"),
        false => format!("{count} {thing}s"),
    }
}

/// "a", "a and b", "a, b and c", for `last` "and".
pub fn listed<T: Display>(items: impl IntoIterator<Item = T>, last: &str) -> String {
    let mut items: Vec<String> = items.into_iter().map(|item| item.to_string()).collect();
    let end = items.pop().unwrap_or_default();
    match items.is_empty() {
        true => end,
        false => format!("{} {last} {end}", items.join(", ")),
    }
}

/// What somebody else wrote, in quotes.
pub fn quoted(written: &[u8]) -> String {
    format!("`{}`", shortened(written))
}

/// What somebody else wrote, or the front of it if it is long. What is no plain character of a
/// text is spelled out: it may be invisible, look like another, or be acted on by a terminal.
pub fn shortened(written: &[u8]) -> String {
    // No character has more than four bytes.
    let front = String::from_utf8_lossy(&written[..written.len().min(4 * MOST_SHOWN + 4)]);
    let is_plain = |c: char| matches!(c, ' '..='~');
    let shown = spelled_out(front.chars().take(MOST_SHOWN), is_plain);
    match front.chars().nth(MOST_SHOWN) {
        Some(_) => shown + "…",
        None => shown,
    }
}

/// The name of a file, in quotes and whole.
pub fn file_name(name: &str) -> String {
    format!("`{}`", spelled_out(name.chars(), |c| !c.is_control()))
}

fn spelled_out(written: impl Iterator<Item = char>, is_plain: impl Fn(char) -> bool) -> String {
    let shown = written.map(|c| match is_plain(c) {
        true => c.to_string(),
        false => c.escape_default().to_string(),
    });
    shown.collect()
}

/// The one of some words that was perhaps meant: the nearest, if no more than a third of its
/// letters would have to be changed, put in or left out.
pub fn meant<'a>(written: &[u8], words: impl Iterator<Item = &'a str>) -> Option<&'a str> {
    let written = written.to_ascii_lowercase();
    let near = words.map(|word| (distance(&written, word.as_bytes()), word));
    let near = near.filter(|(distance, word)| 3 * distance <= word.len());
    near.min_by_key(|(distance, _)| *distance).map(|(_, word)| word)
}

/// How many letters have to be changed, put in or left out to make one word the other.
fn distance(from: &[u8], to: &[u8]) -> usize {
    // More than these letters have to be left out; and the work would grow with them.
    if from.len() > 2 * to.len() {
        return from.len() - to.len();
    }
    let mut row: Vec<usize> = (0..=to.len()).collect();
    for (i, a) in from.iter().enumerate() {
        let mut corner = std::mem::replace(&mut row[0], i + 1);
        for (j, b) in to.iter().enumerate() {
            let changed = corner + usize::from(a != b);
            corner = row[j + 1];
            row[j + 1] = changed.min(corner + 1).min(row[j] + 1);
        }
    }
    row[to.len()]
}
