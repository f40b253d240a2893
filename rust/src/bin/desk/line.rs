//! A line of a text, cut as the library cuts it: a word, and the pieces behind it.

use pierstride::Kind;

use crate::number::value;

#[derive(Clone, Copy)]
pub struct Line<'a> {
    /// Without its line feed.
    pub whole: &'a [u8],
}

impl<'a> Line<'a> {
    /// What stands before the first space.
    pub fn word(self) -> &'a [u8] {
        self.whole.split(|&byte| byte == b' ').next().unwrap_or_default()
    }

    /// What stands behind each space, up to the next.
    pub fn pieces(self) -> impl Iterator<Item = &'a [u8]> + Clone {
        self.whole.split(|&byte| byte == b' ').skip(1)
    }

    pub fn kind(self) -> Option<&'static Kind> {
        Kind::of_word(self.word())
    }

    /// The numbers of a line that is well spelled.
    pub fn numbers(self) -> Vec<u32> {
        self.pieces().filter_map(value).collect()
    }
}

/// The lines of a text.
pub fn lines(text: &[u8]) -> impl Iterator<Item = Line<'_>> {
    text.split_inclusive(|&byte| byte == b'\n')
        .map(|line| Line { whole: line.strip_suffix(b"\n").unwrap_or(line) })
}
