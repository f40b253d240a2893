//! Numbers as they are typed or written: digits alone, taken by their value.

use std::ffi::OsStr;
use std::fmt;

use crate::words::shortened;

/// A number that was typed.
#[derive(Clone)]
pub struct Number {
    /// Its value; of a number above 32 bits, the highest. The library refuses that as a row, a
    /// question or a predicate, and as a budget it is enough for every walk.
    pub value: u32,
    typed: String,
}

impl Number {
    pub fn new(typed: &OsStr) -> Option<Number> {
        let typed = typed.to_string_lossy();
        value(typed.as_bytes()).map(|value| Number { value, typed: typed.into() })
    }

    /// `0,3`; nothing, or `none`, is the empty list.
    pub fn list(typed: &OsStr) -> Option<Vec<Number>> {
        match &*typed.to_string_lossy() {
            "" | "none" => Some(Vec::new()),
            typed => typed.split(',').map(|piece| Number::new(OsStr::new(piece))).collect(),
        }
    }
}

impl fmt::Display for Number {
    fn fmt(&self, f: &mut fmt::Formatter) -> fmt::Result {
        f.write_str(&shortened(self.typed.as_bytes()))
    }
}

/// The value of digits alone; of more than 32 bits can hold, the most that they can.
pub fn value(digits: &[u8]) -> Option<u32> {
    let is_number = !digits.is_empty() && digits.iter().all(u8::is_ascii_digit);
    let grow =
        |value: u32, digit: &u8| value.saturating_mul(10).saturating_add((digit - b'0').into());
    is_number.then(|| digits.iter().fold(0, grow))
}
