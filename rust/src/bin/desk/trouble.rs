//! What keeps the program from answering, and how it is told.

use std::io::{self, Write};

use crate::json::{object, Json};
use crate::Status;

/// Why there is no answer.
pub enum Trouble {
    /// The command was not understood: why, and what to look at.
    Usage {
        why: String,
        see: String,
    },
    /// A file cannot be read or written.
    File(String),
    /// Nobody reads the output any more.
    Closed,
    Refused(Refused),
}

/// A refusal in words that a clerk can act on.
pub struct Refused {
    pub number: u32,
    pub place: Place,
    pub message: String,
    /// A line more, where the refusal may come from a mistake elsewhere.
    pub hint: Option<&'static str>,
}

/// What a refusal points at.
pub enum Place {
    /// A byte of the table, from 0.
    Byte(usize),
    /// A line of the text, from 1.
    Line(usize),
    Nothing,
}

impl Trouble {
    /// Tells it, and how the program ends.
    pub fn tell(&self) -> Status {
        match self {
            Trouble::Usage { why, see } => tell(&format!("desk: {why}\n{see}\n")),
            Trouble::File(why) => tell(&format!("desk: {why}\n")),
            Trouble::Closed => {}
            Trouble::Refused(refused) => return refused.tell(),
        }
        Status::Failed
    }

    /// A file that cannot be read or written, as `done` says.
    pub fn of_file(name: &str, done: &str, error: &io::Error) -> Trouble {
        let error = error.to_string();
        let plain = error.split(" (os error").next().unwrap_or_default();
        Trouble::File(format!("{name} cannot be {done}: {plain}"))
    }
}

impl Refused {
    /// Tells it, and how the program ends.
    pub fn tell(&self) -> Status {
        let Refused { number, message, .. } = self;
        let place = match self.place {
            Place::Byte(place) => format!(" at byte {place}"),
            Place::Line(place) => format!(" at line {place}"),
            Place::Nothing => String::new(),
        };
        let hint = self.hint.map(|hint| hint.to_owned() + "\n").unwrap_or_default();
        tell(&format!("refused {number}{place}: {message}\n{hint}"));
        Status::Refused
    }

    pub fn object(&self) -> Json {
        let place = match self.place {
            Place::Byte(place) => Some(("byte", place.into())),
            Place::Line(place) => Some(("line", place.into())),
            Place::Nothing => None,
        };
        let (number, message) = (self.number.into(), self.message.as_str().into());
        let hint = self.hint.map(|hint| ("hint", hint.into()));
        let fields = [Some(("refused", number)), place, Some(("message", message)), hint];
        object(fields.into_iter().flatten())
    }
}

/// On standard error. Where that cannot be written, the exit status alone tells it.
fn tell(words: &str) {
    let _ = io::stderr().write_all(words.as_bytes());
}
