//! A table as it is handed over, in bytes or as a text, and what stands in it.

use std::ffi::OsStr;
use std::fs::File;
use std::io::{self, Read};
use std::os::unix::io::AsFd;

use pierstride::{Counts, Kind, Numbered, Part, TextRefusal};

use crate::explain;
use crate::line::{self, Line};
use crate::trouble::{Refused, Trouble};
use crate::words::file_name;

/// How a table is written down.
#[derive(Clone, Copy, PartialEq, Eq)]
pub enum Form {
    Bytes,
    Text,
}

impl Form {
    pub fn name(self) -> &'static str {
        match self {
            Form::Bytes => "bytes",
            Form::Text => "text",
        }
    }
}

/// A table that the library accepted.
pub struct Table {
    /// The form in which it was handed over.
    pub form: Form,
    pub bytes: Vec<u8>,
    pub counts: Counts,
}

/// A constraint, a row or a question.
pub struct Entry {
    pub kind: &'static Kind,
    /// Its number, among the rows or among the questions. Constraints are not told by theirs.
    pub number: u32,
    /// Of a row, its supplier, if the table names any.
    pub supplier: Option<u32>,
    /// The numbers that it names.
    pub numbers: Vec<u32>,
    /// Its line of the text.
    pub line: String,
}

/// The most that is read of a file. A table in bytes that is longer is refused within them.
const MOST_READ: usize = 64 << 20;

/// The table of a file, or of standard input for `-`.
pub fn load(path: &OsStr) -> Result<Table, Trouble> {
    let (name, given) = match path.to_str() {
        Some("-") => ("standard input".to_owned(), standard_input().and_then(front)),
        _ => (file_name(&path.to_string_lossy()), File::open(path).and_then(front)),
    };
    let given = given.map_err(|error| Trouble::of_file(&name, "read", &error))?;
    let form = form_of(&given);
    if form == Form::Text && given.len() > MOST_READ {
        let most = MOST_READ >> 20;
        return Err(Trouble::File(format!("{name} is longer than {most} MiB, and no text is")));
    }
    read(form, given).map_err(Trouble::Refused)
}

/// Standard input as a file: Rust's `stdin` takes one that was opened for writing to be empty.
fn standard_input() -> io::Result<File> {
    io::stdin().as_fd().try_clone_to_owned().map(File::from)
}

/// The most that is read of a file, and one byte more, which shows that there are more.
fn front(file: impl Read) -> io::Result<Vec<u8>> {
    let mut bytes = Vec::new();
    file.take(MOST_READ as u64 + 1).read_to_end(&mut bytes)?;
    Ok(bytes)
}

/// A text begins with a small letter, which is no kind byte.
fn form_of(given: &[u8]) -> Form {
    match given.first() {
        Some(byte) if byte.is_ascii_lowercase() => Form::Text,
        _ => Form::Bytes,
    }
}

fn read(form: Form, given: Vec<u8>) -> Result<Table, Refused> {
    let bytes = match form {
        Form::Bytes => given,
        Form::Text => bytes_of(&given).map_err(|refusal| explain::of_text(&given, refusal))?,
    };
    match pierstride::read(&bytes) {
        Ok(counts) => Ok(Table { form, bytes, counts }),
        Err(refusal) => Err(explain::of_bytes(&bytes, refusal)),
    }
}

/// The bytes that a text spells.
fn bytes_of(text: &[u8]) -> Result<Vec<u8>, TextRefusal> {
    let mut bytes = vec![0; pierstride::TABLE_BYTES];
    let length = pierstride::from_text(text, &mut bytes)?;
    bytes.truncate(length);
    Ok(bytes)
}

/// The text of an accepted table.
pub fn text_of(bytes: &[u8]) -> String {
    let mut text = vec![0; pierstride::TEXT_BYTES];
    let length = pierstride::to_text(bytes, &mut text).expect("an accepted table has a text");
    text.truncate(length);
    String::from_utf8(text).expect("a text is ASCII")
}

impl Table {
    /// The constraints, the rows and the questions, in the table's order. Of the suppliers
    /// between them the rows tell.
    pub fn entries(&self) -> Vec<Entry> {
        let (text, mut entries) = (text_of(&self.bytes), Vec::new());
        let kind_of = |line: Line| line.kind().expect("the library writes the words of its kinds");
        let mut lines = line::lines(text.as_bytes());
        let mut supplier = lines.any(|line| kind_of(line).part == Part::Suppliers).then_some(0);
        for line in line::lines(text.as_bytes()) {
            let (kind, numbers) = (kind_of(line), line.numbers());
            if kind.part == Part::Suppliers {
                supplier = numbers.first().copied();
                continue;
            }
            let before = |entry: &&Entry| entry.kind.part == kind.part;
            let number = entries.iter().filter(before).count() as u32;
            let supplier = supplier.filter(|_| kind.part == Part::Rows);
            let line = String::from_utf8_lossy(line.whole).into();
            entries.push(Entry { kind, number, supplier, numbers, line });
        }
        entries
    }

    /// How many rows there are, or questions.
    pub fn count(&self, of: Numbered) -> u32 {
        count(of, self.counts.rows, self.counts.questions)
    }
}

/// How many there are where there are so many rows and questions: predicates and suppliers
/// that may be named, and these.
pub fn count(of: Numbered, rows: u32, questions: u32) -> u32 {
    match of {
        Numbered::Predicate => pierstride::PREDICATES,
        Numbered::Row => rows,
        Numbered::Question => questions,
        Numbered::Supplier => pierstride::SUPPLIERS as u32,
    }
}

impl Entry {
    /// "row 4", "constraint"
    pub fn label(&self) -> String {
        match self.kind.part {
            Part::Constraints | Part::Suppliers => self.kind.part.entry().to_owned(),
            Part::Rows | Part::Questions => format!("{} {}", self.kind.part.entry(), self.number),
        }
    }

    /// "supplier 3", or nothing.
    pub fn whose(&self) -> String {
        self.supplier
            .map(|supplier| format!("{} {supplier}", Numbered::Supplier))
            .unwrap_or_default()
    }

    /// The things that it names of one sort: rows, say.
    pub fn named(&self, sort: Numbered) -> impl Iterator<Item = u32> + '_ {
        let pairs = self.kind.names.iter().zip(&self.numbers);
        pairs.filter(move |(names, _)| **names == sort).map(|(_, number)| *number)
    }
}
