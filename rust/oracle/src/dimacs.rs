//! A question for a solver: its negation as a DIMACS CNF file, by the tables of
//! `docs/SOLVERS.md`.

use crate::refusal::{Refusal, OUTPUT_TOO_SHORT};
use crate::table::{entries, read, Entry, Part, Table};

/// The longest file that a question has.
pub const FILE_BYTES: usize = 35_017;

/// The page's letters for the variables of a clause. A letter is negative where it is
/// negated.
pub type Letter = i8;

/// The row itself grants, and it denies.
const G: Letter = 1;
const D: Letter = 2;
/// The first row named grants, and it denies.
const GX: Letter = 3;
const DX: Letter = 4;
/// The second row named grants, and it denies.
const GY: Letter = 5;
const DY: Letter = 6;
/// The first and the second predicate named are yes.
const P: Letter = 7;
const R: Letter = 8;
/// The question itself is true, and the first and the second that it names are.
const T: Letter = 9;
const X: Letter = 10;
const Y: Letter = 11;
/// All of them stand below this.
const LETTERS: usize = 12;

/// The clauses of an entry of this kind, as the page lists them.
#[rustfmt::skip]
pub fn clauses(kind: u8) -> &'static [&'static [Letter]] {
    match kind {
        0x00 => &[&[-G], &[-D]],
        0x01 => &[&[-G], &[D]],
        0x02 => &[&[G], &[-D]],
        0x03 => &[&[G], &[D]],
        0x10 => &[&[-G], &[-D, P], &[D, -P]],
        0x11 => &[&[-G, P], &[G, -P], &[-D]],
        0x20 => &[&[-G, DX], &[G, -DX], &[-D, GX], &[D, -GX]],
        0x21 => &[&[-G, -DX], &[G, DX], &[-D, -GX], &[D, GX]],
        0x22 => &[&[-G, GX], &[-G, -DX], &[G, -GX, DX], &[-D, -G], &[D, G]],
        0x23 => &[&[-G, -D], &[G, D], &[-D, DX], &[-D, -GX], &[D, -DX, GX]],
        0x30 => &[&[-G, GX], &[-G, GY], &[G, -GX, -GY], &[D, -DX], &[D, -DY], &[-D, DX, DY]],
        0x31 => &[&[G, -GX], &[G, -GY], &[-G, GX, GY], &[-D, DX], &[-D, DY], &[D, -DX, -DY]],
        0x32 => &[&[-G, GX], &[-G, GY], &[G, -GX, -GY], &[-D, DX], &[-D, DY], &[D, -DX, -DY]],
        0x33 => &[&[G, -GX], &[G, -GY], &[-G, GX, GY], &[D, -DX], &[D, -DY], &[-D, DX, DY]],
        0x34 => &[&[G, GX], &[G, -GY], &[-G, -GX, GY], &[-D, GX], &[-D, DY], &[D, -GX, -DY]],
        0x35 => &[&[-G, GX], &[-G, GY], &[G, -GX, -GY], &[-D, GX], &[-D, DY], &[D, -GX, -DY]],
        0x38 => &[&[G, -GX], &[G, DX, -GY], &[-G, GX, -DX], &[-G, GX, GY],
                  &[D, -DX], &[D, GX, -DY], &[-D, DX, -GX], &[-D, DX, DY]],
        0x39 => &[&[G, -GX], &[G, -DX, -GY], &[-G, GX, DX], &[-G, GX, GY],
                  &[-D, DX], &[-D, GX, DY], &[D, -DX, -GX], &[D, -DX, -DY]],
        0x3A => &[&[-G, GX], &[-G, DX, GY], &[G, -GX, -DX], &[G, -GX, -GY],
                  &[D, -DX], &[D, -GX, -DY], &[-D, DX, GX], &[-D, DX, DY]],
        0x3B => &[&[-G, GX], &[-G, -DX, GY], &[G, -GX, DX], &[G, -GX, -GY],
                  &[-D, DX], &[-D, -GX, DY], &[D, -DX, GX], &[D, -DX, -DY]],
        0x40 => &[&[-T, -GX, GY], &[-T, -DY, DX],
                  &[T, GX, DY], &[T, GX, -DX], &[T, -GY, DY], &[T, -GY, -DX]],
        0x41 => &[&[-T, -GX, GY], &[-T, -DX, DY],
                  &[T, GX, DX], &[T, GX, -DY], &[T, -GY, DX], &[T, -GY, -DY]],
        0x42 => &[&[-T, -X], &[T, X]],
        0x43 => &[&[-T, X], &[-T, Y], &[T, -X, -Y]],
        0x50 => &[&[-P, -R]],
        0x51 => &[&[-P, R]],
        _ => &[],
    }
}

/// Writes the negation of question `question` as a file for a solver to the front of `out`
/// and answers how many bytes that took.
pub fn dimacs(bytes: &[u8], question: u32, out: &mut [u8]) -> Result<usize, Refusal> {
    let table = read(bytes)?;
    let question = table.find_question(question)?;
    let of_entries: usize = entries(bytes).map(|entry| clauses(entry.bytes[0]).len()).sum();
    let file = File { bytes, variables: Variables::of(&table), clauses: of_entries + 1, question };
    let spelled: Vec<Spelled> = (0..=file.variables.count()).map(Spelled::of).collect();
    let mut length = Length(0);
    file.put(&spelled, &mut length);
    let front = out.get_mut(..length.0).ok_or(Refusal::of_request(OUTPUT_TOO_SHORT))?;
    file.put(&spelled, &mut Front { bytes: front, end: 0 });
    Ok(length.0)
}

/// The file of a question of a table.
struct File<'a> {
    bytes: &'a [u8],
    variables: Variables,
    /// How many there are.
    clauses: usize,
    question: usize,
}

impl File<'_> {
    /// Puts the file somewhere, given each variable as it is spelled.
    fn put(&self, spelled: &[Spelled], to: &mut impl Sink) {
        to.put(format!("p cnf {} {}\n", self.variables.count(), self.clauses).as_bytes());
        let mut counts = [0; Part::COUNT];
        for entry in entries(self.bytes) {
            let number = &mut counts[entry.kind.part() as usize];
            let variables = self.variables.of_letters(entry, *number);
            for clause in clauses(entry.bytes[0]) {
                for letter in *clause {
                    let variable = variables[usize::from(letter.unsigned_abs())];
                    to.put_literal(*letter < 0, &spelled[variable]);
                }
                to.put(CLAUSE_END);
            }
            *number += 1;
        }
        to.put_literal(true, &spelled[self.variables.truth(self.question)]);
        to.put(CLAUSE_END);
    }
}

const CLAUSE_END: &[u8] = b"0\n";

/// Which variable stands for what, in a table with so many predicates, rows and questions.
struct Variables {
    predicates: usize,
    rows: usize,
    questions: usize,
}

impl Variables {
    fn of(table: &Table) -> Variables {
        Variables {
            predicates: table.predicates() as usize,
            rows: table.rows.len(),
            questions: table.questions.len(),
        }
    }

    /// How many there are.
    fn count(&self) -> usize {
        self.predicates + 2 * self.rows + self.questions
    }

    fn yes(&self, predicate: usize) -> usize {
        predicate + 1
    }

    fn grants(&self, row: usize) -> usize {
        self.predicates + 2 * row + 1
    }

    fn denies(&self, row: usize) -> usize {
        self.predicates + 2 * row + 2
    }

    fn truth(&self, question: usize) -> usize {
        self.predicates + 2 * self.rows + question + 1
    }

    /// The variable of each letter in the clauses of the entry with this number; 0 for
    /// letters that do not stand there.
    fn of_letters(&self, entry: Entry, number: usize) -> [usize; LETTERS] {
        let mut variables = [0; LETTERS];
        let mut set = |letter: Letter, variable| variables[letter as usize] = variable;
        match entry.kind.part() {
            Part::Rows => {
                set(G, self.grants(number));
                set(D, self.denies(number));
            }
            Part::Questions => set(T, self.truth(number)),
            Part::Constraints | Part::Suppliers => {}
        }
        let letters = [(GX, DX, P, X), (GY, DY, R, Y)];
        for ((grants, denies, yes, truth), named) in letters.into_iter().zip(&entry.bytes[1..]) {
            let named = usize::from(*named);
            if entry.kind.names_rows() {
                set(grants, self.grants(named));
                set(denies, self.denies(named));
            } else if entry.kind.part() == Part::Questions {
                set(truth, self.truth(named));
            } else {
                set(yes, self.yes(named));
            }
        }
        variables
    }
}

/// A variable in decimal, without leading zeros, and a space behind it.
#[derive(Clone, Copy, Default)]
struct Spelled {
    bytes: [u8; 4],
    length: u8,
}

impl Spelled {
    /// No table has more than 600 variables.
    fn of(variable: usize) -> Spelled {
        let digit = |unit| b'0' + (variable / unit % 10) as u8;
        let (bytes, length) = match variable {
            0..=9 => ([digit(1), b' ', 0, 0], 2),
            10..=99 => ([digit(10), digit(1), b' ', 0], 3),
            _ => ([digit(100), digit(10), digit(1), b' '], 4),
        };
        Spelled { bytes, length }
    }
}

/// What a file is put to.
trait Sink {
    fn put(&mut self, bytes: &[u8]);

    /// A literal, and the space behind it.
    fn put_literal(&mut self, is_negated: bool, variable: &Spelled);
}

/// Counts the bytes that are put to it.
struct Length(usize);

impl Sink for Length {
    #[inline(always)]
    fn put(&mut self, bytes: &[u8]) {
        self.0 += bytes.len();
    }

    fn put_literal(&mut self, is_negated: bool, variable: &Spelled) {
        self.0 += usize::from(is_negated) + usize::from(variable.length);
    }
}

/// Bytes of which so many have been put there.
struct Front<'a> {
    bytes: &'a mut [u8],
    end: usize,
}

impl Sink for Front<'_> {
    #[inline(always)]
    fn put(&mut self, bytes: &[u8]) {
        self.bytes[self.end..][..bytes.len()].copy_from_slice(bytes);
        self.end += bytes.len();
    }

    /// A sign that is not meant, and zeros behind a short variable, are written over by what
    /// comes next: behind every literal that is at least two bytes.
    fn put_literal(&mut self, is_negated: bool, variable: &Spelled) {
        self.bytes[self.end] = b'-';
        self.end += usize::from(is_negated);
        self.bytes[self.end..][..variable.bytes.len()].copy_from_slice(&variable.bytes);
        self.end += usize::from(variable.length);
    }
}
