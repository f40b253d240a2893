//! The table: its kinds of entry, its limits, and reading it from bytes.
//!
//! Document 02, L5, adds to the rows and questions two kinds of entries "before all
//! rows". They say which requests cannot occur and are called constraints here. L6 adds
//! one more, which says whose the rows behind it are. It is called a supplier here, as
//! is the number in it.

use crate::decision::{Binary, Decision, Order, Unary};
use crate::refusal::{self, Refusal};

/// The most predicates a table may use: they are numbered 0 to 23.
pub const PREDICATES: usize = 24;
/// The most constraints a table may have, of both kinds together.
pub const CONSTRAINTS: usize = 32;
/// The most rows a table may have.
pub const ROWS: usize = 256;
/// The most questions a table may have.
pub const QUESTIONS: usize = 64;
/// How many suppliers there are: 0 to 255. So many bytes are always enough for a list
/// of them.
pub const SUPPLIERS: usize = 256;
/// So many bytes are always enough for a table: no entry has more than three, and before
/// each row a supplier of two may stand.
pub const TABLE_BYTES: usize = 3 * (CONSTRAINTS + ROWS + QUESTIONS) + 2 * ROWS;

/// The parts of a table, in their order: each entry stands in one of them. Suppliers
/// stand among the rows, each before one.
#[derive(Clone, Copy, Debug, PartialEq, Eq)]
pub enum Part {
    Constraints,
    Suppliers,
    Rows,
    Questions,
}

impl Part {
    /// How many there are.
    pub const COUNT: usize = 4;
}

/// What the first byte of an entry says about it.
#[derive(Clone, Copy, Debug)]
pub enum Kind {
    NeverBoth,
    OnlyIf,
    Supplier,
    Always(Decision),
    When(Decision),
    Unary(Unary),
    Binary(Binary),
    Compare(Order),
    Not,
    Both,
}

impl Kind {
    /// The byte of a supplier.
    pub const SUPPLIER: u8 = 0x60;

    /// The kind that `byte` stands for, if it is listed. This is asked of every entry, and
    /// the benchmark times it, so no call is made for it.
    #[inline(always)]
    pub fn of(byte: u8) -> Option<Kind> {
        Some(match byte {
            0x00 => Kind::Always(Decision::U),
            0x01 => Kind::Always(Decision::D),
            0x02 => Kind::Always(Decision::G),
            0x03 => Kind::Always(Decision::C),
            0x10 => Kind::When(Decision::D),
            0x11 => Kind::When(Decision::G),
            0x20 => Kind::Unary(Unary::Negation),
            0x21 => Kind::Unary(Unary::Conflation),
            0x22 => Kind::Unary(Unary::ClosedDefault),
            0x23 => Kind::Unary(Unary::OpenDefault),
            0x30 => Kind::Binary(Binary::TruthMeet),
            0x31 => Kind::Binary(Binary::TruthJoin),
            0x32 => Kind::Binary(Binary::KnowledgeMeet),
            0x33 => Kind::Binary(Binary::KnowledgeJoin),
            0x34 => Kind::Binary(Binary::Implication),
            0x35 => Kind::Binary(Binary::Guard),
            0x38 => Kind::Binary(Binary::Override(Decision::U)),
            0x39 => Kind::Binary(Binary::Override(Decision::D)),
            0x3A => Kind::Binary(Binary::Override(Decision::G)),
            0x3B => Kind::Binary(Binary::Override(Decision::C)),
            0x40 => Kind::Compare(Order::Truth),
            0x41 => Kind::Compare(Order::Knowledge),
            0x42 => Kind::Not,
            0x43 => Kind::Both,
            0x50 => Kind::NeverBoth,
            0x51 => Kind::OnlyIf,
            Kind::SUPPLIER => Kind::Supplier,
            _ => return None,
        })
    }

    /// How many bytes follow the kind byte.
    pub fn body_length(self) -> usize {
        match self {
            Kind::Always(_) => 0,
            Kind::When(_) | Kind::Unary(_) | Kind::Not | Kind::Supplier => 1,
            Kind::Binary(_) | Kind::Compare(_) | Kind::Both => 2,
            Kind::NeverBoth | Kind::OnlyIf => 2,
        }
    }

    /// Is every byte of the body the number of a row?
    pub fn names_rows(self) -> bool {
        matches!(self, Kind::Unary(_) | Kind::Binary(_) | Kind::Compare(_))
    }

    pub fn part(self) -> Part {
        match self {
            Kind::NeverBoth | Kind::OnlyIf => Part::Constraints,
            Kind::Supplier => Part::Suppliers,
            Kind::Always(_) | Kind::When(_) | Kind::Unary(_) | Kind::Binary(_) => Part::Rows,
            Kind::Compare(_) | Kind::Not | Kind::Both => Part::Questions,
        }
    }
}

/// A constraint as read, of two predicates.
#[derive(Clone, Copy, Debug)]
pub enum Constraint {
    /// The two are never both yes.
    NeverBoth(u8, u8),
    /// The first is yes only if the second is.
    OnlyIf(u8, u8),
}

impl Constraint {
    fn predicates(self) -> [u8; 2] {
        match self {
            Constraint::NeverBoth(p, q) | Constraint::OnlyIf(p, q) => [p, q],
        }
    }
}

/// A row as read; operands are numbers of earlier rows.
#[derive(Clone, Copy, Debug)]
pub enum Row {
    Always(Decision),
    When(u8, Decision),
    Unary(Unary, u8),
    Binary(Binary, u8, u8),
}

impl Row {
    /// The rows that it names.
    pub fn operands(self) -> impl Iterator<Item = usize> {
        let operands = match self {
            Row::Always(_) | Row::When(..) => [None, None],
            Row::Unary(_, x) => [Some(x), None],
            Row::Binary(_, x, y) => [Some(x), Some(y)],
        };
        operands.into_iter().flatten().map(usize::from)
    }
}

/// A question as read; `Compare` names rows, the others earlier questions.
#[derive(Clone, Copy, Debug)]
pub enum Question {
    Compare(Order, u8, u8),
    Not(u8),
    Both(u8, u8),
}

/// A table as read: what it says, without where its bytes lay.
#[derive(Clone, Debug)]
pub struct Table {
    pub constraints: Vec<Constraint>,
    pub rows: Vec<Row>,
    /// The supplier of each row, and 0 behind the last.
    pub suppliers: [u8; ROWS],
    pub questions: Vec<Question>,
    /// The supplier in force, which the next row gets.
    supplier: u8,
}

impl Table {
    pub(crate) fn empty() -> Table {
        Table {
            constraints: Vec::with_capacity(CONSTRAINTS),
            rows: Vec::with_capacity(ROWS),
            suppliers: [0; ROWS],
            questions: Vec::with_capacity(QUESTIONS),
            supplier: 0,
        }
    }

    /// n: one more than the highest predicate that any constraint or row uses, or 0.
    pub fn predicates(&self) -> u32 {
        let of_constraints = self.constraints.iter().flat_map(|constraint| constraint.predicates());
        let of_rows = self.rows.iter().filter_map(|row| match *row {
            Row::When(predicate, _) => Some(predicate),
            _ => None,
        });
        of_constraints.chain(of_rows).max().map_or(0, |highest| u32::from(highest) + 1)
    }

    /// Refuses with 8 unless there is a row `number`.
    pub fn find_row(&self, number: u32) -> Result<usize, Refusal> {
        find(number, self.rows.len())
    }

    /// Refuses with 8 unless there is a question `number`.
    pub fn find_question(&self, number: u32) -> Result<usize, Refusal> {
        find(number, self.questions.len())
    }

    /// Reads the entry whose kind byte is at `place` and answers where it ends.
    pub(crate) fn read_entry(&mut self, bytes: &[u8], place: usize) -> Result<usize, Refusal> {
        let at_kind_byte = |number| Refusal { number, place };
        let kind = Kind::of(bytes[place]).ok_or(at_kind_byte(refusal::KIND_NOT_LISTED))?;
        self.check_room_for(kind).map_err(at_kind_byte)?;
        let start = place + 1;
        let end = start + kind.body_length();
        let numbers = bytes.get(start..end).ok_or(at_kind_byte(refusal::BODY_CUT_SHORT))?;
        if let Kind::Supplier = kind {
            self.check_supplier(numbers[0], bytes.get(end)).map_err(at_kind_byte)?;
        }
        self.add(kind, Body { numbers, start })?;
        Ok(end)
    }

    /// May an entry of this kind follow what was read so far? Of the refusals 5, 6, 7
    /// and 14, the first that is due.
    fn check_room_for(&self, kind: Kind) -> Result<(), u32> {
        let (has_rows, has_questions) = (!self.rows.is_empty(), !self.questions.is_empty());
        match kind.part() {
            Part::Constraints if has_rows || has_questions => Err(refusal::OUT_OF_ORDER),
            Part::Suppliers | Part::Rows if has_questions => Err(refusal::OUT_OF_ORDER),
            Part::Rows if self.rows.len() == ROWS => Err(refusal::TOO_MANY_ROWS),
            Part::Questions if self.questions.len() == QUESTIONS => {
                Err(refusal::TOO_MANY_QUESTIONS)
            }
            Part::Constraints if self.constraints.len() == CONSTRAINTS => {
                Err(refusal::TOO_MANY_CONSTRAINTS)
            }
            _ => Ok(()),
        }
    }

    /// May this supplier be named before what the next byte, if there is one, announces?
    ///
    /// Document 02, L6: "15, a 60 that repeats the supplier in force or is not followed by a
    /// row's kind byte, at the 60, after 2". It is kept apart from the reading of other
    /// entries, which would take longer for it.
    #[inline(never)]
    fn check_supplier(&self, supplier: u8, next: Option<&u8>) -> Result<(), u32> {
        let announced = next.and_then(|&byte| Kind::of(byte)).map(Kind::part);
        if supplier == self.supplier || announced != Some(Part::Rows) {
            Err(refusal::IDLE_SUPPLIER)
        } else {
            Ok(())
        }
    }

    /// Adds a row, which gets the supplier in force.
    fn add_row(&mut self, row: Row) {
        self.suppliers[self.rows.len()] = self.supplier;
        self.rows.push(row);
    }

    /// Adds the entry of this kind and body, of the kind's length.
    fn add(&mut self, kind: Kind, body: Body) -> Result<(), Refusal> {
        // A row may name the rows before it, a comparison every row: as no row
        // follows a question, both are the rows read so far.
        let (rows, questions) = (self.rows.len(), self.questions.len());
        let predicate = |at| body.below(PREDICATES, at, refusal::PREDICATE_TOO_HIGH);
        let row = |at| body.below(rows, at, refusal::MAY_NOT_BE_NAMED);
        let question = |at| body.below(questions, at, refusal::MAY_NOT_BE_NAMED);
        match kind {
            Kind::NeverBoth => {
                self.constraints.push(Constraint::NeverBoth(predicate(0)?, predicate(1)?))
            }
            Kind::OnlyIf => self.constraints.push(Constraint::OnlyIf(predicate(0)?, predicate(1)?)),
            Kind::Supplier => self.supplier = body.numbers[0],
            Kind::Always(decision) => self.add_row(Row::Always(decision)),
            Kind::When(decision) => self.add_row(Row::When(predicate(0)?, decision)),
            Kind::Unary(operator) => self.add_row(Row::Unary(operator, row(0)?)),
            Kind::Binary(operator) => self.add_row(Row::Binary(operator, row(0)?, row(1)?)),
            Kind::Compare(order) => self.questions.push(Question::Compare(order, row(0)?, row(1)?)),
            Kind::Not => self.questions.push(Question::Not(question(0)?)),
            Kind::Both => self.questions.push(Question::Both(question(0)?, question(1)?)),
        }
        Ok(())
    }
}

fn find(number: u32, count: usize) -> Result<usize, Refusal> {
    let number = number as usize;
    if number < count {
        Ok(number)
    } else {
        Err(Refusal::of_request(refusal::NOT_THERE))
    }
}

/// The body of an entry, and where in the table it starts.
struct Body<'a> {
    numbers: &'a [u8],
    start: usize,
}

impl Body<'_> {
    /// Number `at` of the body, which must be below `limit`; if it is not, the
    /// refusal is `refusal`, at that number.
    ///
    /// Document 02, L1: "From now on 3 and 4 give the place of the first
    /// offending body byte; all other places stay." It is the first because
    /// [`Table::add`] asks for the numbers of a body in their order.
    fn below(&self, limit: usize, at: usize, refusal: u32) -> Result<u8, Refusal> {
        let number = self.numbers[at];
        if usize::from(number) < limit {
            Ok(number)
        } else {
            Err(Refusal { number: refusal, place: self.start + at })
        }
    }
}

/// Reads a whole table, or refuses with one of 1 to 7, 14 and 15 at the first bad entry.
pub fn read(bytes: &[u8]) -> Result<Table, Refusal> {
    let mut table = Table::empty();
    let mut place = 0;
    while place < bytes.len() {
        place = table.read_entry(bytes, place)?;
    }
    Ok(table)
}

/// An entry of a table that has been read without a refusal.
#[derive(Clone, Copy)]
pub struct Entry<'a> {
    pub kind: Kind,
    /// Its kind byte and its body.
    pub bytes: &'a [u8],
}

/// The entries of a table that has been read without a refusal.
pub fn entries(bytes: &[u8]) -> impl Iterator<Item = Entry<'_>> {
    let mut rest = bytes;
    std::iter::from_fn(move || {
        let kind = Kind::of(*rest.first()?)?;
        let (bytes, after) = rest.split_at(1 + kind.body_length());
        rest = after;
        Some(Entry { kind, bytes })
    })
}
