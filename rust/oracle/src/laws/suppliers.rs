//! The laws of document 02, L6: whose rule is it?
//!
//! Whose each row is, and what it names, is read off a table's bytes, by the kinds in
//! `kinds` and by `supplied`.

use super::texts::check_rooms;
use super::{Desk, Tried};
use crate::call::{Answer, Call};
use crate::kinds::{Group, ON_ONE_ROW, ON_TWO_ROWS, SUPPLIER};
use crate::random::Random;
use crate::refusal::{Refusal, IDLE_SUPPLIER, NOT_THERE};
use crate::supplied::{in_force, is_row, suppliers_of, with_suppliers, without_suppliers};
use crate::tables::garbage;
use crate::texts::entries;
use crate::{Part, FILE_BYTES, SUPPLIERS};

/// Checks every law of suppliers on an accepted table.
pub(super) fn check(desk: &mut Desk, tried: &Tried, random: &mut Random) {
    let bytes = tried.bytes;
    check_encoding(bytes);
    let (plain, suppliers) = (without_suppliers(bytes), suppliers_of(bytes));
    check_plain(desk, tried, &plain, random);
    check_entries(desk, bytes);
    check_lists(desk, bytes, &suppliers);
    check_strikes(desk, bytes, &plain, &suppliers);
}

/// There is one encoding of a table's entries and of whose its rows are, and an accepted
/// table is that: each supplier that is named is another than the one in force, and a row
/// is behind it.
pub(super) fn check_encoding(bytes: &[u8]) {
    let encoded = with_suppliers(&without_suppliers(bytes), &suppliers_of(bytes));
    assert_eq!(encoded, bytes, "another encoding was accepted");
}

impl Desk<'_> {
    /// The list of a row's suppliers.
    fn suppliers(&mut self, bytes: &[u8], row: usize) -> Vec<u8> {
        let call = Call::Suppliers { row: row as u32, room: SUPPLIERS };
        match (self.answer)(bytes, call) {
            Answer::Written(list) => list,
            other => panic!("{other:?} for {}", call.on(bytes)),
        }
    }
}

/// Counts, decisions, sets, verdicts, files for a solver and judged requests are those of the
/// table without its suppliers.
fn check_plain(desk: &mut Desk, tried: &Tried, plain: &[u8], random: &mut Random) {
    let bytes = tried.bytes;
    let mut check = |call| {
        let [with, without] = [bytes, plain].map(|table| (desk.answer)(table, call));
        assert_eq!(with, without, "{}", call.on(bytes));
    };
    check(Call::Read);
    for row in 0..tried.table.rows.len() as u32 {
        let (yes, known) = (random.mask(), random.mask());
        check(Call::Decide { row, yes });
        check(Call::Possible { row, known, yes: yes & known });
    }
    for question in 0..tried.table.questions.len() as u32 {
        check(Call::Verdict { question, budget: u32::MAX });
        check(Call::Dimacs { question, room: FILE_BYTES });
        check(Call::Breaks { question, yes: random.mask() & tried.used() });
    }
}

/// The bytes of each row, and where they start.
fn rows(bytes: &[u8]) -> Vec<(usize, &[u8])> {
    let mut end = 0;
    let placed = entries(bytes).map(|entry| {
        let start = end;
        end += entry.len();
        (start, entry)
    });
    placed.filter(|(_, entry)| is_row(entry[0])).collect()
}

/// A row's own bytes begin at its kind byte, also behind a supplier.
fn check_entries(desk: &mut Desk, bytes: &[u8]) {
    for (row, (start, entry)) in (0..).zip(rows(bytes)) {
        let found = (desk.answer)(bytes, Call::Entry { row });
        assert_eq!(found, Answer::Entry(start..start + entry.len()), "row {row}: {bytes:02x?}");
    }
}

/// Of each row whether it reaches each other, and itself, by brute force: what is named is
/// reached, and what is reached by what is reached, until this adds nothing.
fn reach(bytes: &[u8]) -> Vec<Vec<bool>> {
    let rows = rows(bytes);
    let names = |row: usize, other: usize| match rows[row].1 {
        [kind, numbers @ ..] if ON_ONE_ROW.contains(kind) || ON_TWO_ROWS.contains(kind) => {
            numbers.iter().any(|&number| usize::from(number) == other)
        }
        _ => false,
    };
    let all = 0..rows.len();
    let at_once = |row| all.clone().map(|other| other == row || names(row, other)).collect();
    let mut reach: Vec<Vec<bool>> = all.clone().map(at_once).collect();
    loop {
        let through = |row: usize, other| all.clone().any(|by| reach[row][by] && reach[by][other]);
        let more: Vec<Vec<bool>> =
            all.clone().map(|row| all.clone().map(|other| through(row, other)).collect()).collect();
        if more == reach {
            return reach;
        }
        reach = more;
    }
}

/// A list has the suppliers of the rows that are reached and no others, each once and
/// rising. An output that is shorter is refused; before that, a row that is not there.
fn check_lists(desk: &mut Desk, bytes: &[u8], suppliers: &[u8]) {
    for (row, reached) in reach(bytes).iter().enumerate() {
        let list = desk.suppliers(bytes, row);
        assert!(list.windows(2).all(|pair| pair[0] < pair[1]), "row {row}, {list:?}: {bytes:02x?}");
        for supplier in 0..=u8::MAX {
            let is_theirs = |(&reached, &of_row)| reached && of_row == supplier;
            let expected = reached.iter().zip(suppliers).any(is_theirs);
            assert_eq!(list.contains(&supplier), expected, "row {row}, {supplier}: {bytes:02x?}");
        }
        check_rooms(desk, bytes, |room| Call::Suppliers { row: row as u32, room }, &list);
    }
    let not_there = Answer::Refused(Refusal::of_request(NOT_THERE));
    for (row, room) in [(suppliers.len() as u32, 0), (u32::MAX, SUPPLIERS)] {
        assert_eq!((desk.answer)(bytes, Call::Suppliers { row, room }), not_there);
    }
}

/// Once a row is struck, every other has the supplier and the list that it had. What is
/// written names suppliers where they change, is beside that what is written of the table
/// without suppliers, and takes as much room as it is long.
fn check_strikes(desk: &mut Desk, bytes: &[u8], plain: &[u8], suppliers: &[u8]) {
    let lists: Vec<Vec<u8>> = (0..suppliers.len()).map(|row| desk.suppliers(bytes, row)).collect();
    for struck in 0..suppliers.len() {
        let (left, of_plain) = match (desk.strike(bytes, struck), desk.strike(plain, struck)) {
            (Some(left), Some(of_plain)) => (left, of_plain),
            (None, None) => continue,
            other => panic!("{other:02x?} for row {struck} of {bytes:02x?}"),
        };
        let (mut suppliers, mut lists) = (suppliers.to_vec(), lists.clone());
        suppliers.remove(struck);
        lists.remove(struck);
        assert_eq!(left, with_suppliers(&of_plain, &suppliers), "row {struck} of {bytes:02x?}");
        for (row, list) in lists.iter().enumerate() {
            assert_eq!(desk.suppliers(&left, row), *list, "row {row} of {left:02x?}");
        }
        check_rooms(desk, bytes, |room| Call::Strike { row: struck as u32, room }, &left);
    }
}

/// Refusal 15 speaks of a supplier before all questions that is in force already, and then
/// nothing behind it makes a difference, or that is not followed by a row's kind byte, and
/// then nothing behind that byte does. Without it reading comes no less far: the answer is
/// the bytes without it.
pub(super) fn check_idle(
    desk: &mut Desk,
    random: &mut Random,
    bytes: &[u8],
    place: usize,
) -> Vec<u8> {
    let (before, behind) = (&bytes[..place], &bytes[place + 2..]);
    assert_eq!(bytes[place], SUPPLIER, "no supplier at {place}: {bytes:02x?}");
    let asks = |entry: &[u8]| Group::of(entry[0]).map(|group| group.part) == Some(Part::Questions);
    assert!(!entries(before).any(asks), "behind a question: {bytes:02x?}");
    let repeats = bytes[place + 1] == in_force(before);
    let is_followed = behind.first().map_or(false, |&kind| is_row(kind));
    assert!(repeats || !is_followed, "not idle at {place}: {bytes:02x?}");

    let refused = Err(Refusal { number: IDLE_SUPPLIER, place });
    let end = if repeats { place + 2 } else { place + 3 };
    if let Some(spoken_of) = bytes.get(..end) {
        let longer = [spoken_of, &garbage(random)].concat();
        assert_eq!(desk.read(&longer), refused, "{longer:02x?}");
    }
    assert_eq!(desk.read(&bytes[..place + 2]), refused, "{bytes:02x?}");

    let mended = [before, behind].concat();
    if let Err(again) = desk.read(&mended) {
        assert!(again.place >= place, "{again:?} before {place}: {mended:02x?}");
    }
    mended
}
