//! Holds the package's table of kinds to the library, and the page for survey offices,
//! `docs/WORDS.md`, to that table.

use std::collections::BTreeMap;

use pierstride::{read, verdict, Kind, Numbered, Part, Verdict, KINDS};

const PAGE: &str = include_str!("../../docs/WORDS.md");
const TABLE_A: &str = include_str!("../../examples/table-a.txt");

/// Nothing, a row, two rows, and two rows and a question: what stands before an entry whose
/// kind is tried, or behind it.
const NOTHING: &[u8] = &[];
const ROW: &[u8] = &[0x00];
const ROWS: &[u8] = &[0x00, 0x00];
const ROWS_AND_QUESTION: &[u8] = &[0x00, 0x00, 0x40, 0x00, 0x00];

/// What the library says of a kind: its word, where it stands, what its numbers name.
type Found = (String, Part, Vec<Numbered>);

/// Tries a kind as a constraint, which is not counted, then as a third row, then as a second
/// question, then as a supplier, which is not counted and needs a row behind it; none if it is
/// nothing of these. Before any supplier 0 is in force, so 1 is named.
fn found(byte: u8) -> Option<Found> {
    let parts = [
        (NOTHING, 0, NOTHING, (0, 0), Part::Constraints),
        (ROWS, 0, NOTHING, (3, 0), Part::Rows),
        (ROWS_AND_QUESTION, 0, NOTHING, (2, 2), Part::Questions),
        (NOTHING, 1, ROW, (1, 0), Part::Suppliers),
    ];
    parts.into_iter().find_map(|(before, number, behind, counts, part)| {
        let bodies = (0..=2).map(|count| vec![number; count]);
        let table = bodies.map(|body| [before, &[byte], &body, behind].concat()).find(|table| {
            read(table).map_or(false, |found| (found.rows, found.questions) == counts)
        })?;
        let end = table.len() - behind.len();
        let names = (before.len() + 1..end).map(|place| named(&table, place)).collect();
        Some((word(&table, behind.len()), part, names))
    })
}

/// What the number at a place of an accepted table names. The number 24 is no predicate; of two
/// rows and one question, 1 is a row and no question; and every number but that in force is a
/// supplier.
fn named(table: &[u8], place: usize) -> Numbered {
    let with = |number| {
        let mut table = table.to_vec();
        table[place] = number;
        read(&table).map_or_else(|refusal| refusal.number, |_| 0)
    };
    match (with(23), with(24), with(1)) {
        (0, 3, _) => Numbered::Predicate,
        (_, 4, 0) => Numbered::Row,
        (_, 4, 4) => Numbered::Question,
        (0, 0, 0) => Numbered::Supplier,
        other => panic!("the number at {place} of {table:02x?}: {other:?}"),
    }
}

/// The word of a table's last line, or of one so many before it.
fn word(table: &[u8], behind: usize) -> String {
    let mut text = [0; pierstride::TEXT_BYTES];
    let length = pierstride::to_text(table, &mut text).expect("the table is accepted");
    let text = std::str::from_utf8(&text[..length]).expect("a text is ASCII");
    let line = text.lines().rev().nth(behind).expect("a line");
    line.split(' ').next().unwrap_or_default().to_owned()
}

#[test]
fn the_package_has_the_library_s_kinds() {
    for byte in 0..=u8::MAX {
        let kind = Kind::of_byte(byte);
        let kind = kind.map(|kind| (kind.word.to_owned(), kind.part, kind.names.to_vec()));
        assert_eq!(kind, found(byte), "kind {byte:02X}");
    }
    assert!(KINDS.windows(2).all(|pair| pair[0].byte < pair[1].byte));
    for kind in KINDS {
        assert_eq!(Kind::of_word(kind.word.as_bytes()), Some(kind));
    }
    assert_eq!(Kind::of_word(b"forbid"), None);
}

#[test]
fn the_package_has_the_library_s_predicates() {
    let last = pierstride::PREDICATES as u8 - 1;
    assert!(read(&[0x10, last]).is_ok());
    assert_eq!(read(&[0x10, last + 1]).map_err(|refusal| refusal.number), Err(3));
}

#[test]
fn the_package_has_the_library_s_constraints() {
    let most = [0x50, 0x00, 0x01].repeat(pierstride::CONSTRAINTS as usize);
    assert!(read(&most).is_ok());
    let more = [&most[..], &[0x51]].concat();
    let refusal = read(&more).expect_err("a constraint too many");
    assert_eq!((refusal.number, refusal.place), (14, most.len()));
}

#[test]
fn the_package_has_the_library_s_suppliers() {
    let rows = (0..pierstride::SUPPLIERS).rev().flat_map(|supplier| match supplier {
        255 => vec![0x60, 0xFF, 0x00],
        _ => vec![0x60, supplier as u8, 0x20, 254 - supplier as u8],
    });
    let table: Vec<u8> = rows.collect();
    let mut list = [0; pierstride::SUPPLIERS];
    assert_eq!(pierstride::suppliers(&table, 255, &mut list), Ok(pierstride::SUPPLIERS));
    assert!(list.into_iter().eq(0..=255));
}

#[test]
fn a_decision_s_word_is_that_of_the_row_that_always_decides_so() {
    for kind in KINDS.iter().filter(|kind| kind.part == Part::Rows && kind.names.is_empty()) {
        let decision = pierstride::decide(&[kind.byte], 0, 0).expect("a constant row");
        assert_eq!(decision.to_string(), kind.word);
    }
}

/// The cells of the page's table lines, without backticks.
fn cells() -> impl Iterator<Item = Vec<&'static str>> {
    let lines = PAGE.lines().filter(|line| line.starts_with('|'));
    lines.map(|line| line.split('|').map(|cell| cell.trim().trim_matches('`')).skip(1).collect())
}

/// The page's words and numbers by their bytes: the lines whose first cell is a byte in hex.
fn on_the_page() -> BTreeMap<u8, (&'static str, &'static str)> {
    let byte = |cell: &str| (cell.len() == 2).then(|| u8::from_str_radix(cell, 16).ok()).flatten();
    cells().filter_map(|cells| Some((byte(cells[0])?, (cells[1], cells[2])))).collect()
}

#[test]
fn the_page_has_the_package_s_kinds() {
    let page = on_the_page();
    for kind in KINDS {
        let names: Vec<String> = kind.names.iter().map(Numbered::to_string).collect();
        let count = ["none", "one: ", "two: "][names.len()];
        let numbers = count.to_owned() + &names.join(", ");
        assert_eq!(page.get(&kind.byte), Some(&(kind.word, &*numbers)));
    }
    assert_eq!(page.len(), KINDS.len());
}

#[test]
fn the_page_s_worked_example_is_table_a() {
    let heading = "## A worked example: table A";
    let (_, example) = PAGE.split_once(heading).expect("a worked example");
    let lines = example.lines().skip_while(|line| !line.starts_with("|---")).skip(1);
    let lines = lines.take_while(|line| line.starts_with('|'));
    let text: String =
        lines.map(|line| line.split('`').nth(1).unwrap_or("").to_owned() + "\n").collect();
    assert_eq!(text, TABLE_A);
}

#[test]
fn the_page_s_example_of_constraints_is_as_it_says() {
    let heading = "## A worked example: a sheet that is withdrawn";
    let (_, example) = PAGE.split_once(heading).expect("an example of constraints");
    let lines = example.lines().filter_map(|line| line.strip_prefix("    "));
    let text: String = lines.take(12).map(|line| line.to_owned() + "\n").collect();
    let mut table = [0; pierstride::TABLE_BYTES];
    let length = pierstride::from_text(text.as_bytes(), &mut table).expect("a text");
    let ask = |question| verdict(&table[..length], question, u32::MAX);
    assert!(matches!(ask(1), Ok(Verdict::Holds { .. })));
    assert!(matches!(ask(3), Ok(Verdict::Fails { request: 0b110, .. })));
}

#[test]
fn the_page_s_example_of_suppliers_is_as_it_says() {
    let heading = "## A worked example: whose rows are these?";
    let (_, example) = PAGE.split_once(heading).expect("an example of suppliers");
    let lines = example.lines().filter_map(|line| line.strip_prefix("    "));
    let text: String = lines.take(9).map(|line| line.to_owned() + "\n").collect();
    let mut table = [0; pierstride::TABLE_BYTES];
    let length = pierstride::from_text(text.as_bytes(), &mut table).expect("a text");
    let list = |row| {
        let mut list = vec![0; pierstride::SUPPLIERS];
        let count = pierstride::suppliers(&table[..length], row, &mut list);
        list.truncate(count.expect("a row of the table"));
        list
    };
    let lists: [&[u8]; 5] = [&[3], &[3], &[7], &[0, 3, 7], &[3]];
    assert!((0..5).map(list).eq(lists));
}
