//! Pictures: what `dot` makes of them is exactly the rows that a row reaches.

use std::collections::{BTreeMap, BTreeSet};
use std::process::Command;

use pierstride_oracle::kinds::{ON_ONE_ROW, ON_TWO_ROWS};
use pierstride_oracle::random::Random;
use pierstride_oracle::supplied::suppliers_of;
use pierstride_oracle::{crafted, decide, entry, read, tables};

use crate::expected::{list, request_words, text_of, DECISIONS};
use crate::harness::{answer, answer_on, run, Outcome, TABLE_A};
use crate::json::filtered;

/// A picture that was asked for.
struct Asked {
    table: Vec<u8>,
    row: u32,
    /// The request, if its decisions are to be shown.
    yes: Option<u32>,
}

impl Asked {
    fn arguments(&self) -> Vec<String> {
        let mut arguments = vec!["picture".to_string(), "-".to_string(), self.row.to_string()];
        if let Some(yes) = self.yes {
            arguments.extend(["--yes".to_string(), list(yes)]);
        }
        arguments
    }

    /// The picture of the table in one of its forms.
    fn picture(&self, as_text: bool) -> String {
        let text = text_of(&self.table);
        let input = if as_text { text.as_bytes() } else { &self.table };
        let outcome = answer_on(input, &self.arguments());
        assert_eq!((outcome.status, outcome.err()), (0, ""), "{:?}", self.arguments());
        outcome.out().to_owned()
    }

    /// The bytes of a row's entry.
    fn entry(&self, row: u32) -> &[u8] {
        &self.table[entry(&self.table, row).expect("a row of the table")]
    }

    /// The rows that a row names.
    fn named_by(&self, row: u32) -> Vec<u32> {
        match self.entry(row) {
            [kind, numbers @ ..] if ON_ONE_ROW.contains(kind) || ON_TWO_ROWS.contains(kind) => {
                numbers.iter().map(|&number| number.into()).collect()
            }
            _ => Vec::new(),
        }
    }

    /// The rows that the row reaches, itself among them.
    fn reached(&self) -> BTreeSet<u32> {
        let mut reached = BTreeSet::from([self.row]);
        // A row names only rows with lower numbers.
        for row in (0..=self.row).rev() {
            if reached.contains(&row) {
                reached.extend(self.named_by(row));
            }
        }
        reached
    }

    /// A row's supplier, if the table names any.
    fn supplier(&self, row: u32) -> Option<u8> {
        let suppliers = suppliers_of(&self.table);
        suppliers.iter().any(|&supplier| supplier != 0).then(|| suppliers[row as usize])
    }

    /// What stands in a row's box first: its number, its supplier and its text.
    fn label(&self, row: u32) -> String {
        let supplier = self.supplier(row).map(|supplier| format!(", supplier {supplier}"));
        let text = text_of(self.entry(row));
        format!("row {row}{}\n{}", supplier.unwrap_or_default(), text.trim_end())
    }

    fn decision(&self, row: u32) -> Option<usize> {
        let yes = self.yes?;
        Some(decide(&self.table, row, yes).expect("a row of the table").code() as usize)
    }
}

/// A picture as `dot` understands it.
#[derive(Default, Debug)]
struct Drawn {
    /// Each row's label, the colour of its border, and its own.
    boxes: BTreeMap<u32, (String, String, String)>,
    /// Each arrow's ends.
    arrows: Vec<(u32, u32)>,
}

/// What `dot` makes of some pictures.
fn dot(format: &str, pictures: &str) -> String {
    let Outcome { status, out, err } = run(Command::new("dot").arg(format), pictures.as_bytes());
    let err = String::from_utf8_lossy(&err);
    assert_eq!((status, &err[..]), (0, ""), "dot {format} on {pictures}");
    String::from_utf8(out).expect("UTF-8")
}

/// The pictures that `dot` describes in its plain format.
fn drawn(plain: &str) -> Vec<Drawn> {
    let mut pictures = Vec::new();
    let mut picture = Drawn::default();
    for line in plain.lines() {
        let fields = fields(line);
        let number = |at: usize| fields[at].parse().unwrap_or_else(|_| panic!("no row: {line}"));
        match &fields[0][..] {
            // node name x y width height label style shape color fillcolor
            "node" => {
                let label = fields[6].replace("\\n", "\n");
                let of_box = (label, fields[9].clone(), fields[10].clone());
                assert_eq!(picture.boxes.insert(number(1), of_box), None, "{line}");
                assert_eq!((&fields[7][..], &fields[8][..]), ("filled", "box"), "{line}");
            }
            // edge tail head ...
            "edge" => picture.arrows.push((number(1), number(2))),
            "stop" => pictures.push(std::mem::take(&mut picture)),
            other => assert_eq!(other, "graph", "{line}"),
        }
    }
    pictures
}

/// The fields of a line, of which some are quoted.
fn fields(line: &str) -> Vec<String> {
    let mut fields = vec![String::new()];
    let mut quoted = false;
    for letter in line.chars() {
        match letter {
            '"' => quoted = !quoted,
            ' ' if !quoted => fields.push(String::new()),
            _ => fields.last_mut().expect("there is one").push(letter),
        }
    }
    fields
}

/// Which colour each decision has, and which the border of each supplier's rows.
#[derive(Default)]
struct Colours {
    decisions: BTreeMap<usize, String>,
    suppliers: BTreeMap<u8, String>,
}

/// The border of a row whose supplier is 0, or whose table names none.
const PLAIN: &str = "black";

fn check(asked: &Asked, drawn: &Drawn, colours: &mut Colours) {
    let reached = asked.reached();
    let rows: BTreeSet<u32> = drawn.boxes.keys().copied().collect();
    assert_eq!(rows, reached, "boxes of {:?}", asked.arguments());
    for (&row, (label, border, colour)) in &drawn.boxes {
        check_box(asked, row, label, colour, colours);
        let supplier = asked.supplier(row).unwrap_or(0);
        let known = colours.suppliers.entry(supplier).or_insert_with(|| border.to_string());
        assert_eq!(known, border, "{label:?} of {:?}", asked.arguments());
    }
    let expected: BTreeSet<(u32, u32)> = reached
        .iter()
        .flat_map(|&row| asked.named_by(row).into_iter().map(move |named| (row, named)))
        .collect();
    let arrows: BTreeSet<(u32, u32)> = drawn.arrows.iter().copied().collect();
    assert_eq!(arrows, expected, "arrows of {:?}", asked.arguments());
    // A row that is named twice has one arrow still.
    assert_eq!(drawn.arrows.len(), arrows.len(), "arrows of {:?}", asked.arguments());
}

/// Behind number and text the box has the decision, if one is to be shown, and its colour
/// goes by that.
fn check_box(asked: &Asked, row: u32, label: &str, colour: &str, colours: &mut Colours) {
    let rest = label.strip_prefix(&asked.label(row)[..]);
    let rest = rest.unwrap_or_else(|| panic!("{label:?} of {:?}", asked.arguments()));
    match asked.decision(row) {
        Some(decision) => {
            let decides = format!("\ndecides {}", DECISIONS[decision]);
            assert_eq!(rest, decides, "{label:?} of {:?}", asked.arguments());
            let known = colours.decisions.entry(decision).or_insert_with(|| colour.to_string());
            assert_eq!(known, colour, "{label:?} of {:?}", asked.arguments());
        }
        None => assert_eq!((rest, colour), ("", "white"), "{label:?}"),
    }
}

/// Checks many pictures with few calls of `dot`.
fn check_pictures(asked: &[Asked]) {
    let both = |asked: &Asked| {
        let [bytes, text] = [false, true].map(|as_text| asked.picture(as_text));
        assert_eq!(bytes, text, "{:?}", asked.arguments());
        bytes
    };
    let pictures: String = asked.iter().map(both).collect();
    let drawn = drawn(&dot("-Tplain", &pictures));
    assert_eq!(drawn.len(), asked.len());
    let mut colours = Colours::default();
    for (asked, drawn) in asked.iter().zip(&drawn) {
        check(asked, drawn, &mut colours);
    }
    let different: BTreeSet<&String> = colours.decisions.values().collect();
    assert_eq!(different.len(), 4, "not one for each decision: {:?}", colours.decisions);
    let different: BTreeSet<&String> = colours.suppliers.values().collect();
    assert_eq!(different.len(), colours.suppliers.len(), "{:?}", colours.suppliers);
    assert_eq!(colours.suppliers.get(&0).map(|border| &border[..]), Some(PLAIN));
    assert_eq!(dot("-Tsvg", &pictures).matches("<svg").count(), asked.len());
}

#[test]
fn a_picture_has_the_rows_that_a_row_reaches() {
    let mut random = Random::new(0x5049_4354);
    let shapes = [0, 1, 2, 3, 5, 6].map(|shape| &tables::SHAPES[shape]);
    let mut asked = Vec::new();
    while asked.len() < 60 {
        let table = tables::table(&mut random, shapes[asked.len() % shapes.len()]);
        let rows = read(&table).expect("an accepted table").rows.len();
        if rows > 0 {
            let row = (rows - 1 - random.below(rows.min(3))) as u32;
            let yes = random.mask();
            asked.push(Asked { table, row, yes: [None, Some(yes), Some(0)][asked.len() % 3] });
        }
    }
    check_pictures(&asked);
}

#[test]
fn a_box_has_each_decision() {
    let (table, numbers) = crafted::rows_of_every_set(0);
    let rows = numbers.iter().map(|&row| u32::from(row));
    let asked: Vec<Asked> = rows
        .flat_map(|row| [0, 1].map(|yes| Asked { table: table.clone(), row, yes: Some(yes) }))
        .collect();
    check_pictures(&asked);
}

/// The largest table makes a picture that `dot` reads; it is not drawn, for that takes long.
#[test]
fn the_largest_table_has_a_picture() {
    let asked = Asked { table: crafted::longest_text(), row: 255, yes: Some(1 << 23) };
    let read = dot("-Tcanon", &asked.picture(true));
    // Each row but the first names the one before it.
    assert_eq!(read.matches("->").count(), 255, "{read}");
    assert_eq!(read.matches("label=\"row ").count(), 256);
}

/// Every supplier has a border of its own.
#[test]
fn the_border_tells_the_supplier() {
    let table = crafted::chain_of_rows(256);
    let picture = answer_on(text_of(&table).as_bytes(), &["picture", "-", "255"]);
    let borders: BTreeSet<&str> = picture
        .out()
        .split(" color=\"")
        .skip(1)
        .filter_map(|rest| rest.split('"').next())
        .collect();
    // Row 255 is supplier 0's, and its border is plain.
    assert_eq!(borders.len(), 255, "{borders:?}");
    assert_eq!(picture.out().matches(", penwidth=3]").count(), 255);
}

#[test]
fn a_row_that_names_none_has_one_box() {
    let outcome = answer(&["picture", TABLE_A[0], "3"]);
    let picture = "\
digraph \"row 3\" {
    graph [ordering=out, fontname=\"Helvetica\"];
    node [shape=box, style=filled, fillcolor=white, fontname=\"Helvetica\"];
    3 [label=\"row 3\\ndeny\"];
}
";
    assert_eq!(outcome, Outcome::answer(0, picture));
}

#[test]
fn an_object_has_the_picture() {
    for arguments in
        [&["picture", TABLE_A[0], "5"][..], &["picture", TABLE_A[1], "4", "--yes", "0,1"]]
    {
        let with_object = answer(&[arguments, &["--json"]].concat());
        assert_eq!((with_object.status, with_object.err()), (0, ""));
        assert_eq!(filtered("keys | join(\",\")", with_object.out()), "picture");
        assert_eq!(filtered(".picture", with_object.out()), answer(arguments).out());
    }
}

#[test]
fn a_picture_has_the_request() {
    for (list, yes) in [("none", 0b0), ("0", 0b1), ("0,1", 0b11), ("0,3,23", 1 << 23 | 0b1001)] {
        let picture = answer(&["picture", TABLE_A[0], "4", "--yes", list]);
        let words = request_words(yes);
        assert!(picture.out().contains(&format!("    label=\"{words}\";\n")), "{picture:?}");
        assert!(dot("-Tsvg", picture.out()).contains(&format!(">{words}</text>")), "{words}");
    }
}

#[test]
fn the_row_that_is_named_first_is_on_the_left() {
    for (named, left, right) in [("0 1", "0", "1"), ("1 0", "1", "0")] {
        let text = format!("deny\ngrant\nguard {named}\n");
        let picture = answer_on(text.as_bytes(), &["picture", "-", "2"]);
        let plain = dot("-Tplain", picture.out());
        let place = |row: &str| -> f64 {
            let head = format!("node {row} ");
            let line = plain.lines().find_map(|line| line.strip_prefix(&head[..]));
            let place = line.and_then(|line| line.split(' ').next()?.parse().ok());
            place.unwrap_or_else(|| panic!("no row {row} in {plain}"))
        };
        assert!(place(left) < place(right), "{plain}");
    }
}

/// The words of an SVG and the colours of its boxes. Where they stand goes by the fonts of the
/// machine that drew it.
fn words_and_colours(svg: &str) -> Vec<&str> {
    let words = svg.lines().filter_map(|line| line.strip_suffix("</text>")?.rsplit('>').next());
    let colours = svg.lines().filter_map(|line| line.strip_prefix("<polygon fill=\"#"));
    words.chain(colours.filter_map(|rest| rest.split('"').next())).collect()
}

#[test]
fn the_readme_s_picture_is_that_of_row_4() {
    let picture = answer(&["picture", TABLE_A[1], "4", "--yes", "0,1"]);
    let drawn = dot("-Tsvg", picture.out());
    let kept = words_and_colours(include_str!("../../../docs/row-4.svg"));
    assert_eq!(kept, words_and_colours(&drawn), "make pictures draws it anew");
    // The request, three lines for each of five rows, and their colours.
    assert_eq!(kept.len(), 1 + 3 * 5 + 5);
    assert!(include_str!("../../../README.md").contains("](docs/row-4.svg)"));
}
