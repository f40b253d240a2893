//! Where one choice for two equal numbers (document 02, L3) brings another answer than
//! document 01's two choices, and that random tests meet many such cases.

mod share;

use std::collections::BTreeMap;

use pierstride_oracle::call::Call;
use pierstride_oracle::calls::random_call;
use pierstride_oracle::kinds::{COMPARISONS, ON_TWO_ROWS};
use pierstride_oracle::random::Random;
use pierstride_oracle::tables::{self, Mixture};
use pierstride_oracle::{crafted, possible, possible_by, read, supplied, texts};
use pierstride_oracle::{verdict, verdict_by, Choice, Refusal};

use share::Share;

/// The operators that, on some row and itself, have another set by L3 than by document 01:
/// those of the two orders, implication and guard. The overrides never have.
const TELLING: std::ops::RangeInclusive<u8> = 0x30..=0x35;

/// So many visits are enough to see that a walk is another.
const VISITS: u32 = 300;

fn sets_differ(table: &[u8], row: u32, known: u32, yes: u32) -> Result<bool, Refusal> {
    let of_01 = possible_by(Choice::Independent, table, row, known, yes)?;
    Ok(possible(table, row, known, yes)? != of_01)
}

fn walks_differ(table: &[u8], question: u32, budget: u32) -> Result<bool, Refusal> {
    let of_01 = verdict_by(Choice::Independent, table, question, budget)?;
    Ok(verdict(table, question, budget)? != of_01)
}

/// Every operator and comparison on every set, as that of a row and itself.
#[test]
fn some_kinds_tell_one_choice_from_two() {
    let (rows, numbers) = crafted::rows_of_every_set(0);
    let with_itself = |kind, x| [&rows[..], &[kind, x, x]].concat();
    let last = crafted::ROWS_OF_EVERY_SET as u32;
    for kind in ON_TWO_ROWS {
        let differs = |&x: &u8| sets_differ(&with_itself(kind, x), last, 0, 0) == Ok(true);
        assert_eq!(numbers.iter().any(differs), TELLING.contains(&kind), "{kind:02x}");
    }
    for kind in COMPARISONS {
        for (mask, &x) in (1_u32..).zip(&numbers) {
            let differs = walks_differ(&with_itself(kind, x), 0, VISITS);
            assert_eq!(differs, Ok(mask.count_ones() > 1), "{kind:02x} on set {mask}");
        }
    }
}

/// The calls that the library is compared with the oracle on.
#[test]
fn random_calls_tell_one_choice_from_two() {
    let mut random = Random::new(7);
    let mixture = Mixture::default();
    let (mut sets, mut verdicts) = (Share::default(), Share::default());
    for _ in 0..3000 {
        let table = mixture.table(&mut random);
        for _ in 0..10 {
            match random_call(&mut random, &table) {
                Call::Possible { row, known, yes } => {
                    sets.count(sets_differ(&table, row, known, yes));
                }
                Call::Verdict { question, budget } => {
                    verdicts.count(walks_differ(&table, question, budget.min(VISITS)));
                }
                _ => {}
            }
        }
    }
    sets.require(5, "sets");
    verdicts.require(8, "verdicts");
}

/// Tables of every shape, with nothing known.
#[test]
fn random_tables_tell_one_choice_from_two() {
    let mut random = Random::new(8);
    let mut all = Shares::default();
    let full = [&tables::SMALL_WITH_SETS, &tables::WALKED, &tables::WALKED_WITH_SETS];
    for shape in tables::SHAPES.iter().chain(full) {
        let walks = all.walks;
        (0..300).for_each(|_| all.count(&tables::table(&mut random, shape)));
        let walks = Share { differ: all.walks.differ - walks.differ, of: all.walks.of - walks.of };
        walks.require(8, &format!("walks of tables of {:?} rows", shape.rows));
    }
    all.sets.require(8, "sets");
    for kind in TELLING.chain(COMPARISONS) {
        all.by_kind[&kind].require(30, &format!("{kind:02x} with equal numbers"));
    }
}

/// The shares of all rows and questions, and by their kinds of those with equal numbers.
#[derive(Default)]
struct Shares {
    sets: Share,
    walks: Share,
    by_kind: BTreeMap<u8, Share>,
}

impl Shares {
    fn count(&mut self, bytes: &[u8]) {
        let table = read(bytes).expect("an accepted table");
        let rows = table.rows.len() as u32;
        let plain = supplied::without_suppliers(bytes);
        let entries = texts::entries(&plain).skip(table.constraints.len());
        for (number, entry) in (0..).zip(entries) {
            let differs = if number < rows {
                sets_differ(bytes, number, 0, 0)
            } else {
                walks_differ(bytes, number - rows, VISITS)
            };
            let share = if number < rows { &mut self.sets } else { &mut self.walks };
            share.count(differs);
            if matches!(entry, [_, x, y] if x == y) {
                self.by_kind.entry(entry[0]).or_default().count(differs);
            }
        }
    }
}
