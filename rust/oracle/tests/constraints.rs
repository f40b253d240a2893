//! That random tests meet many walks in which constraints (document 02, L5) make a
//! difference, and in which it matters which way round an "only if" is read.

mod share;

use pierstride_oracle::kinds::ONLY_IF;
use pierstride_oracle::random::Random;
use pierstride_oracle::{read, tables, texts, verdict, Refusal};

use share::Share;

/// So many visits are enough to see that a walk is another.
const VISITS: u32 = 300;

/// How many tables of each shape are tried.
const TABLES: usize = 100;

fn walks_differ(table: &[u8], other: &[u8], question: u32) -> Result<bool, Refusal> {
    Ok(verdict(table, question, VISITS)? != verdict(other, question, VISITS)?)
}

/// The table with the two predicates of every "only if" exchanged.
fn turned_round(table: &[u8]) -> Vec<u8> {
    let turned = |entry: &[u8]| match *entry {
        [ONLY_IF, p, q] => vec![ONLY_IF, q, p],
        _ => entry.to_vec(),
    };
    texts::entries(table).flat_map(turned).collect()
}

#[test]
fn random_tables_tell_what_constraints_say() {
    let mut random = Random::new(9);
    let full = [&tables::SMALL_WITH_SETS, &tables::WALKED, &tables::WALKED_WITH_SETS];
    let mut shares = Shares::default();
    for shape in tables::SHAPES.iter().chain(full) {
        (0..TABLES).for_each(|_| shares.count(&tables::table(&mut random, shape)));
    }
    shares.without.require(15, "walks without the constraints");
    shares.turned_round.require(5, "walks with each \"only if\" turned round");
}

/// Of the walks over tables that have constraints, how many are others without them, and
/// how many are others if every "only if" is turned round.
#[derive(Default)]
struct Shares {
    without: Share,
    turned_round: Share,
}

impl Shares {
    fn count(&mut self, bytes: &[u8]) {
        let table = read(bytes).expect("an accepted table");
        if table.constraints.is_empty() {
            return;
        }
        let (_, without) = texts::split_constraints(bytes);
        let turned_round = turned_round(bytes);
        for question in 0..table.questions.len() as u32 {
            self.without.count(walks_differ(bytes, without, question));
            self.turned_round.count(walks_differ(bytes, &turned_round, question));
        }
    }
}
