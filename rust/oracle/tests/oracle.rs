//! The oracle alone: the notebook's cases, the laws, and the generators.

use pierstride_oracle::call::{self, answer, Answer, Call};
use pierstride_oracle::limits::Probe;
use pierstride_oracle::random::Random;
use pierstride_oracle::tables::{self, Mixture};
use pierstride_oracle::{crafted, laws, limits, notebook, read};
use pierstride_oracle::{Part, Refusal, Verdict, CONSTRAINTS, QUESTIONS, ROWS, TABLE_BYTES};

#[test]
fn answers_the_notebook() {
    call::check(notebook::cases(), answer);
}

#[test]
fn keeps_the_laws() {
    let mut random = Random::new(1);
    for shape in [&tables::SMALL, &tables::SMALL_WITH_SETS] {
        for _ in 0..200 {
            let table = tables::table(&mut random, shape);
            laws::check(&mut answer, &mut random, &table);
        }
    }
}

#[test]
fn keeps_the_laws_of_reading() {
    let mut random = Random::new(3);
    for probe in limits::probes() {
        laws::check_reading(&mut answer, &mut random, &probe.table());
    }
    let mixture = Mixture::default();
    for _ in 0..3000 {
        let table = mixture.table(&mut random);
        laws::check_reading(&mut answer, &mut random, &table);
    }
}

/// Every kind, with each of its numbers below its limit, at it and beyond, with
/// its body whole and cut short, and with bytes behind it.
#[test]
fn points_at_the_first_number_that_is_not_below_its_limit() {
    for probe in limits::probes() {
        for table in probe.variants() {
            assert_eq!(read(&table).err(), scan(&probe, &table), "{table:02x?}");
        }
    }
}

/// What reading must refuse in a variant of the probe's table, by looking at its
/// bytes one after the other. Behind the entry stands nothing, or what is no kind.
fn scan(probe: &Probe, table: &[u8]) -> Option<Refusal> {
    let start = probe.before().len();
    let end = start + 1 + probe.group.length;
    let at_kind_byte = |number| Some(Refusal { number, place: start });
    let (constraints, rows, questions) = (probe.constraints, probe.rows, probe.questions);
    if probe.announced {
        let at_supplier = |number| Some(Refusal { number, place: start - 2 });
        match probe.group.part {
            _ if questions > 0 => return at_supplier(5),
            Part::Rows => {}
            _ => return at_supplier(15),
        }
    }
    match probe.group.part {
        Part::Suppliers if questions > 0 => return at_kind_byte(5),
        Part::Constraints if rows + questions > 0 => return at_kind_byte(5),
        Part::Rows if questions > 0 => return at_kind_byte(5),
        Part::Rows if rows == ROWS => return at_kind_byte(6),
        Part::Questions if questions == QUESTIONS => return at_kind_byte(7),
        Part::Constraints if constraints == CONSTRAINTS => return at_kind_byte(14),
        _ => {}
    }
    if table.len() < end {
        return at_kind_byte(2);
    }
    if probe.group.part == Part::Suppliers {
        return at_kind_byte(15);
    }
    let bad = (start + 1..end).find(|&place| usize::from(table[place]) >= probe.limit());
    if let Some(place) = bad {
        return probe.group.refusal().map(|number| Refusal { number, place });
    }
    (end < table.len()).then_some(Refusal { number: 1, place: end })
}

#[test]
fn walks_parities_in_full() {
    for predicates in 0..=12 {
        for question in 0..2 {
            let call = Call::Verdict { question, budget: u32::MAX };
            let visits = (2 << predicates) - 1;
            let expected = Answer::Verdict(Verdict::Holds { visits });
            assert_eq!(answer(&crafted::parity(predicates), call), expected);
        }
    }
}

/// Every further predicate of a chain takes a visit that breaks its link and one that
/// keeps it.
#[test]
fn walks_chains_to_their_end() {
    for predicates in 1..=24 {
        let visits = crafted::visits_of_chain(predicates);
        let call = Call::Verdict { question: 0, budget: visits };
        let fails = Answer::Verdict(Verdict::Fails { request: (1 << predicates) - 1, visits });
        assert_eq!(answer(&crafted::chain(predicates), call), fails);
        let holds = Answer::Verdict(Verdict::Holds { visits });
        assert_eq!(answer(&crafted::shut_chain(predicates), call), holds);
        let call = Call::Verdict { question: 0, budget: visits - 1 };
        let unfinished = Answer::Verdict(Verdict::Unfinished { budget: visits - 1 });
        assert_eq!(answer(&crafted::chain(predicates), call), unfinished);
    }
}

/// As many constraints as there may be, of which none is ever broken or waits.
#[test]
fn walks_as_without_constraints_that_say_nothing() {
    for predicates in 1..=10 {
        let constraints = crafted::idle_constraints(predicates);
        let table = [constraints, crafted::parity(predicates)].concat();
        assert_eq!(read(&table).map(|table| table.constraints.len()), Ok(CONSTRAINTS));
        let call = Call::Verdict { question: 0, budget: u32::MAX };
        let visits = (2 << predicates) - 1;
        assert_eq!(answer(&table, call), Answer::Verdict(Verdict::Holds { visits }));
    }
}

#[test]
fn accepts_random_tables_of_every_shape() {
    let mut random = Random::new(2);
    for shape in &tables::SHAPES {
        for _ in 0..100 {
            let bytes = tables::table(&mut random, shape);
            let table = read(&bytes).expect("a table of a shape");
            assert!(shape.constraints.contains(&table.constraints.len()));
            assert!(shape.rows.contains(&table.rows.len()));
        }
    }
}

/// The longest table has 1567 bytes: its first row can name no row.
#[test]
fn reads_the_longest_table() {
    let accepted = |table: &Vec<u8>| read(table).is_ok();
    let limits = limits::tables();
    let longest = limits.iter().filter(|table| accepted(table)).map(Vec::len).max();
    assert_eq!(longest, Some(TABLE_BYTES - 1));
    assert_eq!(TABLE_BYTES, 1568);
}

#[test]
fn makes_rows_of_every_set() {
    let (table, numbers) = crafted::rows_of_every_set_twice();
    for (mask, twins) in (1..16).zip(numbers) {
        for row in twins {
            let call = Call::Possible { row: row.into(), known: 0, yes: 0 };
            assert_eq!(answer(&table, call), Answer::Set(mask));
        }
    }
    for table in crafted::operators_on_every_set() {
        read(&table).expect("a table of operators");
    }
}
