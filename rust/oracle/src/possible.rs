//! Sets of decisions and of truths, where facts of a request are missing.

use crate::decision::Decision;
use crate::refusal::Refusal;
use crate::request::check_masks;
use crate::table::{read, Question, Row, QUESTIONS, ROWS};

/// A set of decisions, as a mask: u counts 1, d 2, g 4, c 8.
#[derive(Clone, Copy, Debug, Default, PartialEq, Eq)]
pub struct DecisionSet(u8);

impl DecisionSet {
    fn insert(&mut self, decision: Decision) {
        self.0 |= 1 << decision.code();
    }

    fn members(self) -> impl Iterator<Item = Decision> {
        Decision::ALL.into_iter().filter(move |decision| self.0 >> decision.code() & 1 == 1)
    }

    pub fn mask(self) -> u32 {
        u32::from(self.0)
    }
}

/// A set of truths.
#[derive(Clone, Copy, Debug, Default, PartialEq, Eq)]
pub struct TruthSet {
    has_true: bool,
    has_false: bool,
}

impl TruthSet {
    fn insert(&mut self, truth: bool) {
        if truth {
            self.has_true = true;
        } else {
            self.has_false = true;
        }
    }

    fn members(self) -> impl Iterator<Item = bool> {
        [(true, self.has_true), (false, self.has_false)]
            .into_iter()
            .filter_map(|(truth, is_member)| is_member.then_some(truth))
    }

    /// The one member, if there is just one.
    pub fn settled(self) -> Option<bool> {
        match (self.has_true, self.has_false) {
            (true, false) => Some(true),
            (false, true) => Some(false),
            _ => None,
        }
    }
}

/// How members are chosen for the two numbers of a body, from the sets of what they
/// name.
#[derive(Clone, Copy, Debug, PartialEq, Eq)]
pub enum Choice {
    /// Document 02, L3: "Where both numbers in a body are equal, one choice must
    /// serve both, in rows and in questions alike."
    OneForEqual,
    /// Document 01, before L3: "each operand chosen independently, also where both
    /// operands are the same row." This is only here for what L3 says of it: "Sets
    /// may shrink and walks get shorter".
    Independent,
}

impl Choice {
    /// Hands every choice for the numbers `x` and `y` to `take`; `of` gives the
    /// members of a number's set.
    fn each<T: Copy, Members: Iterator<Item = T>>(
        self,
        x: u8,
        y: u8,
        of: impl Fn(u8) -> Members,
        mut take: impl FnMut(T, T),
    ) {
        if self == Choice::OneForEqual && x == y {
            of(x).for_each(|both| take(both, both));
        } else {
            of(x).for_each(|x| of(y).for_each(|y| take(x, y)));
        }
    }
}

/// The decisions of one row that remain possible, given what is known.
pub fn possible(bytes: &[u8], row: u32, known: u32, yes: u32) -> Result<DecisionSet, Refusal> {
    possible_by(Choice::OneForEqual, bytes, row, known, yes)
}

/// The same, by either way to choose.
pub fn possible_by(
    choice: Choice,
    bytes: &[u8],
    row: u32,
    known: u32,
    yes: u32,
) -> Result<DecisionSet, Refusal> {
    let table = read(bytes)?;
    let row = table.find_row(row)?;
    check_masks(known, yes)?;
    Ok(decision_sets(choice, &table.rows[..=row], known, yes)[row])
}

/// The set of each of `rows`, each formed once from those before it.
pub fn decision_sets(choice: Choice, rows: &[Row], known: u32, yes: u32) -> [DecisionSet; ROWS] {
    let mut sets = [DecisionSet::default(); ROWS];
    for (number, &row) in rows.iter().enumerate() {
        let of = |operand: u8| sets[usize::from(operand)].members();
        let mut set = DecisionSet::default();
        match row {
            Row::Always(decision) => set.insert(decision),
            Row::When(predicate, decision) => {
                let has = |mask: u32| mask >> predicate & 1 == 1;
                if !has(known) || has(yes) {
                    set.insert(decision);
                }
                if !has(known) || !has(yes) {
                    set.insert(Decision::U);
                }
            }
            Row::Unary(operator, x) => of(x).for_each(|x| set.insert(operator.apply(x))),
            Row::Binary(operator, x, y) => {
                choice.each(x, y, of, |x, y| set.insert(operator.apply(x, y)))
            }
        }
        sets[number] = set;
    }
    sets
}

/// The set of each of `questions`, given the sets of the rows.
pub fn truth_sets(
    choice: Choice,
    questions: &[Question],
    rows: &[DecisionSet; ROWS],
) -> [TruthSet; QUESTIONS] {
    let mut sets = [TruthSet::default(); QUESTIONS];
    for (number, &question) in questions.iter().enumerate() {
        let row = |operand: u8| rows[usize::from(operand)].members();
        let truth = |operand: u8| sets[usize::from(operand)].members();
        let mut set = TruthSet::default();
        match question {
            Question::Compare(order, x, y) => {
                choice.each(x, y, row, |x, y| set.insert(order.at_or_below(x, y)))
            }
            Question::Not(a) => truth(a).for_each(|a| set.insert(!a)),
            Question::Both(a, b) => choice.each(a, b, truth, |a, b| set.insert(a && b)),
        }
        sets[number] = set;
    }
    sets
}
