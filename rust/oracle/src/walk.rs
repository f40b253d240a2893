//! The walk that answers a question, of the requests within the constraints.

use crate::possible::{decision_sets, truth_sets, Choice};
use crate::refusal::Refusal;
use crate::table::{read, Constraint, Table};

/// The reply to a question.
#[derive(Clone, Copy, Debug, PartialEq, Eq)]
pub enum Verdict {
    /// No request within the constraints breaks it; the whole walk made this many
    /// visits.
    Holds { visits: u32 },
    /// `request`, a yes mask, is the first within the constraints that breaks it.
    Fails { request: u32, visits: u32 },
    /// The whole walk makes more visits than the budget.
    Unfinished { budget: u32 },
}

/// Walks for question `question` with at most `budget` visits.
pub fn verdict(bytes: &[u8], question: u32, budget: u32) -> Result<Verdict, Refusal> {
    verdict_by(Choice::OneForEqual, bytes, question, budget)
}

/// The same, by either way to choose.
pub fn verdict_by(
    choice: Choice,
    bytes: &[u8],
    question: u32,
    budget: u32,
) -> Result<Verdict, Refusal> {
    let table = read(bytes)?;
    let question = table.find_question(question)?;
    let constraints = Masks::of(&table.constraints);
    let mut walk = Walk { choice, table: &table, constraints, question, budget, visits: 0 };
    let end = walk.visit(0, 0);
    let visits = walk.visits;
    Ok(match end {
        Ok(()) => Verdict::Holds { visits },
        Err(Stop::Broken { request }) => Verdict::Fails { request, visits },
        Err(Stop::OverBudget) => Verdict::Unfinished { budget },
    })
}

struct Walk<'a> {
    choice: Choice,
    table: &'a Table,
    constraints: Masks,
    question: usize,
    budget: u32,
    visits: u32,
}

/// Why a walk ends before its last visit.
enum Stop {
    Broken { request: u32 },
    OverBudget,
}

/// The constraints as masks, which are made once a walk.
struct Masks {
    /// The two predicates of each "never both".
    never_both: Vec<u32>,
    /// The first predicate of each "only if", and its second.
    only_if: Vec<(u32, u32)>,
}

impl Masks {
    fn of(constraints: &[Constraint]) -> Masks {
        let mut masks = Masks { never_both: Vec::new(), only_if: Vec::new() };
        for constraint in constraints {
            match *constraint {
                Constraint::NeverBoth(p, q) => masks.never_both.push(1 << p | 1 << q),
                Constraint::OnlyIf(p, q) => masks.only_if.push((1 << p, 1 << q)),
            }
        }
        masks
    }

    /// Do the known facts break a constraint? A "never both", if both are known yes; an
    /// "only if", if the first is known yes and the second known no.
    fn are_broken(&self, known: u32, yes: u32) -> bool {
        let no = known & !yes;
        self.never_both.iter().any(|both| yes & both == *both)
            || self.only_if.iter().any(|(first, second)| yes & first != 0 && no & second != 0)
    }

    /// Has some "only if" its first known yes and its second unknown?
    fn wait(&self, known: u32, yes: u32) -> bool {
        self.only_if.iter().any(|(first, second)| yes & first != 0 && known & second == 0)
    }
}

impl Walk<'_> {
    /// Visits with predicates 0 to `k` - 1 known and those of `yes` being yes.
    ///
    /// Document 02, L5: "a visit whose known facts break one counts and finds nothing. A
    /// settled-false visit still goes on if some 51 has its first known yes and its
    /// second unknown." Where it does not, these facts with every other predicate no are
    /// within the constraints.
    fn visit(&mut self, k: u32, yes: u32) -> Result<(), Stop> {
        if self.visits == self.budget {
            return Err(Stop::OverBudget);
        }
        self.visits += 1;
        let known = (1 << k) - 1;
        if self.constraints.are_broken(known, yes) {
            return Ok(());
        }
        let rows = decision_sets(self.choice, &self.table.rows, known, yes);
        let asked = &self.table.questions[..=self.question];
        let questions = truth_sets(self.choice, asked, &rows);
        match questions[self.question].settled() {
            Some(true) => Ok(()),
            Some(false) if !self.constraints.wait(known, yes) => Err(Stop::Broken { request: yes }),
            Some(false) | None => {
                self.visit(k + 1, yes)?;
                self.visit(k + 1, yes | 1 << k)
            }
        }
    }
}
