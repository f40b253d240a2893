//! Decisions and truths at one request, every predicate being known.

use crate::decision::Decision;
use crate::refusal::Refusal;
use crate::request::check_masks;
use crate::table::{read, Question, Row, PREDICATES, QUESTIONS, ROWS};

/// The decision of one row, given a yes mask.
pub fn decide(bytes: &[u8], row: u32, yes: u32) -> Result<Decision, Refusal> {
    let table = read(bytes)?;
    let row = table.find_row(row)?;
    check_masks((1 << PREDICATES) - 1, yes)?;
    Ok(decisions(&table.rows[..=row], yes)[row])
}

/// The decision of each of `rows`, each formed once from those before it.
pub fn decisions(rows: &[Row], yes: u32) -> [Decision; ROWS] {
    let mut decided = [Decision::U; ROWS];
    for (number, &row) in rows.iter().enumerate() {
        let of = |operand: u8| decided[usize::from(operand)];
        decided[number] = match row {
            Row::Always(decision) => decision,
            Row::When(predicate, decision) if yes >> predicate & 1 == 1 => decision,
            Row::When(..) => Decision::U,
            Row::Unary(operator, x) => operator.apply(of(x)),
            Row::Binary(operator, x, y) => operator.apply(of(x), of(y)),
        };
    }
    decided
}

/// The truth of each of `questions` at the request with these decisions.
pub fn truths(questions: &[Question], decided: &[Decision; ROWS]) -> [bool; QUESTIONS] {
    let mut truths = [false; QUESTIONS];
    for (number, &question) in questions.iter().enumerate() {
        let truth = |operand: u8| truths[usize::from(operand)];
        truths[number] = match question {
            Question::Compare(order, x, y) => {
                order.at_or_below(decided[usize::from(x)], decided[usize::from(y)])
            }
            Question::Not(a) => !truth(a),
            Question::Both(a, b) => truth(a) && truth(b),
        };
    }
    truths
}
