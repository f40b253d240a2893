//! Judging a request that somebody brings: does it break a question?

use crate::decide::{decisions, truths};
use crate::refusal::{Refusal, BAD_MASK};
use crate::table::{read, Constraint};

/// Whether the request with this yes mask keeps every constraint and breaks question
/// `question`.
///
/// Document 02, L7: "Refusals: 8, then 10 for a mask with a bit from n up".
pub fn breaks(bytes: &[u8], question: u32, yes: u32) -> Result<bool, Refusal> {
    let table = read(bytes)?;
    let question = table.find_question(question)?;
    if yes >> table.predicates() != 0 {
        return Err(Refusal::of_request(BAD_MASK));
    }
    let decided = decisions(&table.rows, yes);
    let is_true = truths(&table.questions[..=question], &decided)[question];
    let are_kept = table.constraints.iter().all(|constraint| constraint.is_kept(yes));
    Ok(are_kept && !is_true)
}

impl Constraint {
    /// Does the request with this yes mask keep it?
    fn is_kept(self, yes: u32) -> bool {
        let is_yes = |predicate: u8| yes >> predicate & 1 == 1;
        match self {
            Constraint::NeverBoth(p, q) => !(is_yes(p) && is_yes(q)),
            Constraint::OnlyIf(p, q) => !is_yes(p) || is_yes(q),
        }
    }
}
