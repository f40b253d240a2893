//! The library's answers, in the form in which the oracle gives its own.

use pierstride::raw;
use pierstride_oracle::call::{lend, Answer, Call};
use pierstride_oracle::{Refusal, Verdict};

/// Makes a call through the safe functions.
pub fn answer(input: &[u8], call: Call) -> Answer {
    let refused = |number, place| Answer::Refused(Refusal { number, place });
    if let Call::FromText { room } = call {
        let written = lend(room, |out| pierstride::from_text(input, out));
        written.unwrap_or_else(|refusal| refused(refusal.number, refusal.place))
    } else {
        let answered = try_on_table(input, call);
        answered.unwrap_or_else(|refusal| refused(refusal.number, refusal.place))
    }
}

fn try_on_table(table: &[u8], call: Call) -> Result<Answer, pierstride::Refusal> {
    Ok(match call {
        Call::Read => {
            let counts = pierstride::read(table)?;
            Answer::Counts {
                rows: counts.rows,
                questions: counts.questions,
                predicates: counts.predicates,
            }
        }
        Call::Decide { row, yes } => Answer::Code(pierstride::decide(table, row, yes)?.code()),
        Call::Possible { row, known, yes } => {
            Answer::Set(pierstride::possible(table, row, known, yes)?.mask())
        }
        Call::Verdict { question, budget } => {
            Answer::Verdict(verdict(pierstride::verdict(table, question, budget)?))
        }
        Call::Strike { row, room } => lend(room, |out| pierstride::strike(table, row, out))?,
        Call::Entry { row } => {
            let part = pierstride::entry(table, row)?;
            let start = part.as_ptr() as usize - table.as_ptr() as usize;
            Answer::Entry(start..start + part.len())
        }
        Call::Suppliers { row, room } => lend(room, |out| pierstride::suppliers(table, row, out))?,
        Call::Dimacs { question, room } => {
            lend(room, |out| pierstride::dimacs(table, question, out))?
        }
        Call::Breaks { question, yes } => Answer::Breaks(pierstride::breaks(table, question, yes)?),
        Call::ToText { room } => lend(room, |out| pierstride::to_text(table, out))?,
        Call::FromText { .. } => unreachable!("the input is a text"),
    })
}

fn verdict(verdict: pierstride::Verdict) -> Verdict {
    match verdict {
        pierstride::Verdict::Holds { visits } => Verdict::Holds { visits },
        pierstride::Verdict::Fails { request, visits } => Verdict::Fails { request, visits },
        pierstride::Verdict::Unfinished { budget } => Verdict::Unfinished { budget },
    }
}

/// The fields of a C reply: the refusal, its place, and all others in order.
pub type Fields = (u32, usize, Vec<usize>);

/// Makes a call on the C functions themselves.
pub fn fields(input: &[u8], call: Call) -> Fields {
    let (bytes, length) = (input.as_ptr(), input.len());
    // SAFETY: pointers and lengths are those of slices that do not overlap.
    unsafe {
        match call {
            Call::Read => {
                let reply = raw::pier_read(bytes, length);
                let values = [reply.rows, reply.questions, reply.predicates];
                (reply.refusal, reply.place, widened(values))
            }
            Call::Decide { row, yes } => {
                let reply = raw::pier_decide(bytes, length, row, yes);
                (reply.refusal, reply.place, widened([reply.code]))
            }
            Call::Possible { row, known, yes } => {
                let reply = raw::pier_possible(bytes, length, row, known, yes);
                (reply.refusal, reply.place, widened([reply.set]))
            }
            Call::Verdict { question, budget } => {
                let reply = raw::pier_verdict(bytes, length, question, budget);
                let values = [reply.reply, reply.request, reply.visits];
                (reply.refusal, reply.place, widened(values))
            }
            Call::Strike { row, room } => {
                let mut out = vec![0; room];
                let reply = raw::pier_strike(bytes, length, row, out.as_mut_ptr(), room);
                (reply.refusal, reply.place, vec![reply.length])
            }
            Call::Entry { row } => {
                let reply = raw::pier_entry(bytes, length, row);
                let end = reply.start.checked_add(reply.length);
                let within = end.map_or(false, |end| end <= length);
                assert!(within, "row {row} is not within {input:02x?}: {reply:?}");
                (reply.refusal, reply.place, vec![reply.start, reply.length])
            }
            Call::Suppliers { row, room } => {
                let mut out = vec![0; room];
                let reply = raw::pier_suppliers(bytes, length, row, out.as_mut_ptr(), room);
                (reply.refusal, reply.place, vec![reply.length])
            }
            Call::Dimacs { question, room } => {
                let mut out = vec![0; room];
                let reply = raw::pier_dimacs(bytes, length, question, out.as_mut_ptr(), room);
                (reply.refusal, reply.place, vec![reply.length])
            }
            Call::Breaks { question, yes } => {
                let reply = raw::pier_breaks(bytes, length, question, yes);
                (reply.refusal, reply.place, widened([reply.breaks]))
            }
            Call::ToText { room } => {
                let mut out = vec![0; room];
                let reply = raw::pier_to_text(bytes, length, out.as_mut_ptr(), room);
                (reply.refusal, reply.place, vec![reply.length])
            }
            Call::FromText { room } => {
                let mut out = vec![0; room];
                let reply = raw::pier_from_text(bytes, length, out.as_mut_ptr(), room);
                (reply.refusal, reply.place, vec![reply.length])
            }
        }
    }
}

/// The fields that a C reply must have to give this answer to this call: those
/// that say nothing are 0.
pub fn expected_fields(call: Call, answer: &Answer) -> Fields {
    let values = match *answer {
        Answer::Counts { rows, questions, predicates } => widened([rows, questions, predicates]),
        Answer::Code(value) | Answer::Set(value) => widened([value]),
        Answer::Verdict(Verdict::Holds { visits }) => widened([1, 0, visits]),
        Answer::Verdict(Verdict::Fails { request, visits }) => widened([2, request, visits]),
        Answer::Verdict(Verdict::Unfinished { budget }) => widened([3, 0, budget]),
        Answer::Written(ref written) => vec![written.len()],
        Answer::Entry(ref part) => vec![part.start, part.len()],
        Answer::Breaks(breaks) => vec![usize::from(breaks)],
        Answer::Refused(Refusal { number, place }) => {
            let count = match call {
                Call::Read | Call::Verdict { .. } => 3,
                Call::Decide { .. } | Call::Possible { .. } | Call::Breaks { .. } => 1,
                Call::Strike { .. } | Call::Suppliers { .. } | Call::Dimacs { .. } => 1,
                Call::ToText { .. } | Call::FromText { .. } => 1,
                Call::Entry { .. } => 2,
            };
            return (number, place, vec![0; count]);
        }
    };
    (0, 0, values)
}

fn widened<const COUNT: usize>(values: [u32; COUNT]) -> Vec<usize> {
    values.map(|value| value as usize).to_vec()
}
