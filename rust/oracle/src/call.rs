//! Calls and answers as plain values, the same for every implementation.

use std::fmt::Debug;
use std::ops::Range;

use crate::{Refusal, Verdict};

/// One of the eleven calls, with everything it takes beside its input. That is a
/// text for `FromText` and a table for every other.
#[derive(Clone, Copy, Debug)]
pub enum Call {
    Read,
    Decide {
        row: u32,
        yes: u32,
    },
    Possible {
        row: u32,
        known: u32,
        yes: u32,
    },
    Verdict {
        question: u32,
        budget: u32,
    },
    /// `room` is the length of the output that is lent.
    Strike {
        row: u32,
        room: usize,
    },
    Entry {
        row: u32,
    },
    /// `room` is as for `Strike`.
    Suppliers {
        row: u32,
        room: usize,
    },
    /// `room` is as for `Strike`.
    Dimacs {
        question: u32,
        room: usize,
    },
    Breaks {
        question: u32,
        yes: u32,
    },
    /// `room` is as for `Strike`.
    ToText {
        room: usize,
    },
    /// `room` is as for `Strike`.
    FromText {
        room: usize,
    },
}

impl Call {
    pub fn name(self) -> &'static str {
        match self {
            Call::Read => "read",
            Call::Decide { .. } => "decide",
            Call::Possible { .. } => "possible",
            Call::Verdict { .. } => "verdict",
            Call::Strike { .. } => "strike",
            Call::Entry { .. } => "entry",
            Call::Suppliers { .. } => "suppliers",
            Call::Dimacs { .. } => "dimacs",
            Call::Breaks { .. } => "breaks",
            Call::ToText { .. } => "to text",
            Call::FromText { .. } => "from text",
        }
    }

    /// The call and its input, for a reader.
    pub fn on(self, input: &[u8]) -> String {
        match self {
            Call::FromText { .. } => format!("{self:?} on \"{}\"", input.escape_ascii()),
            _ => format!("{self:?} on {input:02x?}"),
        }
    }
}

/// What a call answers.
#[derive(Clone, Debug, PartialEq, Eq)]
pub enum Answer {
    Counts {
        rows: u32,
        questions: u32,
        predicates: u32,
    },
    /// The code of a decision.
    Code(u32),
    /// The mask of a set of decisions.
    Set(u32),
    Verdict(Verdict),
    /// The bytes that were written.
    Written(Vec<u8>),
    /// Where the entry lies in the table.
    Entry(Range<usize>),
    /// Whether the request breaks the question.
    Breaks(bool),
    Refused(Refusal),
}

impl Answer {
    /// The answer in short, to count how often each is met.
    pub fn label(&self) -> String {
        match self {
            Answer::Counts { .. } => "accepted".to_string(),
            Answer::Code(code) => format!("code {code}"),
            Answer::Set(mask) => format!("set {mask}"),
            Answer::Verdict(Verdict::Holds { .. }) => "holds".to_string(),
            Answer::Verdict(Verdict::Fails { .. }) => "fails".to_string(),
            Answer::Verdict(Verdict::Unfinished { .. }) => "unfinished".to_string(),
            Answer::Written(_) => "written".to_string(),
            Answer::Entry(part) => format!("part of {}", part.len()),
            Answer::Breaks(breaks) => format!("breaks {breaks}"),
            Answer::Refused(refusal) => format!("refusal {}", refusal.number),
        }
    }
}

/// An input, a call on it, and what it must answer.
pub type Case = (Vec<u8>, Call, Answer);

/// Checks that `answer` answers every case as it must.
pub fn check(cases: Vec<Case>, answer: impl Fn(&[u8], Call) -> Answer) {
    for (input, call, expected) in cases {
        assert_eq!(answer(&input, call), expected, "{}", call.on(&input));
    }
}

/// Makes a call on this crate's own implementation.
pub fn answer(input: &[u8], call: Call) -> Answer {
    try_answer(input, call).unwrap_or_else(Answer::Refused)
}

fn try_answer(input: &[u8], call: Call) -> Result<Answer, Refusal> {
    Ok(match call {
        Call::Read => {
            let table = crate::read(input)?;
            Answer::Counts {
                rows: table.rows.len() as u32,
                questions: table.questions.len() as u32,
                predicates: table.predicates(),
            }
        }
        Call::Decide { row, yes } => Answer::Code(crate::decide(input, row, yes)?.code()),
        Call::Possible { row, known, yes } => {
            Answer::Set(crate::possible(input, row, known, yes)?.mask())
        }
        Call::Verdict { question, budget } => {
            Answer::Verdict(crate::verdict(input, question, budget)?)
        }
        Call::Strike { row, room } => lend(room, |out| crate::strike(input, row, out))?,
        Call::Entry { row } => Answer::Entry(crate::entry(input, row)?),
        Call::Suppliers { row, room } => lend(room, |out| crate::suppliers(input, row, out))?,
        Call::Dimacs { question, room } => lend(room, |out| crate::dimacs(input, question, out))?,
        Call::Breaks { question, yes } => Answer::Breaks(crate::breaks(input, question, yes)?),
        Call::ToText { room } => lend(room, |out| crate::to_text(input, out))?,
        Call::FromText { room } => lend(room, |out| crate::from_text(input, out))?,
    })
}

/// Patterned bytes before and behind a lent output, to see writing outside it.
const MARGIN: usize = 16;

/// Two patterns that differ in every byte, so that a byte which is overwritten with
/// what it had in one of them shows in the other.
const PATTERNS: [fn(usize) -> u8; 2] =
    [|place| (place as u8).wrapping_mul(37) ^ 0xA5, |place| (place as u8).wrapping_mul(37) ^ 0x5A];

/// Lends `write` an output of `room` bytes, once in each pattern. It answers how
/// many bytes it wrote, and the answer is those bytes. Panics if any other byte is
/// changed, or if what the output held makes a difference.
pub fn lend<Refused: PartialEq + Debug>(
    room: usize,
    mut write: impl FnMut(&mut [u8]) -> Result<usize, Refused>,
) -> Result<Answer, Refused> {
    let [one, other] = PATTERNS.map(|pattern| lend_patterned(pattern, room, &mut write));
    assert_eq!(one, other, "what the output held makes a difference");
    one.map(Answer::Written)
}

fn lend_patterned<Refused>(
    pattern: fn(usize) -> u8,
    room: usize,
    write: &mut impl FnMut(&mut [u8]) -> Result<usize, Refused>,
) -> Result<Vec<u8>, Refused> {
    let mut bytes: Vec<u8> = (0..MARGIN + room + MARGIN).map(pattern).collect();
    let result = write(&mut bytes[MARGIN..MARGIN + room]);
    let length = *result.as_ref().unwrap_or(&0);
    assert!(length <= room, "{length} bytes written to {room}");
    let written = MARGIN..MARGIN + length;
    for (place, &byte) in bytes.iter().enumerate() {
        let kept = written.contains(&place) || byte == pattern(place);
        assert!(kept, "byte {place} changed, outside {written:?}");
    }
    result.map(|_| bytes[written].to_vec())
}
