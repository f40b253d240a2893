//! The verdict on a question, and how far the walk is while it is being found.
//!
//! A budget that is enough brings the same verdict, request and count as any larger one: that is
//! the library's promise. So on a terminal a question is asked with rising budgets, and each that
//! was too small says how many visits the walk is known to need.

use std::io::{self, Write};
use std::sync::mpsc::{self, Receiver, RecvTimeoutError};
use std::thread;
use std::time::{Duration, Instant};

use pierstride::{Refusal, Verdict};

use crate::table::Table;

/// The first budget, and how many times larger each is than the one before.
const FIRST: u32 = 1 << 16;
const RISE: u32 = 4;

/// How often the progress is told, and how long nothing is said of a short walk.
const PAUSE: Duration = Duration::from_secs(1);

pub fn verdict(table: &Table, question: u32, budget: u32) -> Result<Verdict, Refusal> {
    let ask = |budget| pierstride::verdict(&table.bytes, question, budget);
    if !is_terminal() {
        return ask(budget);
    }
    let most: u32 = (2 << table.counts.predicates) - 1;
    let limit = if budget < most { format!(" (budget {budget})") } else { String::new() };
    let words = move |known, seconds| {
        format!(
            "question {question}: more than {known} of at most {most} visits{limit}, {seconds} s"
        )
    };
    thread::scope(|scope| {
        let (known, visits) = mpsc::channel();
        scope.spawn(move || tell(words, &visits));
        for small in rising(budget) {
            match ask(small)? {
                // The other end is there until this one is gone.
                Verdict::Unfinished { .. } => known.send(small).unwrap_or_default(),
                verdict => return Ok(verdict),
            }
        }
        ask(budget)
    })
}

/// The budgets to try before this one.
fn rising(budget: u32) -> impl Iterator<Item = u32> {
    let budgets = std::iter::successors(Some(FIRST), |small| small.checked_mul(RISE));
    budgets.take_while(move |small| *small < budget)
}

/// Tells on one line of the terminal how many visits are known to be needed, each time that is
/// learnt and each time that a pause is over; takes the line away once nobody learns any more.
fn tell(words: impl Fn(u32, u64) -> String, visits: &Receiver<u32>) {
    let began = Instant::now();
    let (mut known, mut pauses) = (0, 0);
    loop {
        let pause = (PAUSE * (pauses + 1)).saturating_sub(began.elapsed());
        match visits.recv_timeout(pause) {
            Ok(visits) => known = visits,
            Err(RecvTimeoutError::Timeout) => pauses += 1,
            Err(RecvTimeoutError::Disconnected) => break,
        }
        if pauses > 0 {
            on_the_line(&words(known, began.elapsed().as_secs()));
        }
    }
    if pauses > 0 {
        on_the_line("");
    }
}

/// Puts words in the place of those on the terminal's last line.
fn on_the_line(words: &str) {
    let _ = write!(io::stderr(), "\r\x1B[K{words}");
}

/// Is standard error a terminal?
fn is_terminal() -> bool {
    extern "C" {
        fn isatty(file: i32) -> i32;
    }
    // SAFETY: it takes any number, and tells of a file that is not there like of one that is no
    // terminal.
    unsafe { isatty(2) == 1 }
}
