//! The laws of document 02, L7: hard questions for a solver, and the requests that it brings.

use super::constraints::are_kept;
use super::texts::check_rooms;
use super::{Desk, Tried};
use crate::call::{Answer, Call};
use crate::cnf::Cnf;
use crate::random::Random;
use crate::refusal::{Refusal, BAD_MASK, NOT_THERE};
use crate::{truths, Decision, Verdict, FILE_BYTES};

/// Checks every law of files and of judged requests on an accepted table.
pub(super) fn check(desk: &mut Desk, tried: &Tried, random: &mut Random) {
    let questions = tried.table.questions.len();
    for question in 0..questions {
        check_judgements(desk, tried, question, random);
        let is_satisfiable = check_file(desk, tried, question);
        check_verdict(desk, tried, question, is_satisfiable);
    }
    check_one_negation(desk, tried);
    check_not_there(desk, tried);
}

impl Desk<'_> {
    fn breaks(&mut self, bytes: &[u8], question: usize, yes: u32) -> bool {
        let call = Call::Breaks { question: question as u32, yes };
        match (self.answer)(bytes, call) {
            Answer::Breaks(breaks) => breaks,
            other => panic!("{other:?} for {}", call.on(bytes)),
        }
    }

    /// The bytes of a question's file.
    fn file(&mut self, bytes: &[u8], question: usize) -> Vec<u8> {
        let call = Call::Dimacs { question: question as u32, room: FILE_BYTES };
        match (self.answer)(bytes, call) {
            Answer::Written(file) => file,
            other => panic!("{other:?} for {}", call.on(bytes)),
        }
    }

    /// What a question's file says.
    fn cnf(&mut self, bytes: &[u8], question: usize) -> Cnf {
        let file = self.file(bytes, question);
        let cnf = Cnf::read(&file);
        cnf.unwrap_or_else(|| panic!("not as the page says: {}", String::from_utf8_lossy(&file)))
    }
}

/// Does this request keep the constraints and break the question?
fn is_broken(tried: &Tried, question: usize, yes: u32) -> bool {
    let truths = truths(&tried.table.questions, &tried.decided[yes as usize]);
    are_kept(tried.bytes, yes) && !truths[question]
}

/// A request is judged by the constraints and the question, and refused if it says yes of a
/// predicate that the table has not.
fn check_judgements(desk: &mut Desk, tried: &Tried, question: usize, random: &mut Random) {
    let bytes = tried.bytes;
    for yes in tried.every_request() {
        let judged = desk.breaks(bytes, question, yes);
        assert_eq!(judged, is_broken(tried, question, yes), "{question}, {yes:b}: {bytes:02x?}");
    }
    let refused = Answer::Refused(Refusal::of_request(BAD_MASK));
    for beyond in tried.predicates..u32::BITS {
        let yes = random.mask() & tried.used() | 1 << beyond;
        let call = Call::Breaks { question: question as u32, yes };
        assert_eq!((desk.answer)(bytes, call), refused, "{}", call.on(bytes));
    }
}

/// With the first variables as in a request, each other one must be what that request makes
/// of it: which claims each row makes there, and which questions are true. Where the request
/// breaks the question this satisfies the file; where it does not, nothing can. The answer is
/// whether something satisfies the file.
fn check_file(desk: &mut Desk, tried: &Tried, question: usize) -> bool {
    let (bytes, file) = (tried.bytes, desk.file(tried.bytes, question));
    check_rooms(desk, bytes, |room| Call::Dimacs { question: question as u32, room }, &file);
    let (cnf, mut is_satisfiable) = (desk.cnf(bytes, question), false);
    for yes in tried.every_request() {
        let expected = is_broken(tried, question, yes).then(|| meant(tried, yes));
        let forced = cnf.forced_by(tried.predicates, yes);
        let expected = expected.map(|values| values.into_iter().map(Some).collect());
        assert_eq!(forced, expected, "question {question}, {yes:b}: {bytes:02x?}");
        is_satisfiable |= forced.is_some();
    }
    is_satisfiable
}

/// What each variable means, at a request.
fn meant(tried: &Tried, yes: u32) -> Vec<bool> {
    let decided = &tried.decided[yes as usize];
    let claims = |decision: Decision| [decision.code() & 2 != 0, decision.code() & 1 != 0];
    let facts = (0..tried.predicates).map(|predicate| yes >> predicate & 1 == 1);
    let rows = decided[..tried.table.rows.len()].iter().flat_map(|&decision| claims(decision));
    let truths = truths(&tried.table.questions, decided);
    let questions = truths.into_iter().take(tried.table.questions.len());
    facts.chain(rows).chain(questions).collect()
}

/// A file is satisfiable exactly if the question does not hold, and what the walk finds
/// breaks it.
fn check_verdict(desk: &mut Desk, tried: &Tried, question: usize, is_satisfiable: bool) {
    let found = match desk.verdict(tried.bytes, question, u32::MAX) {
        Verdict::Fails { request, .. } => Some(request),
        _ => None,
    };
    assert_eq!(is_satisfiable, found.is_some(), "question {question}: {:02x?}", tried.bytes);
    if let Some(request) = found {
        assert!(desk.breaks(tried.bytes, question, request), "{:02x?}", tried.bytes);
    }
}

/// Only the last clause speaks of the question that is asked: it says that it is false.
fn check_one_negation(desk: &mut Desk, tried: &Tried) {
    let (bytes, questions) = (tried.bytes, tried.table.questions.len());
    let first = tried.predicates as usize + 2 * tried.table.rows.len();
    let files: Vec<Cnf> = (0..questions).map(|question| desk.cnf(bytes, question)).collect();
    for (question, file) in files.iter().enumerate() {
        assert_eq!(file.variables, first + questions, "question {question}: {bytes:02x?}");
        let (last, others) = file.clauses.split_last().expect("a clause");
        assert_eq!(last[..], [-((first + question + 1) as i32)], "{bytes:02x?}");
        assert_eq!(others, &files[0].clauses[..others.len()], "question {question}: {bytes:02x?}");
    }
}

/// A question that is not there is refused before a mask and before an output.
fn check_not_there(desk: &mut Desk, tried: &Tried) {
    let not_there = Answer::Refused(Refusal::of_request(NOT_THERE));
    for question in [tried.table.questions.len() as u32, u32::MAX] {
        for yes in [0, u32::MAX] {
            let call = Call::Breaks { question, yes };
            assert_eq!((desk.answer)(tried.bytes, call), not_there, "{call:?}");
        }
        for room in [0, FILE_BYTES] {
            let call = Call::Dimacs { question, room };
            assert_eq!((desk.answer)(tried.bytes, call), not_there, "{call:?}");
        }
    }
}
