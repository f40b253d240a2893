//! What the program must answer to a request, by the oracle's implementation.

use pierstride_oracle::kinds::{COMPARISONS, ON_ONE_ROW, ON_TWO_ROWS};
use pierstride_oracle::supplied::{suppliers_of, without_suppliers};
use pierstride_oracle::{
    breaks, decide, dimacs, from_text, possible, read, strike, suppliers, texts, verdict, Refusal,
    Verdict, FILE_BYTES, SUPPLIERS, TABLE_BYTES,
};

use crate::harness::Outcome;
use crate::json;
use crate::said::{self, counted, Said};

/// What is asked about a table; a list of predicates is a mask.
#[derive(Clone, Copy, Debug)]
pub enum Request {
    Check,
    Text,
    Bytes,
    Show,
    Decide { row: u32, yes: u32 },
    Possible { row: u32, yes: u32, no: u32 },
    Suppliers { row: Option<u32> },
    Ask { question: Option<u32>, budget: Option<u32> },
    SolverFile { question: u32 },
    Breaks { question: u32, yes: u32 },
    Strike { row: u32 },
}

/// What must come back.
pub struct Expected {
    pub status: i32,
    pub words: Words,
    /// The object of `--json`; that of a refusal is formed with its message.
    pub object: Option<String>,
}

/// What must come back in words.
pub enum Words {
    Exactly(Vec<u8>),
    /// Each line's number, its supplier if there is a column for these, and its entry.
    Listing(Vec<[String; 3]>),
    /// Verdicts, those on all questions with the questions' numbers.
    Verdicts(Vec<(Option<u32>, Verdict)>),
    Refused(Said),
}

/// Is an input a text, and not bytes?
pub fn is_text(input: &[u8]) -> bool {
    input.first().map_or(false, u8::is_ascii_lowercase)
}

/// Does an entry name this row?
pub fn names_row(entry: &[u8], row: u32) -> bool {
    let kinds = [&ON_ONE_ROW[..], &ON_TWO_ROWS, &COMPARISONS].concat();
    kinds.contains(&entry[0]) && entry[1..].iter().any(|&number| u32::from(number) == row)
}

/// The bytes of the table that an input is.
pub fn table_of(input: &[u8]) -> Result<Vec<u8>, Refusal> {
    if !is_text(input) {
        return read(input).map(|_| input.to_vec());
    }
    let mut bytes = vec![0; TABLE_BYTES];
    let length = from_text(input, &mut bytes)?;
    bytes.truncate(length);
    Ok(bytes)
}

/// The text of an accepted table's bytes.
pub fn text_of(table: &[u8]) -> String {
    String::from_utf8(texts::spelling(table)).expect("a text is ASCII")
}

/// The predicates of a mask.
pub fn predicates(mask: u32) -> Vec<u32> {
    (0..u32::BITS).filter(|&predicate| mask >> predicate & 1 == 1).collect()
}

/// A mask as the program takes it.
pub fn list(mask: u32) -> String {
    let numbers: Vec<String> = predicates(mask).iter().map(u32::to_string).collect();
    if numbers.is_empty() {
        "none".to_string()
    } else {
        numbers.join(",")
    }
}

/// The decision of this code.
pub const DECISIONS: [&str; 4] = ["unspecified", "deny", "grant", "conflict"];

impl Request {
    /// The verb, the table on standard input, and all else.
    pub fn arguments(self) -> Vec<String> {
        let number = |number: Option<u32>| number.map(|number| number.to_string());
        let (verb, operand, options) = match self {
            Request::Check => ("check", None, vec![]),
            Request::Text => ("text", None, vec![]),
            Request::Bytes => ("bytes", None, vec![]),
            Request::Show => ("show", None, vec![]),
            Request::Decide { row, yes } => ("decide", Some(row), vec![("--yes", list(yes))]),
            Request::Possible { row, yes, no } => {
                ("possible", Some(row), vec![("--yes", list(yes)), ("--no", list(no))])
            }
            Request::Suppliers { row } => ("suppliers", row, vec![]),
            Request::Ask { question, budget } => {
                let budget = number(budget).map(|budget| ("--budget", budget));
                ("ask", question, budget.into_iter().collect())
            }
            Request::SolverFile { question } => ("solver-file", Some(question), vec![]),
            Request::Breaks { question, yes } => {
                ("breaks", Some(question), vec![("--yes", list(yes))])
            }
            Request::Strike { row } => ("strike", Some(row), vec![]),
        };
        let mut arguments = vec![verb.to_string(), "-".to_string()];
        arguments.extend(number(operand));
        for (option, value) in options {
            arguments.extend([option.to_string(), value]);
        }
        arguments
    }

    /// What the program must answer on this input.
    pub fn answer(self, input: &[u8]) -> Expected {
        let table = match table_of(input) {
            Ok(table) => table,
            Err(refusal) => return refused(said::of_reading(input, refusal)),
        };
        self.answer_on(&table, is_text(input))
            .unwrap_or_else(|refusal| refused(self.refusal_says(&table, refusal)))
    }

    fn answer_on(self, table: &[u8], is_text: bool) -> Result<Expected, Refusal> {
        Ok(match self {
            Request::Check => check(table, is_text)?,
            Request::Text => written(table, true),
            Request::Bytes => written(table, false),
            Request::Show => show(table),
            Request::Decide { row, yes } => {
                let decision = DECISIONS[decide(table, row, yes)?.code() as usize];
                let yes = json::array(&predicates(yes));
                let object = format!(r#"{{"row":{row},"yes":{yes},"decision":"{decision}"}}"#);
                answered(0, Words::Exactly(format!("{decision}\n").into()), object)
            }
            Request::Possible { row, yes, no } => {
                remaining(row, yes, no, possible(table, row, yes | no, yes)?.mask())
            }
            Request::Suppliers { row } => whose(table, row)?,
            Request::Ask { question, budget } => ask(table, question, budget)?,
            Request::SolverFile { question } => solver_file(table, question)?,
            Request::Breaks { question, yes } => {
                judged(question, yes, breaks(table, question, yes)?)
            }
            Request::Strike { row } => {
                let mut rest = vec![0; table.len()];
                let length = strike(table, row, &mut rest)?;
                written(&rest[..length], is_text)
            }
        })
    }

    /// What a refusal of the request must say.
    fn refusal_says(self, table: &[u8], refusal: Refusal) -> Said {
        let table_read = read(table).expect("an accepted table");
        let (rows, questions) = (table_read.rows.len(), table_read.questions.len());
        match (refusal.number, self) {
            (8, Request::Ask { question: Some(question), .. })
            | (8, Request::SolverFile { question })
            | (8, Request::Breaks { question, .. }) => {
                said::not_there("question", &question.to_string(), questions)
            }
            (8, Request::Decide { row, .. })
            | (8, Request::Possible { row, .. })
            | (8, Request::Suppliers { row: Some(row) })
            | (8, Request::Strike { row }) => said::not_there("row", &row.to_string(), rows),
            (9, Request::Strike { row }) => said::named(table, row),
            (10, Request::Decide { yes, .. }) => beyond(24, yes, said::no_predicate),
            (10, Request::Possible { yes, no, .. }) => beyond(24, yes | no, said::no_predicate),
            (10, Request::Breaks { yes, .. }) => {
                let own = table_read.predicates();
                beyond(own, yes, |numbers| said::not_of_table(numbers, own as usize))
            }
            _ => panic!("{self:?} gives no refusal {}", refusal.number),
        }
    }
}

/// What is said of the predicates of a mask from a number on.
fn beyond(limit: u32, mask: u32, says: impl Fn(&[&str]) -> Said) -> Said {
    let unknown = predicates(mask >> limit << limit);
    let unknown: Vec<String> = unknown.iter().map(u32::to_string).collect();
    says(&unknown.iter().map(|number| &number[..]).collect::<Vec<_>>())
}

fn answered(status: i32, words: Words, object: String) -> Expected {
    Expected { status, words, object: Some(object) }
}

fn refused(said: Said) -> Expected {
    Expected { status: 2, words: Words::Refused(said), object: None }
}

fn check(table: &[u8], is_text: bool) -> Result<Expected, Refusal> {
    let table = read(table)?;
    let form = if is_text { "text" } else { "bytes" };
    let (rows, questions) = (table.rows.len(), table.questions.len());
    let predicates = table.predicates() as usize;
    let counts = [(rows, "row"), (questions, "question"), (predicates, "predicate")];
    let words = counts.map(|(count, what)| counted(count, what)).join(", ");
    let object = format!(
        r#"{{"form":"{form}","rows":{rows},"questions":{questions},"predicates":{predicates}}}"#
    );
    Ok(answered(0, Words::Exactly((words + "\n").into()), object))
}

/// A table as the answer, as a text or as bytes.
fn written(table: &[u8], as_text: bool) -> Expected {
    if as_text {
        let text = text_of(table);
        let object = format!(r#"{{"text":{}}}"#, json::quoted(&text));
        answered(0, Words::Exactly(text.into()), object)
    } else {
        let hex: String = table.iter().map(|byte| format!("{byte:02x}")).collect();
        answered(0, Words::Exactly(table.to_vec()), format!(r#"{{"bytes":"{hex}"}}"#))
    }
}

/// The table without suppliers, but where it has some each row with its own.
fn show(table: &[u8]) -> Expected {
    let text = text_of(&without_suppliers(table));
    let lines: Vec<&str> = text.lines().collect();
    let read = read(table).expect("an accepted table");
    let (constraints, rest) = lines.split_at(read.constraints.len());
    let (rows, questions) = rest.split_at(read.rows.len());
    let suppliers = suppliers_of(table);
    let names_suppliers = suppliers.iter().any(|&supplier| supplier != 0);
    let supplier_of = |row: usize| names_suppliers.then(|| suppliers[row]);

    let mut listing = Vec::new();
    let mut objects = [Vec::new(), Vec::new(), Vec::new()];
    let mut put = |part: usize, label: String, supplier: Option<u8>, keys: String, line: &str| {
        let whose = supplier.map_or(String::new(), |supplier| format!("supplier {supplier}"));
        let key = supplier.map_or(String::new(), |supplier| format!(r#""supplier":{supplier},"#));
        listing.push([label, whose, line.to_string()]);
        objects[part].push(format!(r#"{{{keys}{key}"text":{}}}"#, json::quoted(line)));
    };
    for line in constraints {
        put(0, "constraint".to_string(), None, String::new(), line);
    }
    for (row, line) in rows.iter().enumerate() {
        put(1, format!("row {row}"), supplier_of(row), format!(r#""row":{row},"#), line);
    }
    for (number, line) in questions.iter().enumerate() {
        put(2, format!("question {number}"), None, format!(r#""question":{number},"#), line);
    }
    let [constraints, rows, questions] = objects.map(|objects| objects.join(","));
    let object =
        format!(r#"{{"constraints":[{constraints}],"rows":[{rows}],"questions":[{questions}]}}"#);
    answered(0, Words::Listing(listing), object)
}

/// The suppliers of the rows that a row reaches, or each row.
fn whose(table: &[u8], one: Option<u32>) -> Result<Expected, Refusal> {
    let count = read(table)?.rows.len() as u32;
    let rows = one.map_or((0..count).collect(), |row| vec![row]);
    let (mut words, mut objects) = (String::new(), Vec::new());
    for row in rows {
        let mut list = vec![0; SUPPLIERS];
        let length = suppliers(table, row, &mut list)?;
        list.truncate(length);
        let numbers: Vec<u32> = list.into_iter().map(u32::from).collect();
        objects.push(format!(r#"{{"row":{row},"suppliers":{}}}"#, json::array(&numbers)));
        let number = one.map_or(format!("row {row}: "), |_| String::new());
        words += &format!("{number}{}\n", suppliers_words(&numbers));
    }
    let object = match one {
        Some(_) => objects.concat(),
        None => format!(r#"{{"rows":[{}]}}"#, objects.join(",")),
    };
    if objects.is_empty() {
        words = "the table has no rows\n".to_string();
    }
    Ok(answered(0, Words::Exactly(words.into()), object))
}

/// A list of suppliers in words.
fn suppliers_words(suppliers: &[u32]) -> String {
    let suppliers: Vec<String> = suppliers.iter().map(u32::to_string).collect();
    match &suppliers[..] {
        [] => panic!("every row reaches itself"),
        [one] => format!("supplier {one}"),
        [some @ .., last] => format!("suppliers {} and {last}", some.join(", ")),
    }
}

fn remaining(row: u32, yes: u32, no: u32, set: u32) -> Expected {
    let members: Vec<&str> = predicates(set).iter().map(|&code| DECISIONS[code as usize]).collect();
    let (last, others) = members.split_last().expect("some decision is always possible");
    let words = match others {
        [] => last.to_string(),
        _ => format!("{} or {last}", others.join(", ")),
    };
    let quoted: Vec<String> = members.iter().map(|word| json::quoted(word)).collect();
    let [yes, no] = [yes, no].map(|mask| json::array(&predicates(mask)));
    let possible = quoted.join(",");
    let object = format!(r#"{{"row":{row},"yes":{yes},"no":{no},"possible":[{possible}]}}"#);
    answered(0, Words::Exactly((words + "\n").into()), object)
}

fn ask(table: &[u8], one: Option<u32>, budget: Option<u32>) -> Result<Expected, Refusal> {
    let count = read(table)?.questions.len() as u32;
    let questions = one.map_or((0..count).collect(), |question| vec![question]);
    let budget = budget.unwrap_or(u32::MAX);
    let mut verdicts = Vec::new();
    let mut objects = Vec::new();
    for question in questions {
        let verdict = verdict(table, question, budget)?;
        verdicts.push((one.is_none().then_some(question), verdict));
        objects.push(json::verdict(question, verdict));
    }
    let holds = |verdict: &(_, Verdict)| matches!(verdict.1, Verdict::Holds { .. });
    let status = i32::from(!verdicts.iter().all(holds));
    let object = match one {
        Some(_) => objects.concat(),
        None => format!(r#"{{"verdicts":[{}]}}"#, objects.join(",")),
    };
    Ok(answered(status, Words::Verdicts(verdicts), object))
}

fn solver_file(table: &[u8], question: u32) -> Result<Expected, Refusal> {
    let mut file = vec![0; FILE_BYTES];
    let length = dimacs(table, question, &mut file)?;
    file.truncate(length);
    let object = format!(r#"{{"dimacs":{}}}"#, json::quoted(&String::from_utf8_lossy(&file)));
    Ok(answered(0, Words::Exactly(file), object))
}

fn judged(question: u32, yes: u32, breaks: bool) -> Expected {
    let at = request_words(yes);
    let (status, words) = match breaks {
        true => {
            (0, format!("yes: question {question} is broken, and every constraint kept, at {at}\n"))
        }
        false => {
            (1, format!("no: question {question} is not broken, or a constraint is, at {at}\n"))
        }
    };
    let yes = json::array(&predicates(yes));
    let object = format!(r#"{{"question":{question},"yes":{yes},"breaks":{breaks}}}"#);
    answered(status, Words::Exactly(words.into()), object)
}

impl Expected {
    /// Checks an outcome in words.
    pub fn check_words(&self, outcome: &Outcome) {
        assert_eq!(outcome.status, self.status, "{outcome:?}");
        match &self.words {
            Words::Exactly(out) => assert_eq!(*outcome, Outcome::answer(self.status, &out[..])),
            Words::Listing(lines) => check_listing(answer_of(outcome), lines),
            Words::Verdicts(verdicts) => check_verdicts(answer_of(outcome), verdicts),
            Words::Refused(said) => {
                assert_eq!(outcome.out, b"", "{outcome:?}");
                said.check(outcome.err());
            }
        }
    }

    /// Checks an outcome with `--json`, but for the object, of which it gives back what it
    /// must be.
    pub fn check_json(&self, outcome: &Outcome) -> String {
        assert_eq!(outcome.status, self.status, "{outcome:?}");
        match (&self.words, &self.object) {
            (Words::Refused(said), _) => said.object(said.check(outcome.err())),
            (_, Some(object)) => {
                assert_eq!(outcome.err(), "", "{outcome:?}");
                object.clone()
            }
            _ => unreachable!("an answer has an object"),
        }
    }
}

/// What was answered, if there is nothing beside.
fn answer_of(outcome: &Outcome) -> &str {
    assert_eq!(outcome.err(), "", "{outcome:?}");
    outcome.out()
}

/// Every line of a listing has the number, the supplier if any line has one, and the entry,
/// and each of these stands below the other, two spaces behind the longest one before it.
fn check_listing(out: &str, expected: &[[String; 3]]) {
    let lines: Vec<&str> = out.lines().collect();
    let widest = |column: usize| expected.iter().map(|line| line[column].len()).max().unwrap_or(0);
    let (first, second) = (widest(0), widest(1));
    let line = |[number, supplier, entry]: &[String; 3]| match second {
        0 => format!("{number:first$}  {entry}"),
        _ => format!("{number:first$}  {supplier:second$}  {entry}"),
    };
    assert_eq!(lines, expected.iter().map(line).collect::<Vec<_>>());
    assert!(out.is_empty() || out.ends_with('\n'), "{out:?}");
}

fn check_verdicts(out: &str, expected: &[(Option<u32>, Verdict)]) {
    let lines: Vec<&str> = out.lines().collect();
    if expected.is_empty() {
        return assert_eq!(out, "the table has no questions\n");
    }
    assert_eq!(lines.len(), expected.len(), "{out:?}");
    for (line, &(question, verdict)) in lines.into_iter().zip(expected) {
        let number = question.map_or(String::new(), |question| format!("question {question}: "));
        assert_eq!(line, format!("{number}{}", verdict_words(verdict)));
    }
    assert!(out.ends_with('\n'), "{out:?}");
}

/// A verdict in words.
pub fn verdict_words(verdict: Verdict) -> String {
    let after = |visits| format!("after {}", counted(visits as usize, "visit"));
    match verdict {
        Verdict::Holds { visits } => format!("holds {}", after(visits)),
        Verdict::Unfinished { budget } => format!("unfinished {}", after(budget)),
        Verdict::Fails { request, visits } => {
            format!("fails at {}, {}", request_words(request), after(visits))
        }
    }
}

/// A request in words.
pub fn request_words(yes: u32) -> String {
    let yes: Vec<String> = predicates(yes).iter().map(u32::to_string).collect();
    match &yes[..] {
        [] => "all predicates no".to_string(),
        [one] => format!("predicate {one} yes, all others no"),
        [some @ .., last] => {
            format!("predicates {} and {last} yes, all others no", some.join(", "))
        }
    }
}
