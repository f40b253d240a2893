//! The verbs: what each takes and says of itself, and the function that does it.

mod questions;
mod rows;
mod tables;

use std::ffi::OsStr;

use pierstride::Numbered;

use crate::asked::{Asked, Options};
use crate::number::Number;
use crate::trouble::Trouble;
use crate::Status;

pub struct Verb {
    pub name: &'static str,
    /// What stands behind the table, if anything does.
    pub operand: Option<Operand>,
    /// Its own options; every verb has `--json` too.
    pub options: &'static [Flag],
    /// A line of the list of verbs.
    pub brief: &'static str,
    pub about: &'static str,
    /// A command, and what it prints.
    pub example: (&'static str, &'static str),
    pub run: fn(&Asked) -> Result<Status, Trouble>,
}

/// The number behind the table.
#[derive(Clone, Copy)]
pub struct Operand {
    pub name: &'static str,
    /// What it is the number of.
    pub of: Numbered,
    pub required: bool,
}

pub struct Flag {
    pub name: &'static str,
    /// What its value is, if it takes one.
    pub value: Option<Value>,
    pub about: &'static str,
    /// Sets it, and tells whether it was set before; or what its value should be.
    pub set: fn(&mut Options, &OsStr) -> Result<bool, Value>,
}

#[derive(Clone, Copy)]
pub struct Value {
    pub name: &'static str,
    pub is: &'static str,
}

const ROW: Operand = Operand { name: "ROW", of: Numbered::Row, required: true };
const QUESTION: Operand = Operand { name: "QUESTION", of: Numbered::Question, required: true };

const LIST: Value = Value { name: "LIST", is: "numbers with commas between them, or none" };
const N: Value = Value::number("N");
const FILE: Value = Value { name: "FILE", is: "the name of a file" };

const JSON: Flag = Flag {
    name: "--json",
    value: None,
    about: "the answer as one JSON object on one line",
    set: |options, _| Ok(std::mem::replace(&mut options.json, true)),
};

const OUTPUT: Flag = Flag {
    name: "-o",
    value: Some(FILE),
    about: "write it to FILE, whole or not at all",
    set: |options, value| Ok(options.file.replace(value.to_owned()).is_some()),
};

const YES: Flag = Flag {
    name: "--yes",
    value: Some(LIST),
    about: "the predicates that are yes, as 0,3, or none; all others are no",
    set: |options, value| Ok(options.yes.replace(Number::list(value).ok_or(LIST)?).is_some()),
};

const NO: Flag = Flag {
    name: "--no",
    value: Some(LIST),
    about: "the predicates known to be no; all others are unknown",
    set: |options, value| Ok(options.no.replace(Number::list(value).ok_or(LIST)?).is_some()),
};

const BUDGET: Flag = Flag {
    name: "--budget",
    value: Some(N),
    about: "how many visits each walk may make; without it, as many as it needs",
    set: |options, value| Ok(options.budget.replace(Number::new(value).ok_or(N)?).is_some()),
};

pub static VERBS: &[Verb] = &[
    Verb {
        name: "check",
        operand: None,
        options: &[],
        brief: "how many rows, questions and predicates, or the refusal",
        about: "How many rows and questions a table has, and how many predicates: one more\n\
                than the highest that any constraint or row uses. Or the refusal.",
        example: ("desk check examples/table-a.txt", "6 rows, 3 questions, 2 predicates"),
        run: tables::check,
    },
    Verb {
        name: "text",
        operand: None,
        options: &[OUTPUT],
        brief: "the table's text",
        about: "The table's text, one line an entry, as survey offices read it.",
        example: ("echo 02 20 00 | xxd -r -p | desk text -", "grant\nnegation 0"),
        run: tables::text,
    },
    Verb {
        name: "bytes",
        operand: None,
        options: &[OUTPUT],
        brief: "the table's bytes",
        about: "The table's bytes, as the catalogue server takes them.",
        example: ("desk bytes examples/table-a.txt | head -c 7 | xxd -p", "11001001330001"),
        run: tables::bytes,
    },
    Verb {
        name: "show",
        operand: None,
        options: &[],
        brief: "each constraint, and each row and question with its number",
        about: "The table for people: each constraint, then each row and each question with its\n\
                number, and their text. If the table names suppliers, each row has its own\n\
                before its text.",
        example: (
            "printf 'grant\\nnegation 0\\n' | desk show -",
            "row 0  grant\nrow 1  negation 0",
        ),
        run: tables::show,
    },
    Verb {
        name: "decide",
        operand: Some(ROW),
        options: &[YES],
        brief: "what a row decides, in a word",
        about: "What row ROW decides, in a word: unspecified, deny, grant or conflict.",
        example: ("desk decide examples/table-a.txt 4 --yes 0,1", "conflict"),
        run: rows::decide,
    },
    Verb {
        name: "possible",
        operand: Some(ROW),
        options: &[Flag { about: "the predicates known to be yes, as 0,3, or none", ..YES }, NO],
        brief: "the decisions that remain possible where facts are missing",
        about: "Which decisions of row ROW remain possible where facts are missing. The\n\
                decision under every way of filling them in is among these.",
        example: ("desk possible examples/table-a.txt 4 --yes 0", "grant or conflict"),
        run: rows::possible,
    },
    Verb {
        name: "suppliers",
        operand: Some(Operand { required: false, ..ROW }),
        options: &[],
        brief: "whose rows a row rests on, or every row",
        about: "The suppliers of all rows that row ROW reaches, itself included; without ROW,\n\
                of every row of the table.",
        example: (
            "printf 'supplier 7\\ngrant\\nsupplier 3\\nnegation 0\\n' | desk suppliers - 1",
            "suppliers 3 and 7",
        ),
        run: rows::suppliers,
    },
    Verb {
        name: "ask",
        operand: Some(Operand { required: false, ..QUESTION }),
        options: &[BUDGET],
        brief: "whether a question holds, or every question",
        about: "Whether question QUESTION is true at every request within the table's\n\
                constraints and, if not, the first of these that breaks it; without\n\
                QUESTION, of every question of the table. The exit status is 1 if one\n\
                fails or is unfinished.",
        example: (
            "desk ask examples/table-a.txt 2",
            "fails at predicates 0 and 1 yes, all others no, after 5 visits",
        ),
        run: questions::ask,
    },
    Verb {
        name: "solver-file",
        operand: Some(QUESTION),
        options: &[OUTPUT],
        brief: "the negation of a question, as a file for a SAT solver",
        about: "The negation of question QUESTION as a file in DIMACS CNF, for a SAT solver. It\n\
                is satisfiable exactly if the question does not hold, and what satisfies it\n\
                begins with a request that breaks the question: variable 1 is predicate 0.",
        example: ("desk solver-file examples/table-a.txt 2 | head -n 1", "p cnf 17 43"),
        run: questions::solver_file,
    },
    Verb {
        name: "breaks",
        operand: Some(QUESTION),
        options: &[YES],
        brief: "whether a request keeps the constraints and breaks a question",
        about: "Whether the request with these predicates yes keeps the table's constraints and\n\
                breaks question QUESTION. It may come from a solver. The exit status is 1 if\n\
                the answer is no.",
        example: (
            "desk breaks examples/table-a.txt 2 --yes 0,1",
            "yes: question 2 is broken, and every constraint kept, at predicates 0 and 1 yes, \
             all others no",
        ),
        run: questions::breaks,
    },
    Verb {
        name: "strike",
        operand: Some(ROW),
        options: &[OUTPUT],
        brief: "the table without a row, in the form of the old",
        about: "The table without row ROW, in the form of the old. Every remaining row\n\
                decides as before under its new number, and constraints and suppliers stay\n\
                as they are.",
        example: ("printf 'deny\\ngrant\\nnegation 1\\n' | desk strike - 0", "grant\nnegation 0"),
        run: tables::strike,
    },
    Verb {
        name: "picture",
        operand: Some(ROW),
        options: &[
            Flag { about: "also what each row decides where these alone are yes", ..YES },
            OUTPUT,
        ],
        brief: "the rows that a row reaches, as a Graphviz file",
        about: "The rows that row ROW reaches, as a Graphviz file, with an arrow from each\n\
                row to the rows that it names. If the table names suppliers, each row has\n\
                its own in its box, and a border by it.",
        example: ("desk picture examples/table-a.txt 4 --yes 0,1 | dot -Tsvg >row-4.svg", ""),
        run: rows::picture,
    },
];

impl Verb {
    /// Every option that it takes.
    pub fn flags(&self) -> impl Iterator<Item = &'static Flag> {
        self.options.iter().chain([&JSON])
    }

    /// "decide TABLE ROW"
    pub fn call(&self) -> String {
        match self.operand {
            None => format!("{} TABLE", self.name),
            Some(Operand { name, required: true, .. }) => format!("{} TABLE {name}", self.name),
            Some(Operand { name, required: false, .. }) => format!("{} TABLE [{name}]", self.name),
        }
    }
}

impl Flag {
    /// "--yes LIST"
    pub fn usage(&self) -> String {
        match self.value {
            Some(value) => format!("{} {}", self.name, value.name),
            None => self.name.to_owned(),
        }
    }
}

impl Value {
    pub const fn number(name: &'static str) -> Value {
        Value { name, is: "a number, in digits alone" }
    }
}
