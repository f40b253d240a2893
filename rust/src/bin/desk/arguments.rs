//! Makes out what was typed.

use std::ffi::{OsStr, OsString};
use std::os::unix::ffi::OsStrExt;

use pierstride::PREDICATES;

use crate::asked::{Asked, Options};
use crate::help;
use crate::number::Number;
use crate::request::mask;
use crate::trouble::Trouble;
use crate::verbs::{Operand, Value, Verb, VERBS};
use crate::words::{meant, quoted};

pub enum Typed {
    /// What the program is to say of itself.
    Help(String),
    Asked(Asked),
}

pub fn parse(typed: &[OsString]) -> Result<Typed, Trouble> {
    let (first, rest) = match typed.split_first() {
        Some((first, rest)) => (first, rest),
        None => return Err(no_verb("a verb is missing".to_owned())),
    };
    match first.to_str() {
        Some("--help" | "-h") => return Ok(Typed::Help(help::of_program())),
        Some("--version" | "-V") => return Ok(Typed::Help(help::version())),
        _ => {}
    }
    let verb = VERBS.iter().find(|verb| first == verb.name).ok_or_else(|| unknown_verb(first))?;
    match parse_for(verb, rest) {
        Ok(Some(asked)) => Ok(Typed::Asked(asked)),
        Ok(None) => Ok(Typed::Help(help::of_verb(verb))),
        Err(why) => Err(Trouble::Usage { why, see: help::usage(verb) }),
    }
}

fn no_verb(why: String) -> Trouble {
    Trouble::Usage { why, see: "desk --help lists the verbs".to_owned() }
}

fn unknown_verb(written: &OsStr) -> Trouble {
    let perhaps = meant(written.as_bytes(), VERBS.iter().map(|verb| verb.name));
    let perhaps = perhaps.map(|verb| format!("; perhaps `{verb}` was meant")).unwrap_or_default();
    no_verb(format!("there is no verb {}{perhaps}", quoted(written.as_bytes())))
}

/// What stands behind a verb; nothing where its help is wanted, else why it is not understood.
fn parse_for(verb: &'static Verb, typed: &[OsString]) -> Result<Option<Asked>, String> {
    let (mut options, mut operands) = (Options::default(), Vec::new());
    let mut typed = typed.iter();
    while let Some(argument) = typed.next() {
        match argument.as_bytes() {
            b"--" => operands.extend(typed.by_ref()),
            b"--help" | b"-h" => return Ok(None),
            [b'-', _, ..] => set_option(verb, &mut options, argument, &mut typed)?,
            _ => operands.push(argument),
        }
    }
    let mut operands = operands.into_iter();
    let path = operands.next().ok_or("TABLE is missing")?.to_owned();
    let operand = parse_operand(verb, operands.next())?;
    if let Some(more) = operands.next() {
        return Err(too_many(verb, more));
    }
    let both = mask(&options.yes) & mask(&options.no) & ((1 << PREDICATES) - 1);
    match both {
        0 => Ok(Some(Asked { verb, path, operand, options })),
        _ => {
            let first = both.trailing_zeros();
            Err(format!("predicate {first} is given with --yes and with --no"))
        }
    }
}

/// The row or the question.
fn parse_operand(verb: &Verb, written: Option<&OsString>) -> Result<Option<Number>, String> {
    match (verb.operand, written) {
        (None, Some(more)) => Err(too_many(verb, more)),
        (Some(Operand { name, required: true, .. }), None) => Err(format!("{name} is missing")),
        (_, None) => Ok(None),
        (Some(Operand { name, .. }), Some(written)) => {
            let number = Number::new(written);
            number.map(Some).ok_or_else(|| no_value(Value::number(name), written))
        }
    }
}

fn too_many(verb: &Verb, written: &OsStr) -> String {
    format!("{} is more than desk {} takes", quoted(written.as_bytes()), verb.name)
}

fn no_value(value: Value, written: &OsStr) -> String {
    format!("{} is {}, and {} is not", value.name, value.is, quoted(written.as_bytes()))
}

/// An option: `--name`, `--name VALUE` or `--name=VALUE`.
fn set_option<'a>(
    verb: &Verb,
    options: &mut Options,
    written: &OsStr,
    rest: &mut impl Iterator<Item = &'a OsString>,
) -> Result<(), String> {
    let mut parts = written.as_bytes().splitn(2, |&byte| byte == b'=');
    let (name, value) = (parts.next().unwrap_or_default(), parts.next().map(OsStr::from_bytes));
    let flag = verb.flags().find(|flag| flag.name.as_bytes() == name);
    let flag = flag.ok_or_else(|| format!("desk {} takes no {}", verb.name, quoted(name)))?;
    let value = match (flag.value, value) {
        (None, Some(_)) => return Err(format!("{} takes no value", flag.name)),
        (None, None) => OsStr::new(""),
        (Some(_), Some(value)) => value,
        (Some(takes), None) => {
            rest.next().ok_or_else(|| format!("{} is missing behind {}", takes.name, flag.name))?
        }
    };
    match (flag.set)(options, value) {
        Ok(false) => Ok(()),
        Ok(true) => Err(format!("{} is given twice", flag.name)),
        Err(takes) => Err(no_value(takes, value)),
    }
}
