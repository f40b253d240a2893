//! Commands with what they print, as a page shows them, and running them.

use std::process::Command;

use crate::harness::{program, run, Scratch};

/// A command, what it must print, and where it stands.
#[derive(Debug)]
pub struct Step {
    pub line: usize,
    pub command: String,
    pub printed: String,
}

/// The steps of some lines, given with their numbers: a line that begins with `$ ` is a
/// command, and the lines up to the next are what it prints.
pub fn steps<'a>(lines: impl Iterator<Item = (usize, &'a str)>) -> Vec<Step> {
    let mut steps: Vec<Step> = Vec::new();
    for (line, text) in lines {
        if let Some(command) = text.strip_prefix("$ ") {
            steps.push(Step { line, command: command.to_owned(), printed: String::new() });
        } else {
            let step = steps.last_mut();
            let step = step.unwrap_or_else(|| panic!("line {line}: nothing printed this: {text}"));
            step.printed += text;
            step.printed += "\n";
        }
    }
    steps
}

/// A shell in a directory with the examples, with the program on the PATH as `desk`.
pub struct Session {
    directory: Scratch,
    path: String,
    /// The last command's exit status.
    status: i32,
}

impl Session {
    pub fn new() -> Session {
        let directory = Scratch::with_examples();
        let programs = directory.path(".programs");
        std::fs::create_dir(&programs).expect("a new directory");
        let program = program().into_string().expect("the program's path is UTF-8");
        let script = directory
            .write(".programs/desk", format!("#!/bin/sh\nexec '{program}' \"$@\"\n").as_bytes());
        assert_eq!(run(Command::new("chmod").args(["+x", &script]), b"").status, 0);
        let path = std::env::var("PATH").expect("a PATH");
        Session { directory, path: format!("{}:{path}", programs.display()), status: 0 }
    }

    /// Puts the examples back as they were.
    pub fn restore_examples(&self) {
        self.directory.copy_examples();
    }

    /// Runs a step and tells what is wrong, if its command prints anything else.
    pub fn run(&mut self, page: &str, step: &Step) -> Option<String> {
        let Step { line, command, printed } = step;
        let script = format!("exec 2>&1\n(exit {})\n{command}\n", self.status);
        let mut shell = Command::new("sh");
        shell.args(["-c", &script]).current_dir(self.directory.path("")).env("PATH", &self.path);
        let outcome = run(&mut shell, b"");
        self.status = outcome.status;
        let found = String::from_utf8_lossy(&outcome.out);
        (found != printed[..]).then(|| {
            let [printed, found] = [printed, &found[..]].map(indented);
            format!("{page}, line {line}: $ {command}\nexpected:\n{printed}found:\n{found}")
        })
    }
}

fn indented(text: &str) -> String {
    match text {
        "" => "    (nothing)\n".to_string(),
        _ => text.lines().map(|line| format!("    {line}\n")).collect(),
    }
}
