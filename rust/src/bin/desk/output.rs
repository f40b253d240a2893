//! Where an answer goes: standard output, in words or as JSON, or a file.

use std::ffi::OsStr;
use std::fmt::Display;
use std::fs::{self, File, OpenOptions};
use std::io::{self, ErrorKind, Write};
use std::os::unix::io::AsFd;
use std::path::{Path, PathBuf};

use crate::json::{object, Json};
use crate::trouble::Trouble;
use crate::words::file_name;

#[derive(Default)]
pub struct Output<'a> {
    /// One JSON object is wanted instead of words.
    pub json: bool,
    /// The file for what would go to standard output.
    pub file: Option<&'a OsStr>,
}

impl Output<'_> {
    /// An answer in words, and as an object.
    pub fn answer(&self, words: impl Display, object: Json) -> Result<(), Trouble> {
        self.words(words)?;
        self.object(object)
    }

    /// Words, unless an object is wanted.
    pub fn words(&self, words: impl Display) -> Result<(), Trouble> {
        match self.json {
            true => Ok(()),
            false => print(format!("{words}\n").as_bytes()),
        }
    }

    /// An object, if it is wanted.
    pub fn object(&self, object: Json) -> Result<(), Trouble> {
        match self.json {
            true => print(format!("{object}\n").as_bytes()),
            false => Ok(()),
        }
    }

    /// A whole table or picture. In an object it is called `name`, and `text` stands there.
    pub fn document(&self, contents: &[u8], name: &'static str, text: &str) -> Result<(), Trouble> {
        match self.file {
            Some(file) if file != "-" && file != "/dev/stdout" => {
                let shown = file.to_string_lossy();
                replace(Path::new(file), contents)
                    .map_err(|error| Trouble::of_file(&file_name(&shown), "written", &error))?;
                let length = contents.len().into();
                self.object(object([("file", (&*shown).into()), ("length", length)]))
            }
            _ if self.json => self.object(object([(name, text.into())])),
            _ => print(contents),
        }
    }
}

/// Writes to standard output: to the file itself, since Rust's `stdout` says nothing of one that
/// was opened for reading.
fn print(bytes: &[u8]) -> Result<(), Trouble> {
    let out = io::stdout().as_fd().try_clone_to_owned().map(File::from);
    match out.and_then(|mut out| out.write_all(bytes)) {
        Ok(()) => Ok(()),
        Err(error) if error.kind() == ErrorKind::BrokenPipe => Err(Trouble::Closed),
        Err(error) => Err(Trouble::of_file("standard output", "written", &error)),
    }
}

/// Writes a file whole or not at all: the contents go to a new file beside it, which takes its
/// name once they are all there. What is no plain file is written to directly.
fn replace(path: &Path, contents: &[u8]) -> io::Result<()> {
    let path = behind_links(path);
    let old = match fs::metadata(&path) {
        Ok(old) => {
            // Fails if the old file may not be written.
            let mut file = OpenOptions::new().write(true).open(&path)?;
            if !old.is_file() {
                return file.write_all(contents);
            }
            Some(old)
        }
        Err(error) if error.kind() == ErrorKind::NotFound => None,
        Err(error) => return Err(error),
    };
    let (new, file) = new_beside(&path)?;
    let written = fill(file, contents, old).and_then(|()| fs::rename(&new, &path));
    if written.is_err() {
        let _ = fs::remove_file(&new);
    }
    written
}

/// The file that a path names, also where it is a link to a file that is not there yet.
fn behind_links(path: &Path) -> PathBuf {
    let linked = |_| fs::read_link(path).map(|link| path.with_file_name("").join(link));
    fs::canonicalize(path).or_else(linked).unwrap_or_else(|_| path.to_owned())
}

/// A new file in the directory of another.
fn new_beside(path: &Path) -> io::Result<(PathBuf, File)> {
    let mut taken = 0;
    loop {
        let new = path.with_file_name(format!(".desk-{}-{taken}.new", std::process::id()));
        match OpenOptions::new().write(true).create_new(true).open(&new) {
            Ok(file) => return Ok((new, file)),
            Err(error) if error.kind() == ErrorKind::AlreadyExists => taken += 1,
            Err(error) => return Err(error),
        }
    }
}

/// Fills a new file, with the permissions of the old one.
fn fill(mut file: File, contents: &[u8], old: Option<fs::Metadata>) -> io::Result<()> {
    if let Some(old) = old {
        file.set_permissions(old.permissions())?;
    }
    file.write_all(contents)?;
    file.sync_all()
}
