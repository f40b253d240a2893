//! Runs the program and other commands, in directories that are removed again.

use std::ffi::{OsStr, OsString};
use std::fmt;
use std::io::Write;
use std::os::unix::fs::PermissionsExt;
use std::path::{Path, PathBuf};
use std::process::{Child, Command, Stdio};
use std::sync::atomic::{AtomicUsize, Ordering};

/// The root of the repository: where the program is run, unless a test says otherwise.
pub const ROOT: &str = concat!(env!("CARGO_MANIFEST_DIR"), "/..");

/// Every verb, with operands behind the table that suit table A.
pub const VERBS: [(&str, &[&str]); 12] = [
    ("check", &[]),
    ("text", &[]),
    ("bytes", &[]),
    ("show", &[]),
    ("decide", &["4"]),
    ("possible", &["4"]),
    ("suppliers", &[]),
    ("ask", &[]),
    ("solver-file", &["2"]),
    ("breaks", &["2"]),
    ("strike", &["4"]),
    ("picture", &["4"]),
];

/// The verbs whose number behind the table may be missing.
pub const NUMBER_OPTIONAL: [&str; 2] = ["suppliers", "ask"];

/// What the number behind the table is the number of, as a verb's usage names it.
pub fn number_of(verb: &str) -> &'static str {
    match verb {
        "ask" | "solver-file" | "breaks" => "QUESTION",
        _ => "ROW",
    }
}

/// The verbs that write a table, a file for a solver or a picture, and take `-o FILE`.
pub const WRITING: [&str; 5] = ["text", "bytes", "solver-file", "strike", "picture"];

/// Table A in both forms, as bytes and as a text.
pub const TABLE_A: [&str; 2] = ["examples/table-a.bin", "examples/table-a.txt"];

/// Those files' bytes.
pub const TABLE_A_BYTES: [&[u8]; 2] = [
    include_bytes!("../../../examples/table-a.bin"),
    include_bytes!("../../../examples/table-a.txt"),
];

/// The program under test.
pub fn program() -> OsString {
    let built = option_env!("CARGO_BIN_EXE_desk").map(OsString::from);
    let program = std::env::var_os("PIERSTRIDE_DESK").or(built);
    program.expect("PIERSTRIDE_DESK is not set, and the package has no program `desk`")
}

/// What a command left behind: its exit status, and what it printed.
#[derive(Clone, PartialEq, Eq)]
pub struct Outcome {
    pub status: i32,
    pub out: Vec<u8>,
    pub err: Vec<u8>,
}

impl Outcome {
    /// The outcome of an answer, which leaves nothing on standard error.
    pub fn answer(status: i32, out: impl Into<Vec<u8>>) -> Outcome {
        Outcome { status, out: out.into(), err: Vec::new() }
    }

    /// The outcome of what is no answer, which leaves nothing on standard output.
    pub fn complaint(status: i32, err: impl Into<Vec<u8>>) -> Outcome {
        Outcome { status, out: Vec::new(), err: err.into() }
    }

    pub fn out(&self) -> &str {
        std::str::from_utf8(&self.out).expect("standard output is UTF-8")
    }

    pub fn err(&self) -> &str {
        std::str::from_utf8(&self.err).expect("standard error is UTF-8")
    }
}

impl fmt::Debug for Outcome {
    fn fmt(&self, f: &mut fmt::Formatter) -> fmt::Result {
        let Outcome { status, out, err } = self;
        write!(f, "status {status}, output \"{}\", ", out.escape_ascii())?;
        write!(f, "errors \"{}\"", err.escape_ascii())
    }
}

/// The program with these arguments, at the root.
pub fn desk<Argument: AsRef<OsStr>>(arguments: &[Argument]) -> Command {
    let mut command = Command::new(program());
    command.args(arguments).current_dir(ROOT);
    command
}

/// A shell script at the root, to which `"$0" "$@"` is the program with these arguments.
pub fn shell<Argument: AsRef<OsStr>>(script: &str, arguments: &[Argument]) -> Command {
    let mut command = Command::new("sh");
    command.args(["-c", script]).arg(program()).args(arguments).current_dir(ROOT);
    command
}

/// Runs the program with these arguments, and nothing on standard input.
pub fn answer<Argument: AsRef<OsStr>>(arguments: &[Argument]) -> Outcome {
    run(&mut desk(arguments), b"")
}

/// Runs the program with these arguments on this standard input.
pub fn answer_on<Argument: AsRef<OsStr>>(input: &[u8], arguments: &[Argument]) -> Outcome {
    run(&mut desk(arguments), input)
}

/// Runs a command on this standard input.
pub fn run(command: &mut Command, input: &[u8]) -> Outcome {
    let mut child = spawn(command);
    let mut stdin = child.stdin.take().expect("a pipe");
    std::thread::scope(|scope| {
        // A command may end before it has read all that is there.
        scope.spawn(move || drop(stdin.write_all(input)));
        outcome(child)
    })
}

/// Starts a command with pipes to all its streams.
pub fn spawn(command: &mut Command) -> Child {
    let piped = command.stdin(Stdio::piped()).stdout(Stdio::piped()).stderr(Stdio::piped());
    piped.spawn().unwrap_or_else(|error| panic!("{command:?}: {error}"))
}

/// Waits until a command has ended.
pub fn outcome(child: Child) -> Outcome {
    let output = child.wait_with_output().expect("a command that was started");
    let status = output.status.code();
    let status = status.unwrap_or_else(|| panic!("ended by a signal: {:?}", output.status));
    Outcome { status, out: output.stdout, err: output.stderr }
}

/// A verb with its table, and then the operands and options behind it.
pub fn words<'a>(verb: &'a str, table: &'a str, rest: &[&'a str]) -> Vec<&'a str> {
    [&[verb, table], rest].concat()
}

/// A shell script that runs the program, but not as root; where nobody else may run it, the
/// status is `NOT_TESTED`.
const AS_NOBODY: &str = r#"
    nobody() {
        [ "$(id -u)" != 0 ] || set -- setpriv --reuid=65534 --regid=65534 --clear-groups "$@"
        "$@"
    }
    nobody test -x "$0" || exit 77
    nobody "$0" "$@"
"#;

const NOT_TESTED: i32 = 77;

/// A directory of a test's own, which is removed with all that is in it.
pub struct Scratch {
    directory: PathBuf,
}

impl Scratch {
    pub fn new() -> Scratch {
        static COUNT: AtomicUsize = AtomicUsize::new(0);
        let number = COUNT.fetch_add(1, Ordering::Relaxed);
        let name = format!("desk-test-{}-{number}", std::process::id());
        let directory = std::env::temp_dir().join(name);
        // A run that was killed may have left a directory of this name.
        drop(std::fs::remove_dir_all(&directory));
        std::fs::create_dir(&directory).expect("a new directory");
        Scratch { directory }
    }

    /// A directory with a copy of the examples.
    pub fn with_examples() -> Scratch {
        let scratch = Scratch::new();
        std::fs::create_dir(scratch.path("examples")).expect("a new directory");
        scratch.copy_examples();
        scratch
    }

    /// Puts fresh copies of the examples into `examples`.
    pub fn copy_examples(&self) {
        for file in std::fs::read_dir(Path::new(ROOT).join("examples")).expect("the examples") {
            let file = file.expect("an example");
            let copy = self.path("examples").join(file.file_name());
            std::fs::copy(file.path(), copy).expect("a copy of an example");
        }
    }

    pub fn path(&self, name: impl AsRef<Path>) -> PathBuf {
        self.directory.join(name)
    }

    /// The path of a file with this content, as an argument.
    pub fn write(&self, name: &str, content: &[u8]) -> String {
        let path = self.path(name);
        std::fs::write(&path, content).expect("a file in a new directory");
        path.to_str().expect("a path in UTF-8").to_owned()
    }

    pub fn read(&self, name: &str) -> Vec<u8> {
        std::fs::read(self.path(name)).unwrap_or_else(|error| panic!("{name}: {error}"))
    }

    /// The names of all that is in the directory, in order.
    pub fn names(&self) -> Vec<String> {
        let files = std::fs::read_dir(&self.directory).expect("the directory");
        let name = |file: std::io::Result<std::fs::DirEntry>| {
            file.expect("a file").file_name().to_string_lossy().into_owned()
        };
        let mut names: Vec<String> = files.map(name).collect();
        names.sort();
        names
    }

    /// Gives a file, or the directory if the name is empty, this mode.
    pub fn allow(&self, name: &str, mode: u32) {
        let mode = std::fs::Permissions::from_mode(mode);
        std::fs::set_permissions(self.path(name), mode).expect("the test's own file");
    }

    /// Checks the outcome of a call by a user who may not do everything, unless the tests run
    /// as root, and nobody else may run the program.
    pub fn check_as_nobody(&self, arguments: &[&str], expected: Outcome) {
        let outcome = run(shell(AS_NOBODY, arguments).current_dir(&self.directory), b"");
        if outcome.status == NOT_TESTED {
            println!("not tested, as only root may run the program: {arguments:?}");
        } else {
            assert_eq!(outcome, expected, "{arguments:?}");
        }
    }

    /// Runs the program in the directory.
    pub fn answer<Argument: AsRef<OsStr>>(&self, arguments: &[Argument]) -> Outcome {
        run(desk(arguments).current_dir(&self.directory), b"")
    }
}

impl Drop for Scratch {
    fn drop(&mut self) {
        // A test that failed may have left the directory in any state.
        drop(std::fs::remove_dir_all(&self.directory));
    }
}
