//! A program from its command line to its exit status.

use std::ffi::OsString;
use std::fmt::Display;
use std::io::{self, ErrorKind, Write};
use std::process::ExitCode;

use crate::options::{self, Argument, Known, WrongUse};

/// How a program that understood its command line ended.
#[derive(Debug, Clone, Copy, PartialEq, Eq)]
pub enum Status {
    /// All was said or shown, or everything is fit: 0.
    Done,
    /// Something was refused, or is unfit: 1.
    Refused,
}

/// What ends a program early.
#[derive(Debug)]
pub enum Fault {
    /// The command line cannot be understood: 2, with a pointer to `--help`.
    WrongUse(WrongUse),
    /// Standard output cannot be written: 1; without a word where it is a pipe that was closed.
    Output(io::Error),
    /// Anything else, in a sentence: 1.
    Told(String),
}

/// A failed write to standard output.
impl From<io::Error> for Fault {
    fn from(error: io::Error) -> Fault {
        Fault::Output(error)
    }
}

impl From<WrongUse> for Fault {
    fn from(wrong: WrongUse) -> Fault {
        Fault::WrongUse(wrong)
    }
}

/// What a program is called, says of itself, and takes.
#[derive(Debug, Clone, Copy)]
pub struct Program {
    /// Its name.
    pub name: &'static str,
    /// What `--help` prints.
    pub help: &'static str,
    /// Its options; `--help` and `--version` are there without being named.
    pub options: &'static [Known],
}

impl Program {
    /// Runs the program on the arguments behind its name: `body` gets them read, and standard output.
    pub fn run(
        &self,
        arguments: impl IntoIterator<Item = OsString>,
        body: impl FnOnce(Vec<Argument>, &mut dyn Write) -> Result<Status, Fault>,
    ) -> ExitCode {
        let mut out = io::stdout().lock();
        let ended = self.answered(arguments, body, &mut out);
        match ended.and_then(|status| Ok(out.flush().map(|()| status)?)) {
            Ok(Status::Done) => ExitCode::SUCCESS,
            Ok(Status::Refused) => ExitCode::from(1),
            Err(fault) => self.told(&fault),
        }
    }

    fn answered(
        &self,
        arguments: impl IntoIterator<Item = OsString>,
        body: impl FnOnce(Vec<Argument>, &mut dyn Write) -> Result<Status, Fault>,
        out: &mut dyn Write,
    ) -> Result<Status, Fault> {
        let own = ["--help", "--version"].map(|name| Known { name, has_value: false });
        let arguments = options::read(arguments, &[self.options, &own].concat())?;
        if arguments.contains(&Argument::Option("--help")) {
            out.write_all(self.help.as_bytes())?;
        } else if arguments.contains(&Argument::Option("--version")) {
            writeln!(out, "{} {}", self.name, env!("CARGO_PKG_VERSION"))?;
        } else {
            return body(arguments, out);
        }
        Ok(Status::Done)
    }

    /// Tells of a fault, and gives its exit status.
    fn told(&self, fault: &Fault) -> ExitCode {
        let name = self.name;
        match fault {
            Fault::WrongUse(wrong) => {
                tell(format_args!("{name}: {wrong}; {name} --help lists what it takes"));
                return ExitCode::from(2);
            }
            Fault::Output(error) if error.kind() == ErrorKind::BrokenPipe => {}
            Fault::Output(error) => tell(format_args!("{name}: cannot write its output: {error}")),
            Fault::Told(sentence) => tell(format_args!("{name}: {sentence}")),
        }
        ExitCode::from(1)
    }
}

/// A line on standard error. That it cannot be written is no reason to end.
pub fn tell(line: impl Display) {
    let _ = writeln!(io::stderr(), "{}", one_line(&line.to_string()));
}

/// A text in one line: control characters are written out, so that no name looks like a line of its own.
pub fn one_line(text: &str) -> String {
    let mut line = String::new();
    for letter in text.chars() {
        if letter.is_control() {
            line.extend(letter.escape_default());
        } else {
            line.push(letter);
        }
    }
    line
}

/// A word, a phone or a name in a sentence.
pub fn quoted(text: &[u8]) -> String {
    format!("\"{}\"", String::from_utf8_lossy(text))
}
