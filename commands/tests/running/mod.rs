//! Programs as a user runs them: arguments and input, then what was printed and the exit status.
#![allow(dead_code)]

use std::ffi::{OsStr, OsString};
use std::fs;
use std::io::Write;
use std::path::{Path, PathBuf};
use std::process::{Command, Stdio};
use std::thread;

/// How a program ended, and what it had written.
#[derive(Debug, PartialEq, Eq)]
pub struct Ended {
    pub status: Option<i32>,
    pub out: String,
    pub err: String,
}

/// What is expected of a run.
pub fn ended(status: i32, out: &str, err: &str) -> Ended {
    Ended { status: Some(status), out: out.into(), err: err.into() }
}

/// A program that is to be run in the package's folder, without the user's own settings.
pub fn command(program: &str, arguments: &[impl AsRef<OsStr>]) -> Command {
    let mut command = Command::new(program);
    command
        .args(arguments)
        .current_dir(env!("CARGO_MANIFEST_DIR"))
        .env("PRONOUNCER_TABLES", english())
        .stdin(Stdio::piped())
        .stdout(Stdio::piped())
        .stderr(Stdio::piped());
    command
}

/// The same, to be run in another folder.
pub fn command_in(folder: &Path, program: &str, arguments: &[impl AsRef<OsStr>]) -> Command {
    let mut command = command(program, arguments);
    command.current_dir(folder);
    command
}

/// Runs a program to its end.
pub fn run(program: &str, arguments: &[impl AsRef<OsStr>], input: impl AsRef<[u8]>) -> Ended {
    run_command(command(program, arguments), input)
}

/// Runs a command to its end.
pub fn run_command(mut command: Command, input: impl AsRef<[u8]>) -> Ended {
    let mut child = command.spawn().expect("the program can be run");
    let told = child.stdin.take();
    let input = input.as_ref().to_vec();
    let writer = thread::spawn(move || {
        // A program that ends before it has read all of it may do so.
        told.map(|mut pipe| pipe.write_all(&input))
    });
    let output = child.wait_with_output().expect("the program ends");
    writer.join().expect("the input was written").transpose().ok();
    Ended {
        status: output.status.code(),
        out: String::from_utf8_lossy(&output.stdout).into(),
        err: String::from_utf8_lossy(&output.stderr).into(),
    }
}

/// The English sections of the repository.
pub fn english() -> PathBuf {
    Path::new(env!("CARGO_MANIFEST_DIR")).join("../tables/english/sections")
}

/// An empty folder for one test.
pub fn folder(name: &str) -> PathBuf {
    let folder = Path::new(env!("CARGO_TARGET_TMPDIR")).join(name);
    let _ = fs::remove_dir_all(&folder);
    fs::create_dir_all(&folder).expect("a folder can be made");
    folder
}

/// The names in a folder.
pub fn names_in(folder: &Path) -> Vec<String> {
    let entries = fs::read_dir(folder).expect("it is there");
    let names = entries.map(|entry| entry.expect("an entry").file_name());
    let mut names: Vec<String> = names.map(|name| name.to_string_lossy().into()).collect();
    names.sort();
    names
}

/// Writes a file, and gives its path as an argument.
pub fn file(folder: &Path, name: &str, bytes: impl AsRef<[u8]>) -> OsString {
    let path = folder.join(name);
    fs::write(&path, bytes).expect("a file can be written");
    path.into()
}

/// The English sections, of which some are altered: a copy in a folder.
pub fn altered(name: &str, sections: &[(&str, &[u8])]) -> PathBuf {
    let folder = folder(name);
    for entry in fs::read_dir(english()).expect("the sections are there") {
        let path = entry.expect("a file").path();
        let name = path.file_name().expect("it has a name");
        fs::copy(&path, folder.join(name)).expect("it can be copied");
    }
    for (name, bytes) in sections {
        file(&folder, name, bytes);
    }
    folder
}
