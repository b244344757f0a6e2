//! A run that is killed leaves the old store or the new one.

use std::fs;
use std::process::Stdio;
use std::thread;
use std::time::Duration;

use crate::running::ended;
use crate::shelves::{two, Shelf};

/// What is run, and how often.
struct Killed {
    test: &'static str,
    task: &'static [&'static str],
    /// Whether the store is there before.
    is_kept: bool,
    runs: usize,
}

impl Killed {
    /// The folder as it is before each run.
    fn set(&self, shelf: &Shelf) {
        if self.is_kept {
            shelf.put("kept", two());
        } else {
            let _ = fs::remove_file(shelf.file());
        }
    }

    /// Runs the program and kills it after a while.
    fn run(&self, shelf: &Shelf, wait: Duration) {
        let mut command = shelf.command(self.task);
        command.stdin(Stdio::null()).stdout(Stdio::null()).stderr(Stdio::null());
        let mut run = command.spawn().expect("it runs");
        thread::sleep(wait);
        run.kill().expect("it can be killed");
        run.wait().expect("it ends");
    }

    /// Kills run after run, a little later where the old store was left and a little sooner where the new one was: so most
    /// are killed near the moment when the one becomes the other.
    fn each_is_whole(&self) {
        let shelf = Shelf::without(self.test);
        shelf.put("text", (0..100).map(|n| format!("w{n} : k ay1\n")).collect::<String>());
        self.set(&shelf);
        let before = fs::read(shelf.file()).ok();
        assert_eq!(shelf.run(self.task).status, Some(0));
        let after = fs::read(shelf.file()).ok();
        let (mut old, mut new, mut wait) = (0, 0, Duration::from_micros(50));
        for run in 0..self.runs {
            self.set(&shelf);
            self.run(&shelf, wait);
            let found = fs::read(shelf.file()).ok();
            if found == before {
                old += 1;
                wait = wait.mul_f64(if new == 0 { 1.3 } else { 1.07 });
            } else if found == after {
                new += 1;
                wait = wait.div_f64(1.05);
            } else {
                let length = found.map(|bytes| bytes.len());
                panic!("run {run}, killed after {wait:?}: neither store, but {length:?} bytes");
            }
        }
        let begun = left(&shelf);
        println!("{}: {old} old, {new} new, {begun} begun beside, {wait:?}", self.test);
        assert!(old >= 10 && new >= 10, "{old} old, {new} new");
        // what was begun stands beside it, and in nobody's way
        self.set(&shelf);
        assert_eq!(shelf.run(self.task).status, Some(0));
        assert_eq!(fs::read(shelf.file()).ok(), after);
        assert_eq!(left(&shelf), begun);
    }
}

/// How many files stand beside the store and the text, which are those that were begun.
fn left(shelf: &Shelf) -> usize {
    let names = shelf.names();
    let beside = names.iter().filter(|name| !["kept", "text"].contains(&name.as_str()));
    beside.inspect(|name| assert!(name.starts_with(".names."), "{name}")).count()
}

#[test]
fn accept() {
    let task = &["kept", "accept", "text"];
    Killed { test: "killed_accept", task, is_kept: true, runs: 300 }.each_is_whole();
}

#[test]
fn add() {
    let task = &["kept", "add", "gobo", "g ow1"];
    Killed { test: "killed_add", task, is_kept: true, runs: 150 }.each_is_whole();
}

#[test]
fn new() {
    let task = &["kept", "new"];
    Killed { test: "killed_new", task, is_kept: false, runs: 150 }.each_is_whole();
}

#[test]
fn while_it_writes() {
    for line in ["kept accept text", "kept add gobo g", "other new"] {
        let shelf = Shelf::with("killed_writing", two());
        shelf.put("text", "gobo : g ow1\n");
        // who writes a second block is ended
        let ran = shelf.shell(&format!("ulimit -f 1; exec \"$0\" {line}"));
        assert_eq!(ran.status, None);
        shelf.holds(two());
        assert_eq!((left(&shelf), shelf.names().len()), (1, 3));
        assert_eq!(shelf.run(&["kept", "add", "gobo", "g"]), ended(0, "new gobo/0: g\n", ""));
        assert_eq!(shelf.run(&["other", "new"]), ended(0, "", ""));
    }
}
