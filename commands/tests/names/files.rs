//! A store's file is replaced whole or not at all, by one run at a time.

use std::fs::{self, Permissions};
use std::io::ErrorKind;
use std::os::unix::fs::{chown, symlink, MetadataExt, PermissionsExt};
use std::os::unix::process::CommandExt;
use std::path::Path;
use std::process::{self, Child};
use std::{env, thread};

use crate::running::{command, ended};
use crate::shelves::{slot, store, two, Shelf, IRIS, LARGEST, LIGETI};

/// What changes the store, and what it becomes in two().
fn changing() -> [(&'static [&'static str], Vec<u8>); 2] {
    let gobo = [
        slot(2, b'n', "iris", IRIS),
        slot(3, b'0', "ligeti", LIGETI),
        slot(0, b'0', "gobo", "g ow1"),
    ];
    let after = store(LARGEST, 3, (1, 3), &gobo);
    [(&["kept", "accept", "text"], after.clone()), (&["kept", "add", "gobo", "g ow1"], after)]
}

fn with_text(test: &str) -> Shelf {
    let shelf = Shelf::with(test, two());
    shelf.put("text", "gobo : g ow1\n");
    shelf
}

#[test]
fn permissions_and_owner_stay() {
    let shelf = with_text("permissions");
    for (task, after) in changing() {
        for mode in [0o640, 0o600, 0o666, 0o755] {
            shelf.put("kept", two());
            let wanted = Permissions::from_mode(mode);
            fs::set_permissions(shelf.file(), wanted).expect("it may be set");
            let _ = chown(shelf.file(), Some(65_534), Some(65_534)); // which only root may do
            let before = fs::metadata(shelf.file()).expect("it is there");
            assert_eq!(shelf.run(task).status, Some(0));
            let found = fs::metadata(shelf.file()).expect("it is there");
            assert_ne!(before.ino(), found.ino());
            let told = [&before, &found].map(|found| (found.mode(), found.uid(), found.gid()));
            assert_eq!(told[0], told[1]);
            shelf.holds(&after);
        }
    }
}

#[test]
fn a_write_protected_file_stays() {
    let shelf = with_text("write_protected");
    fs::set_permissions(shelf.file(), Permissions::from_mode(0o444)).expect("it may be set");
    for (task, _) in changing() {
        let ran = shelf.run(task);
        let err = "names: cannot write kept: it is write-protected\n";
        assert_eq!((ran.status, ran.err.as_str()), (Some(1), err));
        shelf.holds(two());
    }
}

#[test]
fn a_link_stays_and_its_file_is_replaced() {
    for (task, after) in changing() {
        let shelf = with_text("link");
        let other = shelf.0.join("other");
        fs::create_dir(&other).expect("a folder can be made");
        fs::rename(shelf.file(), other.join("store")).expect("it can be moved");
        symlink("other/store", shelf.file()).expect("a link can be made");
        assert_eq!(shelf.run(task).status, Some(0));
        assert_eq!(fs::read(other.join("store")).expect("it is there"), after);
        assert_eq!(fs::read_link(shelf.file()).expect("a link"), Path::new("other/store"));
        assert_eq!(shelf.names(), ["kept", "other", "text"]);
        assert_eq!(Shelf(other).names(), ["store"]);
    }
}

#[test]
fn a_place_that_is_not_there_is_told() {
    let shelf = Shelf::with("nowhere", two());
    for (name, told) in [
        ("nowhere/x", "No such file or directory (os error 2)"),
        ("kept/x", "Not a directory (os error 20)"),
        ("x/", "Not a directory (os error 20)"),
        ("", "No such file or directory (os error 2)"),
    ] {
        let err = format!("names: cannot write {name}: {told}\n");
        assert_eq!(shelf.run(&[name, "new"]), ended(1, "", &err));
    }
    assert_eq!(shelf.names(), ["kept"]);
}

#[test]
fn a_failing_write_leaves_all_as_it_was() {
    let shelf = with_text("failing");
    for line in ["kept accept text", "kept add gobo g", "other new"] {
        // no file may have more than a block, and the program is told instead of ended
        let ran = shelf.shell(&format!("trap '' XFSZ; ulimit -f 1; exec \"$0\" {line}"));
        let name = line.split(' ').next().expect("a name");
        let err = format!("names: cannot write {name}: File too large (os error 27)\n");
        assert_eq!((ran.status, ran.err), (Some(1), err));
        assert_eq!(shelf.names(), ["kept", "text"]);
        shelf.holds(two());
    }
}

#[test]
fn what_stands_beside_is_not_overwritten() {
    let shelf = with_text("beside");
    let own = ".names.$$"; // the program keeps the shell's number
    let line = format!("echo a > {own}.0; echo b > {own}.1; exec \"$0\" kept accept text");
    assert_eq!(shelf.shell(&line).status, Some(0));
    let mut found: Vec<Vec<u8>> = Vec::new();
    for name in shelf.names().iter().filter(|name| name.starts_with(".names.")) {
        found.push(fs::read(shelf.0.join(name)).expect("it is there"));
    }
    assert_eq!(found, [b"a\n", b"b\n"]);
}

/// Somebody who is not root.
const NOBODY: u32 = 65_534;

#[test]
fn a_file_or_a_folder_of_somebody_else_is_told() {
    if !fs::metadata("/proc/self").is_ok_and(|own| own.uid() == 0) {
        return;
    }
    let shelf = Shelf(env::temp_dir().join(format!("names-somebody-{}", process::id())));
    fs::create_dir(&shelf.0).expect("a folder can be made");
    shelf.put("kept", two());
    shelf.put("text", "gobo : g\n");
    let program = shelf.0.join("program");
    fs::copy(env!("CARGO_BIN_EXE_names"), &program).expect("it can be copied");
    let run = |mode, task: &[&str]| {
        fs::set_permissions(shelf.file(), Permissions::from_mode(mode)).expect("it may be set");
        let phones = ["--tables", ".", "kept"];
        let mut command = command(&program.to_string_lossy(), &[&phones, task].concat());
        command.current_dir(&shelf.0).uid(NOBODY).gid(NOBODY);
        loop {
            match command.output() {
                // a child of another test still has the copy as it was written
                Err(error) if error.kind() == ErrorKind::ExecutableFileBusy => thread::yield_now(),
                ran => break Some(String::from_utf8_lossy(&ran.ok()?.stderr).into_owned()),
            }
        }
    };
    shelf.put("lex.phones", [0; 4]);
    let read = run(0o600, &["list"]);
    let wrote = run(0o666, &["accept", "text"]);
    let left = shelf.bytes();
    fs::remove_dir_all(&shelf.0).expect("it can go");
    let denied =
        |verb| Some(format!("names: cannot {verb} kept: Permission denied (os error 13)\n"));
    assert!(left == two());
    // none where root cannot become somebody else
    assert!(read.is_none() || (read, wrote) == (denied("read"), denied("write")));
}

/// How many runs are started at once.
const RUNS: usize = 12;

/// Starts runs at once, and tells how many ended with 0 and how many with 1.
fn at_once(shelf: &Shelf, task: impl Fn(usize) -> Vec<String>) -> (usize, usize) {
    let started: Vec<Child> = (0..RUNS)
        .map(|run| {
            let task = task(run);
            let task: Vec<&str> = task.iter().map(String::as_str).collect();
            shelf.command(&task).spawn().expect("it runs")
        })
        .collect();
    let ended = started.into_iter().map(|run| run.wait_with_output().expect("it ends").status);
    let codes: Vec<i32> = ended.map(|status| status.code().expect("it was not killed")).collect();
    let with = |wanted| codes.iter().filter(|code| **code == wanted).count();
    (with(0), with(1))
}

#[test]
fn runs_at_once_lose_no_entry() {
    let shelf = Shelf::with("at_once", two());
    for round in 0..3 {
        let task = |run| {
            let text = format!("text{run}");
            shelf.put(&text, format!("accepted{round}x{run} : k\n"));
            let word = format!("added{round}x{run}");
            let words = if run % 2 == 0 { vec!["accept", &text] } else { vec!["add", &word, "k"] };
            [&["kept"], &words[..]].concat().into_iter().map(String::from).collect()
        };
        assert_eq!(at_once(&shelf, task), (RUNS, 0));
    }
    assert_eq!(shelf.run(&["kept", "list"]).out.lines().count(), 2 + 3 * RUNS);
    assert_eq!(shelf.bytes()[8], 2 + 3 * RUNS as u8);
}

#[test]
fn of_runs_at_once_one_makes_the_file() {
    let shelf = Shelf::without("new_at_once");
    for round in 0..5 {
        let name = format!("store{round}");
        let made = at_once(&shelf, |_| vec![name.clone(), "new".into()]);
        assert_eq!(made, (1, RUNS - 1));
    }
    assert_eq!(shelf.names().len(), 5);
}
