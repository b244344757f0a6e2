//! The command line and the exit status.

use std::fs::File;
use std::io;
use std::process::Stdio;

use crate::running::{ended, english, run_command};
use crate::shelves::{two, Shelf, TWO};

#[test]
fn help_and_version_end_with_0() {
    let shelf = Shelf::without("help");
    let help = shelf.run(&["--help"]);
    let usage =
        "names [--tables FOLDER] [--] STORE_FILE new | list | preview FILE | accept FILE | \
        add [--exact] WORD/TAG PHONE ..\n";
    assert!(help.out.starts_with(usage), "{}", help.out);
    assert_eq!((help.status, help.err.as_str()), (Some(0), ""));
    assert_eq!(shelf.run(&["kept", "new", "--help"]), help);
    assert_eq!(shelf.run(&["--version"]), ended(0, "names 0.1.0\n", ""));
    assert_eq!(shelf.names(), [""; 0]);
}

#[test]
fn wrong_use_ends_with_2() {
    let shelf = Shelf::with("wrong_use", two());
    let pointer = "; names --help lists what it takes\n";
    let tasks = "behind STORE_FILE stands new, list, preview, accept or add";
    let form = "add takes a word and its phones: WORD/TAG PHONE ..";
    let file = "takes one FILE of lines: word tag : phones";
    for (arguments, told) in [
        (&[][..], "no STORE_FILE is named"),
        (&["kept"], tasks),
        (&["list"], tasks),
        (&["kept", "show"], &format!("{tasks}, and not \"show\"")),
        (&["list", "kept"], &format!("{tasks}, and not \"kept\"")),
        (&["kept", ""], &format!("{tasks}, and not \"\"")),
        (&["kept", "new", "x"], "new takes nothing behind it"),
        (&["kept", "list", "x"], "list takes nothing behind it"),
        (&["kept", "preview"], &format!("preview {file}")),
        (&["kept", "accept", "x", "y"], &format!("accept {file}")),
        (&["kept", "add"], form),
        (&["kept", "add", "iris"], form),
        (&["kept", "add", "", "ay1"], &format!("{form}, and \"\" is no word")),
        (&["kept", "add", "iris/n ay1", ""], &format!("{form}, and \"iris/n ay1\" is no word")),
        (&["kept", "add", "iris\n", "k"], &format!("{form}, and \"iris\\n\" is no word")),
        (&["kept", "list", "--loud"], "there is no option --loud"),
        (&["kept", "list", "--tables"], "--tables needs a value behind it"),
        (&["--tables=a", "--tables=b", "kept", "list"], "--tables stands twice"),
        (&["new", "new", "--exact"], "--exact goes with add"),
        (&["kept", "list", "--exact"], "--exact goes with add"),
        (&["kept", "preview", "--exact", "text"], "--exact goes with add"),
        (&["--exact", "kept", "accept", "text"], "--exact goes with add"),
        (&["kept", "show", "--exact"], &format!("{tasks}, and not \"show\"")),
        (&["kept", "add", "--exact"], form),
        (&["kept", "add", "--exact", "Iris"], form),
        (&["kept", "add", "--exact=yes", "Iris", "k"], "--exact takes no value"),
    ] {
        let err = format!("names: {told}{pointer}");
        assert_eq!(shelf.run(arguments), ended(2, "", &err), "{arguments:?}");
    }
    shelf.holds(two());
    assert_eq!(shelf.names(), ["kept"]);
}

#[test]
fn what_is_no_text_is_told() {
    use std::ffi::OsStr;
    use std::os::unix::ffi::OsStrExt;
    let shelf = Shelf::with("no_text", two());
    let no_text = OsStr::from_bytes(b"\xff");
    let run = |arguments: &[&OsStr]| {
        let mut command = shelf.command(&["kept"]);
        command.args(arguments);
        run_command(command, "")
    };
    assert_eq!(run(&[no_text]).status, Some(2));
    let ascii = "3, the byte 255 is not ASCII. Write it with plain letters.\n";
    let err = format!("names: \"\u{fffd}\" is refused: {ascii}");
    assert_eq!(run(&["add".as_ref(), no_text, "k".as_ref()]), ended(1, "", &err));
    let unknown = "is in neither lex.phones nor the 50 known phones. Correct its spelling.\n";
    let err = format!("names: \"iris\" is refused: 5, the phone \"\u{fffd}\" {unknown}");
    assert_eq!(run(&["add".as_ref(), "iris".as_ref(), no_text]), ended(1, "", &err));
    shelf.holds(two());
}

#[test]
fn options_stand_anywhere_and_files_have_any_name() {
    let shelf = Shelf::without("any_name");
    let english = english();
    let english = english.to_str().expect("a name in letters");
    assert_eq!(shelf.run(&["--", "--help", "new"]), ended(0, "", ""));
    let arguments = ["--tables", english, "--", "--help", "add", "iris", "ay1"];
    assert_eq!(shelf.run(&arguments), ended(0, "new iris/0: ay1\n", ""));
    assert_eq!(shelf.run(&["new", "new"]), ended(0, "", ""));
    assert_eq!(shelf.run(&["new", "add", "iris", "--tables", english, "ay1"]).status, Some(0));
    let long = "x".repeat(255);
    assert_eq!(shelf.run(&[&long, "new"]), ended(0, "", ""));
    assert_eq!(shelf.run(&[&long, "add", "iris", "ay1"]).status, Some(0));
    assert_eq!(shelf.names(), ["--help", "new", &long]);
}

#[test]
fn a_name_cannot_forge_a_line() {
    let shelf = Shelf::without("forged");
    let err = "names: there is no a\\niris/n: begin a store there (names a\\niris/n new)\n";
    assert_eq!(shelf.run(&["a\niris/n", "list"]), ended(1, "", err));
}

#[test]
fn what_cannot_be_told_is_not_kept() {
    let shelf = Shelf::with("output", two());
    shelf.put("text", "gobo : g ow1\n");
    for task in [&["list"][..], &["preview", "text"], &["accept", "text"], &["add", "gobo", "g"]] {
        let arguments = [&["kept"], task].concat();
        let mut command = shelf.command(&arguments);
        command.stdout(Stdio::from(File::create("/dev/full").expect("it is there")));
        let err = "names: cannot write its output: No space left on device (os error 28)\n";
        assert_eq!(run_command(command, ""), ended(1, "", err));

        let (reader, writer) = io::pipe().expect("a pipe");
        drop(reader);
        let mut command = shelf.command(&arguments);
        command.stdout(writer);
        assert_eq!(run_command(command, ""), ended(1, "", ""));
    }
    shelf.holds(two());
    assert_eq!(shelf.run(&["kept", "list"]), ended(0, TWO, ""));
    assert_eq!(shelf.names(), ["kept", "text"]);
}
