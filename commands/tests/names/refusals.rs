//! Files that are no store, entries that are refused, and a store that was changed as often as it can be.

use std::fs;
use std::os::unix::fs::symlink;

use crate::running::{altered, ended};
use crate::shelves::{counted, exact, slot, store, two, Shelf, IRIS, LARGEST, TWO};

/// Every task but `new`, with the file `text`.
const TASKS: [&[&str]; 4] =
    [&["list"], &["preview", "text"], &["accept", "text"], &["add", "iris", "ay1"]];

/// Sees that every task tells the same of a file.
fn told_by_all(shelf: &Shelf, name: &str, told: &str) {
    for task in TASKS {
        let ran = shelf.run(&[&[name], task].concat());
        assert_eq!(ran, ended(1, "", &format!("names: {told}\n")), "{task:?}");
    }
}

const ANOTHER: &str =
    "Take a whole copy of the file, or begin another store (names OTHER_FILE new).";

#[test]
fn a_file_of_a_wrong_length_is_told() {
    let shelf = Shelf::with("wrong_length", "");
    shelf.put("text", "iris n : k\n");
    for length in [0, 1, 511, 513, 65_535, 65_537, 66_048, 1_000_000] {
        shelf.put("kept", vec![0; length]);
        let why =
            format!("it has {length} bytes, and a store has 512 to 65,536, a multiple of 512");
        told_by_all(&shelf, "kept", &format!("kept is refused: 2, {why}. {ANOTHER}"));
        shelf.holds(vec![0; length]);
    }
    assert_eq!(shelf.names(), ["kept", "text"]);
}

#[test]
fn a_file_of_wrong_bytes_is_told() {
    let shelf = Shelf::with("wrong_bytes", "");
    shelf.put("text", "iris n : k\n");
    let iris = || slot(0, b'n', "iris", IRIS);
    let with_byte = |at: usize, byte| {
        let mut slot = exact(0, b'n', "iris", IRIS);
        slot[at] = byte;
        store(1024, 0, (1, 1), &[slot])
    };
    let twice = [exact(2, b'n', "Iris", IRIS), exact(0, b'n', "Iris", IRIS)];
    for bytes in [
        vec![0xff; 512],
        b"Dear house electrician,\n".repeat(64),
        store(LARGEST, 0, (1, 1), &[slot(1, b'n', "iris", IRIS)]),
        store(1024, 0, (2, 2), &[iris()]),
        store(1536, 0, (1, 2), &[slot(2, b'n', "iris", IRIS), iris()]),
        store(1024, 0, (1, 1), &[slot(0, b'n', "IRIS", IRIS)]),
        store(1024, 0, (0, 0), &[iris()]),
        with_byte(52, 2),
        with_byte(52, 255),
        with_byte(53, 1),
        with_byte(63, 1),
        store(1536, 0, (1, 2), &twice),
    ] {
        shelf.put("kept", &bytes);
        let told = format!("kept is refused: 2, its bytes are not as a store has them. {ANOTHER}");
        told_by_all(&shelf, "kept", &told);
        shelf.holds(&bytes);
    }
}

#[test]
fn what_is_no_file_is_told() {
    let shelf = Shelf::with("no_file", two());
    shelf.put("text", "iris n : k\n");
    symlink("nowhere", shelf.0.join("link")).expect("a link can be made");
    fs::create_dir(shelf.0.join("folder")).expect("a folder can be made");
    assert_eq!(shelf.shell("mkfifo pipe").status, Some(0));
    let missing = "No such file or directory (os error 2)";
    for (name, told) in [
        ("nowhere", "there is no nowhere: begin a store there (names nowhere new)".into()),
        ("link", format!("cannot read link: {missing}")),
        ("folder", "cannot read folder: it is no file".into()),
        ("pipe", "cannot read pipe: it is no file".into()),
        ("/dev/zero", "cannot read /dev/zero: it is no file".into()),
        ("kept/x", "cannot read kept/x: Not a directory (os error 20)".into()),
        ("", "there is no : begin a store there (names  new)".into()),
    ] {
        told_by_all(&shelf, name, &told);
    }
    assert_eq!(shelf.names(), ["folder", "kept", "link", "pipe", "text"]);
}

#[test]
fn a_refused_entry_names_what_is_at_fault() {
    let shelf = Shelf::with("entry", two());
    let long = "x".repeat(48);
    let (tag, typed) = (format!("n{long}"), format!("iris/n{long}"));
    let unknown = "is in neither lex.phones nor the 50 known phones. Correct its spelling.";
    let phone = "k".repeat(16);
    let many = |count| "ay1 ".repeat(count);
    let too_many = "7, too many phones: an added entry has at most 24, a word 96. Take some away, or split the word in two.";
    for (word, phones, why) in [
        (&*long, "k", format!("3, \"{long}\" has more than 47 bytes. Shorten it.")),
        (&long, "é", format!("3, \"{long}\" has more than 47 bytes. Shorten it.")),
        (&typed, "k", format!("3, \"{tag}\" has more than 47 bytes. Shorten it.")),
        ("zoé", "ih9", "3, \"é\" is not ASCII. Write it with plain letters.".into()),
        ("zoe/é", "k", "3, \"é\" is not ASCII. Write it with plain letters.".into()),
        ("iris", "ay1 r ih9 s", format!("5, the phone \"ih9\" {unknown}")),
        ("iris", "ay1 é", format!("5, the phone \"é\" {unknown}")),
        ("iris", &phone, format!("5, the phone \"{phone}\" {unknown}")),
        ("iris", &many(25), too_many.into()),
        ("iris", &many(97), too_many.into()),
        ("iris", &(many(97) + "kk"), format!("5, the phone \"kk\" {unknown}")),
    ] {
        let err = format!("names: \"{word}\" is refused: {why}\n");
        assert_eq!(
            shelf.run(&["kept", "add", word, phones]),
            ended(1, "", &err),
            "{word} {phones}"
        );
    }
    shelf.holds(two());
    assert_eq!(shelf.names(), ["kept"]);
}

#[test]
fn a_full_store_is_told() {
    let shelf = Shelf::with("full_store", store(512, 0, (0, 0), &[]));
    let err = "names: \"iris\" is refused: 8, the store is full: the largest holds 127 entries. \
        Begin a new store with the entries that this show needs.\n";
    assert_eq!(shelf.run(&["kept", "add", "iris", "ay1"]), ended(1, "", err));
}

const OFTEN: &str =
    "12, the store was changed since the preview, or was changed as often as it can be. \
    Preview again; where that does not help, begin a new store and add the entries to it.\n";

#[test]
fn a_store_with_the_largest_count_is_shown_and_not_changed() {
    let shelf = Shelf::with("largest_count", counted(u64::MAX));
    shelf.put("text", "gobo : g ow1\n");
    let out = "new gobo/0: g ow1\nlines: 1, new: 1, replaced: 0\n";
    assert_eq!(shelf.run(&["kept", "list"]), ended(0, TWO, ""));
    let err = format!("warning: if it were accepted, kept is refused: {OFTEN}");
    assert_eq!(shelf.run(&["kept", "preview", "text"]), ended(0, out, &err));
    let err = format!("names: kept is refused: {OFTEN}");
    assert_eq!(shelf.run(&["kept", "accept", "text"]), ended(1, out, &err));
    let err = format!("names: \"gobo\" is refused: {OFTEN}");
    assert_eq!(shelf.run(&["kept", "add", "gobo", "g"]), ended(1, "", &err));
    shelf.holds(counted(u64::MAX));
}

#[test]
fn the_count_before_the_largest_is_taken() {
    let shelf = Shelf::with("last_count", counted(u64::MAX - 1));
    shelf.put("text", "");
    assert_eq!(shelf.run(&["kept", "accept", "text"]).status, Some(0));
    shelf.holds(counted(u64::MAX));
}

#[test]
fn phones_that_cannot_be_read_are_told() {
    let shelf = Shelf::with("no_phones", two());
    shelf.put("text", "gobo : g ow1\n");
    let section = "1, a section breaks its form. Run check_tables on the folder: it says which one and where.\n";
    let damaged = altered("names_damaged", &[("lex.phones", b"\x01")]);
    let damaged = damaged.to_str().expect("a name in letters");
    for (task, told) in [
        (&["preview", "text"][..], "entries of text are refused"),
        (&["accept", "text"], "nothing is accepted: entries of text are refused"),
        (&["add", "gobo", "g"], "\"gobo\" is refused"),
    ] {
        let err = "names: cannot read nowhere/lex.phones: No such file or directory (os error 2)\n";
        let arguments = [&["--tables=nowhere", "kept"], task].concat();
        assert_eq!(shelf.run(&arguments), ended(1, "", err));
        let arguments = [&["--tables", damaged, "kept"], task].concat();
        assert_eq!(shelf.run(&arguments), ended(1, "", &format!("names: {told}: {section}")));
    }
    shelf.holds(two());
}
