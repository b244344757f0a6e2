//! `say` on sheets of both versions, as a user runs it: tables and entries with a secondary stress, and without one.

mod running;

use running::{altered, ended, english, file, folder, run, Ended};
use std::ffi::OsString;
use std::fs;
use std::path::{Path, PathBuf};

const SAY: &str = env!("CARGO_BIN_EXE_say");
const NAMES: &str = env!("CARGO_BIN_EXE_names");

/// Sections with a secondary stress in every word: "at" as the one compiled entry, ae2 t, and letters that are all said
/// as ae2.
const SMALL: [(&str, &[u8]); 6] = [
    ("lex.phones", b"\x02\0\0\0\x03ae2\x01t"),
    ("lex.index", b"\x01\0\0\0\0\0\0\0"),
    ("lex.data", b"0\x02at\x02\0\x01"),
    ("lts.phones", b"\x01\0\0\0\x03ae2"),
    ("lts.index", &[0; 52]),
    ("lts.model", b"\xff\0\0\0\0\0"),
];

fn small(test: &str) -> PathBuf {
    let folder = folder(test);
    for (name, bytes) in SMALL {
        file(&folder, name, bytes);
    }
    folder
}

/// The English sections with phones more that names may have.
fn with_phones(test: &str, phones: &[&str]) -> PathBuf {
    let table = fs::read(english().join("lex.phones")).expect("the section is there");
    let (count, listed) = table.split_first_chunk().expect("a count");
    let count = u32::from_le_bytes(*count) + phones.len() as u32;
    let more = phones.iter().flat_map(|phone| [&[phone.len() as u8], phone.as_bytes()].concat());
    let table: Vec<u8> =
        count.to_le_bytes().into_iter().chain(listed.iter().copied()).chain(more).collect();
    altered(test, &[("lex.phones", &table)])
}

/// With tables, and arguments behind them.
fn say(tables: &Path, arguments: &[&str]) -> Ended {
    let mut all = vec![OsString::from("--tables"), tables.into()];
    all.extend(arguments.iter().map(OsString::from));
    run(SAY, &all, "")
}

/// The warning of a word with a phone that kept its "2".
fn no_phone(word: &str, phone: &str) -> String {
    format!(
        "warning: \"{word}\": \"{phone}\" is no phone, as version 1 of a sheet has no secondary stress: \
        use --sheet-version 2\n"
    )
}

#[test]
fn a_name_with_a_secondary_stress() {
    let tables = with_phones("a_name_with_a_secondary_stress", &["ay2", "ey2"]);
    let names = "limelight n : l ay1 m l ay2 t\nMel : m ey2 l\niris : ay1 r ih0 s\n";
    let names = file(&tables, "names.txt", names);
    let names = names.to_str().expect("a name in letters");
    let asked = ["--entries", names, "Limelight", "mel", "iris", "house"];
    let out = "entries: 3 taken\n\
        Limelight (runtime): 1 l ay m | 2 l ay t\n\
        mel (runtime): 2 m ey l\n\
        iris (runtime): 1 ay | 0 r ih s\n\
        house (compiled): 1 hh aw s\n";
    assert_eq!(say(&tables, &asked), ended(0, out, ""), "usually version 2");
    assert_eq!(say(&tables, &[&asked[..], &["--sheet-version", "2"]].concat()), ended(0, out, ""));
    assert_eq!(say(&tables, &[&["--sheet-version=2"][..], &asked].concat()), ended(0, out, ""));

    let out = "entries: 3 taken\n\
        Limelight (runtime): 1 l ay m l ay2 t\n\
        mel (runtime): 0 m ey2 l\n\
        iris (runtime): 1 ay | 0 r ih s\n\
        house (compiled): 1 hh aw s\n";
    let err = format!("{}{}", no_phone("Limelight", "ay2"), no_phone("mel", "ey2"));
    let said = say(&tables, &[&["--sheet-version", "1"][..], &asked].concat());
    assert_eq!(said, ended(0, out, &err));
}

#[test]
fn a_2_that_stays_on_version_2_is_not_warned_of() {
    let tables = with_phones("a_2_that_stays", &["ay22"]);
    let names = file(&tables, "names.txt", "iris : ay22 r ih0 s\n");
    let names = names.to_str().expect("a name in letters");
    let out = "entries: 1 taken\niris (runtime): 0 ay2 r ih s\n";
    assert_eq!(say(&tables, &["--entries", names, "iris"]), ended(0, out, ""));
}

#[test]
fn a_store_keeps_it() {
    let tables = with_phones("a_store_keeps_it", &["ay2"]);
    let store = tables.join("kept").into_os_string();
    assert_eq!(run(NAMES, &[store.clone(), "new".into()], ""), ended(0, "", ""));
    let phones = "l ay1 m l ay2 t";
    let mut added = vec!["--tables".into(), tables.clone().into(), store.clone(), "add".into()];
    added.extend(["limelight", phones].map(OsString::from));
    assert_eq!(run(NAMES, &added, ""), ended(0, &format!("new limelight/0: {phones}\n"), ""));
    let store = store.to_str().expect("a name in letters");
    let out = "limelight (runtime): 1 l ay m | 2 l ay t\n";
    assert_eq!(say(&tables, &["--store", store, "limelight"]), ended(0, out, ""));
}

#[test]
fn tables_with_a_secondary_stress() {
    let tables = small("tables_with_a_secondary_stress");
    let out = "at (compiled): 2 ae t\nbe (letters): 2 ae | 2 ae\nto (addenda): 0 t ax\n";
    assert_eq!(say(&tables, &["at", "be", "to"]), ended(0, out, ""));
    let out = "at (compiled): 0 ae2 t\nbe (letters): 0 ae2 ae2\nto (addenda): 0 t ax\n";
    let err = [no_phone("at", "ae2"), no_phone("be", "ae2")].concat();
    assert_eq!(say(&tables, &["--sheet-version=1", "at", "be", "to"]), ended(0, out, &err));
}

#[test]
fn other_warnings_come_before_that_of_a_stress() {
    let tables = small("other_warnings_come_before");
    let left_out = "warning: \"b1/n\" was read without \"1\": write that as it is spoken, or add an entry (--entries)\n";
    let out = "b1/n (letters): 2 ae\n";
    assert_eq!(say(&tables, &["b1/n"]), ended(0, out, left_out));
    let err = format!("{left_out}{}", no_phone("b1/n", "ae2"));
    let out = "b1/n (letters): 0 ae2\n";
    assert_eq!(say(&tables, &["--sheet-version=1", "b1/n"]), ended(0, out, &err));
}

#[test]
fn words_that_are_not_listed_are_warned_of_too() {
    let tables = small("words_that_are_not_listed");
    let asked = ["--guessed", "--plain", "At,", "b"];
    let counts = "words: 2, guessed: 1, refused: 0\n";
    assert_eq!(say(&tables, &asked), ended(0, "b (letters): 2 ae\n", counts));
    let err = [&no_phone("at", "ae2"), &no_phone("b", "ae2"), counts].concat();
    let said = say(&tables, &[&asked[..], &["--sheet-version=1"]].concat());
    assert_eq!(said, ended(0, "b (letters): 0 ae2\n", &err));
}

#[test]
fn without_one_both_versions_say_the_same() {
    // The words of the English lexicon whose phones have no "2", and words from the letters.
    let source = english().join("../lexicon.txt");
    let lexicon = fs::read_to_string(source).expect("the words are there");
    let words = lexicon.lines().filter(|line| !line.starts_with('#') && !line.contains('2'));
    let words: Vec<&str> = words.filter_map(|line| line.split_whitespace().next()).collect();
    assert!(words.len() > 400);
    let input = [&words[..], &["tempo", "xylophone", "Cue,", "12", "to", "lead/v"]].concat();
    let said = |arguments: &[&str]| run(SAY, arguments, input.join("\n"));
    let usual = said(&[]);
    assert_eq!(usual.status, Some(1), "12 has no phones");
    assert!(usual.out.lines().count() == input.len() && usual.err.lines().count() > 1);
    assert_eq!(said(&["--sheet-version", "1"]), usual);
    assert_eq!(said(&["--sheet-version", "2"]), usual);
}

#[test]
fn a_version_that_is_none_ends_with_2() {
    let text = |version: &str| format!("--sheet-version takes 1 or 2, and not \"{version}\"");
    for (arguments, told) in [
        (&["--sheet-version", "3", "house"][..], text("3")),
        (&["--sheet-version=0", "house"], text("0")),
        (&["--sheet-version=257", "house"], text("257")),
        (&["--sheet-version=4294967297", "house"], text("4294967297")),
        (&["--sheet-version=01", "house"], text("01")),
        (&["--sheet-version=+2", "house"], text("+2")),
        (&["--sheet-version=", "house"], text("")),
        (&["--sheet-version", "house"], text("house")),
        (&["house", "--sheet-version"], "--sheet-version needs a value behind it".into()),
        (&["--sheet-version=1", "--sheet-version=1"], "--sheet-version stands twice".into()),
    ] {
        let err = format!("say: {told}; say --help lists what it takes\n");
        assert_eq!(run(SAY, arguments, ""), ended(2, "", &err));
    }
}

#[test]
fn the_programs_own_version_is_another() {
    assert_eq!(run(SAY, &["--sheet-version=1", "--version"], ""), ended(0, "say 0.1.0\n", ""));
    let help = run(SAY, &["--help"], "").out;
    assert!(help.contains("\n  --sheet-version VERSION\n"), "{help}");
}
