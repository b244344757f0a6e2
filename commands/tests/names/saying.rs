//! say with a store.

use crate::running::ended;
use crate::shelves::{counted, exact, slot, store, two, Shelf, LARGEST};

#[test]
fn words_are_said_with_a_store() {
    let shelf = Shelf::with("say", two());
    let out = "Iris/n (runtime): 1 ay | 0 r ih s\n\
        iris (runtime): 1 ay | 0 r ih s\n\
        Ligeti (runtime): 1 l ih | 0 g eh | 0 t iy\n\
        house (compiled): 1 hh aw s\n";
    let words = ["Iris/n iris", "Ligeti", "house"];
    assert_eq!(shelf.say(&[&["--store", "kept"][..], &words].concat()), ended(0, out, ""));
    assert_eq!(shelf.say(&[&words[..], &["--store=kept"]].concat()), ended(0, out, ""));
    shelf.holds(two());
    assert_eq!(shelf.names(), ["kept"]);
}

#[test]
fn words_of_a_store_are_not_guessed() {
    let slots = [slot(2, b'n', "tempo", "t"), exact(0, b'0', "Mel", "m eh1 l")];
    let shelf = Shelf::with("say_guessed", store(LARGEST, 2, (1, 2), &slots));
    let out = "Mel (runtime): 1 m eh l\n";
    assert_eq!(shelf.say(&["--store=kept", "Mel"]), ended(0, out, ""));
    let out = "mel (letters): 1 m eh l\ntempo/v (letters): 1 t eh m | 0 p ow\n";
    let said = shelf.say(&["--store=kept", "--guessed", "Mel mel TEMPO/n tempo tempo/v"]);
    assert_eq!(said, ended(0, out, "words: 5, guessed: 2, refused: 0\n"));
}

#[test]
fn entries_come_behind_those_of_the_store() {
    let shelf = Shelf::with("say_entries", two());
    shelf.put("text", "iris n : ih1 r ih0 s\ngobo : g ow1\n");
    let out = "entries: 2 taken\niris/n (runtime): 1 ih | 0 r ih s\ngobo (runtime): 1 g ow\n\
        ligeti (runtime): 1 l ih | 0 g eh | 0 t iy\n";
    let arguments = ["--entries", "text", "--store", "kept", "iris/n gobo ligeti"];
    assert_eq!(shelf.say(&arguments), ended(0, out, ""));
    shelf.holds(two());
}

#[test]
fn a_small_store_takes_as_many_entries_as_it_can() {
    let shelf = Shelf::with("say_small", store(1024, 1, (1, 1), &[slot(0, b'0', "a", "k")]));
    shelf.put("text", "a : t\n");
    let out = "entries: 1 taken\na (runtime): 0 t\n";
    assert_eq!(shelf.say(&["--store=kept", "--entries=text", "a"]), ended(0, out, ""));
    shelf.put("text", "a : t\nb : k\n");
    let err = "say: entries of text: line 2 is refused: 8, the store is full: the largest holds 127 entries. \
        Begin a new store with the entries that this show needs.\n";
    assert_eq!(shelf.say(&["--store=kept", "--entries=text", "a"]), ended(1, "", err));
}

#[test]
fn a_store_with_the_largest_count_says_and_takes_no_entries() {
    let shelf = Shelf::with("say_largest", counted(u64::MAX));
    shelf.put("text", "gobo : g ow1\n");
    let out = "iris (runtime): 1 ay | 0 r ih s\n";
    assert_eq!(shelf.say(&["--store=kept", "iris"]), ended(0, out, ""));
    let err = "say: entries of text are refused: 12, the store was changed since the preview, \
        or was changed as often as it can be. \
        Preview again; where that does not help, begin a new store and add the entries to it.\n";
    assert_eq!(shelf.say(&["--store=kept", "--entries=text", "iris"]), ended(1, "", err));
}

#[test]
fn what_is_no_store_is_told() {
    let shelf = Shelf::with("say_no_store", "notes");
    let another = "Take a whole copy of the file, or begin another store (names OTHER_FILE new).";
    let length = "it has 5 bytes, and a store has 512 to 65,536, a multiple of 512";
    for (file, told) in [
        ("kept", format!("kept is refused: 2, {length}. {another}")),
        ("nowhere", "there is no nowhere: begin a store there (names nowhere new)".into()),
        (".", "cannot read .: it is no file".into()),
    ] {
        let err = format!("say: {told}\n");
        assert_eq!(shelf.say(&["--store", file, "house"]), ended(1, "", &err));
    }
    let err = "say: --store stands twice; say --help lists what it takes\n";
    assert_eq!(shelf.say(&["--store=kept", "--store=kept", "house"]), ended(2, "", err));
}
