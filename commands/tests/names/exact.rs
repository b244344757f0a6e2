//! Exact entries: added, listed, beside texts, and said.

use crate::running::ended;
use crate::shelves::{exact, slot, store, two, Shelf, IRIS, LARGEST, LIGETI};

const NAME: &str = "p ow1 l ih0 sh";
const VERB: &str = "p aa1 l ih0 sh";

/// The verb polish, and behind it the name Polish, exact.
fn polish() -> [Vec<u8>; 2] {
    [slot(2, b'0', "polish", VERB), exact(0, b'0', "Polish", NAME)]
}

/// What `list` tells of them.
const POLISH: &str = "polish/0: p aa1 l ih0 sh\nPolish/0: p ow1 l ih0 sh # exact\n";

#[test]
fn an_exact_entry_is_added() {
    let shelf = Shelf::with("exact_added", two());
    let out = "new Polish/n: p ow1 l ih0 sh # exact\n";
    let ran = shelf.run(&["kept", "add", "--exact", "Polish/noun", "p", "ow1", "l", "ih0", "sh"]);
    assert_eq!(ran, ended(0, out, ""));
    let added = [
        slot(2, b'n', "iris", IRIS),
        slot(3, b'0', "ligeti", LIGETI),
        exact(0, b'n', "Polish", NAME),
    ];
    shelf.holds(store(LARGEST, 3, (1, 3), &added));
    assert_eq!(shelf.names(), ["kept"]);
}

#[test]
fn an_exact_entry_is_replaced() {
    let shelf = Shelf::with("exact_replaced", store(LARGEST, 2, (1, 2), &polish()));
    let out = "replaces Polish/0: p ow1 l ih0 sh -> p ow1 l # exact\n";
    assert_eq!(shelf.run(&["kept", "add", "--exact", "Polish/nil", "p ow1 l"]), ended(0, out, ""));
    let out = "replaces polish/0: p aa1 l ih0 sh -> p aa1 l\n";
    assert_eq!(shelf.run(&["kept", "add", "POLISH", "p aa1 l"]), ended(0, out, ""));
    let replaced = [slot(0, b'0', "polish", "p aa1 l"), exact(1, b'0', "Polish", "p ow1 l")];
    shelf.holds(store(LARGEST, 4, (2, 1), &replaced));
}

#[test]
fn exact_and_ordinary_entries_do_not_replace_one_another() {
    let shelf = Shelf::with("exact_twins", store(LARGEST, 0, (0, 0), &[]));
    for (arguments, out) in [
        (&["polish", "k"][..], "new polish/0: k\n"),
        (&["--exact", "polish", "t"], "new polish/0: t # exact\n"),
        (&["--exact", "Polish", "p"], "new Polish/0: p # exact\n"),
        (&["--exact", "polish/n", "s"], "new polish/n: s # exact\n"),
        (&["Polish", "g"], "replaces polish/0: k -> g\n"),
        (&["--exact", "polish/0", "d"], "replaces polish/0: t -> d # exact\n"),
        (&["--exact", "-", ""], "new -/0: no phones # exact\n"),
        (&["--exact", "\u{1}X/", "k"], "new \\u{1}X/0: k # exact\n"),
    ] {
        let arguments = [&["kept", "add"], arguments].concat();
        assert_eq!(shelf.run(&arguments), ended(0, out, ""), "{arguments:?}");
    }
    let out = "Polish/0: p # exact\npolish/n: s # exact\npolish/0: g\npolish/0: d # exact\n\
        -/0: no phones # exact\n\\u{1}X/0: k # exact\n";
    assert_eq!(shelf.run(&["kept", "list"]), ended(0, out, ""));
}

#[test]
fn exact_stands_anywhere_before_two_dashes() {
    for arguments in [
        &["--exact", "kept", "add", "Iris", "k"][..],
        &["kept", "--exact", "add", "Iris", "k"],
        &["kept", "add", "Iris", "k", "--exact"],
        &["kept", "add", "--exact", "Iris", "--exact", "k"],
        &["--exact", "--", "kept", "add", "Iris", "k"],
    ] {
        let shelf = Shelf::with("exact_anywhere", two());
        let out = "new Iris/0: k # exact\n";
        assert_eq!(shelf.run(arguments), ended(0, out, ""), "{arguments:?}");
    }
    let shelf = Shelf::with("exact_anywhere", two());
    let out = "new --exact/0: k\n";
    assert_eq!(shelf.run(&["--", "kept", "add", "--exact", "k"]), ended(0, out, ""));
}

#[test]
fn exact_entries_are_refused_as_others_are() {
    let shelf = Shelf::with("exact_refused", two());
    let long = "X".repeat(48);
    let unknown = "is in neither lex.phones nor the 50 known phones. Correct its spelling.";
    for (word, phones, why) in [
        (&*long, "k", format!("3, \"{long}\" has more than 47 bytes. Shorten it.")),
        ("Zo\u{e9}", "k", "3, \"\u{e9}\" is not ASCII. Write it with plain letters.".into()),
        ("Iris", "ay1 R", format!("5, the phone \"R\" {unknown}")),
        ("Iris", &"k ".repeat(25), "7, too many phones: an added entry has at most 24, a word 96. Take some away, or split the word in two.".into()),
    ] {
        let err = format!("names: \"{word}\" is refused: {why}\n");
        assert_eq!(shelf.run(&["kept", "add", "--exact", word, phones]), ended(1, "", &err));
    }
    shelf.holds(two());
}

const FULL: &str = "8, the store is full: the largest holds 127 entries. \
    Begin a new store with the entries that this show needs.\n";

#[test]
fn in_a_full_store_a_twin_has_no_room() {
    let ordinary = store(1024, 1, (1, 1), &[slot(0, b'0', "polish", VERB)]);
    let shelf = Shelf::with("exact_full", &ordinary);
    let err = format!("names: \"polish\" is refused: {FULL}");
    assert_eq!(shelf.run(&["kept", "add", "--exact", "polish", "k"]), ended(1, "", &err));
    shelf.holds(&ordinary);

    let only = store(1024, 1, (1, 1), &[exact(0, b'0', "polish", NAME)]);
    shelf.put("kept", &only);
    shelf.put("text", "polish : k\n");
    assert_eq!(shelf.run(&["kept", "add", "polish", "k"]), ended(1, "", &err));
    let err = format!("names: entries of text: line 1 is refused: {FULL}");
    assert_eq!(shelf.run(&["kept", "preview", "text"]), ended(1, "", &err));
    let err = format!("names: nothing is accepted: entries of text: line 1 is refused: {FULL}");
    assert_eq!(shelf.run(&["kept", "accept", "text"]), ended(1, "", &err));
    let err = format!("say: entries of text: line 1 is refused: {FULL}");
    assert_eq!(shelf.say(&["--store=kept", "--entries=text", "polish"]), ended(1, "", &err));
    shelf.holds(&only);

    let out = "replaces polish/0: p ow1 l ih0 sh -> k # exact\n";
    assert_eq!(shelf.run(&["kept", "add", "--exact", "polish", "k"]), ended(0, out, ""));
}

#[test]
fn texts_pass_exact_entries_by() {
    let slots = [
        exact(2, b'0', "polish", NAME),
        exact(3, b'0', "Polish", NAME),
        exact(4, b'n', "Iris", IRIS),
        slot(0, b'n', "iris", IRIS),
    ];
    let before = store(LARGEST, 4, (1, 4), &slots);
    let shelf = Shelf::with("exact_texts", &before);
    shelf.put("text", "Polish : k\nIris n : t\npolish : s\n");
    let out = "replaces iris/n: ay1 r ih0 s -> t\nnew polish/0: s\nlines: 3, new: 1, replaced: 2\n";
    assert_eq!(shelf.run(&["kept", "preview", "text"]), ended(0, out, ""));
    shelf.holds(&before);
    assert_eq!(shelf.run(&["kept", "accept", "text"]), ended(0, out, ""));
    let mut after = slots.clone();
    after[3] = slot(5, b'n', "iris", "t");
    let after = [&after[..], &[slot(0, b'0', "polish", "s")]].concat();
    shelf.holds(store(LARGEST, 5, (1, 5), &after));

    shelf.put("text", "iris : k\nPOLISH : t\nmel m eh1 l\n");
    let out = "new iris/0: k\nreplaces polish/0: s -> t\n";
    let err = "names: entries of text: line 3 is refused: 4, a line has no colon, or no word before it. Write: word tag : phones\n";
    assert_eq!(shelf.run(&["kept", "preview", "text"]), ended(1, out, err));
}

#[test]
fn what_is_listed_as_exact_is_a_remark_in_a_text() {
    let shelf = Shelf::with("exact_remark", store(LARGEST, 2, (1, 2), &polish()));
    shelf.put("text", "Polish : p ow1 # exact\n");
    let out = "replaces polish/0: p aa1 l ih0 sh -> p ow1\nlines: 1, new: 0, replaced: 1\n";
    assert_eq!(shelf.run(&["kept", "preview", "text"]), ended(0, out, ""));
    assert_eq!(shelf.run(&["kept", "list"]), ended(0, POLISH, ""));
}

#[test]
fn each_word_is_said_by_its_own_entry() {
    let shelf = Shelf::with("exact_said", "");
    let said = "Polish (runtime): 1 p ow | 0 l ih sh\npolish (runtime): 1 p aa | 0 l ih sh\n\
        POLISH (runtime): 1 p aa | 0 l ih sh\nPolish/v (runtime): 1 p ow | 0 l ih sh\n";
    let [verb, name] = polish();
    let newer = store(LARGEST, 2, (1, 2), &[verb, name]);
    let older = [exact(2, b'0', "Polish", NAME), slot(0, b'0', "polish", VERB)];
    for bytes in [newer, store(LARGEST, 2, (1, 2), &older)] {
        shelf.put("kept", &bytes);
        let words = ["--store=kept", "Polish polish", "POLISH Polish/v"];
        assert_eq!(shelf.say(&words), ended(0, said, ""));
        shelf.holds(&bytes);
    }
}

#[test]
fn an_exact_entry_of_another_tag_is_passed_by() {
    let slots = [exact(2, b'n', "polish", NAME), slot(0, b'0', "polish", VERB)];
    let shelf = Shelf::with("exact_tag", store(1536, 2, (1, 2), &slots));
    let out = "polish/v (runtime): 1 p aa | 0 l ih sh\npolish/n (runtime): 1 p ow | 0 l ih sh\n\
        polish (runtime): 1 p ow | 0 l ih sh\n";
    assert_eq!(shelf.say(&["--store=kept", "polish/v polish/n polish"]), ended(0, out, ""));
}

#[test]
fn entries_of_a_text_do_not_hide_an_exact_one() {
    let shelf = Shelf::with("exact_entries", store(LARGEST, 2, (1, 2), &polish()));
    shelf.put("text", "Polish : k\n");
    let out = "entries: 1 taken\nPolish (runtime): 1 p ow | 0 l ih sh\npolish (runtime): 0 k\n";
    let arguments = ["--store=kept", "--entries=text", "Polish", "polish"];
    assert_eq!(shelf.say(&arguments), ended(0, out, ""));
}

#[test]
fn an_exact_entry_hides_a_compiled_word_for_the_same_letters_only() {
    let slots = [exact(0, b'0', "House", "hh uw1 z")];
    let shelf = Shelf::with("exact_compiled", store(1024, 1, (1, 1), &slots));
    let out = "House (runtime): 1 hh uw z\nhouse (compiled): 1 hh aw s\n\
        HOUSE -> house (compiled): 1 hh aw s\n";
    assert_eq!(shelf.say(&["--plain", "--store=kept", "House house HOUSE"]), ended(0, out, ""));
}

#[test]
fn a_plain_word_keeps_the_capitals_that_are_found() {
    let shelf = Shelf::with("exact_plain", store(LARGEST, 2, (1, 2), &polish()));
    for (word, out) in [
        ("Polish,", "Polish, -> Polish (runtime): 1 p ow | 0 l ih sh\n"),
        ("polish!", "polish! -> polish (runtime): 1 p aa | 0 l ih sh\n"),
        ("(POLISH)", "(POLISH) -> POLISH (runtime): 1 p aa | 0 l ih sh\n"),
        ("Polish's", "Polish's -> Polish (runtime): 1 p ow | 0 l ih sh\nPolish's -> 's (addenda): 0 z\n"),
        ("\"Polish'S\"", "\"Polish'S\" -> Polish (runtime): 1 p ow | 0 l ih sh\n\"Polish'S\" -> 's (addenda): 0 z\n"),
        ("Polish,/v", "Polish,/v -> Polish/v (runtime): 1 p ow | 0 l ih sh\n"),
    ] {
        assert_eq!(shelf.say(&["--plain", "--store=kept", word]), ended(0, out, ""));
    }
    for (word, found) in [("Polish,", "\"Polish\""), ("Polish's", "\"Polish\" with \"'s\"")] {
        let said = shelf.say(&["--store=kept", word]);
        let err = format!("warning: \"{word}\" is not in the lexicon, but {found} is: type that, or use --plain\n");
        assert_eq!((said.status, said.err), (Some(0), err));
        assert!(said.out.starts_with(&format!("{word} (letters): ")), "{}", said.out);
    }
}

#[test]
fn say_refuses_a_store_with_another_mark() {
    let mut slot = exact(0, b'0', "Polish", NAME);
    slot[52] = 2;
    let shelf = Shelf::with("exact_mark", store(1024, 1, (1, 1), &[slot]));
    let err = "say: kept is refused: 2, its bytes are not as a store has them. \
        Take a whole copy of the file, or begin another store (names OTHER_FILE new).\n";
    assert_eq!(shelf.say(&["--store=kept", "Polish"]), ended(1, "", err));
}
