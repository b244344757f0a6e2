//! Texts of entries: what they would change, and what they change.

use std::fs;
use std::os::unix::fs::MetadataExt;

use crate::running::ended;
use crate::shelves::{slot, store, two, Shelf, LARGEST, LIGETI};

const TEXT: &str =
    "# tonight\nIris n : ih1 r ih0 s\ngobo : g ow1 b ow0\n\nGobo : g ow1 b ow1 # again\n";

const TOLD: &str = "replaces iris/n: ay1 r ih0 s -> ih1 r ih0 s\n\
    new gobo/0: g ow1 b ow1\n\
    lines: 3, new: 1, replaced: 2\n";

/// A folder with two() and the file `text`.
fn with_text(test: &str, text: impl AsRef<[u8]>) -> Shelf {
    let shelf = Shelf::with(test, two());
    shelf.put("text", text);
    shelf
}

#[test]
fn a_preview_tells_and_changes_nothing() {
    let shelf = with_text("preview", TEXT);
    let number = fs::metadata(shelf.file()).expect("it is there").ino();
    assert_eq!(shelf.run(&["kept", "preview", "text"]), ended(0, TOLD, ""));
    shelf.holds(two());
    assert_eq!(fs::metadata(shelf.file()).expect("it is there").ino(), number);
    assert_eq!(shelf.names(), ["kept", "text"]);
}

#[test]
fn what_is_accepted_is_told_and_kept() {
    let shelf = with_text("accept", TEXT);
    assert_eq!(shelf.run(&["kept", "accept", "text"]), ended(0, TOLD, ""));
    let slots = [
        slot(3, b'n', "iris", "ih1 r ih0 s"),
        slot(1, b'0', "ligeti", LIGETI),
        slot(0, b'0', "gobo", "g ow1 b ow1"),
    ];
    shelf.holds(store(LARGEST, 3, (2, 3), &slots));
    assert_eq!(shelf.names(), ["kept", "text"]);
    let out = "ligeti/0: l ih1 g eh0 t iy0\niris/n: ih1 r ih0 s\ngobo/0: g ow1 b ow1\n";
    assert_eq!(shelf.run(&["kept", "list"]), ended(0, out, ""));
}

#[test]
fn accepted_again_all_of_it_replaces() {
    let shelf = with_text("again", TEXT);
    assert_eq!(shelf.run(&["kept", "accept", "text"]), ended(0, TOLD, ""));
    let out = "replaces iris/n: ih1 r ih0 s -> ih1 r ih0 s\n\
        replaces gobo/0: g ow1 b ow1 -> g ow1 b ow1\n\
        lines: 3, new: 0, replaced: 3\n";
    assert_eq!(shelf.run(&["kept", "accept", "text"]), ended(0, out, ""));
}

#[test]
fn a_text_without_lines_is_accepted_too() {
    for text in ["", "\n", "# nobody\n \t\r\n"] {
        let shelf = with_text("no_lines", text);
        let out = "lines: 0, new: 0, replaced: 0\n";
        assert_eq!(shelf.run(&["kept", "preview", "text"]), ended(0, out, ""));
        assert_eq!(shelf.run(&["kept", "accept", "text"]), ended(0, out, ""));
        let mut after = two();
        after[8] = 3;
        shelf.holds(after);
    }
}

#[test]
fn entries_are_told_in_the_order_that_they_will_have() {
    let shelf = with_text("order", "a : k\nligeti : t\nb : k\na v : t\nA : t\n");
    let out = "replaces ligeti/0: l ih1 g eh0 t iy0 -> t\nnew b/0: k\nnew a/v: t\nnew a/0: t\n\
        lines: 5, new: 3, replaced: 2\n";
    assert_eq!(shelf.run(&["kept", "accept", "text"]), ended(0, out, ""));
    let out = "iris/n: ay1 r ih0 s\nligeti/0: t\nb/0: k\na/v: t\na/0: t\n";
    assert_eq!(shelf.run(&["kept", "list"]), ended(0, out, ""));
}

#[test]
fn a_full_store_takes_lines_that_replace() {
    let shelf = with_text("full", "a : t\nA : k\n");
    shelf.put("kept", store(1024, 5, (1, 1), &[slot(0, b'0', "a", "k")]));
    let out = "replaces a/0: k -> k\nlines: 2, new: 0, replaced: 2\n";
    assert_eq!(shelf.run(&["kept", "accept", "text"]), ended(0, out, ""));
    shelf.holds(store(1024, 6, (1, 1), &[slot(0, b'0', "a", "k")]));
}

#[test]
fn all_127_are_taken() {
    let text: String = (0..127).map(|n| format!("w{n} : ay1\n")).collect();
    let shelf = with_text("all", text);
    shelf.put("kept", store(LARGEST, 0, (0, 0), &[]));
    let told: String = (0..127).map(|n| format!("new w{n}/0: ay1\n")).collect();
    let out = format!("{told}lines: 127, new: 127, replaced: 0\n");
    assert_eq!(shelf.run(&["kept", "accept", "text"]), ended(0, &out, ""));
    assert_eq!(shelf.run(&["kept", "list"]).out, told.replace("new ", ""));
}

#[test]
fn a_text_may_come_through_a_pipe() {
    let shelf = with_text("pipe", TEXT);
    let line = "cat text | \"$0\" kept accept /dev/stdin";
    assert_eq!(shelf.shell(line), ended(0, TOLD, ""));
}

#[test]
fn where_a_text_stops_what_stands_before_is_told() {
    let shelf = with_text("stops", "gobo : g ow1\niris n : ay1\n# mel\nmel m eh1 l\nrest : k\n");
    let out = "new gobo/0: g ow1\nreplaces iris/n: ay1 r ih0 s -> ay1\n";
    let why = "entries of text: line 4 is refused: 4, a line has no colon, or no word before it. Write: word tag : phones\n";
    let err = format!("names: {why}");
    assert_eq!(shelf.run(&["kept", "preview", "text"]), ended(1, out, &err));
    let err = format!("names: nothing is accepted: {why}");
    assert_eq!(shelf.run(&["kept", "accept", "text"]), ended(1, out, &err));
    shelf.holds(two());
    assert_eq!(shelf.names(), ["kept", "text"]);
}

#[test]
fn each_refusal_of_a_line_is_told() {
    let long = "x".repeat(48);
    let phones = "k ".repeat(25);
    let full: String = (0..126).map(|n| format!("w{n} : k\n")).collect();
    let longest = "y".repeat(1000);
    for (text, told) in [
        (format!("{long} : k\n"), format!("line 1 is refused: 3, \"{long}\" has more than 47 bytes. Shorten it.")),
        (format!("{longest} : k\n"), format!("line 1 is refused: 3, \"{}..\" has more than 47 bytes. Shorten it.", "y".repeat(100))),
        ("zoé : k\n".into(), "line 1, byte 3 is refused: 3, \"é\" is not ASCII. Write it with plain letters.".into()),
        (": k\n".into(), "line 1 is refused: 4, a line has no colon, or no word before it. Write: word tag : phones".into()),
        ("a : ih9\n".into(), "line 1 is refused: 5, the phone \"ih9\" is in neither lex.phones nor the 50 known phones. Correct its spelling.".into()),
        (format!("a : {phones}\n"), "line 1 is refused: 7, too many phones: an added entry has at most 24, a word 96. Take some away, or split the word in two.".into()),
        (full, "line 126 is refused: 8, the store is full: the largest holds 127 entries. Begin a new store with the entries that this show needs.".into()),
    ] {
        let shelf = with_text("each_refusal", text);
        let shown = shelf.run(&["kept", "preview", "text"]);
        assert_eq!((shown.status, shown.err), (Some(1), format!("names: entries of text: {told}\n")));
        assert_eq!(shown.out.lines().count(), if told.contains(" 8,") { 125 } else { 0 });
        let accepted = shelf.run(&["kept", "accept", "text"]);
        let err = format!("names: nothing is accepted: entries of text: {told}\n");
        assert_eq!((accepted.status, accepted.err), (Some(1), err));
        assert_eq!(accepted.out, shown.out);
        shelf.holds(two());
    }
}

#[test]
fn a_store_without_slots_takes_no_line() {
    let shelf = with_text("no_slots", "a : k\n");
    shelf.put("kept", store(512, 0, (0, 0), &[]));
    let err = "names: entries of text: line 1 is refused: 8, the store is full: the largest holds 127 entries. \
        Begin a new store with the entries that this show needs.\n";
    assert_eq!(shelf.run(&["kept", "preview", "text"]), ended(1, "", err));
}

#[test]
fn a_text_that_cannot_be_read_is_told() {
    let shelf = Shelf::with("unread", two());
    for (text, told) in [
        ("nowhere", "cannot read nowhere: No such file or directory (os error 2)"),
        (".", "cannot read .: Is a directory (os error 21)"),
        ("kept/x", "cannot read kept/x: Not a directory (os error 20)"),
        ("/dev/zero", "/dev/zero has more than 16777216 bytes; part it"),
    ] {
        for task in ["preview", "accept"] {
            assert_eq!(shelf.run(&["kept", task, text]), ended(1, "", &format!("names: {told}\n")));
        }
    }
    shelf.holds(two());
}

/// Numbers that look thrown, the same each time.
fn thrown(seed: u64) -> impl Iterator<Item = u64> {
    std::iter::successors(Some(seed * 2 + 1), |last| {
        Some(last.wrapping_mul(6_364_136_223_846_793_005).wrapping_add(1_442_695_040_888_963_407))
    })
    .map(|number| number >> 33)
}

#[test]
fn any_text_is_answered() {
    let parts: [&[u8]; 12] = [
        b"\n", b"\n", b":", b" : ", b"#", b"\"", b"iris", b" n ", b"k ay1", b"\x01", b"/", b"\xff",
    ];
    for seed in 0..60 {
        let ascii = if seed % 4 == 0 { 12 } else { 11 };
        let text: Vec<&[u8]> =
            thrown(seed).skip(1).take(60).map(|at| parts[at as usize % ascii]).collect();
        let shelf = with_text("any_text", text.concat());
        let shown = shelf.run(&["kept", "preview", "text"]);
        let last = shown.out.lines().last().unwrap_or_default();
        match shown.status {
            Some(0) => assert!(last.starts_with("lines: ") && shown.err.is_empty(), "{shown:?}"),
            Some(1) => assert!(shown.err.starts_with("names: entries of text"), "{shown:?}"),
            _ => panic!("{shown:?}"),
        }
        let accepted = shelf.run(&["kept", "accept", "text"]);
        assert_eq!((accepted.status, &accepted.out), (shown.status, &shown.out));
        assert_eq!(shelf.bytes() == two(), shown.status == Some(1));
    }
}

#[test]
fn any_bytes_of_a_store_are_answered() {
    let shelf = with_text("any_store", "iris n : k\n");
    let mut unsound = 0;
    for seed in 0..60 {
        let mut bytes = two();
        let mut numbers = thrown(seed).skip(1);
        let mut next = |below: usize| numbers.next().expect("it never ends") as usize % below;
        for _ in 0..1 + next(3) {
            let (at, byte) = (next(if seed % 2 == 0 { 16 } else { 1536 }), next(256) as u8);
            bytes[at] = byte;
        }
        shelf.put("kept", &bytes);
        let listed = shelf.run(&["kept", "list"]);
        let accepted = shelf.run(&["kept", "accept", "text"]);
        assert!(matches!(listed.status, Some(0 | 1)), "{listed:?}");
        if listed.status == Some(1) {
            unsound += 1;
            assert_eq!(listed, accepted);
            shelf.holds(bytes);
        }
    }
    assert!((20..60).contains(&unsound), "{unsound}");
}
