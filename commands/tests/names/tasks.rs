//! A store that is made, listed and added to.

use crate::running::ended;
use crate::shelves::{slot, store, two, Shelf, IRIS, LARGEST, LIGETI, TWO};

#[test]
fn a_new_store_is_the_largest_and_has_no_entry() {
    let shelf = Shelf::without("new");
    assert_eq!(shelf.run(&["kept", "new"]), ended(0, "", ""));
    shelf.holds(vec![0; LARGEST]);
    assert_eq!(shelf.run(&["kept", "list"]), ended(0, "", ""));
    assert_eq!(shelf.names(), ["kept"]);
}

#[test]
fn what_is_there_is_not_made_anew() {
    let shelf = Shelf::with("taken", two());
    let told = "is there already, and stays as it is: name another file for a new store\n";
    for name in ["kept", ".", "/dev/null"] {
        let err = format!("names: {name} {told}");
        assert_eq!(shelf.run(&[name, "new"]), ended(1, "", &err));
    }
    shelf.holds(two());
}

#[test]
fn entries_are_listed_from_the_oldest_on() {
    let shelf = Shelf::with("list", two());
    assert_eq!(shelf.run(&["kept", "list"]), ended(0, TWO, ""));

    let slots = [
        slot(0, b'n', "iris", IRIS),
        slot(1, b'0', "ligeti", LIGETI),
        slot(2, b'v', "", ""),
        slot(3, 27, "a/b\u{1}\"", "h# zz"),
    ];
    shelf.put("kept", store(2560, 9, (4, 1), &slots));
    let out = "a/b\\u{1}\"/\\u{1b}: h# zz\n/v: no phones\nligeti/0: l ih1 g eh0 t iy0\niris/n: ay1 r ih0 s\n";
    assert_eq!(shelf.run(&["kept", "list"]), ended(0, out, ""));

    shelf.put("kept", store(512, 0, (0, 0), &[]));
    assert_eq!(shelf.run(&["kept", "list"]), ended(0, "", ""));
}

#[test]
fn list_and_new_take_no_tables() {
    let shelf = Shelf::with("no_tables", two());
    assert_eq!(shelf.run(&["--tables=nowhere", "kept", "list"]), ended(0, TWO, ""));
    assert_eq!(shelf.run(&["other", "new", "--tables=nowhere"]), ended(0, "", ""));
}

#[test]
fn an_entry_is_added() {
    let shelf = Shelf::with("add", two());
    let out = "new gobo/n: g ow1 b ow0\n";
    assert_eq!(shelf.run(&["kept", "add", "Gobo/noun", "g", "ow1", "b", "ow0"]), ended(0, out, ""));
    let added = [
        slot(2, b'n', "iris", IRIS),
        slot(3, b'0', "ligeti", LIGETI),
        slot(0, b'n', "gobo", "g ow1 b ow0"),
    ];
    shelf.holds(store(LARGEST, 3, (1, 3), &added));
    assert_eq!(shelf.names(), ["kept"]);
}

#[test]
fn an_entry_is_replaced() {
    let shelf = Shelf::with("replaced", two());
    let out = "replaces iris/n: ay1 r ih0 s -> ih1 r ih0 s\n";
    assert_eq!(shelf.run(&["kept", "add", "IRIS/n", "ih1 r ih0 s"]), ended(0, out, ""));
    let replaced = [slot(0, b'n', "iris", "ih1 r ih0 s"), slot(1, b'0', "ligeti", LIGETI)];
    shelf.holds(store(LARGEST, 3, (2, 1), &replaced));
}

#[test]
fn entries_are_typed_as_they_are_told() {
    let shelf = Shelf::with("typed", two());
    for (arguments, out) in [
        (&["iris", "ay1"][..], "new iris/0: ay1\n"),
        (&["iris/", "ay0"], "replaces iris/0: ay1 -> ay0\n"),
        (&["iris/0", "ay1"], "replaces iris/0: ay0 -> ay1\n"),
        (&["iris/nil", "ay1"], "replaces iris/0: ay1 -> ay1\n"),
        (&["iris/v", " g  ay1\t", "", "k"], "new iris/v: g ay1 k\n"),
        (&["/", "s", "l", "ae1", "sh"], "new //0: s l ae1 sh\n"),
        (&["//0", "s"], "replaces //0: s l ae1 sh -> s\n"),
        (&["tempo#2", "h#"], "new tempo#2/0: h#\n"),
        (&["-", ""], "new -/0: no phones\n"),
        (&["-", "pau"], "replaces -/0: no phones -> pau\n"),
        (&["\u{1}x", "k"], "new \\u{1}x/0: k\n"),
    ] {
        let arguments = [&["kept", "add"], arguments].concat();
        assert_eq!(shelf.run(&arguments), ended(0, out, ""), "{arguments:?}");
    }
    assert_eq!(shelf.bytes()[8], 2 + 11);
}

#[test]
fn a_store_keeps_its_length() {
    let shelf = Shelf::with("length", store(1024, 0, (0, 0), &[]));
    assert_eq!(shelf.run(&["kept", "add", "iris/n", IRIS]).status, Some(0));
    let one = [slot(0, b'n', "iris", IRIS)];
    shelf.holds(store(1024, 1, (1, 1), &one));
    // what stands in unused slots stays
    let mut longer = shelf.bytes();
    longer.extend([0xff; 512]);
    shelf.put("kept", &longer);
    assert_eq!(shelf.run(&["kept", "add", "iris/n", "ay1"]).status, Some(0));
    assert_eq!(shelf.bytes()[1024..], [0xff; 512]);
    assert_eq!(shelf.bytes()[..1024], store(1024, 2, (1, 1), &[slot(0, b'n', "iris", "ay1")]));
}
