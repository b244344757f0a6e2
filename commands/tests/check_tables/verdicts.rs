//! The verdict on each kind of damage, in folders that are broken in one place.

use crate::folders::{Scratch, NAMES};
use crate::running::english;

const LEXICON: &str = "\
lex.phones: its form holds, 2 phones
lex.index: its form holds, 2 entries
lex.data: its form holds, 14 bytes
lexicon: every entry is whole, and the words are in order
";
const LETTERS: &str = "\
lts.phones: its form holds, 2 phones
lts.index: its form holds, 26 letters
lts.model: its form holds, 2 nodes
letters: every way through every tree ends in a phone
";
const MACHINES: &str = "\
aswd.p: its form holds, 0 cells
aswd.s: its form holds, 0 cells
";
const NO_CHECKSUMS: &str =
    "checksums: there is no such file, so that a changed bit may go unseen\n";

/// What is counted in the lexicon and in the trees.
const COUNTED: &str = "  2 entries, 2 words, 0 homographs, 2 nodes\n";
const DEEPEST: &str = "  deepest tree: 2 nodes, of \"a\"\n";
const LEX_UNUSED: &str = "  phones of lex.phones never used: none\n";
const LTS_UNUSED: &str = "  phones of lts.phones never used: t\n";
const SHEETS: &str = "  suits sheets of versions 1 and 2\n";

const FORM: &str = "a section breaks its form";
const DAMAGED: &str = "the lexicon has a damaged entry, or one out of order";
const TREE: &str = "a letter's tree is damaged";

/// A folder like the small one but for a section; it is not fit for the reason, and the parts are its output.
fn check_broken(section: &str, bytes: &[u8], reason: &str, parts: &[&str]) {
    let scratch = Scratch::new();
    scratch.small_with("broken", section, bytes);
    let ran = scratch.run(["broken"]);
    let expected = format!("broken: not fit for the show: {reason}\n{}", parts.concat());
    assert_eq!(ran.out, expected);
    assert_eq!((ran.err.as_str(), ran.status), ("", Some(1)));
}

/// A break in lex.phones.
fn check_lex_phones(bytes: &[u8], line: &str) {
    let held = "\nlex.index: its form holds, 2 entries\nlex.data: its form holds, 14 bytes\n";
    let counted = "  2 entries, 2 nodes\n";
    let parts = [counted, DEEPEST, LTS_UNUSED, line, held, LETTERS, MACHINES, NO_CHECKSUMS];
    check_broken("lex.phones", bytes, FORM, &parts);
}

/// A break in lts.phones.
fn check_lts_phones(bytes: &[u8], line: &str) {
    let held = "\nlts.index: its form holds, 26 letters\nlts.model: its form holds, 2 nodes\n";
    let parts = [COUNTED, LEX_UNUSED, LEXICON, line, held, MACHINES, NO_CHECKSUMS];
    check_broken("lts.phones", bytes, FORM, &parts);
}

/// An entry at fault in lex.data.
fn check_entries(bytes: &[u8], line: &str) {
    let held = format!(
        "lex.phones: its form holds, 2 phones\nlex.index: its form holds, 2 entries\n\
         lex.data: its form holds, {} bytes\n{line}\n",
        bytes.len()
    );
    let counted = "  2 entries, 2 nodes\n";
    let parts = [counted, DEEPEST, LTS_UNUSED, &held, LETTERS, MACHINES, NO_CHECKSUMS];
    check_broken("lex.data", bytes, DAMAGED, &parts);
}

/// A damaged tree in lts.model.
fn check_trees(bytes: &[u8], line: &str) {
    let held = "lts.phones: its form holds, 2 phones\nlts.index: its form holds, 26 letters\n\
                lts.model: its form holds, 2 nodes\n";
    let parts = [COUNTED, LEX_UNUSED, LEXICON, held, line, "\n", MACHINES, NO_CHECKSUMS];
    check_broken("lts.model", bytes, TREE, &parts);
}

#[test]
fn english_is_fit() {
    let folder = english();
    let ran = Scratch::new().run([&folder]);
    let (first, rest) = ran.out.split_once('\n').expect("there are lines");
    assert_eq!(first, format!("{}: fit for the show", folder.display()));
    let expected = "  509 entries, 462 words, 46 homographs, 3321 nodes
  deepest tree: 59 nodes, of \"a\"
  phones of lex.phones never used: 31 vowels with their stress
  phones of lts.phones never used: none
  suits sheets of versions 1 and 2
lex.phones: its form holds, 83 phones
lex.index: its form holds, 509 entries
lex.data: its form holds, 6507 bytes
lexicon: every entry is whole, and the words are in order
lts.phones: its form holds, 56 phones
lts.index: its form holds, 26 letters
lts.model: its form holds, 3321 nodes
letters: every way through every tree ends in a phone
aswd.p: its form holds, 116 cells
aswd.s: its form holds, 219 cells
checksums: all eight sections match
";
    assert_eq!(rest, expected);
    assert_eq!((ran.err.as_str(), ran.status), ("", Some(0)));
}

#[test]
fn a_small_folder_is_fit() {
    let scratch = Scratch::new();
    scratch.small("small");
    let ran = scratch.run(["small"]);
    let parts = [
        "small: fit for the show\n",
        COUNTED,
        DEEPEST,
        LEX_UNUSED,
        LTS_UNUSED,
        SHEETS,
        LEXICON,
        LETTERS,
        MACHINES,
        NO_CHECKSUMS,
    ];
    assert_eq!(ran.out, parts.concat());
    assert_eq!((ran.err.as_str(), ran.status), ("", Some(0)));
}

#[test]
fn a_missing_section_is_told() {
    let scratch = Scratch::new();
    scratch.small("missing");
    scratch.remove("missing", "lts.model");
    let ran = scratch.run(["missing"]);
    let parts = [
        "missing: not fit for the show: a section is missing or cannot be read\n",
        "  2 entries, 2 words, 0 homographs\n",
        LEX_UNUSED,
        LEXICON,
        "lts.phones: its form holds, 2 phones\n",
        "lts.index: its form holds, 26 letters\n",
        "lts.model: cannot be read: No such file or directory (os error 2). ",
        "See that the file is there and may be read.\n",
        MACHINES,
        NO_CHECKSUMS,
    ];
    assert_eq!(ran.out, parts.concat());
    assert_eq!((ran.err.as_str(), ran.status), ("", Some(1)));
}

#[test]
fn a_missing_folder_lacks_each_section() {
    let ran = Scratch::new().run(["nowhere"]);
    let mut expected =
        "nowhere: not fit for the show: a section is missing or cannot be read\n".to_string();
    for name in NAMES {
        let why = "cannot be read: No such file or directory (os error 2)";
        expected += &format!("{name}: {why}. See that the file is there and may be read.\n");
    }
    assert_eq!(ran.out, expected + NO_CHECKSUMS);
    assert_eq!(ran.status, Some(1));
}

#[test]
fn tables_of_phones_break_at_a_byte() {
    check_lex_phones(
        b"\x02\0\0",
        "lex.phones, byte 3: breaks its form: expected 4 bytes that count the phones",
    );
    check_lex_phones(
        b"\x01\x01\0\0",
        "lex.phones, byte 0: breaks its form: expected a count of 256 phones at most",
    );
    check_lex_phones(
        b"\x02\0\0\0\x02ae\x10t",
        "lex.phones, byte 7: breaks its form: expected a phone's length, 15 at most",
    );
    check_lex_phones(
        b"\x02\0\0\0\x02ae\x01\xe9",
        "lex.phones, byte 8: breaks its form: expected a byte below 128",
    );
    check_lts_phones(
        b"\x02\0\0\0\x02ae\x02t",
        "lts.phones, byte 9: breaks its form: expected the rest of a phone",
    );
    check_lts_phones(
        b"\x03\0\0\0\x02ae\x01t",
        "lts.phones, byte 9: breaks its form: expected another phone, since the count says more",
    );
}

#[test]
fn an_index_of_entries_breaks_at_its_end() {
    let lines = "lex.phones: its form holds, 2 phones\n\
                 lex.index, byte 8: breaks its form: expected 4 bytes that count the entries, and 4 for each of them\n\
                 lex.data: its form holds, 14 bytes\n";
    let parts = ["  2 nodes\n", DEEPEST, LTS_UNUSED, lines, LETTERS, MACHINES, NO_CHECKSUMS];
    check_broken("lex.index", b"\x02\0\0\0\0\0\0\0", FORM, &parts);
}

#[test]
fn a_damaged_entry_is_told_with_its_byte() {
    check_entries(
        b"0\x02at\x02\0\x010\x02et\x02\0",
        "lex.data, byte 7: entry 1 is damaged: expected its tag, word and phone numbers inside lex.data",
    );
    check_entries(
        b"0\x02at\x02\0\x020\x02et\x02\0\x01",
        "lex.data, byte 6: entry 0, \"at\", names phone 2: expected a number that lex.phones has",
    );
    check_entries(
        b"0\x02at\x02\0\x010\x02e\xf4\x02\0\x01",
        "lex.data, byte 10: the word of entry 1 is damaged: expected a byte below 128",
    );
    check_entries(
        b"0\x02et\x02\0\x010\x02at\x02\0\x01",
        "lex.data, byte 7: entry 1, \"at\", stands behind \"et\": expected words in the order of their bytes",
    );
}

#[test]
fn the_index_of_letters_breaks_at_its_end() {
    let lines = "lts.phones: its form holds, 2 phones\n\
                 lts.index, byte 51: breaks its form: expected 52 bytes, 2 for each letter\n\
                 lts.model: its form holds, 2 nodes\n";
    let parts = [COUNTED, LEX_UNUSED, LEXICON, lines, MACHINES, NO_CHECKSUMS];
    check_broken("lts.index", &[0; 51], FORM, &parts);
}

#[test]
fn nodes_that_are_not_whole_break_the_form() {
    let lines = "lts.phones: its form holds, 2 phones\n\
                 lts.index: its form holds, 26 letters\n\
                 lts.model, byte 7: breaks its form: expected 6 bytes for each node, 65,536 nodes at most\n";
    let counted = "  2 entries, 2 words, 0 homographs\n";
    let parts = [counted, LEX_UNUSED, LEXICON, lines, MACHINES, NO_CHECKSUMS];
    check_broken("lts.model", b"\xff\0\0\0\0\0\xff", FORM, &parts);
}

#[test]
fn a_damaged_tree_is_told_with_section_byte_letter_and_node() {
    check_trees(
        b"\0x\x01\0\0\0\xff\0\0\0\0\0",
        "lts.model, byte 4: in the tree of \"a\" node 0 leads back to node 0: \
         expected every question to end in a leaf",
    );
}

#[test]
fn a_leaf_without_a_phone_is_told() {
    check_trees(
        b"\0x\x01\0\x01\0\xff\x09\0\0\0\0",
        "lts.model, byte 7: in the tree of \"a\" node 1 is a leaf with phone 9: \
         expected a number that lts.phones has",
    );
}

#[test]
fn a_node_outside_is_told() {
    check_trees(
        b"\0x\x01\0\x02\0\xff\0\0\0\0\0",
        "lts.model, byte 4: in the tree of \"a\" node 0 leads to node 2: \
         expected one of the 2 nodes that lts.model has",
    );
}

#[test]
fn a_machine_without_its_front_breaks_its_form() {
    let lines = "aswd.p: its form holds, 0 cells\n\
                 aswd.s, byte 3: breaks its form: expected 4 bytes in front of the cells\n";
    let summary = [COUNTED, DEEPEST, LEX_UNUSED, LTS_UNUSED, SHEETS].concat();
    let parts = [&summary, LEXICON, LETTERS, lines, NO_CHECKSUMS];
    check_broken("aswd.s", &[0; 3], FORM, &parts);
}
