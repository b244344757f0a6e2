//! Where a fault is told to be: in lex.index or lex.data, in lts.index or lts.model, in the machines.

use crate::folders::{english_section, Scratch};

/// The line of the fault of a folder like the small one but for a section.
fn fault(section: &str, bytes: &[u8], front: &str) -> String {
    let scratch = Scratch::new();
    scratch.small_with("folder", section, bytes);
    let ran = scratch.run(["folder"]);
    assert_eq!((ran.err.as_str(), ran.status), ("", Some(1)));
    ran.line(front).to_string()
}

#[test]
fn an_offset_outside_lex_data_is_a_fault_of_lex_index() {
    let told = fault("lex.index", b"\x02\0\0\0\0\0\0\0\x11\x11\0\x08", "lex.index, ");
    let expected =
        "lex.index, byte 8: entry 1 starts at byte 134222097 of lex.data: expected byte 7, \
                    where the entry before it ends";
    assert_eq!(told, expected);
}

#[test]
fn an_offset_behind_the_last_entry_is_one_too() {
    let told = fault("lex.index", b"\x03\0\0\0\0\0\0\0\x07\0\0\0\x0e\0\0\0", "lex.index, ");
    let expected = "lex.index, byte 12: entry 2 starts at byte 14 of lex.data: expected a place inside its 14 bytes";
    assert_eq!(told, expected);
}

#[test]
fn an_offset_into_the_middle_of_an_entry_is_one_too() {
    let told = fault("lex.index", b"\x02\0\0\0\0\0\0\0\x08\0\0\0", "lex.index, ");
    let expected = "lex.index, byte 8: entry 1 starts at byte 8 of lex.data: expected byte 7, where the entry before it ends";
    assert_eq!(told, expected);
    let told = fault("lex.index", b"\x02\0\0\0\x01\0\0\0\x07\0\0\0", "lex.index, ");
    let expected = "lex.index, byte 4: entry 0 starts at byte 1 of lex.data: expected byte 0, where lex.data begins";
    assert_eq!(told, expected);
}

#[test]
fn an_entry_out_of_order_may_be_a_fault_of_the_offset_before_it() {
    let told = fault("lex.index", b"\x02\0\0\0\x07\0\0\0\0\0\0\0", "lex.index, ");
    let expected = "lex.index, byte 4: entry 0 starts at byte 7 of lex.data: expected byte 0, where lex.data begins";
    assert_eq!(told, expected);
}

#[test]
fn a_changed_offset_of_the_english_lexicon_is_told_in_lex_index() {
    let scratch = Scratch::new();
    scratch.english("folder");
    let mut index = english_section("lex.index");
    index[4 + 4 * 200 + 3] = 8;
    scratch.write("folder", "lex.index", &index);
    let ran = scratch.run(["folder"]);
    assert!(ran.line("lex.").starts_with("lex.phones: its form holds"));
    assert!(ran
        .line("lex.index, byte 804: entry 200 starts at byte 1342")
        .contains(" of lex.data: expected byte "));
    assert_eq!(ran.status, Some(1));
}

#[test]
fn a_letter_that_begins_outside_is_a_fault_of_lts_index() {
    let mut index = [0; 52];
    index[4..6].copy_from_slice(&[0x2c, 0x01]);
    let told = fault("lts.index", &index, "lts.index, ");
    let expected = "lts.index, byte 4: the tree of \"c\" begins at node 300: expected one of the 2 nodes that lts.model has";
    assert_eq!(told, expected);
}

/// Node 0 asks and leads to 1 and 2, node 1 never matches and leads to 2, node 2 is a leaf.
const THREE: &[u8; 18] = b"\0x\x01\0\x02\0\x08x\xff\xff\x02\0\xff\0\0\0\0\0";

#[test]
fn a_question_that_never_matches_has_one_side_only() {
    let scratch = Scratch::new();
    scratch.small_with("folder", "lts.model", THREE);
    let ran = scratch.run(["folder"]);
    assert_eq!(ran.line("  deepest tree"), "  deepest tree: 3 nodes, of \"a\"");
    assert_eq!(ran.status, Some(0));
}

#[test]
fn a_circle_over_several_nodes_is_told_where_it_closes() {
    let mut model = *THREE;
    model[10] = 0;
    let told = fault("lts.model", &model, "lts.model, ");
    let expected = "lts.model, byte 10: in the tree of \"a\" node 1 leads back to node 0: expected every question to end in a leaf";
    assert_eq!(told, expected);
}

/// "#" leads to the state in cell 2, and from there "t" to a state, and vowels to another.
fn machine(t: u8, vowel: u8) -> Vec<u8> {
    let cells = [
        b'#' as u16 + 2 * 128,
        0,
        b't' as u16 + t as u16 * 128,
        b'V' as u16 + vowel as u16 * 128,
        0,
    ];
    let bytes = cells.into_iter().flat_map(u16::to_le_bytes);
    [0; 4].into_iter().chain(bytes).collect()
}

#[test]
fn a_cell_that_leads_outside_is_told() {
    let scratch = Scratch::new();
    scratch.small_with("folder", "aswd.p", &machine(2, 1));
    scratch.write("folder", "aswd.s", &machine(5, 1));
    let ran = scratch.run(["folder"]);
    let expected = "aswd.s, byte 8: a cell leads by \"t\" to state 5: expected one below 5, its count of cells";
    assert_eq!(ran.line("aswd.s, "), expected);
    assert_eq!(
        ran.line("folder: "),
        "folder: not fit for the show: a machine has a cell that leads outside"
    );
    assert_eq!(ran.status, Some(1));
}

#[test]
fn behind_a_vowel_no_state_is_looked_at() {
    let scratch = Scratch::new();
    scratch.small_with("folder", "aswd.p", &machine(2, 200));
    scratch.write("folder", "aswd.s", &machine(2, 200));
    assert_eq!(scratch.run(["folder"]).status, Some(0));
}

#[test]
fn a_start_that_only_aswd_p_has_is_told() {
    let told = fault("aswd.p", &machine(2, 1), "aswd.s: has");
    let expected = "aswd.s: has 0 cells, and aswd.p leads by \"#\" to state 2 of both: expected at least 3 cells";
    assert_eq!(told, expected);
}
