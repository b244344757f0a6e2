//! Phones that are none of the 50: a warning, with the place and what uses it.

use crate::folders::Scratch;

#[test]
fn an_unknown_phone_of_an_entry_is_told_with_its_words() {
    let scratch = Scratch::new();
    scratch.small_with("folder", "lex.phones", b"\x02\0\0\0\x02ag\x01t");
    let ran = scratch.run(["folder"]);
    assert_eq!(ran.line("folder: "), "folder: fit for the show, with 1 warning");
    let expected =
        "warning: lex.phones, byte 5: phone 0, \"ag\", is none of the 50; used by at, et";
    assert_eq!(ran.line("warning: "), expected);
    assert_eq!((ran.err.as_str(), ran.status), ("", Some(0)));
}

#[test]
fn the_first_few_words_are_named_with_their_tags() {
    let scratch = Scratch::new();
    scratch.small_with("folder", "lex.phones", b"\x01\0\0\0\x03ag1");
    let mut index = vec![7, 0, 0, 0];
    let mut data = Vec::new();
    for word in 0..7 {
        index.extend([5 * word, 0, 0, 0]);
        data.extend([if word == 1 { b'n' } else { b'0' }, 1, b'a' + word, 1, 0]);
    }
    scratch.write("folder", "lex.index", &index);
    scratch.write("folder", "lex.data", &data);
    let ran = scratch.run(["folder"]);
    let expected =
        "warning: lex.phones, byte 5: phone 0, \"ag1\", is none of the 50; used by a, b/n, c, d, e and 2 more";
    assert_eq!(ran.line("warning: "), expected);
}

#[test]
fn a_phone_is_one_of_the_50_after_its_stress_digit() {
    let scratch = Scratch::new();
    for table in [b"\x02\0\0\0\x03ae1\x02h#", b"\x02\0\0\0\x03ae2\x02t2"] {
        scratch.small_with("known", "lts.phones", table);
        let ran = scratch.run(["known"]);
        assert_eq!(ran.line("known: "), "known: fit for the show");
    }
    scratch.small_with("unknown", "lts.phones", b"\x02\0\0\0\x03ae3\x04ae12");
    let ran = scratch.run(["unknown"]);
    assert_eq!(ran.line("unknown: "), "unknown: fit for the show, with 2 warnings");
    let expected =
        "warning: lts.phones, byte 5: phone 0, \"ae3\", is none of the 50; used by node 1 of \"a\"";
    assert_eq!(ran.line("warning: lts.phones, byte 5"), expected);
    let expected =
        "warning: lts.phones, byte 9: phone 1, \"ae12\", is none of the 50; nothing uses it";
    assert_eq!(ran.line("warning: lts.phones, byte 9"), expected);
}

#[test]
fn each_half_of_a_pair_is_a_phone_and_epsilon_is_none() {
    let scratch = Scratch::new();
    scratch.small_with("folder", "lts.phones", b"\x02\0\0\0\x05k-sss\x07epsilon");
    let ran = scratch.run(["folder"]);
    let expected = "warning: lts.phones, byte 5: \"sss\" in phone 0, \"k-sss\", is none of the 50; used by node 1 of \"a\"";
    assert_eq!(ran.line("warning: "), expected);
    assert_eq!(ran.line("folder: "), "folder: fit for the show, with 1 warning");
    scratch.small_with("lexicon", "lex.phones", b"\x02\0\0\0\x03k-s\x07epsilon");
    assert_eq!(
        scratch.run(["lexicon"]).line("lexicon: f"),
        "lexicon: fit for the show, with 2 warnings"
    );
}

#[test]
fn where_entries_are_damaged_nobody_is_named() {
    let scratch = Scratch::new();
    scratch.small_with("folder", "lex.phones", b"\x02\0\0\0\x02ag\x01t");
    scratch.write("folder", "lex.data", b"0");
    let ran = scratch.run(["folder"]);
    assert_eq!(
        ran.line("warning: "),
        "warning: lex.phones, byte 5: phone 0, \"ag\", is none of the 50"
    );
    assert_eq!(ran.status, Some(1));
}
