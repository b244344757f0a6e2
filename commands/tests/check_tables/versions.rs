//! The versions of the sheet that tables suit, by the use of secondary stress, and vowels that nobody uses.

use crate::folders::{Scratch, NAMES};
use crate::running::{english, Ended};

const BOTH: &str = "  suits sheets of versions 1 and 2";

/// The run on a folder like the small one but for these sections.
fn run(sections: &[(&str, &[u8])]) -> Ended {
    let scratch = Scratch::new();
    scratch.small("folder");
    for (name, bytes) in sections {
        scratch.write("folder", name, bytes);
    }
    scratch.run(["folder"])
}

/// What is said of versions, on a folder that is fit and without a warning.
fn suited(sections: &[(&str, &[u8])]) -> String {
    let ran = run(sections);
    assert_eq!(ran.line("folder: "), "folder: fit for the show");
    assert_eq!((ran.err.as_str(), ran.status), ("", Some(0)));
    ran.line("  suits ").to_string()
}

#[test]
fn primary_stress_suits_both_versions() {
    let stressed: &[u8] = b"\x02\0\0\0\x03ae1\x02t0";
    assert_eq!(suited(&[("lex.phones", stressed), ("lts.phones", stressed)]), BOTH);
}

#[test]
fn entries_with_a_secondary_stress_suit_version_2_only() {
    let said = "  suits sheets of version 2 only: 2 entries and 0 leaves have a secondary stress";
    assert_eq!(suited(&[("lex.phones", b"\x02\0\0\0\x03ae2\x01t")]), said);
    let one: &[u8] = b"0\x02at\x02\x02\x010\x02et\x02\0\x01";
    let said = "  suits sheets of version 2 only: 1 entry and 0 leaves have a secondary stress";
    assert_eq!(suited(&[("lex.phones", b"\x03\0\0\0\x02ae\x01t\x03ae2"), ("lex.data", one)]), said);
}

#[test]
fn leaves_with_a_secondary_stress_suit_version_2_only() {
    let said = "  suits sheets of version 2 only: 0 entries and 1 leaf have a secondary stress";
    for table in [&b"\x01\0\0\0\x03ae2"[..], b"\x01\0\0\0\x05t-ae2", b"\x01\0\0\0\x05ae2-t"] {
        assert_eq!(suited(&[("lts.phones", table)]), said);
    }
    let two: &[u8] = b"\0x\x01\0\x02\0\xff\0\0\0\0\0\xff\x01\0\0\0\0";
    let said = "  suits sheets of version 2 only: 0 entries and 2 leaves have a secondary stress";
    assert_eq!(suited(&[("lts.phones", b"\x02\0\0\0\x03ae2\x05t-ey2"), ("lts.model", two)]), said);
}

#[test]
fn a_secondary_stress_that_nobody_uses_suits_both_versions() {
    let sections: [(&str, &[u8]); 2] = [
        ("lex.phones", b"\x03\0\0\0\x02ae\x01t\x03ae2"),
        ("lts.phones", b"\x03\0\0\0\x02ae\x01t\x03ae2"),
    ];
    assert_eq!(suited(&sections), BOTH);
    let unreached: &[u8] = b"\xff\0\0\0\0\0\xff\x02\0\0\0\0";
    assert_eq!(suited(&[sections[1], ("lts.model", unreached)]), BOTH);
}

#[test]
fn scripts_are_told_versions_and_counts() {
    let scratch = Scratch::new();
    scratch.small_with("folder", "lex.phones", b"\x02\0\0\0\x03ae2\x01t");
    scratch.write("folder", "lts.phones", b"\x01\0\0\0\x03ae2");
    let ran = scratch.run(["--json", "folder"]);
    let field =
        "\"sheet_versions\": {\"suits\": [2], \"entries\": 2, \"leaves\": 1}}, \"faults\": []";
    assert!(ran.out.contains(field), "{}", ran.out);
}

#[test]
fn where_entries_or_leaves_are_not_known_nothing_is_said() {
    for name in &NAMES[..6] {
        let ran = run(&[("lex.phones", b"\x02\0\0\0\x03ae2\x01t"), (*name, b"\0")]);
        assert!(!ran.out.contains("suits "), "{name}: {}", ran.out);
        assert_eq!(ran.status, Some(1));
    }
    let ran = run(&[("lex.data", b"0\x02at\x02\0\x090\x02et\x02\0\x01")]);
    assert!(!ran.out.contains("suits "), "{}", ran.out);
}

#[test]
fn other_faults_are_in_nobodys_way() {
    for name in &NAMES[6..] {
        let ran = run(&[(*name, b"")]);
        assert_eq!((ran.line("  suits "), ran.status), (BOTH, Some(1)));
    }
}

#[test]
fn vowels_that_no_entry_has_are_counted_and_others_named() {
    let tables: [(&[u8], &str); 4] = [
        (b"\x03\0\0\0\x02ae\x01t\x03ey2", "1 vowel with its stress"),
        (b"\x04\0\0\0\x02ae\x01t\x03ey0\x03ey2", "2 vowels with their stress"),
        (b"\x05\0\0\0\x02ae\x01t\x03ey1\x01k\x03el2", "k, and 2 vowels with their stress"),
        (b"\x05\0\0\0\x02ae\x01t\x02ey\x02k2\x02zh", "ey k2 zh"),
    ];
    for (table, said) in tables {
        let ran = run(&[("lex.phones", table), ("lts.phones", b"\x02\0\0\0\x02ae\x03ey2")]);
        assert_eq!(
            ran.line("  phones of lex"),
            format!("  phones of lex.phones never used: {said}")
        );
        assert_eq!(ran.line("  phones of lts"), "  phones of lts.phones never used: ey2");
    }
}

#[test]
fn scripts_are_told_every_phone_that_nobody_uses() {
    let ran = Scratch::new().run(["--json".as_ref(), english().as_os_str()]);
    let front = "\"lex_phones_never_used\": [\"aa2\", \"ae2\", \"ah2\", \"ao2\", \"aw2\", \"ax1\", \"ax2\", ";
    assert!(ran.out.contains(front), "{}", ran.out);
}
