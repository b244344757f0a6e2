//! The file of checksums: sections are held to it where it is there.

use crate::folders::{Scratch, NAMES};
use crate::running::Ended;

/// The checksums of the small sections, by zlib.
const SUMS: [&str; 8] = [
    "31ca7281", "0a396049", "0bc576da", "31ca7281", "cc2b0fb0", "f898b5b5", "2144df1c", "2144df1c",
];

fn text() -> String {
    let lines = SUMS.iter().zip(NAMES);
    lines.map(|(sum, name)| format!("{sum} {name}\n")).collect()
}

/// The run on the small folder with this file of checksums.
fn run(text: &str) -> Ended {
    let scratch = Scratch::new();
    scratch.small_with("folder", "checksums", text.as_bytes());
    scratch.run(["folder"])
}

#[test]
fn sections_that_match_are_fit() {
    let ran = run(&text());
    assert_eq!(ran.line("checksums"), "checksums: all eight sections match");
    assert_eq!(ran.status, Some(0));
}

#[test]
fn a_section_that_does_not_match_is_not_fit() {
    let ran = run(&text().replace(SUMS[4], "00c0ffee"));
    let expected = format!(
        "lts.index: its checksum is {}: expected 00c0ffee, as the file checksums has it; take a whole copy of both",
        SUMS[4]
    );
    assert_eq!(ran.line("lts.index: its c"), expected);
    let reason = "a section is not the one that its checksum was taken of";
    assert_eq!(ran.line("folder: "), format!("folder: not fit for the show: {reason}"));
    assert_eq!(ran.status, Some(1));
}

#[test]
fn a_damaged_file_of_checksums_is_not_fit() {
    let damaged =
        "is damaged: expected 8 hexadecimal digits, a blank and the name of another section";
    for (from, to) in [("lts.model", "lts.modem"), (SUMS[0], "+123456"), (" aswd", "aswd")] {
        let ran = run(&text().replace(from, to));
        assert!(ran.line("checksums: line ").ends_with(damaged), "{}", ran.out);
        assert_eq!(ran.status, Some(1));
    }
    let ran = run(&(text() + "\n"));
    assert_eq!(ran.line("checksums: line "), format!("checksums: line 9 {damaged}"));
}

#[test]
fn each_section_has_one_line() {
    let ran = run(&text().replace("aswd.s", "aswd.p"));
    assert!(ran.line("checksums: line 8 is damaged").ends_with("the name of another section"));
    assert_eq!(ran.status, Some(1));
    let whole = text();
    let seven = &whole[..whole.len() - "2144df1c aswd.s\n".len()];
    for (text, missing) in [(seven, "aswd.s"), ("", "lex.phones")] {
        let ran = run(text);
        let expected =
            format!("checksums: has no line for {missing}: expected one for each of the eight");
        assert_eq!(ran.line("checksums"), expected);
        assert_eq!(ran.status, Some(1));
    }
}

#[test]
fn a_missing_section_is_told_once() {
    let scratch = Scratch::new();
    scratch.small_with("folder", "checksums", text().as_bytes());
    scratch.remove("folder", "aswd.p");
    let ran = scratch.run(["folder"]);
    assert_eq!(ran.out.matches("aswd.p").count(), 1, "{}", ran.out);
    assert_eq!(ran.line("checksums"), "checksums: every section that could be read matches");
    assert_eq!(ran.status, Some(1));
}

#[test]
fn a_folder_in_place_of_the_file_is_not_fit() {
    let scratch = Scratch::new();
    scratch.small("folder");
    scratch.small("folder/checksums");
    let ran = scratch.run(["folder"]);
    assert_eq!(
        ran.line("checksums"),
        "checksums: cannot be read: it is no file. Put the file in its place."
    );
    assert_eq!(ran.status, Some(1));
}
