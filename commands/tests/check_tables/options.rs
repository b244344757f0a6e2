//! The command line and the exit status.

use std::fs::OpenOptions;
use std::io::Read;

use crate::folders::Scratch;

#[test]
fn help_and_version_end_with_0() {
    let scratch = Scratch::new();
    let ran = scratch.run(["--help"]);
    assert!(ran.out.starts_with("check_tables [--json] FOLDER ..\n"), "{}", ran.out);
    assert_eq!((ran.err.as_str(), ran.status), ("", Some(0)));
    let ran = scratch.run(["--version"]);
    assert_eq!(ran.out, format!("check_tables {}\n", env!("CARGO_PKG_VERSION")));
    assert_eq!((ran.err.as_str(), ran.status), ("", Some(0)));
}

#[test]
fn wrong_use_ends_with_2() {
    let scratch = Scratch::new();
    scratch.small("small");
    for arguments in
        [&[][..], &["--json"], &["--yaml", "small"], &["small", "-x"], &["--json=1", "small"]]
    {
        let ran = scratch.run(arguments);
        assert_eq!((ran.out.as_str(), ran.status), ("", Some(2)), "{arguments:?}");
        assert!(ran.err.ends_with("; check_tables --help lists what it takes\n"), "{}", ran.err);
        assert_eq!(ran.err.lines().count(), 1);
    }
}

#[test]
fn each_folder_is_told_and_one_that_is_not_fit_decides() {
    let scratch = Scratch::new();
    scratch.small("one");
    scratch.small_with("two", "aswd.p", b"");
    scratch.small("three");
    assert_eq!(scratch.run(["one", "three"]).status, Some(0));
    let ran = scratch.run(["one", "two", "three"]);
    let heads: Vec<&str> =
        ran.out.split("\n\n").map(|report| report.lines().next().unwrap_or("")).collect();
    let expected = [
        "one: fit for the show",
        "two: not fit for the show: a section breaks its form",
        "three: fit for the show",
    ];
    assert_eq!(heads, expected);
    assert_eq!(ran.status, Some(1));
}

#[test]
fn behind_two_dashes_all_are_folders() {
    let scratch = Scratch::new();
    scratch.small("--json");
    let ran = scratch.run(["--", "--json"]);
    assert_eq!(ran.line("--json"), "--json: fit for the show");
    assert_eq!(ran.status, Some(0));
}

#[test]
fn a_name_cannot_forge_a_line() {
    let scratch = Scratch::new();
    let ran = scratch.run(["x\ny: fit for the show"]);
    let reason = "a section is missing or cannot be read";
    assert_eq!(ran.line("x"), format!("x\\ny: fit for the show: not fit for the show: {reason}"));
    assert_eq!(ran.status, Some(1));
}

#[test]
fn an_output_that_cannot_be_written_ends_with_1() {
    let scratch = Scratch::new();
    scratch.small("small");
    let full = OpenOptions::new().write(true).open("/dev/full").expect("it is there");
    let ran = scratch.command(["small"]).stdout(full).output().expect("the program starts");
    assert_eq!(ran.status.code(), Some(1));
    let err = String::from_utf8_lossy(&ran.stderr);
    assert!(err.starts_with("check_tables: cannot write its output: "), "{err}");
}

#[test]
fn a_closed_pipe_ends_it_quietly() {
    let scratch = Scratch::new();
    scratch.small("small");
    let folders = vec!["small"; 2000];
    let mut child = scratch.command(&folders).spawn().expect("the program starts");
    drop(child.stdout.take());
    let mut err = String::new();
    let mut told = child.stderr.take().expect("it is a pipe");
    told.read_to_string(&mut err).expect("it can be read");
    child.wait().expect("it ends");
    assert_eq!(err, "");
}

#[test]
fn a_section_may_have_any_size() {
    let scratch = Scratch::new();
    scratch.small("large");
    let mut data = std::fs::read(scratch.path("large").join("lex.data")).expect("it was written");
    data.resize(3_000_000, 0);
    scratch.write("large", "lex.data", &data);
    let ran = scratch.run(["large"]);
    assert_eq!(ran.line("lex.data"), "lex.data: its form holds, 3000000 bytes");
    assert_eq!(ran.status, Some(0));
}
