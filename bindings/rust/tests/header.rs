//! The C header compiles alone, as C and as C++, and C programs link with the library: the example says its
//! words, kinds of settings and versions of a sheet that no Rust can hand over are refused, C adds exact entries, reads
//! where words came from and how they are stressed, and is told where letters stopped and what a preview saw. Where there
//! is no compiler these tests say so and pass.

use std::path::{Path, PathBuf};
use std::process::{Command, Output};

fn c_file(name: &str) -> PathBuf {
    Path::new(env!("CARGO_MANIFEST_DIR")).join("../c").join(name)
}

/// Runs a compiler with all warnings as errors; nothing where there is none.
fn compiled(compiler: &str, arguments: &[&Path]) -> Option<Output> {
    let strict = ["-Wall", "-Wextra", "-pedantic", "-Werror"];
    let run = Command::new(compiler).args(strict).args(arguments).output();
    if run.is_err() {
        eprintln!("skipped: there is no {compiler} here");
    }
    run.ok()
}

fn assert_accepted(output: Output) {
    assert!(output.status.success(), "{}", String::from_utf8_lossy(&output.stderr));
}

#[test]
fn compiles_alone_as_c() {
    let header = c_file("pronouncer.h");
    let arguments = ["-std=c99", "-fsyntax-only", "-x", "c"].map(Path::new);
    let output = compiled("cc", &[&arguments[..], &[&header]].concat());
    output.into_iter().for_each(assert_accepted);
}

#[test]
fn compiles_alone_as_cpp() {
    let header = c_file("pronouncer.h");
    for version in ["-std=c++98", "-std=c++17"] {
        let arguments = [version, "-fsyntax-only", "-x", "c++"].map(Path::new);
        let output = compiled("c++", &[&arguments[..], &[&header]].concat());
        output.into_iter().for_each(assert_accepted);
    }
}

/// What a C program prints that ends well; nothing where there is no compiler.
fn printed(source: &Path, name: &str) -> Option<String> {
    let program = Path::new(env!("CARGO_TARGET_TMPDIR")).join(name);
    let (folder, library) = (c_file(""), Path::new(env!("PRONOUNCER_FOUND")));
    let options = ["-std=c99", "-I"].map(Path::new);
    let files = [&folder, source, library, Path::new("-o"), &program];
    assert_accepted(compiled("cc", &[&options[..], &files[..]].concat())?);
    let run = Command::new(&program).output().expect("the program runs");
    let text = String::from_utf8_lossy(&run.stdout).into_owned();
    assert_accepted(run);
    Some(text)
}

#[test]
fn example_links_and_runs() {
    let wanted = "lines 1, new 1, replaced 0\n\
        tempo#k: only \"k\" was read\n\
        t ao r m eh n t er ey\npitch 120, stretch 1, level 80, rack 1.5\n";
    let said = printed(&c_file("example.c"), "example");
    said.into_iter().for_each(|said| assert_eq!(said, wanted));
}

/// Runs a C program of this folder, which must end well.
fn ends_well(name: &str) {
    let source = Path::new(env!("CARGO_MANIFEST_DIR")).join(format!("tests/{name}.c"));
    printed(&source, name);
}

#[test]
fn exact_entries() {
    ends_well("exact");
}

#[test]
fn kinds_of_settings() {
    ends_well("kinds");
}

#[test]
fn places_where_letters_stopped() {
    ends_well("places");
}

#[test]
fn previews() {
    ends_well("previews");
}

#[test]
fn sources_of_words() {
    ends_well("sources");
}

#[test]
fn versions_of_a_sheet() {
    ends_well("versions");
}
