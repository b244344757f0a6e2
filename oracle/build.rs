//! Copies the original sources into the build folder, unchanged, and names them for `src/original/lib.rs`.

use std::path::{Path, PathBuf};
use std::{env, fs};

/// The original files; a child module of ours looks inside those that `src/original/probes/` has a file for.
const FILES: &str = "cart data ffeature language lexicon phoneset pipeline utterance value";

fn main() {
    let here = PathBuf::from(env::var("CARGO_MANIFEST_DIR").expect("cargo names the package"));
    let out = PathBuf::from(env::var("OUT_DIR").expect("cargo names a build folder"));
    let sources = folder(&here, "FLITE_RS_SRC", "../../shared/docs/src").join("src");
    let library = folder(&here, "PRONOUNCER_LIB", "../crates/pronouncer/out");
    let probes = here.join("src/original/probes");

    let mut modules = String::new();
    for name in FILES.split(' ') {
        let [source, copy, probe] = [&sources, &out, &probes].map(|f| f.join(format!("{name}.rs")));
        copy_unchanged(&source, &copy, &probe);
        modules += &format!("#[path = {copy:?}]\npub mod {name};\n");
        println!("cargo::rerun-if-changed={}", source.display());
    }
    fs::write(out.join("originals.rs"), modules).expect("the build folder can be written");

    println!("cargo::rerun-if-changed=build.rs");
    println!("cargo::rerun-if-changed={}", probes.display());
    println!("cargo::rustc-link-search=native={}", library.display());
    println!("cargo::rerun-if-changed={}", library.join("libpronouncer.a").display());
}

/// A folder told by the environment, or its usual place.
fn folder(here: &Path, variable: &str, usual: &str) -> PathBuf {
    println!("cargo::rerun-if-env-changed={variable}");
    here.join(env::var_os(variable).unwrap_or(usual.into()))
}

/// Copies a file; behind its text one line names its probe, if it has one. The text in front stays as it was.
fn copy_unchanged(source: &Path, copy: &Path, probe: &Path) {
    let text = fs::read(source).unwrap_or_else(|_| {
        panic!("not compared: the Rust sources are not at hand ({})", source.display())
    });
    let line = probe.exists().then(|| format!("\n#[path = {probe:?}] pub mod probe;\n"));
    let line = line.unwrap_or_default().into_bytes();
    fs::write(copy, [&text[..], &line].concat()).expect("the build folder can be written");

    let written = fs::read(copy).expect("the copy can be read");
    let front = written.strip_suffix(&line[..]);
    assert!(front == Some(&text[..]), "{} was altered", source.display());
}
