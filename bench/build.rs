//! Tells where libpronouncer.a is.

use std::env;
use std::path::PathBuf;

fn main() {
    let here = PathBuf::from(env::var("CARGO_MANIFEST_DIR").expect("cargo names the package"));
    println!("cargo::rerun-if-changed=build.rs");
    println!("cargo::rerun-if-env-changed=PRONOUNCER_LIB");
    let library = env::var_os("PRONOUNCER_LIB").unwrap_or("../crates/pronouncer/out".into());
    let library = here.join(library);
    println!("cargo::rustc-link-search=native={}", library.display());
    println!("cargo::rerun-if-changed={}", library.join("libpronouncer.a").display());
}
