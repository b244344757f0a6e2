//! Finds libpronouncer.a: in the folder that PRONOUNCER_LIB names, else where `bindings/library` leaves it. A relative path
//! is seen from the top of the repository.

use std::env;
use std::path::PathBuf;

fn main() {
    let here = PathBuf::from(env::var_os("CARGO_MANIFEST_DIR").expect("cargo names the package"));
    let told = env::var_os("PRONOUNCER_LIB").unwrap_or("crates/pronouncer/out".into());
    let folder = here.join("../..").join(told);
    let library = folder.join("libpronouncer.a");

    println!("cargo::rerun-if-env-changed=PRONOUNCER_LIB");
    println!("cargo::rerun-if-changed={}", library.display());
    if library.is_file() {
        println!("cargo::rustc-link-search=native={}", folder.display());
        println!("cargo::rustc-env=PRONOUNCER_FOUND={}", library.display());
    } else {
        println!(
            "cargo::error=there is no {}: run `bindings/library` at the top of the repository, \
             or set PRONOUNCER_LIB to the folder that holds libpronouncer.a",
            library.display()
        );
    }
}
