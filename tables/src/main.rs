//! Makes the eight sections from plain text. `tables/README.md` tells the format.

mod checksums;
mod cmudict;
mod contexts;
mod fault;
mod flite;
mod letters;
mod lexicon;
mod lines;
mod phones;
mod sayable;
mod sections;
mod trees;
mod walk;

use std::borrow::Cow;
use std::ffi::OsString;
use std::io::Write;
use std::path::Path;
use std::process::ExitCode;

use fault::Fault;

const USAGE: &str =
    "say tables/make SOURCE_FOLDER OUTPUT_FOLDER, tables/try SOURCE_FOLDER WORD ..., \
    tables/from_cmudict FILE FOLDER, or tables/from_flite OUTPUT_FOLDER [FOLDER_OF_THE_LIBRARIES]";
/// The most lines that are told at once.
const MOST_TOLD: usize = 20;

fn main() -> ExitCode {
    let arguments: Vec<OsString> = std::env::args_os().skip(1).collect();
    let arguments: Vec<Cow<str>> = arguments.iter().map(|a| a.to_string_lossy()).collect();
    let arguments: Vec<&str> = arguments.iter().map(|a| a.as_ref()).collect();
    let outcome = match arguments[..] {
        ["make", source, output] => make(Path::new(source), Path::new(output)),
        ["cmudict", file, folder] => from_cmudict(Path::new(file), Path::new(folder)),
        ["flite", output] => from_flite(None, Path::new(output)),
        ["flite", output, libraries] => from_flite(Some(Path::new(libraries)), Path::new(output)),
        ["try", source, ref words @ ..] if !words.is_empty() => say(Path::new(source), words),
        _ => {
            eprintln!("{USAGE}");
            return ExitCode::FAILURE;
        }
    };
    match outcome {
        Ok(()) => ExitCode::SUCCESS,
        Err(faults) => {
            tell(&faults);
            ExitCode::FAILURE
        }
    }
}

fn tell(faults: &[Fault]) {
    for fault in faults.iter().take(MOST_TOLD) {
        eprintln!("{fault}");
    }
    if faults.len() > MOST_TOLD {
        eprintln!("and {} more", faults.len() - MOST_TOLD);
    }
}

fn make(source: &Path, output: &Path) -> Result<(), Vec<Fault>> {
    let made = sections::make(source)?;
    write(&made, output).map_err(|fault| vec![fault])
}

/// Writes the lexicon.txt of a file in CMUdict's form, and tells the lines that are left out.
fn from_cmudict(file: &Path, folder: &Path) -> Result<(), Vec<Fault>> {
    let read = cmudict::make(file, folder)?;
    tell(&read.left_out);
    let (entries, alternates, left_out) =
        (read.entries.len(), read.alternates(), read.left_out.len());
    let folder = folder.display();
    print(&format!(
        "{folder}: {entries} entries, {alternates} of them alternates, {left_out} left out"
    ));
    Ok(())
}

/// Writes the sections of flite's libraries.
fn from_flite(libraries: Option<&Path>, output: &Path) -> Result<(), Vec<Fault>> {
    let made = flite::make(libraries).map_err(|fault| vec![fault])?;
    write(&made, output).map_err(|fault| vec![fault])
}

fn write(made: &sections::Made, output: &Path) -> Result<(), Fault> {
    sections::write(made, output)?;
    let [beginnings, endings] = made.cells;
    let (folder, entries, nodes) = (output.display(), made.entries, made.nodes);
    print(&format!("{folder}: {entries} entries, {nodes} nodes, {beginnings} and {endings} cells"));
    Ok(())
}

/// Prints each word with its phones by the letter rules.
fn say(source: &Path, words: &[&str]) -> Result<(), Vec<Fault>> {
    let text = sections::source_text(source, letters::FILE)?;
    let trees = trees::read(&text)?;
    for word in words {
        let phones = walk::predict(&trees, word).join(" ");
        print(&format!("{word} : {phones}"));
    }
    Ok(())
}

/// Prints a line; a reader that has gone away is no fault.
fn print(line: &str) {
    let _ = writeln!(std::io::stdout(), "{line}");
}
