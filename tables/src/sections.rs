//! The source folder, and the eight section files with their checksums.

use std::fs;
use std::io::ErrorKind;
use std::path::Path;

use crate::fault::Fault;
use crate::{checksums, letters, lexicon, sayable, trees};

/// The sections with their names, and how many things of each kind are in them.
pub struct Made {
    pub files: Vec<(&'static str, Vec<u8>)>,
    pub entries: usize,
    pub nodes: usize,
    pub cells: [usize; 2],
}

/// All sections of a source folder, or all faults of its files.
pub fn make(source: &Path) -> Result<Made, Vec<Fault>> {
    let lexicon = source_text(source, lexicon::FILE).and_then(|text| lexicon::read(&text));
    let letters = source_text(source, letters::FILE).and_then(|text| trees::read(&text));
    let sayable = source_text(source, sayable::FILE).and_then(|text| sayable::read(&text));
    match (lexicon, letters, sayable) {
        (Ok(entries), Ok(trees), Ok(machines)) => {
            let phones = lexicon::phones(&entries);
            Ok(gather(&phones, &entries, trees, machines))
        }
        (lexicon, letters, sayable) => {
            let faults = [lexicon.err(), letters.err(), sayable.err()];
            Err(faults.into_iter().flatten().flatten().collect())
        }
    }
}

/// The sections of phones, entries, trees and machines.
pub fn gather(
    phones: &[String],
    entries: &[lexicon::Entry],
    trees: trees::Trees,
    machines: sayable::Machines,
) -> Made {
    let lex = lexicon::sections(phones, entries);
    Made {
        entries: entries.len(),
        nodes: trees.nodes(),
        cells: [machines.beginnings.len(), machines.endings.len()],
        files: vec![
            ("lex.phones", lex.phones),
            ("lex.index", lex.index),
            ("lex.data", lex.data),
            ("lts.phones", trees.phones),
            ("lts.index", trees.index),
            ("lts.model", trees.model),
            ("aswd.p", sayable::section(&machines.beginnings)),
            ("aswd.s", sayable::section(&machines.endings)),
        ],
    }
}

/// The bytes of a source file.
pub fn source_text(folder: &Path, file: &'static str) -> Result<Vec<u8>, Vec<Fault>> {
    let missing =
        "there is no such file; write it (tables/README.md tells how), or name another folder";
    bytes(&folder.join(file), missing)
}

/// The bytes of a file, and what is told where there is none.
pub fn bytes(path: &Path, missing: &str) -> Result<Vec<u8>, Vec<Fault>> {
    fs::read(path).map_err(|error| {
        let sentence = match error.kind() {
            ErrorKind::NotFound => missing.to_string(),
            _ => format!("cannot be read ({error}); see to it that you may read it"),
        };
        vec![whole_file(path, sentence)]
    })
}

/// Writes the sections and then their checksums into a folder, which is made where it is missing.
pub fn write(made: &Made, folder: &Path) -> Result<(), Fault> {
    make_folder(folder)?;
    for (name, bytes) in &made.files {
        write_file(&folder.join(name), bytes)?;
    }
    let sums = checksums::text(&made.files);
    write_file(&folder.join(checksums::FILE), sums.as_bytes())
}

/// Makes a folder where it is missing.
pub fn make_folder(folder: &Path) -> Result<(), Fault> {
    fs::create_dir_all(folder).map_err(|error| unwritable(folder, &error))
}

pub fn write_file(path: &Path, bytes: &[u8]) -> Result<(), Fault> {
    fs::write(path, bytes).map_err(|error| unwritable(path, &error))
}

fn unwritable(path: &Path, error: &std::io::Error) -> Fault {
    let sentence = format!("cannot be written ({error}); name a folder that you may write to");
    whole_file(path, sentence)
}

/// A fault of a file as a whole.
pub fn whole_file(path: &Path, sentence: String) -> Fault {
    Fault { file: path.display().to_string(), line: 0, sentence }
}

#[cfg(test)]
mod tests {
    use super::*;
    use std::path::PathBuf;

    fn english() -> PathBuf {
        Path::new(env!("CARGO_MANIFEST_DIR")).join("english")
    }

    /// A folder of this test run's own.
    fn scratch(name: &str) -> PathBuf {
        let folder = std::env::temp_dir().join(format!("tables-{}-{name}", std::process::id()));
        fs::create_dir_all(&folder).expect("a scratch folder can be made");
        folder
    }

    #[test]
    fn each_missing_file_is_told_with_a_next_step() {
        let folder = scratch("missing");
        let faults = make(&folder).err().expect("nothing is there");
        let told: Vec<String> = faults.iter().map(|fault| fault.to_string()).collect();
        assert_eq!(told.len(), 3);
        for (told, file) in told.iter().zip(["lexicon.txt", "letters.txt", "sayable.txt"]) {
            assert!(
                told.contains(file) && told.contains("there is no such file; write it"),
                "{told}"
            );
        }
        fs::remove_dir_all(folder).expect("the scratch folder can go");
    }

    #[test]
    fn a_file_that_is_a_folder_cannot_be_read() {
        let folder = scratch("folder");
        fs::create_dir_all(folder.join("letters.txt")).expect("a folder can be made");
        let told = source_text(&folder, letters::FILE).expect_err("it is a folder")[0].to_string();
        assert!(told.contains("cannot be read (") && told.contains("see to it"), "{told}");
        fs::remove_dir_all(folder).expect("the scratch folder can go");
    }

    #[test]
    fn a_folder_that_cannot_be_written_is_told() {
        let folder = scratch("unwritable");
        let file = folder.join("file");
        fs::write(&file, "").expect("a file can be written");
        let made = make(&english()).unwrap_or_else(|faults| panic!("{}", faults[0]));
        let told = write(&made, &file.join("inside")).expect_err("a file is no folder").to_string();
        assert!(told.contains("cannot be written (") && told.contains("name a folder"), "{told}");
        fs::create_dir_all(folder.join("out/lex.data")).expect("a folder can be made");
        let told =
            write(&made, &folder.join("out")).expect_err("a section is a folder").to_string();
        assert!(told.contains("lex.data: cannot be written ("), "{told}");
        fs::remove_dir_all(folder).expect("the scratch folder can go");
    }

    #[test]
    fn checksums_are_written_beside_the_sections() {
        let folder = scratch("checksums");
        let made = make(&english()).unwrap_or_else(|faults| panic!("{}", faults[0]));
        write(&made, &folder).expect("the folder can be written");
        let sums = fs::read_to_string(folder.join("checksums")).expect("the file is there");
        let names: Vec<&str> = sums.lines().map(|line| &line[9..]).collect();
        assert_eq!(names.len(), 8);
        assert!(names.iter().all(|name| folder.join(name).is_file()));
        fs::remove_dir_all(folder).expect("the scratch folder can go");
    }

    #[test]
    fn the_eight_sections_have_their_names() {
        let made = make(&english()).unwrap_or_else(|faults| panic!("{}", faults[0]));
        let names: Vec<&str> = made.files.iter().map(|(name, _)| *name).collect();
        #[rustfmt::skip]
        let wanted = [
            "lex.phones", "lex.index", "lex.data", "lts.phones", "lts.index", "lts.model", "aswd.p", "aswd.s",
        ];
        assert_eq!(names, wanted);
        assert_eq!(made.files[4].1.len(), 52);
    }
}
