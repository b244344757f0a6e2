//! The English sections of full size, from the static libraries of flite.

mod objects;

use std::fs;
use std::path::{Path, PathBuf};

use crate::fault::Fault;
use crate::lexicon::{Entry, LONGEST_WORD, MOST_OF_ENTRY};
use crate::sections::{self, Made};
use crate::{phones, sayable, trees::Trees};
use objects::{objects, Object};

/// The libraries, and the folders in which they are looked for.
const LEXICON_LIBRARY: &str = "libflite_cmulex.a";
const LANGUAGE_LIBRARY: &str = "libflite_usenglish.a";
const FOLDERS: [&str; 4] =
    ["/usr/lib/x86_64-linux-gnu", "/usr/lib/aarch64-linux-gnu", "/usr/lib", "/usr/local/lib"];

/// What flite 2.2 holds.
const ENTRIES: usize = 36_963;
const NODES: usize = 25_505;

/// Between the phones of an entry and its word.
const MIDDLE: u8 = 255;

/// The sections of the libraries in a folder, or in one of the usual ones.
pub fn make(folder: Option<&Path>) -> Result<Made, Fault> {
    let lexicon = read(folder, LEXICON_LIBRARY)?;
    let language = read(folder, LANGUAGE_LIBRARY)?;
    let entries = entries(&lexicon)?;
    let trees = trees(&lexicon)?;
    expect(&lexicon, "entries", entries.len(), ENTRIES)?;
    expect(&lexicon, "nodes", trees.nodes(), NODES)?;

    let table = lexicon.phones("cmu_lex_phone_table")?;
    let machines = sayable::Machines {
        beginnings: cells(language.array("fsm_aswdP_trans")?),
        endings: cells(language.array("fsm_aswdS_trans")?),
    };
    Ok(sections::gather(&table, &entries, trees, machines))
}

/// A library in memory.
struct Library {
    path: PathBuf,
    bytes: Vec<u8>,
}

fn read(folder: Option<&Path>, name: &str) -> Result<Library, Fault> {
    let folders: Vec<&Path> = match folder {
        Some(folder) => vec![folder],
        None => FOLDERS.iter().map(Path::new).collect(),
    };
    for folder in &folders {
        let path = folder.join(name);
        if let Ok(bytes) = fs::read(&path) {
            return Ok(Library { path, bytes });
        }
    }
    let names: Vec<String> = folders.iter().map(|f| f.display().to_string()).collect();
    let sentence = format!(
        "is not in {}; install it (apt-get install flite1-dev), or name the folder that holds it",
        names.join(", ")
    );
    Err(sections::whole_file(Path::new(name), sentence))
}

impl Library {
    fn fault(&self, sentence: String) -> Fault {
        sections::whole_file(&self.path, sentence)
    }

    /// What one of the object files has under a name.
    fn find<'a, T>(
        &'a self,
        name: &str,
        look: impl Fn(&Object<'a>) -> Option<T>,
    ) -> Result<T, Fault> {
        let all = objects(&self.bytes).unwrap_or_default();
        all.iter().find_map(look).ok_or_else(|| {
            self.fault(format!(
                "has no {name} that can be read; install flite1-dev 2.2 for a 64-bit machine"
            ))
        })
    }

    fn array(&self, name: &str) -> Result<&[u8], Fault> {
        self.find(name, |object| object.array(name))
    }

    fn texts(&self, name: &str) -> Result<Vec<&[u8]>, Fault> {
        self.find(name, |object| object.texts(name))
    }

    /// The phones of a table, up to its null.
    fn phones(&self, name: &str) -> Result<Vec<String>, Fault> {
        let texts = self.texts(name)?;
        let used = texts.into_iter().take_while(|text| !text.is_empty());
        Ok(used.map(|text| String::from_utf8_lossy(text).into_owned()).collect())
    }
}

fn expect(library: &Library, things: &str, count: usize, wanted: usize) -> Result<(), Fault> {
    if count == wanted {
        return Ok(());
    }
    Err(library.fault(format!(
        "holds {count} {things}, and {wanted} were expected; install flite1-dev 2.2, as Debian 12 has it"
    )))
}

/// The entries, sorted by word and tag. Each lies around a byte of 255: behind it tag and word up to a 0, before it the
/// phones from right to left up to a 0. Each byte of these is the number of a longer text.
fn entries(library: &Library) -> Result<Vec<Entry>, Fault> {
    let data = library.array("cmu_lex_data")?;
    let letters = library.texts("cmu_lex_entries_huff_table")?;
    let numbers = library.texts("cmu_lex_phones_huff_table")?;
    let table = library.phones("cmu_lex_phone_table")?;
    let middles = (0..data.len()).filter(|&at| data[at] == MIDDLE);
    let mut entries = Vec::new();
    for at in middles {
        let word = unpacked(&letters, data[at + 1..].iter());
        let phones = unpacked(&numbers, data[..at].iter().rev());
        let named: Option<Vec<String>> =
            phones.iter().map(|&n| table.get(n as usize).cloned()).collect();
        match (word.split_first(), named) {
            (Some((&tag, word)), Some(phones)) if fits(word, &phones) => entries.push(Entry {
                word: String::from_utf8_lossy(word).into_owned(),
                tag,
                phones,
            }),
            _ => {
                return Err(library.fault(format!(
                    "has an entry at byte {at} of cmu_lex_data that cannot be read; install flite1-dev 2.2"
                )))
            }
        }
    }
    entries.sort_by(|a, b| (a.word.as_bytes(), a.tag).cmp(&(b.word.as_bytes(), b.tag)));
    Ok(entries)
}

fn fits(word: &[u8], phones: &[String]) -> bool {
    word.is_ascii() && word.len() <= LONGEST_WORD && phones.len() <= MOST_OF_ENTRY
}

/// The longer texts of bytes, up to a 0.
fn unpacked<'a>(table: &[&[u8]], packed: impl Iterator<Item = &'a u8>) -> Vec<u8> {
    let codes = packed.take_while(|&&code| code != 0);
    let texts = codes.filter_map(|&code| table.get(code as usize));
    texts.flat_map(|text| text.iter().copied()).collect()
}

fn trees(library: &Library) -> Result<Trees, Fault> {
    Ok(Trees {
        phones: phones::table(&library.phones("cmu_lts_phone_table")?),
        index: library.array("cmu_lts_letter_index")?.to_vec(),
        model: library.array("cmu_lts_model")?.to_vec(),
    })
}

fn cells(array: &[u8]) -> Vec<u16> {
    let pairs = array.chunks_exact(2);
    pairs.map(|pair| u16::from_le_bytes([pair[0], pair[1]])).collect()
}

#[cfg(test)]
mod tests {
    use super::*;

    #[test]
    fn a_missing_library_is_told_with_its_package() {
        let told = make(Some(Path::new("/no/such/folder"))).err().expect("nothing is there");
        let said =
            "libflite_cmulex.a: is not in /no/such/folder; install it (apt-get install flite1-dev)";
        assert!(told.to_string().starts_with(said), "{told}");
    }

    #[test]
    fn a_library_without_the_arrays_is_told() {
        for bytes in [&b""[..], b"!<arch>\n", b"!<arch>\nshort", &[0x7f; 200]] {
            let library = Library { path: PathBuf::from("some.a"), bytes: bytes.to_vec() };
            let told = entries(&library).expect_err("nothing is in it").to_string();
            assert!(
                told.starts_with("some.a: has no cmu_lex_data that can be read; install"),
                "{told}"
            );
        }
    }

    #[test]
    fn packed_bytes_are_numbers_of_texts_up_to_a_zero() {
        let table = [&b""[..], b"ab", b"c"];
        assert_eq!(unpacked(&table, [2, 1, 0, 1].iter()), b"cab");
    }
}
