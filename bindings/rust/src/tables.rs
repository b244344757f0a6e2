use std::error::Error;
use std::path::{Path, PathBuf};
use std::vec::Vec;
use std::{fmt, fs, io};

use crate::sections::{Letters, Lexicon, Sayable};

/// The file names of the sections in a folder of tables. The last two may be missing from it.
pub const SECTION_NAMES: [&str; 8] = [
    "lex.phones",
    "lex.index",
    "lex.data",
    "lts.phones",
    "lts.index",
    "lts.model",
    "aswd.p",
    "aswd.s",
];

/// How many of the sections saying a word takes: those that a folder must have.
const NEEDED: usize = 6;

/// The sections of a folder, read whole (feature `std`).
///
/// Nothing is looked at here but that the files can be read: their bytes go to the calls as they are.
///
/// ```
/// use pronouncer::{Sheet, SheetVersion, Store, Tables};
///
/// let tables = Tables::read("../../tables/english/sections")?;
/// let (mut slots, mut items, mut out) = ([0; 512], [0; 64 * 64], [0; 80]);
/// let store = Store::new_store(&mut slots)?;
/// let mut sheet = Sheet::new_sheet(&mut items, SheetVersion::V2)?;
/// sheet.say_word(&tables.lexicon(), &tables.letters(), &store, "gobo", "")?;
/// assert_eq!(sheet.phone_string(&mut out)?, "g ow b ow");
/// # Ok::<(), Box<dyn std::error::Error>>(())
/// ```
#[derive(Clone)]
pub struct Tables {
    /// In the order of the names; the two of aswd are none where the folder has no such file.
    sections: [Option<Vec<u8>>; SECTION_NAMES.len()],
}

impl Tables {
    /// Reads the files of [`SECTION_NAMES`] from a folder. It may lack aswd.p and aswd.s, which saying a word
    /// does not take: [`Sayable::is_sayable`] is refused then.
    ///
    /// # Errors
    ///
    /// The first file that cannot be read, and why.
    pub fn read(folder: impl AsRef<Path>) -> Result<Tables, TablesError> {
        let mut sections = [const { None }; SECTION_NAMES.len()];
        for (place, name) in SECTION_NAMES.into_iter().enumerate() {
            match read_section(&folder, name) {
                Ok(bytes) => sections[place] = Some(bytes),
                Err(error) if place >= NEEDED && error.is_missing() => {}
                Err(error) => return Err(error),
            }
        }
        Ok(Tables { sections })
    }

    /// The sections of the lexicon.
    pub fn lexicon(&self) -> Lexicon<'_> {
        Lexicon { phones: self.at(0), index: self.at(1), data: self.at(2) }
    }

    /// The sections of the letter trees.
    pub fn letters(&self) -> Letters<'_> {
        Letters { phones: self.at(3), index: self.at(4), model: self.at(5) }
    }

    /// The sections that tell whether a word can be said; one that the folder does not have is empty.
    pub fn sayable(&self) -> Sayable<'_> {
        Sayable { prefix: self.at(6), suffix: self.at(7) }
    }

    /// The section of a file name; none for other names, and where the folder has no such file.
    pub fn section(&self, name: &str) -> Option<&[u8]> {
        let place = SECTION_NAMES.iter().position(|known| *known == name)?;
        self.sections[place].as_deref()
    }

    fn at(&self, place: usize) -> &[u8] {
        self.sections[place].as_deref().unwrap_or_default()
    }
}

/// The sections' names and lengths.
impl fmt::Debug for Tables {
    fn fmt(&self, f: &mut fmt::Formatter<'_>) -> fmt::Result {
        let lengths = self.sections.iter().map(|s| s.as_ref().map(Vec::len));
        f.debug_map().entries(SECTION_NAMES.iter().zip(lengths)).finish()
    }
}

/// Reads one section of a folder: what [`Tables::read`] does for each, for programs that go on behind a
/// missing one.
///
/// # Errors
///
/// The file cannot be read.
pub fn read_section(folder: impl AsRef<Path>, name: &str) -> Result<Vec<u8>, TablesError> {
    let path = folder.as_ref().join(name);
    fs::read(&path).map_err(|reason| TablesError { path, reason })
}

/// A section that cannot be read. It says `cannot read FILE: reason`.
#[derive(Debug)]
pub struct TablesError {
    path: PathBuf,
    reason: io::Error,
}

impl TablesError {
    /// The file.
    pub fn path(&self) -> &Path {
        &self.path
    }

    /// Whether there is no such file.
    pub fn is_missing(&self) -> bool {
        self.reason.kind() == io::ErrorKind::NotFound
    }
}

impl fmt::Display for TablesError {
    fn fmt(&self, f: &mut fmt::Formatter<'_>) -> fmt::Result {
        write!(f, "cannot read {}: {}", self.path.display(), self.reason)
    }
}

impl Error for TablesError {
    fn source(&self) -> Option<&(dyn Error + 'static)> {
        Some(&self.reason)
    }
}
