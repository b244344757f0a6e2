//! An entry as it is typed.

use std::ffi::{OsStr, OsString};
use std::os::unix::ffi::OsStrExt;

use commands::options::WrongUse;
use commands::program::quoted;
use commands::typed::{fields, Word};
use pronouncer::{Lexicon, PhoneList, Refused, Store, CELL_BYTES};

/// How an entry is typed.
pub const FORM: &str = "add takes a word and its phones: WORD/TAG PHONE ..";

/// A word, its phones in a text, and whether only the same bytes match it.
pub struct Entry {
    pub word: Word,
    pub phones: Vec<u8>,
    exact: bool,
}

impl Entry {
    /// A word with a blank is one that nobody says: its phones, perhaps, were quoted with it.
    pub fn typed(word: &OsStr, phones: &[OsString], exact: bool) -> Result<Entry, WrongUse> {
        let word = word.as_bytes();
        if !fields(word).eq([word]) {
            return Err(WrongUse(format!("{FORM}, and {} is no word", quoted(word))));
        }
        let phones: Vec<&[u8]> = phones.iter().map(|phone| phone.as_bytes()).collect();
        Ok(Entry { word: Word::typed(word), phones: phones.join(&b' '), exact })
    }

    /// Adds it to a store.
    pub fn add(&self, lexicon: &Lexicon, store: &mut Store) -> Result<(), Refused> {
        let mut room = vec![0; CELL_BYTES * fields(&self.phones).count()];
        let list = PhoneList::write(&String::from_utf8_lossy(&self.phones), &mut room)?;
        store.add_entry(lexicon, &self.word.text, &self.word.tag, list, self.exact)
    }
}
