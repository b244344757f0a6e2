//! The library's side of each row. It gets the sections at each call.

use crate::measure::{Side, AGAIN};
use crate::ours;
use crate::stage::{self, Entry, LIST};
use crate::tables::Tables;
use std::hint::black_box;

pub struct Predict {
    pub tables: &'static Tables,
    pub out: [u8; LIST],
}

impl Side for Predict {
    fn calls(&self) -> usize {
        self.tables.words.len()
    }

    fn call(&mut self, i: usize) {
        let [phones, index, model] = self.tables.lts();
        let word = self.tables.words[i].text.as_bytes();
        black_box(ours::predict(phones, index, model, word, &mut self.out));
    }
}

pub struct Syllabify {
    /// Phone lists in cells.
    pub lists: Vec<Vec<u8>>,
    pub marks: [u8; 96],
}

impl Side for Syllabify {
    fn calls(&self) -> usize {
        self.lists.len()
    }

    fn call(&mut self, i: usize) {
        black_box(ours::syllabify(&self.lists[i], &mut self.marks));
    }
}

pub struct IsSayable {
    pub tables: &'static Tables,
}

impl Side for IsSayable {
    fn calls(&self) -> usize {
        self.tables.words.len()
    }

    fn call(&mut self, i: usize) {
        let [prefix, suffix] = &self.tables.aswd;
        let word = self.tables.words[i].text.as_bytes();
        black_box(ours::is_sayable(prefix, suffix, word));
    }
}

pub struct Lookup {
    pub tables: &'static Tables,
    pub store: Vec<u8>,
    pub out: [u8; LIST],
}

impl Side for Lookup {
    fn calls(&self) -> usize {
        self.tables.words.len()
    }

    fn call(&mut self, i: usize) {
        let word = &self.tables.words[i];
        let (text, tag) = (word.text.as_bytes(), word.tag.as_bytes());
        let lex = self.tables.lex();
        black_box(ours::lookup(lex, &self.store, text, tag, &mut self.out));
    }
}

/// Looks up each entry of a store by its own word and tag.
pub struct LookupEntry {
    pub tables: &'static Tables,
    pub store: Vec<u8>,
    pub entries: Vec<Entry>,
    pub out: [u8; LIST],
}

impl Side for LookupEntry {
    fn calls(&self) -> usize {
        self.entries.len()
    }

    fn call(&mut self, i: usize) {
        let entry = &self.entries[i];
        let (word, tag) = (entry.word.as_bytes(), entry.tag.as_bytes());
        let answer = ours::lookup(self.tables.lex(), &self.store, word, tag, &mut self.out);
        debug_assert!(answer.kind == 1);
        black_box(answer);
    }
}

/// Adds that replace an entry, or are the only one of an empty store.
pub struct AddEntry {
    pub tables: &'static Tables,
    pub store: Vec<u8>,
    pub empty: bool,
    /// Entries with their phones in cells.
    pub entries: Vec<(Entry, Vec<u8>)>,
}

impl Side for AddEntry {
    fn calls(&self) -> usize {
        self.entries.len()
    }

    fn call(&mut self, i: usize) {
        let (entry, phones) = &self.entries[i];
        let (word, tag) = (entry.word.as_bytes(), entry.tag.as_bytes());
        let table = &self.tables.lex[0];
        black_box(ours::add_entry(table, &mut self.store, word, tag, phones, entry.exact));
        if self.empty {
            // first, last and used
            self.store[..6].fill(0);
        }
    }
}

/// What is done with a text of entries.
#[derive(Clone, Copy, PartialEq)]
pub enum Taking {
    Add,
    Preview,
    /// Of the first text's spare, which is filled before.
    Accept,
    PreviewAndAccept,
}

/// Texts that replace entries, or are the only ones of an empty store.
pub struct Texts {
    pub tables: &'static Tables,
    pub taking: Taking,
    pub store: Vec<u8>,
    pub spare: Vec<u8>,
    pub empty: bool,
    pub texts: Vec<String>,
}

impl Texts {
    fn add(&mut self, i: usize) {
        let (table, text) = (&self.tables.lex[0], self.texts[i].as_bytes());
        let answer = ours::add_entries(table, &mut self.store, &mut self.spare, text);
        debug_assert!(answer.refusal == 0);
        black_box(answer);
    }

    fn preview(&mut self, i: usize) {
        let (table, text) = (&self.tables.lex[0], self.texts[i].as_bytes());
        let answer = ours::preview_entries(table, &self.store, &mut self.spare, text);
        debug_assert!(answer.refusal == 0);
        black_box(answer);
    }

    fn accept(&mut self) {
        let answer = ours::accept_entries(&mut self.store, &self.spare);
        debug_assert!(answer.refusal == 0);
        black_box(answer);
    }
}

impl Side for Texts {
    fn calls(&self) -> usize {
        self.texts.len()
    }

    fn prepare(&mut self) {
        if self.taking == Taking::Accept {
            self.preview(0);
        }
    }

    fn call(&mut self, i: usize) {
        match self.taking {
            Taking::Add => self.add(i),
            Taking::Preview => {
                self.preview(i);
                // the store as if the text had been accepted
                std::mem::swap(&mut self.store, &mut self.spare);
            }
            Taking::Accept => {
                self.accept();
                // the spare's count again
                self.store[8..16].copy_from_slice(&self.spare[8..16]);
            }
            Taking::PreviewAndAccept => {
                self.preview(i);
                self.accept();
            }
        }
        if self.empty {
            // first, last, used and the count
            self.store[..16].fill(0);
        }
    }
}

/// Says a word on a sheet, then puts the sheet back.
pub struct SayWord {
    tables: &'static Tables,
    store: Vec<u8>,
    sheet: Vec<u8>,
    /// The bytes to put back, and where.
    patched: [(usize, [u8; 64]); 3],
}

impl SayWord {
    pub fn new(tables: &'static Tables, store: Vec<u8>, sheet: Vec<u8>) -> SayWord {
        let patched = stage::patched(&sheet).map(|at| {
            let item = sheet[at..at + 64].try_into();
            (at, item.expect("an item has 64 bytes"))
        });
        SayWord { tables, store, sheet, patched }
    }
}

impl Side for SayWord {
    fn calls(&self) -> usize {
        self.tables.words.len()
    }

    fn call(&mut self, i: usize) {
        let word = &self.tables.words[i];
        let (text, tag) = (word.text.as_bytes(), word.tag.as_bytes());
        let answer = ours::say_word(
            self.tables.lex(),
            self.tables.lts(),
            &self.store,
            &mut self.sheet,
            text,
            tag,
        );
        debug_assert!(answer.refusal == 0);
        black_box(answer);
        for (at, item) in &self.patched {
            self.sheet[*at..*at + 64].copy_from_slice(item);
        }
    }
}

pub struct PhoneString {
    pub sheet: Vec<u8>,
    pub out: Vec<u8>,
}

impl Side for PhoneString {
    fn calls(&self) -> usize {
        AGAIN
    }

    fn call(&mut self, _: usize) {
        black_box(ours::phone_string(&self.sheet, &mut self.out));
    }
}

pub struct CheckLexicon {
    pub tables: &'static Tables,
}

impl Side for CheckLexicon {
    fn calls(&self) -> usize {
        AGAIN
    }

    fn call(&mut self, _: usize) {
        let [phones, index, data] = self.tables.lex();
        black_box(ours::check_lexicon(phones, index, data));
    }
}

pub struct ReadSettings {
    pub settings: Vec<u8>,
}

impl Side for ReadSettings {
    fn calls(&self) -> usize {
        AGAIN
    }

    fn call(&mut self, _: usize) {
        let shown = ours::read_settings(black_box(&self.settings), 2, 1.5);
        debug_assert!(shown.refusal == 0);
        black_box(shown);
    }
}

/// Writes a pitch, another each time.
pub struct WriteSetting {
    pub settings: Vec<u8>,
}

impl Side for WriteSetting {
    fn calls(&self) -> usize {
        AGAIN
    }

    fn call(&mut self, i: usize) {
        let answer = ours::write_whole(&mut self.settings, 2, b"pitch", 100 + i as i32);
        debug_assert!(answer.refusal == 0);
        black_box(answer);
    }
}

/// Calls that are refused as soon as their sections, their store and their sheet are found in order: all that they do
/// is decide that.
pub struct Decide {
    pub tables: &'static Tables,
    pub store: Vec<u8>,
    /// A sheet, for say_word; none for lookup.
    pub sheet: Option<Vec<u8>>,
    pub out: [u8; LIST],
}

impl Side for Decide {
    fn calls(&self) -> usize {
        AGAIN
    }

    fn call(&mut self, _: usize) {
        const REFUSED: &[u8] = &[128];
        let lex = self.tables.lex();
        let answer = match &mut self.sheet {
            None => ours::lookup(lex, &self.store, REFUSED, b"", &mut self.out),
            Some(sheet) => {
                let lts = self.tables.lts();
                ours::say_word(lex, lts, &self.store, sheet, REFUSED, b"")
            }
        };
        debug_assert!(answer.refusal == 3);
        black_box(answer);
    }
}
