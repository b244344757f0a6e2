//! The original's side of each row. It has parsed its tables before; the words are handed over as it takes them.

use crate::measure::{Side, AGAIN};
use crate::stage::Entry;
use crate::tables::{Tables, Word};
use original::language::Language;
use original::lexicon;
use original::pipeline::{self, probe};
use original::utterance::Utterance;
use std::hint::black_box;

/// The original's language over the sections, its decision trees single leaves.
pub fn language(tables: &Tables) -> Language {
    let [phones, index, data] = tables.lex();
    let [sounds, starts, model] = tables.lts();
    let mut sections: Vec<(&str, &[u8])> = vec![
        ("lex.phones", phones),
        ("lex.index", index),
        ("lex.data", data),
        ("lts.phones", sounds),
        ("lts.index", starts),
        ("lts.model", model),
        ("aswd.p", &tables.aswd[0]),
        ("aswd.s", &tables.aswd[1]),
    ];
    for tree in ["phrasing", "pos", "nums", "accent", "tone", "dur"] {
        sections.push((["cart.", tree].concat().leak(), LEAF));
    }
    let mut bytes = b"FLRSDAT\x01".to_vec();
    for (name, payload) in sections {
        bytes.push(name.len() as u8);
        bytes.extend_from_slice(name.as_bytes());
        bytes.extend_from_slice(&(payload.len() as u32).to_le_bytes());
        bytes.extend_from_slice(payload);
    }
    Language::parse(bytes.leak()).expect("the original takes the sections")
}

/// A decision tree of one leaf: one feature, one value, one node.
const LEAF: &[u8] = b"\x01\0\0\0\x04name\x01\0\0\0\0\x010\x01\0\0\0\0\xff\0\0\0\0";

/// The same with these runtime entries.
pub fn with_entries(language: &Language, entries: &[Entry]) -> Language {
    let mut language = language.clone();
    for entry in entries {
        let phones: Vec<&str> = entry.phones.iter().map(String::as_str).collect();
        let added = language.lexicon.add_entry(&entry.word, Some(entry.tag), &phones);
        added.expect("the original knows the phones");
    }
    language
}

/// Texts as the original takes them.
pub fn texts(list: &[String]) -> Vec<&'static str> {
    let text = |text: &String| -> &'static str { text.clone().leak() };
    list.iter().map(text).collect()
}

pub struct Predict {
    pub tables: &'static Tables,
    pub language: Language,
}

impl Side for Predict {
    fn calls(&self) -> usize {
        self.tables.words.len()
    }

    fn call(&mut self, i: usize) {
        black_box(self.language.lts.predict(&self.tables.words[i].text));
    }
}

pub struct Syllabify {
    pub lists: Vec<Vec<&'static str>>,
}

impl Side for Syllabify {
    fn calls(&self) -> usize {
        self.lists.len()
    }

    fn call(&mut self, i: usize) {
        black_box(lexicon::syllabify(&self.lists[i]));
    }
}

pub struct IsSayable {
    pub tables: &'static Tables,
    pub language: Language,
}

impl Side for IsSayable {
    fn calls(&self) -> usize {
        self.tables.words.len()
    }

    fn call(&mut self, i: usize) {
        let sayable = &self.language.sayable;
        black_box(sayable.is_sayable(&self.tables.words[i].text));
    }
}

pub struct Lookup {
    pub tables: &'static Tables,
    pub language: Language,
}

impl Side for Lookup {
    fn calls(&self) -> usize {
        self.tables.words.len()
    }

    fn call(&mut self, i: usize) {
        let Word { text, tag } = &self.tables.words[i];
        black_box(self.language.lexicon.lookup(text, Some(tag)));
    }
}

/// Adds that replace an entry.
pub struct Replace {
    pub language: Language,
    pub entries: Vec<(Entry, Vec<&'static str>)>,
}

impl Side for Replace {
    fn calls(&self) -> usize {
        self.entries.len()
    }

    fn call(&mut self, i: usize) {
        let (entry, phones) = &self.entries[i];
        let lexicon = &mut self.language.lexicon;
        let _ = black_box(lexicon.add_entry(&entry.word, Some(entry.tag), phones));
    }
}

/// Adds that are the only ones of their lexicon; a pass has a lexicon for each.
pub struct AddFirst {
    pub language: Language,
    pub entries: Vec<(Entry, Vec<&'static str>)>,
    pub lexicons: Vec<lexicon::Lexicon>,
}

impl Side for AddFirst {
    fn calls(&self) -> usize {
        self.entries.len()
    }

    fn prepare(&mut self) {
        self.lexicons.clear();
        let lexicon = &self.language.lexicon;
        self.lexicons.resize(self.entries.len(), lexicon.clone());
    }

    fn call(&mut self, i: usize) {
        let (entry, phones) = &self.entries[i];
        let lexicon = &mut self.lexicons[i];
        let _ = black_box(lexicon.add_entry(&entry.word, Some(entry.tag), phones));
    }
}

/// Texts that replace entries.
pub struct ReplaceByText {
    pub language: Language,
    pub texts: Vec<String>,
}

impl Side for ReplaceByText {
    fn calls(&self) -> usize {
        self.texts.len()
    }

    fn call(&mut self, i: usize) {
        let _ = black_box(self.language.lexicon.add_entries(&self.texts[i]));
    }
}

/// Texts that are the only ones of their lexicon; a pass has a lexicon for each.
pub struct AddFirstText {
    pub language: Language,
    pub texts: Vec<String>,
    pub lexicons: Vec<lexicon::Lexicon>,
}

impl Side for AddFirstText {
    fn calls(&self) -> usize {
        self.texts.len()
    }

    fn prepare(&mut self) {
        self.lexicons.clear();
        self.lexicons.resize(self.texts.len(), self.language.lexicon.clone());
    }

    fn call(&mut self, i: usize) {
        let _ = black_box(self.lexicons[i].add_entries(&self.texts[i]));
    }
}

/// Utterances at a time.
const UTTERANCES: usize = 12;

/// Says a word in an utterance in which some were said before; a pass has an utterance for each word.
pub struct SayWord {
    pub tables: &'static Tables,
    pub language: Language,
    /// How many words were said before.
    pub before: usize,
    pub first: usize,
    pub utterances: Vec<Utterance>,
}

impl Side for SayWord {
    fn calls(&self) -> usize {
        UTTERANCES
    }

    fn prepare(&mut self) {
        self.utterances.clear();
        for i in 0..UTTERANCES {
            let word = &self.tables.words[(self.first + i) % self.tables.words.len()];
            let mut utterance = said(&self.language, self.tables.round(self.before));
            // the words so far leave their relation, so that one word is said
            let words = utterance.create_relation("Word");
            append(&mut utterance, words, word);
            self.utterances.push(utterance);
        }
        self.first += UTTERANCES;
    }

    fn call(&mut self, i: usize) {
        probe::insert_pronunciations(&self.language, &mut self.utterances[i]);
    }
}

pub struct PhoneString {
    pub utterance: Utterance,
}

impl Side for PhoneString {
    fn calls(&self) -> usize {
        AGAIN
    }

    fn call(&mut self, _: usize) {
        black_box(pipeline::phone_string(&self.utterance));
    }
}

/// An utterance of some words.
pub fn said<'a>(language: &Language, wanted: impl Iterator<Item = &'a Word>) -> Utterance {
    let mut utterance = Utterance::new();
    let words = utterance.create_relation("Word");
    let mut any = false;
    for word in wanted {
        append(&mut utterance, words, word);
        any = true;
    }
    if any {
        probe::insert_pronunciations(language, &mut utterance);
    }
    utterance
}

fn append(utterance: &mut Utterance, words: usize, word: &Word) {
    let item = utterance.append(words, None);
    utterance.set_str(item, "name", &word.text);
    utterance.set_str(item, "pos", word.tag);
}
