//! Before anything is timed: both sides give the same answers on the words.

use crate::original_side as rust;
use crate::ours;
use crate::stage::{self, Fill, LIST};
use crate::tables::{Tables, Word};
use original::language::Language;
use original::{lexicon, pipeline};

/// The first word on which the two sides differ, and in what.
pub fn difference(tables: &Tables) -> Option<String> {
    let language = rust::language(tables);
    let store = stage::store(tables, &[]);
    let in_words = tables.words.iter().find_map(|word| {
        let call = differing(tables, &language, &store, word)?;
        Some(format!("{call} differs on {:?}: run oracle/run", word.text))
    });
    in_words.or_else(|| differing_text(tables, language, store))
}

/// Whether the two sides make another of a text of entries.
fn differing_text(tables: &Tables, mut language: Language, mut store: Vec<u8>) -> Option<String> {
    let text = &stage::texts(&stage::entries(tables, Fill::Full), 100)[0];
    let mut spare = vec![0; store.len()];
    let answer = ours::add_entries(&tables.lex[0], &mut store, &mut spare, text.as_bytes());
    let same = (answer.refusal, answer.value) == (0, 100)
        && language.lexicon.add_entries(text).ok() == Some(100)
        && tables.words.iter().all(|word| is_found_alike(tables, &language, &store, word));
    (!same).then(|| "add_entries differs: run oracle/run".into())
}

fn is_found_alike(tables: &Tables, language: &Language, store: &[u8], word: &Word) -> bool {
    let (text, tag, mut out) = (word.text.as_bytes(), word.tag.as_bytes(), [0; LIST]);
    let answer = ours::lookup(tables.lex(), store, text, tag, &mut out);
    let found = (answer.kind != 0).then(|| listed(&out, answer.value));
    let theirs = language.lexicon.lookup(&word.text, Some(word.tag));
    found == theirs.map(|list| list.into_iter().map(String::from).collect())
}

/// The first phones of an output.
fn listed(out: &[u8], count: u64) -> Vec<String> {
    stage::phones_of(&out[..16 * count as usize])
}

fn differing(
    tables: &Tables,
    language: &Language,
    store: &[u8],
    word: &Word,
) -> Option<&'static str> {
    let (text, mut out) = (word.text.as_bytes(), [0; LIST]);
    let [phones, index, model] = tables.lts();
    let answer = ours::predict(phones, index, model, text, &mut out);
    if listed(&out, answer.value) != language.lts.predict(&word.text) {
        return Some("predict");
    }
    if !is_found_alike(tables, language, store, word) {
        return Some("lookup");
    }
    let answer = ours::is_sayable(&tables.aswd[0], &tables.aswd[1], text);
    if (answer.kind == 1) != language.sayable.is_sayable(&word.text) {
        return Some("is_sayable");
    }
    let phones = stage::pronounced(tables, word);
    let bare: Vec<String> = phones.iter().map(|phone| stage::bare(phone)).collect();
    let mut marks = [0; 96];
    let answer = ours::syllabify(&stage::cells(&bare), &mut marks);
    let theirs: Vec<&str> = bare.iter().map(String::as_str).collect();
    let marks = marks[..answer.value as usize].iter().map(|mark| *mark == 1);
    if !marks.eq(lexicon::syllabify(&theirs)) {
        return Some("syllabify");
    }
    let theirs = rust::said(language, std::slice::from_ref(word).iter());
    (bare.join(" ") != pipeline::phone_string(&theirs)).then_some("say_word")
}
