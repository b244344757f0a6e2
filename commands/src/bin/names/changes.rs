//! Entries in lines, and what becomes of them.

use commands::program::one_line;
use pronouncer::{Entry, Lexicon, PhoneList, Refused, Store};

/// An entry, named as it is typed.
pub fn entry(entry: &Entry) -> String {
    line(entry, &format!("{}: {}", key(entry), phones(entry.phones)))
}

/// What becomes of a store by an entry.
pub fn of_entry(store: &Store, entry: &Entry) -> String {
    let (key, new) = (key(entry), phones(entry.phones));
    let same = |old: &Entry| (old.word, old.tag, old.exact) == (entry.word, entry.tag, entry.exact);
    let told = match store.iter().find(same) {
        Some(old) => format!("replaces {key}: {} -> {new}", phones(old.phones)),
        None => format!("new {key}: {new}"),
    };
    line(entry, &told)
}

/// What becomes of a store by a text that it takes whole: the text's entries are those of an empty store that takes it.
pub fn of_text(lexicon: &Lexicon, store: &Store, text: &[u8]) -> Result<String, Refused> {
    let length = store.bytes().len();
    let (mut slots, mut spare) = (vec![0; length], vec![0; length]);
    let mut empty = Store::new_store(&mut slots)?;
    let preview = empty.preview_entries(lexicon, &mut spare, text)?;
    Ok(preview.entries().map(|entry| of_entry(store, &entry)).collect())
}

fn key(entry: &Entry) -> String {
    format!("{}/{}", entry.word, entry.tag)
}

fn phones(list: PhoneList) -> String {
    if list.is_empty() {
        "no phones".into()
    } else {
        list.to_string()
    }
}

/// What is told of an entry, with the remark that it is exact, as `Debug` has it.
fn line(entry: &Entry, told: &str) -> String {
    one_line(told) + if entry.exact { " # exact\n" } else { "\n" }
}
