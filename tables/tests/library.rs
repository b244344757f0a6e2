//! The English sections before the proved library; SECTIONS names another folder of sections.

use std::env;

use pronouncer::{Letters, Source, Store, Tables, LIST_BYTES, SLOT_BYTES};

fn tables() -> Tables {
    let usual = concat!(env!("CARGO_MANIFEST_DIR"), "/english/sections");
    let folder = env::var_os("SECTIONS").unwrap_or(usual.into());
    Tables::read(folder).expect("the sections can be read")
}

fn number(bytes: &[u8], at: usize) -> usize {
    let four = bytes[at..at + 4].try_into().expect("four bytes");
    u32::from_le_bytes(four) as usize
}

/// The texts of a table of phones.
fn texts(section: &[u8]) -> Vec<&str> {
    let mut at = 4;
    let mut texts = Vec::new();
    for _ in 0..number(section, 0) {
        let end = at + 1 + section[at] as usize;
        texts.push(std::str::from_utf8(&section[at + 1..end]).expect("phones are plain letters"));
        at = end;
    }
    texts
}

fn predict(letters: &Letters, word: &[u8]) {
    let mut out = [0; LIST_BYTES];
    let predicted = letters.predict(word, &mut out);
    assert!(predicted.is_ok(), "{}", String::from_utf8_lossy(word));
}

#[test]
fn the_lexicon_is_whole_and_sorted() {
    assert_eq!(tables().lexicon().check_lexicon(), Ok(true));
}

/// Each word is found with its tag: in the addenda, or compiled, and then with the phones of the first entry of that
/// word and tag.
#[test]
fn each_entry_is_found() {
    let tables = tables();
    let lexicon = tables.lexicon();
    let (names, data) = (texts(lexicon.phones), lexicon.data);
    let (mut slots, mut out) = ([0; SLOT_BYTES], [0; LIST_BYTES]);
    let store = Store::new_store(&mut slots).expect("a slot is a store");
    let mut before: &[u8] = &[];
    for entry in 0..number(lexicon.index, 0) {
        let at = number(lexicon.index, 4 + 4 * entry);
        let (key, list) = data[at..].split_at(2 + data[at + 1] as usize);
        let numbers = &list[1..1 + list[0] as usize];
        let wanted: Vec<&str> = numbers.iter().map(|&n| names[n as usize]).collect();
        let name = String::from_utf8_lossy(&key[2..]);
        let found = lexicon.lookup(&store, &key[2..], &key[..1], &mut out);
        let found = found.expect("no entry is damaged").expect("it is there");
        assert_ne!(found.source, Source::Runtime, "{name}");
        if found.source == Source::Compiled && before != key {
            assert_eq!(found.phones.iter().collect::<Vec<&str>>(), wanted, "{name}");
        }
        before = key;
    }
}

#[test]
fn every_word_of_up_to_three_letters_is_predicted() {
    let tables = tables();
    let letters = tables.letters();
    for a in b'a'..=b'z' {
        predict(&letters, &[a]);
        for b in b'a'..=b'z' {
            predict(&letters, &[a, b]);
            for c in b'a'..=b'z' {
                predict(&letters, &[a, b, c]);
            }
        }
    }
}

#[test]
fn clusters_decide_what_can_be_said() {
    let tables = tables();
    for word in ["strand", "cue", "fresnel", "thwart", "lights", "amp", "go", "nasa"] {
        assert_eq!(tables.sayable().is_sayable(word), Ok(true), "{word}");
    }
    for word in ["xqz", "nsa", "dmx", "rgb", "", "bcd", "ubcd"] {
        assert_eq!(tables.sayable().is_sayable(word), Ok(false), "{word}");
    }
}
