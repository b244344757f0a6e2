//! The versions of a sheet, sections built by hand, a word that is looked up, a store with another count, and a sheet as
//! one line of text.
#![allow(dead_code)] // each test file takes what it needs

use pronouncer::{Letters, Lexicon, Sheet, SheetVersion, Source, Store, LIST_BYTES};

/// Every version of a sheet.
pub const VERSIONS: [SheetVersion; 2] = [SheetVersion::V1, SheetVersion::V2];

/// lex.phones or lts.phones.
pub fn phone_table(phones: &[&str]) -> Vec<u8> {
    let mut table = (phones.len() as u32).to_le_bytes().to_vec();
    for phone in phones {
        table.push(phone.len() as u8);
        table.extend(phone.bytes());
    }
    table
}

/// lex.index and lex.data; an entry is a word, a tag and phone numbers.
pub fn entries(entries: &[(&str, u8, &[u8])]) -> (Vec<u8>, Vec<u8>) {
    let mut index = (entries.len() as u32).to_le_bytes().to_vec();
    let mut data = Vec::new();
    for (word, tag, numbers) in entries {
        index.extend((data.len() as u32).to_le_bytes());
        data.extend([*tag, word.len() as u8]);
        data.extend(word.bytes());
        data.push(numbers.len() as u8);
        data.extend(*numbers);
    }
    (index, data)
}

/// The source of a word and its phones as a line.
pub fn found(
    lexicon: &Lexicon<'_>,
    store: &Store<'_>,
    word: &str,
    tag: &str,
) -> Option<(Source, String)> {
    let mut out = [0; LIST_BYTES];
    let found = lexicon.lookup(store, word, tag, &mut out).expect("it is accepted");
    found.map(|found| (found.source, found.phones.to_string()))
}

/// A phone list of any phones, known or not.
pub fn cells(phones: &[&str]) -> Vec<u8> {
    let mut cells = vec![0; 16 * phones.len()];
    for (cell, phone) in cells.chunks_mut(16).zip(phones) {
        cell[0] = phone.len() as u8;
        cell[1..=phone.len()].copy_from_slice(phone.as_bytes());
    }
    cells
}

/// A store, or a spare, with this count.
pub fn with_count(bytes: &[u8], count: u64) -> Vec<u8> {
    let mut bytes = bytes.to_vec();
    bytes[8..16].copy_from_slice(&count.to_le_bytes());
    bytes
}

/// A lexicon without entries.
pub const NO_WORDS: Lexicon<'static> =
    Lexicon { phones: b"\0\0\0\0", index: b"\0\0\0\0", data: b"" };

/// Letter trees without nodes.
pub const NO_TREES: Letters<'static> = Letters { phones: b"\0\0\0\0", index: &[0; 52], model: b"" };

/// What stands on a sheet: each word with its syllables in brackets, their phones and stress.
pub fn reading(sheet: &Sheet<'_>) -> String {
    let words = sheet.words().map(|word| {
        let syllables = word.syllables().map(|syllable| {
            let phones: Vec<&str> = syllable.phones().collect();
            format!("[{} {}]", phones.join(" "), syllable.stress())
        });
        format!("{}{}", word.text(), syllables.collect::<String>())
    });
    words.collect::<Vec<String>>().join(" ")
}
