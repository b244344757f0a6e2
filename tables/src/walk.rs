//! Says a word by the letter trees alone, as `predict` does.

use crate::letters::SILENT;
use crate::trees::Trees;

/// The texts of a table of phones.
fn texts(section: &[u8]) -> Vec<&str> {
    let mut texts = Vec::new();
    let mut at = 4;
    while at < section.len() {
        let end = at + 1 + section[at] as usize;
        texts.push(std::str::from_utf8(&section[at + 1..end]).expect("phones are plain letters"));
        at = end;
    }
    texts
}

/// The phones of a word. Bytes other than letters give none, nor does what stands before its last "#".
pub fn predict(trees: &Trees, word: &str) -> Vec<String> {
    let leaves = texts(&trees.phones);
    let padded = format!("000#{}#000", word.to_ascii_lowercase()).into_bytes();
    let mut phones = Vec::new();
    let start = 4 + word.rfind('#').map_or(0, |mark| mark + 1);
    for at in start..padded.len() - 4 {
        if padded[at].is_ascii_lowercase() {
            let leaf = leaves[walk(trees, &padded, at) as usize];
            if leaf != SILENT {
                phones.extend(leaf.splitn(2, '-').map(str::to_string));
            }
        }
    }
    phones
}

/// The leaf that the letter at a place leads to.
fn walk(trees: &Trees, padded: &[u8], at: usize) -> u8 {
    let pair = |bytes: &[u8], i: usize| u16::from_le_bytes([bytes[i], bytes[i + 1]]) as usize;
    let mut node = pair(&trees.index, 2 * (padded[at] - b'a') as usize);
    loop {
        let bytes = &trees.model[6 * node..6 * node + 6];
        let place = match bytes[0] {
            255 => return bytes[1],
            feature @ 0..=3 => at - 4 + feature as usize,
            feature => at + feature as usize - 3,
        };
        node = pair(bytes, if padded[place] == bytes[1] { 2 } else { 4 });
    }
}

#[cfg(test)]
mod tests {
    use super::*;
    use crate::{lexicon, trees};

    const LETTERS: &str = include_str!("../english/letters.txt");
    const SAID: &str = include_str!("../english/said.txt");

    fn english() -> Trees {
        trees::read(LETTERS.as_bytes()).unwrap_or_else(|faults| panic!("{}", faults[0]))
    }

    #[test]
    fn english_words_are_said_as_they_were_judged() {
        let trees = english();
        let words = lexicon::read(SAID.as_bytes()).expect("the list is right");
        assert!(words.len() >= 100);
        for entry in words {
            assert_eq!(predict(&trees, &entry.word), entry.phones, "{}", entry.word);
        }
    }

    #[test]
    fn the_english_model_is_small() {
        assert!(english().model.len() < 20_000);
    }

    #[test]
    fn what_is_no_letter_gives_nothing() {
        assert!(predict(&english(), "").is_empty());
        assert!(predict(&english(), "12-3").is_empty());
        assert!(predict(&english(), "cue#").is_empty());
    }
}
