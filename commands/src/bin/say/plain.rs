//! A word as a desk types it, turned into words to ask for.

use commands::typed::Word;

use crate::desk::Desk;

/// Endings that are words of their own.
const ENDINGS: [&[u8]; 4] = [b"'s", b"'ve", b"'ll", b"'d"];

/// The words to ask for: the typed one if it is found, else it without outer punctuation, else that with its ending
/// parted from it; each in small letters where it is not found with its capitals.
pub fn words(desk: &Desk, typed: &Word) -> Vec<Word> {
    let with = |text: Vec<u8>| Word { text, tag: typed.tag.clone() };
    let asked = |text: &[u8]| {
        let word = with(text.to_vec());
        if desk.has(&word) {
            word
        } else {
            with(text.to_ascii_lowercase())
        }
    };
    let (whole, inner) = (asked(&typed.text), without_punctuation(&typed.text));
    if inner.is_empty() || desk.has(&whole) {
        return vec![whole];
    }
    let bare = asked(inner);
    if desk.has(&bare) {
        return vec![bare];
    }
    match parted(&bare.text) {
        Some((stem, ending)) => {
            vec![asked(&inner[..stem.len()]), Word { text: ending.to_vec(), tag: Vec::new() }]
        }
        None => vec![bare],
    }
}

fn without_punctuation(word: &[u8]) -> &[u8] {
    let is_letter = |byte: &u8| !byte.is_ascii_punctuation();
    let from = word.iter().position(is_letter).unwrap_or(word.len());
    let to = word.iter().rposition(is_letter).map_or(from, |at| at + 1);
    &word[from..to]
}

fn parted(word: &[u8]) -> Option<(&[u8], &[u8])> {
    ENDINGS.into_iter().find_map(|ending| {
        let stem = word.strip_suffix(ending)?;
        (!stem.is_empty()).then_some((stem, ending))
    })
}
