//! The place where the letters of a word stop (02, S-5). The original does not tell it, but can be made to show it.

use crate::prelude::*;
use crate::tree_edges::one_leaf;

/// The place just behind the last "#" of a word as given, counted from 0; 0 if there is none.
pub fn place(word: &[u8]) -> usize {
    word.iter().rposition(|byte| *byte == b'#').map_or(0, |at| at + 1)
}

/// The same, up to which the original must leave the word unread: with every byte but "#" made a letter, and one leaf for
/// every letter, it has a phone for each byte that it reads.
pub fn beside_the_original(word: &[u8]) -> Result<usize, String> {
    let letters: Vec<u8> = word.iter().map(|b| if *b == b'#' { b'#' } else { b'a' }).collect();
    let read = ask(|| one_leaf(b"x").original().predict(ascii(&letters)).len())?;
    let place = place(word);
    let agree = place + read == word.len();
    agree.then_some(place).ok_or(format!("the Rust reads {read} bytes, the place is {place}"))
}

rows! { pub ROWS:
    /// Where the letters of an accepted word stopped, which have so many phones.
    of_letters(word: &[u8], phones: usize) {
        let (before, behind) = word.split_at(place(word));
        let told = !before.is_empty();
        let marks = before.iter().filter(|byte| **byte == b'#').count();
    } [
        "place 0, no '#'" => !told,
        "place behind the only '#'" => marks == 1,
        "place behind the last of several '#'" => marks > 1,
        "place 1" => before.len() == 1,
        "place 47" => before.len() == words::LONGEST,
        "place at the word's end" => told && behind.is_empty(),
        "place behind '##'" => before.ends_with(b"##"),
        "place with letters before it" => before.iter().any(u8::is_ascii_alphabetic),
        "place with a capital letter beside" => told && word.to_ascii_lowercase() != word,
        "place with phones behind it" => told && phones > 0,
        "place with bytes behind it, no phones" => told && !behind.is_empty() && phones == 0,
    ]
}

rows! { pub UNTOLD:
    /// What a refused word has, which tells no place.
    refused(refusal: u32, word: &[u8]) {
        let by = |number: u32| refusal == number && place(word) > 0;
    } [
        "1: '#' in the word" => by(1),
        "2: '#' in the word" => by(2),
        "3: '#' in the word" => by(3),
        "6: '#' in the word" => by(6),
        "9: '#' that stops" => by(9),
    ]
}
