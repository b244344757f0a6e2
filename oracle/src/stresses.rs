//! Stress by a sheet's version (02, S-9): version 1 takes a last "0" or "1" off a phone, as the original does, version 2 a
//! "2" too. The original can be made to show the stress of version 2: asked with each of two digits in the place of every
//! last "2", it tells two stresses just where a "2" is the last digit of its syllable.

use crate::prelude::*;
use crate::spoken::{Said, Syllable, Word};
use std::cell::OnceCell;

/// The digits that stand in the place of a last "2" in turn, which the original takes off.
pub const DIGITS: [u8; 2] = *b"01";

/// Something that is made once for each of these digits.
pub type Twins<T> = [OnceCell<T>; 2];

/// What was made for a digit, which is made if it was not.
pub fn twin<T>(twins: &Twins<T>, digit: u8, make: impl FnOnce() -> T) -> &T {
    twins[usize::from(digit == DIGITS[1])].get_or_init(make)
}

/// A phone without its digit, and the digit.
pub fn split(version: u8, phone: &[u8]) -> (&[u8], Option<u8>) {
    match phone.split_last() {
        Some((digit @ (b'0' | b'1'), bare)) => (bare, Some(*digit)),
        Some((b'2', bare)) if version == 2 => (bare, Some(b'2')),
        _ => (phone, None),
    }
}

/// A phone with a digit in the place of its last "2".
pub fn with_digit(phone: &[u8], digit: u8) -> Vec<u8> {
    match phone.strip_suffix(b"2") {
        Some(front) => [front, &[digit]].concat(),
        None => phone.to_vec(),
    }
}

/// The same of a letter tree's phone, which is two around its first "-".
pub fn with_digit_in_both(name: &[u8], digit: u8) -> Vec<u8> {
    let parts: Vec<Vec<u8>> =
        name.splitn(2, |byte| *byte == b'-').map(|part| with_digit(part, digit)).collect();
    parts.join(&b'-')
}

/// What the original says in version 2, by what it says with each of the digits.
pub fn of_both(asked: impl Fn(u8) -> Result<Said, String>) -> Result<Said, String> {
    let (zero, one) = (asked(DIGITS[0])?, asked(DIGITS[1])?);
    if zero.words.len() != one.words.len() || zero.phone_string != one.phone_string {
        return Err("the original says other phones with another digit".into());
    }
    let words = zero.words.into_iter().zip(one.words).map(|(zero, one)| of_both_words(zero, one));
    Ok(Said { words: words.collect::<Result<_, _>>()?, phone_string: zero.phone_string })
}

/// A word by what it is with each of the digits, which must be the same but for the stress.
fn of_both_words(zero: Word, one: Word) -> Result<Word, String> {
    let stress = |zero: u8, one: u8| match (zero, one) {
        _ if zero == one => Some(zero),
        (b'0', b'1') => Some(b'2'),
        _ => None,
    };
    let both = zero.syllables.iter().zip(&one.syllables);
    let syllables = both.map(|(zero, one)| {
        let stress = stress(zero.stress, one.stress)?;
        (zero.phones == one.phones).then(|| Syllable { stress, phones: zero.phones.clone() })
    });
    let syllables: Option<Vec<Syllable>> = syllables.collect();
    let same = zero.syllables.len() == one.syllables.len();
    let same = same && (&zero.text, zero.source) == (&one.text, one.source);
    let word = syllables.filter(|_| same).map(|syllables| Word { syllables, ..zero });
    word.ok_or("the original says another word with another digit".into())
}

rows! { pub ROWS:
    /// What an accepted word has by its version, its phones with their digits and its syllables.
    by_version(version: u8, phones: &[Vec<u8>], word: &Word) {
        let (first, second) = (version == 1, version == 2);
        let twos: Vec<&[u8]> = phones.iter().filter_map(|phone| phone.strip_suffix(b"2")).collect();
        let has = |is: fn(&str) -> bool| second && twos.iter().any(|bare| is(ascii(bare)));
        let is_consonant = |bare: &str| !phoneset::is_vowel(bare) && bare != "pau" && !bare.is_empty();
        let is_in_both = |phone: &Vec<u8>| phone.ends_with(b"21") || phone.ends_with(b"20");
        let [old, new] = sheets::VERSIONS.map(|version| cuts(version, phones));
    } [
        "accepted in version 1" => first,
        "accepted in version 2" => second,
        "version 1: no phone that ends in 2" => first && twos.is_empty(),
        "version 1: phone that ends in 2 stays whole" => first && !twos.is_empty(),
        "version 2: no phone that ends in 2" => second && twos.is_empty(),
        "version 2: secondary stress" => second && word.syllables.iter().any(|s| s.stress == b'2'),
        "version 2: 2 taken off, no secondary stress" =>
            second && !twos.is_empty() && !word.syllables.iter().any(|s| s.stress == b'2'),
        "version 2: 2 taken off a vowel" => has(phoneset::is_vowel),
        "version 2: 2 taken off a consonant" => has(is_consonant),
        "version 2: 2 taken off pau" => has(|bare| bare == "pau"),
        "version 2: 2 taken off, nothing left" => has(str::is_empty),
        "version 2: 2 taken off, a digit left" => has(|bare| bare.ends_with(['0', '1', '2'])),
        "version 2: 0 or 1 taken off, a 2 left" => second && phones.iter().any(is_in_both),
        "version 1: cut otherwise than in version 2" => first && old != new,
        "version 2: cut otherwise than in version 1" => second && old != new,
    ]

    /// What the digits of an accepted word's syllables have in version 2.
    in_version_2(version: u8, digits: &[Vec<u8>]) {
        let pairs = |pair: &[u8]| version == 2 && digits.iter().any(|own| own.windows(2).any(|two| two == pair));
        let behind_2 = |two: &[Vec<u8>]| two[0].ends_with(b"2") && two[1].is_empty();
    } [
        "2 behind 0 in one syllable" => pairs(b"02"),
        "2 behind 1 in one syllable" => pairs(b"12"),
        "0 behind 2 in one syllable" => pairs(b"20"),
        "1 behind 2 in one syllable" => pairs(b"21"),
        "2, then a syllable without a digit" => version == 2 && digits.windows(2).any(behind_2),
    ]
}

/// Where the original cuts the bare phones of a version.
fn cuts(version: u8, phones: &[Vec<u8>]) -> Vec<bool> {
    let bare: Vec<&str> = phones.iter().map(|phone| ascii(split(version, phone).0)).collect();
    ask(|| lexicon::syllabify(&bare)).unwrap_or_default()
}
