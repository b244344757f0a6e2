//! What 01 says of a word: its refusal, or where its phones come from.

use super::Input;
use crate::calls::lookup::{self, Origin};
use crate::calls::predict;
use crate::lexicons::Compiled;
use crate::prelude::*;
use crate::spoken::Word;
use crate::stresses::split;

/// The phones of a word without the digits that a version takes off.
pub fn bare(version: u8, origin: &Origin) -> Vec<&[u8]> {
    origin.phones.iter().map(|phone| split(version, phone).0).collect()
}

/// The digits of each syllable of a word.
pub fn digits_of(version: u8, origin: &Origin, word: &Word) -> Vec<Vec<u8>> {
    let mut rest = origin.phones.iter().map(|phone| split(version, phone).1);
    let lengths = word.syllables.iter().map(|syllable| syllable.phones.len());
    let own = |len: usize| rest.by_ref().take(len).flatten().collect();
    lengths.map(own).collect()
}

/// What 01 says before the items are counted. Tells what was met on the way.
pub fn origin(input: &Input, met: &mut Met) -> Result<Origin, u32> {
    let Input { scene, trees, wanted, .. } = input;
    let mut looked = Met::default();
    let found = lookup::rule(scene, wanted, &mut looked);
    let formless = !scene.lexicon.has_form() || trees.names.is_none();
    met.refuse(1, formless, || by_1(&found))?;
    let sheet = sheets::read(&input.sheet).err();
    let store = scene.entries.as_ref().err().copied();
    let unsound = by_2(store.is_some(), sheet.is_some());
    let whys = || store.into_iter().chain(sheet).chain(unsound);
    met.refuse(2, store.is_some() || sheet.is_some(), whys)?;
    met.refuse(3, wanted.is_refused(), || by_3(words::is_refused(&wanted.word)))?;
    met.refuse(6, found.is_err(), || ["6: compiled entry"])?;
    // what exact entries met
    met.shared(looked.counted(&[]));
    if let Ok(Some(origin)) = found {
        return Ok(origin);
    }
    let walk = predict::refusal(trees, &wanted.word, &mut Met::default());
    met.refuse(6, walk.is_err(), || ["6: letter tree"])?;
    met.all(by_letters(input));
    let phones = ask(|| trees.original().predict(ascii(&wanted.word)));
    let phones = phones.expect("the original predicts on trees that are whole");
    Ok(Origin { row: "letters", phones: phones.iter().map(|phone| (*phone).into()).collect() })
}

/// The place where the letters of a word stopped, 0 where they were not read.
pub fn place(origin: &Origin, word: &[u8]) -> Result<usize, String> {
    match origin.row {
        "letters" => places::beside_the_original(word),
        _ => Ok(0),
    }
}

/// What an accepted word has, read by letters or not.
pub fn stopped(origin: &Origin, word: &[u8]) -> Vec<&'static str> {
    match origin.row {
        "letters" => places::of_letters(word, origin.phones.len()),
        source => unread(source, word),
    }
}

rows! { pub ROWS:
    /// What a word has that lookup finds in a source, so that its letters are not read.
    unread(source: &str, word: &[u8]) {
        let marked = places::place(word) > 0;
    } [
        "runtime: '#' in the word" => marked && source.starts_with("runtime"),
        "addenda: '#' in the word" => marked && source == "addenda",
        "compiled: '#' in the word" => marked && source == "compiled",
    ]

    /// The source of an accepted word that has no phones.
    silent(origin: &Origin) {
        let is = |source: u8| origin.phones.is_empty() && origin.source() == source;
    } [
        "runtime: said without phones" => is(1),
        "addenda: said without phones" => is(2),
        "compiled: said without phones" => is(3),
        "letters: said without phones" => is(sources::LETTERS),
    ]

    /// Which sections are refused by 1, by what lookup says without the letter trees.
    by_1(found: &Result<Option<Origin>, u32>) [
        "1: lexicon" => matches!(found, Err(1)),
        "1: letter trees alone, for a word that lookup has" => matches!(found, Ok(Some(_))),
        "1: letter trees alone, otherwise" => !matches!(found, Err(1) | Ok(Some(_))),
    ]

    /// What is refused by 2.
    by_2(store: bool, sheet: bool) [
        "2: the store" => store && !sheet,
        "2: the sheet" => !store && sheet,
        "2: both" => store && sheet,
    ]

    /// What is refused by 3.
    by_3(word: bool) [
        "3: the word" => word,
        "3: the tag" => !word,
    ]

    /// What a word has that is said by its letters.
    by_letters(input: &Input) {
        let Input { scene, trees, wanted: Wanted { word, .. }, .. } = input;
        let other = |entry: Compiled| entry.word != word && entry.word.eq_ignore_ascii_case(word);
        let mut compiled = (0..scene.lexicon.count().min(100)).map(|i| scene.lexicon.entry(i));
    } [
        "letters: '#' in the word" => word.contains(&b'#'),
        "letters: damage that is not walked" => trees.has_damage,
        "letters: lookup has the word in another case" => compiled.any(|e| e.is_ok_and(other)),
    ]

    /// What a word met that is refused by 7 or 9.
    by_7_or_9(input: &Input, word: &Word, unused: usize) {
        let phones = word.phones().count();
        let (long, need) = (phones > lookup::LONGEST, word.items());
        let one_too_few = !long && need == unused + 1;
    } [
        "7: 97 phones" => phones == lookup::LONGEST + 1,
        "7 before 9" => long && need > unused,
        "9: no unused item" => !long && unused == 0,
        "9: one item too few" => one_too_few,
        "9: 63 bytes more are no item" => one_too_few && input.sheet.len() % ITEM == ITEM - 1,
        "9: word without phones" => !long && phones == 0,
    ]

    /// What the phones and the syllables of an accepted word have.
    spoken(version: u8, origin: &Origin, word: &Word) {
        let bare = bare(version, origin);
        let syllables = &word.syllables;
        let is_vowel = |phone: &Vec<u8>| phoneset::is_vowel(ascii(phone));
        let whole: Vec<&str> = origin.phones.iter().map(|phone| ascii(phone)).collect();
        let names: Vec<&str> = bare.iter().map(|phone| ascii(phone)).collect();
        let cuts = |phones: &[&str]| ask(|| lexicon::syllabify(phones)).ok();
    } [
        "no phones" => bare.is_empty(),
        "one syllable" => syllables.len() == 1,
        "2 syllables" => syllables.len() == 2,
        "3 syllables and more" => syllables.len() > 2,
        "94 phones by letters" => origin.row == "letters" && bare.len() == 94,
        "96 phones" => bare.len() == lookup::LONGEST,
        "syllable of stress 0" => syllables.iter().any(|s| s.stress == b'0'),
        "syllable of stress 1" => syllables.iter().any(|s| s.stress == b'1'),
        "cut that a digit would hide" => cuts(&whole) != cuts(&names),
        "pau among others" => bare.len() > 1 && bare.contains(&&b"pau"[..]),
        "syllable without a vowel" => syllables.iter().any(|s| !s.phones.iter().any(is_vowel)),
    ]

    /// What the digits of an accepted word have.
    digits(version: u8, origin: &Origin, parts: &[Vec<u8>]) {
        let split: Vec<_> = origin.phones.iter().map(|phone| split(version, phone)).collect();
        let pairs = |pair: &[u8]| parts.iter().any(|part| part.windows(2).any(|two| two == pair));
        let with_digit = split.iter().filter(|(_, digit)| digit.is_some());
        let with_digit: Vec<&[u8]> = with_digit.map(|(bare, _)| *bare).collect();
        let is_consonant = |bare: &&[u8]| !phoneset::is_vowel(ascii(bare)) && *bare != b"pau";
        let behind_1 = |two: &[Vec<u8>]| two[0].ends_with(b"1") && two[1].is_empty();
    } [
        "syllable without a digit" => parts.iter().any(Vec::is_empty),
        "0 behind 1 in one syllable" => pairs(b"10"),
        "1 behind 0 in one syllable" => pairs(b"01"),
        "1, then a syllable without a digit" => parts.windows(2).any(behind_1),
        "digit on a consonant" => with_digit.iter().any(is_consonant),
        "digit on pau" => with_digit.contains(&&b"pau"[..]),
        "two digits, one comes off" => with_digit.iter().any(|b| b.ends_with(b"0") || b.ends_with(b"1")),
        "digit 2 stays" => split.iter().any(|(bare, _)| bare.ends_with(b"2")),
    ]

    /// What an accepted word met on its sheet.
    added(input: &Input, word: &Word, before: &[sheets::Placed]) {
        let used = sheets::used(before) + word.items();
        let silent = before.iter().all(|placed| placed.word.syllables.is_empty());
        let has_phones = !word.syllables.is_empty();
        let over = &input.sheet[sheets::unused(&input.sheet)..][..ITEM * word.items()];
    } [
        "first phones behind words without" => !before.is_empty() && silent && has_phones,
        "no phones behind words with" => !silent && !has_phones,
        "fills the sheet" => used == sheets::room(&input.sheet),
        "item 1,023" => used == 1_023,
        "written over anything" => !zeros(over),
    ]
}
