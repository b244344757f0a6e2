//! Sheets for the short inputs: every small one, and sheets at 01's limits and just past them.

use crate::prelude::*;
use crate::records::{resized, with_byte};
use crate::sheets::{Placed, LARGEST, VERSIONS};
use crate::spoken::{Syllable, Word};

/// A word of a source, and its syllables, each as its stress and its phones parted by blanks.
pub fn word(text: &str, source: u8, syllables: &[&str]) -> Word {
    let syllable = |text: &&str| {
        let mut parts = text.split(' ').map(|part| part.as_bytes().to_vec());
        Syllable { stress: parts.next().unwrap_or_default()[0], phones: parts.collect() }
    };
    Word { text: text.into(), source, syllables: syllables.iter().map(syllable).collect() }
}

/// Words in items that follow each other.
pub fn in_order(words: &[Word]) -> Vec<Placed> {
    let mut unused = 1..;
    let placed = |word: &Word| {
        let items = unused.by_ref().take(word.items()).collect();
        Placed { word: word.clone(), items }
    };
    words.iter().map(placed).collect()
}

/// A sheet of a version with these words, and so many bytes behind them, which are all this one.
pub fn sheet(version: u8, placed: &[Placed], behind: usize, fill: u8) -> Vec<u8> {
    sheets::write(&vec![fill; ITEM * (sheets::used(placed) + 1) + behind], version, placed)
}

/// A word with the last stress that a version has in the place of 1.
fn word_in(version: u8, text: &str, source: u8, syllables: &[&str]) -> Word {
    let mut word = word(text, source, syllables);
    for syllable in word.syllables.iter_mut().filter(|syllable| syllable.stress == b'1') {
        syllable.stress = b'0' + version;
    }
    word
}

/// Three words of three sources, one of them without phones, numbered from behind; two unused items and ten bytes more.
pub fn good(version: u8) -> Vec<u8> {
    let extra = word_in(version, "Extra", 4, &["1 eh k", "0 s t r ax"]);
    let placed = in_order(&[word("it's", 1, &["1 ih t s"]), word(",", 2, &[]), extra]);
    let from_behind = (1..=sheets::used(&placed)).rev();
    sheet(version, &sheets::renumbered(&placed, from_behind), 2 * ITEM + 10, 0xb7)
}

/// The smallest sheet with items of every kind.
pub fn smallest(version: u8) -> Vec<u8> {
    sheet(version, &in_order(&[word_in(version, "a", 3, &["1 ey"])]), 0, 0)
}

/// The good sheet of each version with each of its bytes altered.
pub fn altered_bytes() -> Vec<Vec<u8>> {
    let values = [0, 1, 2, 3, 4, 5, 15, 16, 47, 48, 49, 50, 51, 255];
    each! {
        for version in VERSIONS;
        records::altered(&good(version), ITEM, 22, &values)
    }
}

/// The smallest sheet of version 1 with every value in each of its bytes, that of version 2 with every value in each
/// item's byte 1; and every version beside stresses.
pub fn every_byte() -> Vec<Vec<u8>> {
    let [first, second] = VERSIONS.map(smallest);
    let mut all = each! {
        for at in 0..first.len();
        for value in 0..=255;
        [with_byte(&first, at, value)]
    };
    all.extend(each! {
        for at in (1..second.len()).step_by(ITEM);
        for value in 0..=255;
        [with_byte(&second, at, value)]
    });
    all.extend(each! {
        for version in 0..=255;
        let sheet = with_byte(&second, 1, version);
        (47..=51).map(|stress| with_byte(&sheet, 2 * ITEM + 1, stress))
    });
    all
}

/// Sheets with the top bit of one byte flipped. That leaves no used item sound, whatever the byte was for, and
/// alters nothing that is looked at behind them; the driver's reader must say so too.
pub fn flipped() -> Vec<Vec<u8>> {
    let flip = |good: &[u8], at: usize| {
        let sheet = with_byte(good, at, good[at] ^ 128);
        let refused = sheets::read(&sheet).is_err();
        assert!(refused == (at < sheets::unused(good)), "byte {at}");
        sheet
    };
    each! {
        for version in VERSIONS;
        for good in [good(version), smallest(version), sheet(version, &[], 100, 0)];
        (0..good.len()).map(|at| flip(&good, at))
    }
}

/// The small sheets of each version.
pub fn small() -> Vec<Vec<u8>> {
    VERSIONS.map(small_in).concat()
}

/// Every sheet of one word, and of two, with up to two syllables of up to two phones, and of two words with every two
/// sources; in their order, from behind, and with each two neighbours swapped. Some have room behind them.
fn small_in(version: u8) -> Vec<Vec<u8>> {
    let word = |text: &str, source: u8, own: &[&str]| word_in(version, text, source, own);
    let sheet = |placed: &[Placed], behind, fill| sheet(version, placed, behind, fill);
    let syllables: [&[&str]; 5] =
        [&[], &["0 k"], &["1 k t"], &["0 k", "1 t"], &["1 k t", "0 ae s"]];
    let mut words: Vec<Vec<Word>> = vec![vec![]];
    for (first, source) in syllables.into_iter().zip((1..=4).cycle()) {
        words.push(vec![word("a", source, first)]);
        for second in syllables {
            words.push(vec![word("a", source, first), word("B", 4, second)]);
        }
    }
    words.extend(each! {
        for one in 1..=4;
        (1..=4).map(|other| vec![word("a", one, &["1 k"]), word("B", other, &[])])
    });
    let mut all = vec![];
    for (i, words) in words.iter().enumerate() {
        let placed = in_order(words);
        let used = sheets::used(&placed);
        all.push(sheet(&placed, 0, 0));
        all.push(sheet(&placed, 64 * (i % 9) + i, 0xc4));
        all.push(sheet(&sheets::renumbered(&placed, (1..=used).rev()), 640, 0));
        for at in 1..used {
            let swapped = (1..at).chain([at + 1, at]).chain(at + 2..=used);
            all.push(sheet(&sheets::renumbered(&placed, swapped), 640 + at, 0x31));
        }
    }
    all
}

/// Lengths about the least that 01 accepts, and about the largest.
const SHORT: [usize; 11] = [0, 1, 63, 64, 65, 127, 128, 129, 191, 192, 640];
const LONG: [usize; 6] =
    [LARGEST - ITEM, LARGEST - 1, LARGEST, LARGEST + 1, LARGEST + ITEM, 2 * LARGEST];

/// Sheets at 01's limits, and just past them, of each version and of none.
pub fn limits() -> Vec<Vec<u8>> {
    let without_version = SHORT.into_iter().chain(LONG).map(|len| vec![0; len]);
    VERSIONS.into_iter().flat_map(limits_in).chain(without_version).collect()
}

fn limits_in(version: u8) -> Vec<Vec<u8>> {
    let word = |text: &str, source: u8, own: &[&str]| word_in(version, text, source, own);
    let sheet = |placed: &[Placed], behind, fill| sheet(version, placed, behind, fill);
    let (good, new) = (good(version), sheet(&[], 0, 0));
    let mut all = vec![good.clone(), smallest(version)];
    all.extend(SHORT.map(|len| resized(&good, len)));
    all.extend(SHORT.into_iter().chain(LONG).map(|len| resized(&new, len)));
    // cut behind its last used item, within it, and before it
    let used = sheets::unused(&good);
    all.extend([used + 63, used, used - 1, used - ITEM].map(|len| good[..len].to_vec()));
    // every item used, or all but a few
    for (words, more) in [(1_023, 0), (1_022, 64), (1_022, 63), (1_020, 255)] {
        all.push(sheet(&in_order(&vec![word("", 2, &[]); words]), more, 0x5a));
    }
    let phones = "1 ae t s r k n l d z b";
    for words in [1_023 / 12, 1_000 / 12] {
        let placed = in_order(&vec![word("long", 3, &[phones]); words]);
        all.push(sheet(&placed, LARGEST - ITEM * (12 * words + 1), 0));
    }
    // longest texts, empty ones, and bytes that no word of a text has
    let longest = word(&"w".repeat(47), 1, &["0 abcdefghijklmno", "1 pppppppppppp111"]);
    let empty = word("", 3, &["0  ", "1 "]);
    let odd = word("a\0 :\x7f", 4, &["1 zz ae1 ae2 2 \x7f\0", "0 pau"]);
    all.push(sheet(&in_order(&[longest, empty, odd]), 1_000, 0xff));
    all.extend(unsound(version));
    all
}

/// Changes to the sheet of `unsound`, parted by commas; a byte stands as item.field=value.
const CHANGES: [&str; 13] = [
    // versions that are not known, and stresses beside versions
    "0.1=0, 0.1=3, 0.1=255, 0.0=1 0.1=0, 0.0=2 0.1=0, 0.14=1 0.1=0, 0.14=2 0.1=0, 0.2=1 0.1=0, 0.3=2 0.1=0,
    2.1=50, 0.1=1 2.1=50, 0.1=2 2.1=50, 0.1=1 7.1=50, 0.1=2 7.1=50, 0.1=2 7.1=51, 0.1=3 7.1=51, 0.1=0 7.1=50",
    // the phones in another order: forwards, backwards, and both ways
    "0.12=4 4.12=3 3.12=9, 0.10=9 9.10=8 8.10=4, 3.12=8 8.12=9 9.12=0 0.10=9 9.10=8 8.10=3",
    // a phone left out of both chains; a ring of phones
    "3.12=9 9.10=3, 8.12=3 3.10=8",
    // the same child in two syllables; a syllable's phones under another one
    "7.4=9 7.6=9, 6.4=8 6.6=8 7.4=9 7.6=9",
    // syllables in another order than their phones; words in another order
    "5.4=7 7.2=6 6.2=0 5.6=6, 0.4=5 5.2=1 1.2=0 0.6=1",
    // the last word, the last syllable and the last phone left out
    "0.6=1 1.2=0, 5.6=6 6.2=0, 2.6=3 3.2=0, 0.6=1 1.2=0 0.8=4 4.12=0 0.10=4",
    // a syllable without its phone, which no chain reaches any more
    "7.4=0 7.6=0 9.12=0 0.10=9",
    // an item more, or one less, than there are
    "0.8=10, 0.8=8",
    // items behind the used ones, linked in the place of used ones
    "0.8=0, 0.4=0 0.6=0 0.8=0 0.10=0 0.12=0, 0.4=0 0.6=0 0.10=0 0.12=0",
    // circles
    "5.2=1, 7.2=6, 4.2=3, 3.2=3, 1.2=1",
    // kinds exchanged, with their fields
    "1.0=2 1.1=48 1.15=0, 2.0=1 2.1=0 2.15=1, 3.0=2 3.1=48, 1.0=4",
    // a word's source in item 0, in its syllable and in its phone
    "0.15=1 1.15=0, 1.15=0 2.15=1, 1.15=0 3.15=1",
    // parents of a neighbour
    "6.8=1 7.8=1, 9.8=7, 5.8=1",
];

/// Sheets that break one part of what sound means, where altering one byte does not do it.
fn unsound(version: u8) -> Vec<Vec<u8>> {
    let sheet = |placed: &[Placed], behind, fill| sheet(version, placed, behind, fill);
    // items: 1 a, 2 its syllable, 3 and 4 its phones; 5 b, 6 and 7 its syllables with the phones
    // 8 behind 7 and 9 behind 6
    let mut placed = in_order(&[word("a", 1, &["1 k ae"]), word("b", 4, &["0 t", "1 s"])]);
    placed[1].items = vec![5, 6, 9, 7, 8];
    let good = sheet(&placed, 128, 0);
    let mut all = vec![good.clone()];
    let changes = CHANGES.iter().flat_map(|changes| changes.split(','));
    all.extend(with(&good, changes, |sheet, change| {
        for byte in change.split_whitespace() {
            let numbers = byte.split(['.', '=']).map(|number| number.parse().expect("a number"));
            let numbers: Vec<usize> = numbers.collect();
            sheet[ITEM * numbers[0] + numbers[1]] = numbers[2] as u8;
        }
    }));
    // syllables that never had a phone: alone, before others and behind them
    for syllables in [&["1"][..], &["0", "1 k"], &["1 k", "0"]] {
        let words = [word("a", 2, syllables), word("b", 3, &["1 s"])];
        all.push(sheet(&in_order(&words[..1]), 128, 0));
        all.push(sheet(&in_order(&words), 128, 0));
    }
    all
}

rows! { pub SHEET:
    /// What a sound sheet has.
    features(sheet: &[u8], words: &[Placed]) {
        let items = words.iter().flat_map(|placed| placed.items.iter().copied());
        let ordered = (1..).zip(items).all(|(at, item)| at == item);
        let unused = &sheet[sheets::unused(sheet)..];
        let has = |source: u8| words.iter().any(|placed| placed.word.source == source);
        let version = sheets::version(sheet);
        let mut syllables = words.iter().flat_map(|placed| &placed.word.syllables);
        let mut phones = words.iter().flat_map(|placed| placed.word.phones());
    } [
        "sheet of version 1" => version == 1,
        "sheet of version 2" => version == 2,
        "sheet with a stress 50" => syllables.any(|syllable| syllable.stress == b'2'),
        "sheet of version 2 with a phone that ends in 2" =>
            version == 2 && phones.any(|phone| phone.ends_with(b"2")),
        "sheet without words" => words.is_empty(),
        "sheet with a runtime word" => has(1),
        "sheet with an addenda word" => has(2),
        "sheet with a compiled word" => has(3),
        "sheet with a word by letters" => has(sources::LETTERS),
        "sheet in another order than its items" => !ordered,
        "sheet of 64 bytes" => sheet.len() == ITEM,
        "sheet of 65,536 bytes" => sheet.len() == LARGEST,
        "bytes behind the last whole item" => sheet.len() % ITEM != 0,
        "anything in unused items" => !records::zeros(unused),
    ]
}
