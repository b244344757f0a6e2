//! Sheets of many shapes, and ways to damage them.

use crate::prelude::*;
use crate::records::put;
use crate::sheet_edges::{in_order, sheet};
use crate::sheets::{LARGEST, VERSIONS};
use crate::spoken::{Syllable, Word};

/// A known version, each as often as the other.
pub fn version(random: &mut Random) -> u8 {
    random.pick_byte(&VERSIONS)
}

/// Versions that are not known, of which some are in their lowest bytes.
pub const UNKNOWN: [u32; 14] =
    [0, 3, 4, 255, 256, 257, 258, 513, 514, 65_537, 65_538, 1 << 24 | 2, 1 << 31, u32::MAX];

/// Any version, now and then one that is not known.
pub fn any_version(random: &mut Random) -> u32 {
    match random.weighted(&[28, 2, 1, 1]) {
        0 => version(random).into(),
        1 => UNKNOWN[random.below(UNKNOWN.len())],
        2 => u32::from(version(random)) | (random.below(1 << 24) as u32) << 8,
        _ => random.below(1 << 32) as u32,
    }
}

/// Plainer versions, for shrinking.
pub fn plainer_version(version: &u32) -> Vec<u32> {
    [1, 2, 0, 3].into_iter().take_while(|plainer| plainer != version).collect()
}

/// Words of any shape that have room in so many items, all that have it if no count is given. Their cuts and phones
/// need not be those of any rule.
fn words(
    random: &mut Random,
    phones: &Phones,
    version: u8,
    count: Option<usize>,
    items: usize,
) -> Vec<Word> {
    let mut left = items;
    let mut words = vec![];
    while count.map_or(left > 0, |count| words.len() < count) {
        let word = word(random, phones, version);
        if word.items() > left {
            break;
        }
        left -= word.items();
        words.push(word);
    }
    words
}

fn word(random: &mut Random, phones: &Phones, version: u8) -> Word {
    let alphabet = words::alphabet(random);
    let syllable = |random: &mut Random| {
        let count = 1 + random.weighted(&[4, 4, 2, 1]);
        let stress = random.pick_byte(if version == 2 { b"0122" } else { b"01" });
        Syllable { stress, phones: (0..count).map(|_| phones.phone(random)).collect() }
    };
    let count = random.weighted(&[2, 5, 3, 1, 1]);
    let text = words::accepted(random, &alphabet);
    let syllables = (0..count).map(|_| syllable(random)).collect();
    Word { text, source: random.pick_byte(&[1, 2, 3, 4]), syllables }
}

/// A sound sheet of a version with so many unused items, or as many as there is room for.
pub fn random(random: &mut Random, phones: &Phones, version: u8, unused: usize) -> Vec<u8> {
    let most = (LARGEST / ITEM - 1).saturating_sub(unused);
    let is_full = random.weighted(&[60, 1]) == 1;
    let count = (!is_full).then(|| random.weighted(&[2, 6, 4, 3, 2, 1, 1]));
    let mut placed = in_order(&words(random, phones, version, count, most));
    let used = sheets::used(&placed);
    if random.once_in(3) {
        let mut numbers: Vec<usize> = (1..=used).collect();
        random.shuffle(&mut numbers);
        placed = sheets::renumbered(&placed, numbers);
    }
    let more = random.ranged(&[(4, 0, 0), (2, ITEM - 1, ITEM - 1), (3, 0, ITEM - 1)]);
    let behind = (ITEM * unused + more).min(LARGEST - ITEM * (used + 1));
    let fill = random.byte() * u8::from(random.once_in(2));
    let mut sheet = sheet(version, &placed, behind, fill);
    if random.once_in(3) {
        records::spoil(random, &mut sheet, ITEM * (used + 1));
    }
    sheet
}

/// The lengths of sheets that lists of calls work on.
pub fn length(random: &mut Random) -> usize {
    let counts = [(2, 1, 1), (2, 2, 2), (16, 3, 12), (24, 13, 40), (14, 41, 64), (2, 65, 200)];
    let items = random.ranged(&counts);
    let more = [0, 1, ITEM - 1, random.below(ITEM)][random.weighted(&[5, 1, 1, 2])];
    ITEM * items + more
}

/// A sheet that is no longer sound, or still is: the driver's reader decides.
pub fn damaged(random: &mut Random, sheet: &[u8]) -> Vec<u8> {
    let mut sheet = sheet.to_vec();
    let items = sheet.len() / ITEM;
    let used = sheets::unused(&sheet) / ITEM - 1;
    let link = |random: &mut Random| {
        [random.below(used + 2), items, 256, 65_535][random.weighted(&[20, 1, 1, 1])]
    };
    let item = ITEM * random.between(usize::from(used > 0), used);
    match random.below(20) {
        0 => sheet.resize([0, ITEM - 1, LARGEST + 1, LARGEST + ITEM][random.below(4)], 0),
        1 => sheet.truncate(ITEM * random.between(0, used) + random.below(ITEM)),
        // a field of item 0, a link of any item, two links exchanged
        2 | 3 => put(&mut sheet, 2 * random.between(2, 6), link(random)),
        4 | 5 => put(&mut sheet, item + 2 * random.between(1, 6), link(random)),
        6 => {
            let field = 2 * random.between(1, 6);
            let other = ITEM * random.between(0, used);
            for at in [field, field + 1] {
                sheet.swap(item + at, other + at);
            }
        }
        way @ 7..=14 => damage_item(random, &mut sheet[item..][..ITEM], way),
        15 => return with_empty_syllable(random, &sheet),
        16 if used + 1 < items => {
            let links = |item| [2, 4, 6, 8, 10, 12].map(|link| ITEM * item + link);
            // item 0's number of used items is no link
            let links = (0..=used + 1).flat_map(links).filter(|at| *at != 8).collect();
            records::in_place_of(&mut sheet, ITEM, [item / ITEM, used + 1], links);
        }
        17 => sheet[1] = random.pick_byte(&[0, 1, 1, 2, 3, 49, 50, 129, 255]),
        18 => spoil_stresses(random, &mut sheet, used),
        _ => {
            let at = random.below(sheet.len());
            sheet[at] ^= 1 << random.below(8);
        }
    }
    sheet
}

/// Alters a field of an item, or any byte of it, in one of the ways.
fn damage_item(random: &mut Random, item: &mut [u8], way: usize) {
    match way {
        7 => item[0] = random.pick_byte(&[0, 1, 2, 3, 4, 128, 255]),
        8 => item[1] = random.pick_byte(&[0, 1, 47, 48, 49, 50, 51, 128, 255]),
        9 => item[16] = random.pick_byte(&[0, 1, 2, 14, 15, 16, 17, 46, 47, 48, 128, 255]),
        10 => item[random.between(17, 24)] |= 128,
        11 => item[random.between(14, ITEM - 1)] = random.byte(),
        12 => item[random.below(ITEM)] = random.byte(),
        13 => item[15] = random.pick_byte(&[0, 1, 2, 3, 4, 5, 128, 255]),
        _ => {
            // a longer text, up to the limits of words and phones
            item[16] = random.pick_byte(&[15, 16, 47, 48]);
            let end = (17 + usize::from(item[16])).min(ITEM);
            item[17..end].fill(b'x');
        }
    }
}

/// Puts one stress into all syllables, which the version may have or not.
fn spoil_stresses(random: &mut Random, sheet: &mut [u8], used: usize) {
    let stress = random.pick_byte(&[47, 48, 49, 50, 50, 50, 51]);
    for item in sheet.chunks_exact_mut(ITEM).take(used + 1).filter(|item| item[0] == 2) {
        item[1] = stress;
    }
}

/// The same words in their order, one syllable without its phones.
fn with_empty_syllable(random: &mut Random, sheet: &[u8]) -> Vec<u8> {
    let placed = sheets::read(sheet).unwrap_or_default();
    let mut words: Vec<Word> = placed.into_iter().map(|placed| placed.word).collect();
    let mut syllables: Vec<&mut Syllable> =
        words.iter_mut().flat_map(|word| &mut word.syllables).collect();
    if !syllables.is_empty() {
        let at = random.below(syllables.len());
        syllables[at].phones.clear();
    }
    sheets::write(sheet, sheets::version(sheet), &in_order(&words))
}

/// Sound sheets with something left out, for shrinking; of an unsound one, with bytes made zero.
pub fn smaller(sheet: &[u8]) -> Vec<Vec<u8>> {
    let Ok(placed) = sheets::read(sheet) else {
        return records::plainer(sheet, ITEM, 24);
    };
    let from = sheets::unused(sheet);
    let whole = sheet.len() - sheet.len() % ITEM;
    let one_less = (sheet.len() - ITEM).max(from);
    let lengths = [from, from + ITEM - 1, from + ITEM, whole, one_less];
    let mut all = records::less_behind(sheet, from, &lengths);
    let words: Vec<Word> = placed.iter().map(|placed| placed.word.clone()).collect();
    let mut fewer = words.smaller();
    let has_phones = |word: &Word| word.syllables.iter().all(|s| !s.phones.is_empty());
    fewer.retain(|words| words.iter().all(has_phones));
    if in_order(&words) != placed {
        fewer.insert(0, words);
    }
    // the items of words that are left out become unused
    let version = sheets::version(sheet);
    all.extend(fewer.iter().map(|words| sheets::write(sheet, version, &in_order(words))));
    all
}
