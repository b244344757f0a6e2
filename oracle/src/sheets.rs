//! The sheet: 01's layout with 02's version (S-9), read and written by the driver itself.

use crate::prelude::*;
use crate::records::{number, put, zeros};
use crate::spoken::{Syllable, Word};

/// Bytes of an item.
pub const ITEM: usize = 64;
/// The longest sheet that 01 accepts.
pub const LARGEST: usize = 65_536;
/// The known versions.
pub const VERSIONS: [u8; 2] = [1, 2];

// The kinds of items.
const WORD: u8 = 1;
const SYLLABLE: u8 = 2;
const PHONE: u8 = 3;

// Where the fields of an item stand.
const STRESS: usize = 1;
const NEXT: usize = 2;
const FIRST: usize = 4;
const LAST: usize = 6;
const PARENT: usize = 8;
const BEFORE: usize = 10;
const BEHIND: usize = 12;
const LINKS_END: usize = 14;
const SOURCE: usize = 15;
const LEN: usize = 16;
const TEXT: usize = 17;
/// In item 0 the number of used items stands where others have their parent, and the version where they have a stress.
const USED: usize = PARENT;
const VERSION: usize = STRESS;

/// A word on its sheet, and its items: the word, a syllable, its phones, the next syllable.
#[derive(Clone, PartialEq, Eq)]
pub struct Placed {
    pub word: Word,
    pub items: Vec<usize>,
}

/// Whether a sheet's length is right.
pub fn has_length(len: usize) -> bool {
    (ITEM..=LARGEST).contains(&len)
}

/// Whether a version is known: the whole number, not its lowest byte.
pub fn is_version(version: u32) -> bool {
    VERSIONS.map(u32::from).contains(&version)
}

/// The version of a sheet, 0 if it has no byte for it.
pub fn version(sheet: &[u8]) -> u8 {
    sheet.get(VERSION).copied().unwrap_or(0)
}

/// The words of a sound sheet; of any other sheet, what is amiss.
pub fn read(sheet: &[u8]) -> Result<Vec<Placed>, &'static str> {
    of_head(sheet)?;
    let version = version(sheet);
    let mut tree =
        Tree { seen: vec![false; unused(sheet) / ITEM], items: sheet.chunks_exact(ITEM).collect() };
    let mut words = vec![];
    let mut phones = vec![];
    for at in tree.children(0, WORD)? {
        let mut items = vec![at];
        let mut syllables = vec![];
        for at in tree.children(at, SYLLABLE)? {
            let below = tree.children(at, PHONE)?;
            of_fields(tree.items[at])?;
            of_stress(tree.items[at][STRESS], version)?;
            let texts: Result<_, _> = below.iter().map(|at| read_text(tree.items[*at])).collect();
            syllables.push(Syllable { stress: tree.items[at][STRESS], phones: texts? });
            items.push(at);
            items.extend(&below);
            phones.extend(below);
        }
        let (text, source) = (read_text(tree.items[at])?, tree.items[at][SOURCE]);
        let word = Word { text, source, syllables };
        words.push(Placed { word, items });
    }
    of_all(&tree.seen)?;
    // item 0 stands before the first phone and behind the last
    let ring: Vec<usize> = [&[0], &phones[..], &[0]].concat();
    for pair in ring.windows(2) {
        of_neighbours(&tree.items, pair[0], pair[1])?;
    }
    Ok(words)
}

/// Items, and which of the used ones a link has reached.
struct Tree<'a> {
    items: Vec<&'a [u8]>,
    seen: Vec<bool>,
}

impl Tree<'_> {
    /// The children of an item in their order; those of item 0 are the words.
    fn children(&mut self, parent: usize, kind: u8) -> Result<Vec<usize>, &'static str> {
        let mut children = vec![];
        let mut at = number(&self.items[parent][FIRST..]);
        while at != 0 {
            of_link(at, &self.seen)?;
            self.seen[at] = true;
            of_child(self.items[at], kind, parent)?;
            children.push(at);
            at = number(&self.items[at][NEXT..]);
        }
        of_children(self.items[parent], children.last().copied())?;
        Ok(children)
    }
}

/// The text of a word or a phone, or what is amiss with it.
fn read_text(item: &[u8]) -> Result<Vec<u8>, &'static str> {
    of_fields(item)?;
    Ok(item[TEXT..][..item[LEN].into()].to_vec())
}

checks! { pub UNSOUND:
    /// A sheet's length, and its item 0.
    of_head(sheet: &[u8]) [
        "sheet: wrong length" => has_length(sheet.len()),
        "sheet: bytes beside item 0's fields" =>
            sheet[0] == 0 && zeros(&sheet[NEXT..FIRST]) && sheet[LINKS_END] == 0 && zeros(&sheet[LEN..ITEM]),
        "sheet: version 0" => version(sheet) != 0,
        "sheet: version past the known ones" => is_version(version(sheet).into()),
        "sheet: source of item 0" => sheet[SOURCE] == 0,
        "sheet: more used than there are items" => unused(sheet) <= sheet.len(),
    ]

    /// An item that a link leads to.
    of_link(at: usize, seen: &[bool]) [
        "sheet: link that leaves the used items" => at < seen.len(),
        "sheet: link back to an item" => !seen[at],
    ]

    /// A child of an item.
    of_child(item: &[u8], kind: u8, parent: usize) [
        "sheet: wrong kind" => item[0] == kind,
        "sheet: wrong parent" => number(&item[PARENT..]) == parent,
        "sheet: byte 14 of an item" => item[LINKS_END] == 0,
    ]

    /// All children of an item; item 0 has no kind.
    of_children(parent: &[u8], last: Option<usize>) {
        let is_last = number(&parent[LAST..]) == last.unwrap_or(0);
    } [
        "sheet: 'last word' is another" => parent[0] != 0 || is_last,
        "sheet: 'last child' is another" => parent[0] == 0 || is_last,
        "sheet: syllable without a phone" => parent[0] != SYLLABLE || last.is_some(),
    ]

    /// What an item of its kind has beside its links in the tree.
    of_fields(item: &[u8]) {
        let [word, syllable, phone] = [WORD, SYLLABLE, PHONE].map(|kind| item[0] == kind);
        let len = usize::from(item[LEN]);
    } [
        "sheet: phone links of a word or a syllable" => phone || zeros(&item[BEFORE..LINKS_END]),
        "sheet: child of a phone" => !phone || zeros(&item[FIRST..PARENT]),
        "sheet: syllable with a text" => !syllable || zeros(&item[LEN..]),
        "sheet: stress of a word or a phone" => syllable || item[STRESS] == 0,
        "sheet: word without a source" => !word || item[SOURCE] != 0,
        "sheet: word of a source past the last" => !word || item[SOURCE] <= sources::LETTERS,
        "sheet: source of a syllable or a phone" => word || item[SOURCE] == 0,
        "sheet: word over 47 bytes" => !word || len <= words::LONGEST,
        "sheet: phone over 15 bytes" => !phone || len < CELL,
        "sheet: text with a high byte" => item[TEXT..][..len].is_ascii(),
        "sheet: bytes past a text" => zeros(&item[TEXT + len..]),
    ]

    /// A syllable's stress in a sheet of this version.
    of_stress(stress: u8, version: u8) [
        "sheet: stress that is none of 48 to 50" => matches!(stress, b'0'..=b'2'),
        "sheet: stress 50 in version 1" => stress != b'2' || version == 2,
    ]

    /// All used items.
    of_all(seen: &[bool]) [
        "sheet: used item that no link reaches" => !seen[1..].contains(&false),
    ]

    /// Two phones of which one stands behind the other.
    of_neighbours(items: &[&[u8]], one: usize, other: usize) [
        "sheet: phones forwards in another order" => number(&items[one][BEHIND..]) == other,
        "sheet: phones backwards in another order" => number(&items[other][BEFORE..]) == one,
    ]
}

/// A sheet as it is written.
struct Written(Vec<u8>);

impl Written {
    fn link(&mut self, item: usize, field: usize, to: usize) {
        put(&mut self.0, ITEM * item + field, to);
    }

    /// An item without links.
    fn item(&mut self, at: usize, kind: u8, stress: u8, text: &[u8]) {
        let item = &mut self.0[ITEM * at..][..ITEM];
        item.fill(0);
        item[0] = kind;
        item[STRESS] = stress;
        item[LEN] = text.len() as u8;
        item[TEXT..TEXT + text.len()].copy_from_slice(text);
    }

    /// The links between an item and its children.
    fn children(&mut self, parent: usize, children: &[usize]) {
        self.link(parent, FIRST, *children.first().unwrap_or(&0));
        self.link(parent, LAST, *children.last().unwrap_or(&0));
        for (i, child) in children.iter().enumerate() {
            self.link(*child, PARENT, parent);
            self.link(*child, NEXT, *children.get(i + 1).unwrap_or(&0));
        }
    }
}

/// The sheet of a version with these words in their items, which are 1 to so many. Every used item is written whole;
/// the bytes behind stay as they are.
pub fn write(sheet: &[u8], version: u8, placed: &[Placed]) -> Vec<u8> {
    let mut sheet = Written(sheet.to_vec());
    // item 0 stands before the first phone and behind the last
    let mut ring = vec![0];
    sheet.item(0, 0, version, b"");
    for Placed { word, items } in placed {
        sheet.item(items[0], WORD, 0, &word.text);
        sheet.0[ITEM * items[0] + SOURCE] = word.source;
        let mut rest = &items[1..];
        let mut syllables = vec![];
        for Syllable { stress, phones } in &word.syllables {
            let (own, behind) = rest.split_at(1 + phones.len());
            rest = behind;
            sheet.item(own[0], SYLLABLE, *stress, b"");
            for (at, phone) in own[1..].iter().zip(phones) {
                sheet.item(*at, PHONE, 0, phone);
            }
            sheet.children(own[0], &own[1..]);
            syllables.push(own[0]);
            ring.extend(&own[1..]);
        }
        sheet.children(items[0], &syllables);
    }
    let words: Vec<usize> = placed.iter().map(|placed| placed.items[0]).collect();
    sheet.children(0, &words);
    sheet.link(0, USED, used(placed));
    ring.push(0);
    for pair in ring.windows(2) {
        sheet.link(pair[0], BEHIND, pair[1]);
        sheet.link(pair[1], BEFORE, pair[0]);
    }
    sheet.0
}

/// The sheet with one more word, whose items are the next ones in their order. The driver checks itself: its
/// reader must find what it wrote, and no byte may differ that the word has no part in.
pub fn with_word(sheet: &[u8], before: &[Placed], word: &Word) -> Vec<u8> {
    let used = used(before);
    let mut words = before.to_vec();
    words.push(Placed { word: word.clone(), items: (used + 1..=used + word.items()).collect() });
    let after = write(sheet, version(sheet), &words);
    assert!(read(&after).as_ref() == Ok(&words), "the driver does not read what it wrote");
    let last_word = before.last().map_or(0, |placed| placed.items[0]);
    // a word that has phones ends with one
    let last_phone = *before.iter().rev().find_map(|word| word.items[1..].last()).unwrap_or(&0);
    let touched = |at: usize| match (at / ITEM, at % ITEM) {
        (0, field) => (FIRST..LINKS_END).contains(&field),
        (item, _) if item > used => item <= used + word.items(),
        (item, NEXT | 3) => item == last_word,
        (item, BEHIND | 13) => item == last_phone,
        _ => false,
    };
    let stray = (0..sheet.len()).find(|at| sheet[*at] != after[*at] && !touched(*at));
    assert!(stray.is_none(), "the driver writes a byte that the word has no part in");
    after
}

/// How many items these words have.
pub fn used(placed: &[Placed]) -> usize {
    placed.iter().map(|placed| placed.items.len()).sum()
}

/// The same words in other items, by the new numbers of the items 1 to so many.
pub fn renumbered(placed: &[Placed], numbers: impl IntoIterator<Item = usize>) -> Vec<Placed> {
    let numbers: Vec<usize> = numbers.into_iter().collect();
    let mut placed = placed.to_vec();
    for item in placed.iter_mut().flat_map(|placed| &mut placed.items) {
        *item = numbers[*item - 1];
    }
    placed
}

/// A new sheet of a version over some bytes.
pub fn new(bytes: &[u8], version: u8) -> Vec<u8> {
    write(bytes, version, &[])
}

/// The items of a sheet that words can have.
pub fn room(sheet: &[u8]) -> usize {
    sheet.len() / ITEM - 1
}

/// Where the bytes start that stand behind the used items.
pub fn unused(sheet: &[u8]) -> usize {
    ITEM * (number(&sheet[USED..]) + 1)
}

/// What reading a sheet gives, by its links alone: the version, the words, and the phones forwards and backwards.
#[derive(PartialEq, Eq)]
pub struct Reading {
    pub version: u8,
    pub words: Vec<Word>,
    pub forwards: Vec<Vec<u8>>,
    pub backwards: Vec<Vec<u8>>,
}

impl Reading {
    /// What it should be, by what was said.
    pub fn of(version: u8, words: &[Word]) -> Reading {
        let forwards: Vec<Vec<u8>> = words.iter().flat_map(Word::phones).cloned().collect();
        let backwards = forwards.iter().rev().cloned().collect();
        Reading { version, words: words.to_vec(), forwards, backwards }
    }
}

/// Reads as 01 says at the end of its section on sheets: from item 0's first word and from a parent's first
/// child on by next sibling, and along the phones both ways. None if a chain has no end or leaves the sheet, or
/// if some item of kind 3 up to used is not met exactly once.
pub fn reading(sheet: &[u8]) -> Option<Reading> {
    let items: Vec<&[u8]> = sheet.chunks_exact(ITEM).collect();
    let chain = |from: usize, first: usize, link: usize| {
        let mut chain = vec![];
        let mut at = number(&items[from][first..]);
        while at != 0 && chain.len() <= items.len() {
            chain.push(at);
            at = number(&items.get(at)?[link..]);
        }
        (at == 0).then_some(chain)
    };
    let text = |item: &usize| {
        let len = usize::from(items[*item][LEN]);
        Some(items[*item].get(TEXT..TEXT + len)?.to_vec())
    };
    let texts = |chain: &[usize]| chain.iter().map(text).collect::<Option<Vec<_>>>();
    let mut words = vec![];
    let mut met = vec![];
    for word in chain(0, FIRST, NEXT)? {
        let mut syllables = vec![];
        for syllable in chain(word, FIRST, NEXT)? {
            let phones = chain(syllable, FIRST, NEXT)?;
            syllables.push(Syllable { stress: items[syllable][STRESS], phones: texts(&phones)? });
            met.extend(phones);
        }
        words.push(Word { text: text(&word)?, source: items[word][SOURCE], syllables });
    }
    met.sort();
    let is_phone = |at: &usize| items.get(*at).is_some_and(|item| item[0] == PHONE);
    let phones = (1..=number(&items[0][USED..])).filter(is_phone);
    let forwards = texts(&chain(0, BEHIND, BEHIND)?)?;
    let backwards = texts(&chain(0, BEFORE, BEFORE)?)?;
    let version = version(sheet);
    phones.eq(met).then_some(Reading { version, words, forwards, backwards })
}
