//! Lexicons for the short inputs: every small one, and sections at 01's limits and just past them.

use crate::lexicons::{index, sections, Row, Sections};
use crate::prelude::*;
use crate::records::with_byte;
use crate::tables::{self, put};

/// An entry of these parts.
pub fn row(word: impl AsRef<[u8]>, tag: u8, numbers: &[u8]) -> Row {
    Row { tag, word: word.as_ref().to_vec(), numbers: numbers.to_vec() }
}

/// Every lexicon of up to so many entries over two words and three tags, sorted or not, in which any
/// entry may be damaged. The phone of an entry tells its place.
pub fn small(most: usize) -> Vec<Rc<Lexicon>> {
    let names = ["p0", "p1", "p2", "p3", "p4"];
    let made = |kinds: &Vec<usize>| {
        let rows = (0..).zip(kinds);
        let rows = rows.map(|(i, kind)| row(["a", "b"][kind % 2], b"0nvx"[kind / 2], &[i]));
        let mut sections = sections(&names, &rows.collect::<Vec<Row>>());
        for i in (0..kinds.len()).filter(|i| kinds[*i] == 6) {
            put(&mut sections.index, 4 + 4 * i, &[200, 0, 0, 0]);
        }
        Rc::new(Lexicon::new(sections))
    };
    let kinds = words::every(&[0, 1, 2, 3, 4, 5, 6], most);
    kinds.iter().map(made).collect()
}

/// The phones of the good lexicon.
const NAMES: [&str; 3] = ["k", "ae1", "zz"];

/// A small lexicon in good order.
pub fn good() -> Sections {
    let rows = [
        row("a", b'n', &[0]),
        row("a", b'v', &[1, 0]),
        row("ab", b'0', &[]),
        row("b", b'n', &[2]),
        row("b", 200, &[1]),
    ];
    sections(&NAMES, &rows)
}

/// A large lexicon in good order, every third word of which has two entries, and the same with its last
/// entry in front.
pub fn large() -> [Rc<Lexicon>; 2] {
    let mut rows = vec![];
    for i in 0..3_000 {
        let word = format!("W{i:04}");
        rows.push(row(&word, b'n', &[(i % 3) as u8]));
        if i % 3 == 0 {
            rows.push(row(&word, b'v', &[0, 1]));
        }
    }
    let names = ["k", "ae1", "t"];
    let sorted = Lexicon::of(&names, &rows);
    rows.rotate_right(1);
    [sorted, Lexicon::of(&names, &rows)].map(Rc::new)
}

/// The good lexicon with each of its bytes altered, and cut at each place of each section.
pub fn altered_bytes() -> Vec<Rc<Lexicon>> {
    let parts: [fn(&mut Sections) -> &mut Vec<u8>; 3] =
        [|s| &mut s.phones, |s| &mut s.index, |s| &mut s.data];
    each! {
        for part in parts;
        let section = part(&mut good()).clone();
        for (at, byte) in section.iter().enumerate();
        let values = [0, 1, 2, 3, 16, 65, 97, 98, 127, 128, 255, byte ^ 1, byte.wrapping_add(1)];
        let altered = values.map(|value| with_byte(&section, at, value));
        let others = altered.into_iter().chain([section[..at].to_vec()]);
        let changed = with(&good(), others, |sections, other| *part(sections) = other);
        changed.into_iter().map(Lexicon::new).map(Rc::new)
    }
}

/// Sections at 01's limits, and just past them.
pub fn limits() -> Vec<Rc<Lexicon>> {
    let good = good();
    let mut all = vec![good.clone()];
    all.extend(with(&good, tables::limits(&good.phones), |s, table| s.phones = table));
    // counts of the index: none, more than there are, and so many that a sum of 32 bits wraps
    let counts = [&[][..], &[0; 3], &[0; 4], &[0; 5], &[0, 0, 0, 64, 0, 0, 0, 0], &[255; 8]];
    all.extend(with(&good, counts, |s, index| s.index = index.to_vec()));
    let behind_1 = [&[][..], &[0; 3], &[0, 0, 0, 0, 9], &[255; 4], &[254, 255, 255, 255]];
    all.extend(with(&good, behind_1, |s, offset| s.index = [&[1, 0, 0, 0], offset].concat()));
    let others: [fn(&mut Sections); 7] = [
        |s| s.index[0] = 6,
        |s| s.index[0] = 4,
        |s| s.index.extend([255; 7]),
        |s| s.data = vec![],
        |s| s.data.extend([1, 2, 3]),
        // entries that share their bytes, or stand in each other's
        |s| s.index = index(&[0, 0, 0]),
        |s| s.index = index(&[0, 2]),
    ];
    all.extend(with(&good, others, |s, change| change(s)));
    all.extend(single_entries());
    all.into_iter().map(Lexicon::new).map(Rc::new).collect()
}

/// Sections of one entry, which is at 01's limits or just past them.
fn single_entries() -> Vec<Sections> {
    let one = |tag: u8, word: &[u8], numbers: &[u8]| sections(&NAMES, &[row(word, tag, numbers)]);
    // the shortest entry, and one that is cut behind each of its parts
    let mut all = vec![one(b'n', b"", &[])];
    all.extend(with(&one(b'n', b"ab", &[0, 1]), 0..=7, |s, cut| s.data.truncate(cut)));
    // the longest word, with bytes at the limit; the longest list; the last number
    all.extend([255, 48, 47].map(|len| one(b'n', &vec![b'a'; len], &[0])));
    all.extend([&[127][..], &[128], &[0xc3, 0xa9]].map(|word| one(0, word, &[0])));
    let lists = [(255, &[0; 255][..]), (128, &[2]), (127, &[3])];
    all.extend(lists.map(|(tag, numbers)| one(tag, b"a", numbers)));
    all.push(sections(&["p"; 256], &[row("a", b'n', &[255, 0, 128])]));
    all.push(sections(&["p"; 255], &[row("a", b'n', &[255])]));
    // lists about as long as an answer can be
    for count in [95, 96, 97, 98] {
        all.push(one(b'n', b"a", &vec![1; count]));
        all.push(one(b'n', b"a", &[vec![1; count - 1], vec![3]].concat()));
    }
    all
}
