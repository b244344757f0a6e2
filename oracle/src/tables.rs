//! Phone tables, which lexicons and letter trees have alike.

use crate::random::Random;
use std::ops::Range;

/// Three sections as bytes: a phone table, an index, and what it leads to.
macro_rules! sections {
    ($front:literal: $data:ident) => {
        #[derive(Clone, PartialEq)]
        pub struct Sections {
            pub phones: Vec<u8>,
            pub index: Vec<u8>,
            pub $data: Vec<u8>,
        }

        impl Sections {
            pub fn parts(&self) -> [Part<'_>; 3] {
                let data = concat!($front, ".", stringify!($data));
                [
                    Part::read(concat!($front, ".phones"), Form::PhoneTable, &self.phones),
                    Part::read(concat!($front, ".index"), Form::Bytes, &self.index),
                    Part::read(data, Form::Bytes, &self.$data),
                ]
            }
        }

        smaller!(Sections: $data, index, phones);
    };
}

/// The strings of a phone table that has 01's form.
pub fn phone_names(table: &[u8]) -> Option<Vec<Vec<u8>>> {
    let (count, mut rest) = table.split_first_chunk()?;
    let name = |_| {
        let (len, behind) = rest.split_first()?;
        let (name, behind) = behind.split_at_checked(usize::from(*len))?;
        rest = behind;
        (name.len() <= 15 && name.is_ascii()).then(|| name.to_vec())
    };
    let count = u32::from_le_bytes(*count);
    (count <= 256).then(|| (0..count).map(name).collect()).flatten()
}

/// A phone table of these names.
pub fn phone_table<T: AsRef<[u8]>>(names: &[T]) -> Vec<u8> {
    let mut table = (names.len() as u32).to_le_bytes().to_vec();
    for name in names {
        table.push(name.as_ref().len() as u8);
        table.extend_from_slice(name.as_ref());
    }
    table
}

/// A table with changes that keep 01's form, or just break it.
pub fn limits(good: &[u8]) -> Vec<Vec<u8>> {
    let names = [&[b'p'; 15][..], &[b'p'; 16], &[127], &[128], "\u{e9}".as_bytes()];
    let mut all = vec![vec![], good[..3].to_vec(), [good, &[16, 200, 255]].concat()];
    all.extend(names.map(|name| phone_table(&[name])));
    all.extend([0, 256, 257].map(|count| phone_table(&vec!["p"; count])));
    all.extend([[0, 0, 0, 1], [255; 4]].map(|count| [&count[..], &good[4..]].concat()));
    all
}

/// The names of a table.
pub fn names(random: &mut Random, name: impl Fn(&mut Random) -> Vec<u8>) -> Vec<Vec<u8>> {
    let count = random.ranged(&[(1, 0, 0), (2, 1, 1), (12, 2, 12), (8, 13, 80), (2, 256, 256)]);
    (0..count).map(|_| name(random)).collect()
}

/// The first that fits of things made one after the other.
pub fn first_fit<T>(make: impl FnMut() -> T, fits: impl Fn(&T) -> bool) -> T {
    std::iter::repeat_with(make).find(fits).expect("one is made that fits")
}

/// How many ways there are to break a table.
pub const BREAKS: usize = 4;

/// Breaks the form of a table of so many names, or nearly does, in one of the ways.
pub fn break_form(random: &mut Random, table: &mut Vec<u8>, names: usize, way: usize) {
    match way {
        0 => table.truncate(random.below(table.len() + 1)),
        1 => put(table, 0, &(random.between(names + 1, 300) as u32).to_le_bytes()),
        2 => put(table, 4, &[random.between(16, 255) as u8]),
        _ => {
            let at = random.below(table.len() + 1);
            put(table, at, &[128 + random.below(128) as u8]);
        }
    }
}

/// Alters a few bytes of sections, each of them as often as its weight says, within its first so many bytes.
pub fn alter(random: &mut Random, mut sections: [(usize, &mut Vec<u8>, usize); 3]) {
    for _ in 0..random.between(1, 6) {
        let byte = [random.byte()];
        let weights = sections.each_ref().map(|section| section.0);
        let (_, section, len) = &mut sections[random.weighted(&weights)];
        put(section, random.below(*len), &byte);
    }
}

/// Where a place is once a part is left out; a place within the part is then the part's start.
pub fn moved(at: usize, part: &Range<usize>) -> usize {
    at - (at.clamp(part.start, part.end) - part.start)
}

/// Writes bytes into a section, where it is long enough.
pub fn put(section: &mut [u8], at: usize, bytes: &[u8]) {
    if let Some(place) = section.get_mut(at..at + bytes.len()) {
        place.copy_from_slice(bytes);
    }
}
