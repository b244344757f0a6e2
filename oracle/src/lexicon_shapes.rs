//! Lexicons of many shapes, and ways to break them.

use crate::lexicon_edges::row;
use crate::lexicons::{entry_bytes, index, sections, Compiled, Row, Sections};
use crate::prelude::*;
use crate::shrink::{parts, shorter, without};
use crate::tables::{self, first_fit, moved, phone_table, put};
use original::lexicon::probe;
use std::ops::Range;

/// A lexicon, and words to try on it: some of its own, some of the addenda, and others.
pub struct Shape {
    pub lexicon: Lexicon,
    pub words: Vec<Vec<u8>>,
}

/// A whole lexicon, sorted or not.
pub fn whole(random: &mut Random, phones: &Phones) -> Shape {
    let most = [12, 100, 800, 3_000][random.weighted(&[60, 30, 4, 1])];
    plan(random, phones, most)
}

/// A whole lexicon of a size that a list can hold.
pub fn to_record(random: &mut Random, phones: &Phones) -> Shape {
    first_fit(|| plan(random, phones, 60), |shape| is_below(shape, usize::MAX, 2_000))
}

/// A whole lexicon of a few entries.
pub fn few(random: &mut Random, phones: &Phones) -> Shape {
    plan(random, phones, 14)
}

/// A whole lexicon of a few entries, so that a list can hold many of them.
pub fn few_to_record(random: &mut Random, phones: &Phones) -> Shape {
    first_fit(|| plan(random, phones, 14), |shape| is_below(shape, 400, 400))
}

/// Whether a lexicon has at least five entries, and a phone table and data that are shorter than this.
fn is_below(shape: &Shape, table: usize, data: usize) -> bool {
    let sections = &shape.lexicon.sections;
    sections.index.len() > 20 && sections.phones.len() < table && sections.data.len() < data
}

/// A lexicon that only names phones.
pub fn of_phones(random: &mut Random, phones: &Phones) -> Lexicon {
    let names = tables::names(random, |random| phones.phone(random));
    Lexicon::of(&names, &[])
}

fn plan(random: &mut Random, phones: &Phones, most: usize) -> Shape {
    let names = tables::names(random, |random| phones.phone(random));
    let alphabet = words::alphabet(random);
    let rows = rows(random, most, &alphabet, names.len());
    let word = |_| rows[random.below(rows.len())].word.clone();
    let mut words: Vec<Vec<u8>> = (0..30.min(rows.len())).map(word).collect();
    for _ in 0..4 {
        words.push(random.pick(&addenda()).into());
        words.push(words::accepted(random, &alphabet));
    }
    words.retain(|word| !words::is_refused(word));
    let lexicon = Lexicon::new(laid_out(random, &names, &rows));
    Shape { lexicon, words }
}

/// The words of the addenda.
pub fn addenda() -> Vec<&'static str> {
    probe::addenda().iter().map(|(_, word, _)| *word).collect()
}

/// Entries, many of them homographs; three of four times their words do not fall.
fn rows(random: &mut Random, most: usize, alphabet: &[u8], names: usize) -> Vec<Row> {
    let count = random.ranged(&[(1, 0, 0), (1, 1, 1), (16, 2, most)]);
    let mut rows: Vec<Row> = vec![];
    while rows.len() < count {
        let word = word(random, alphabet, &rows);
        for _ in 0..1 + random.weighted(&[6, 3, 2, 1]) {
            let tag = tag(random);
            rows.push(row(&word, tag, &numbers(random, names)));
        }
    }
    match random.below(8) {
        // homographs in any order of their tags
        0 => rows.sort_by(|a, b| a.word.cmp(&b.word)),
        // a few out of order
        1 => {
            rows.sort_by(|a, b| a.word.cmp(&b.word));
            for _ in 0..random.between(1, 3) {
                let (i, j) = (random.below(count + 1), random.below(count + 1));
                if i.max(j) < rows.len() {
                    rows.swap(i, j);
                }
            }
        }
        2 => random.shuffle(&mut rows),
        _ => rows.sort_by(|a, b| (&a.word, a.tag).cmp(&(&b.word, b.tag))),
    }
    rows
}

/// A word: one of the addenda, one near an earlier word, or any; it may be longer than 01 lets be looked up.
fn word(random: &mut Random, alphabet: &[u8], rows: &[Row]) -> Vec<u8> {
    let len = match random.weighted(&[30, 12, 1, 1, 1, 3, 6]) {
        0 => random.between(1, 4),
        1 => random.between(1, 10),
        2 => 0,
        3 => words::LONGEST,
        4 => random.between(words::LONGEST, 255),
        5 => return random.pick(&addenda()).into(),
        _ if rows.is_empty() => 1,
        _ => {
            let mut near = rows[random.below(rows.len())].word.clone();
            near.truncate(254);
            near.push(random.pick_byte(alphabet));
            return near;
        }
    };
    (0..len).map(|_| random.pick_byte(alphabet)).collect()
}

fn tag(random: &mut Random) -> u8 {
    match random.weighted(&[12, 1, 1]) {
        0 => random.pick_byte(b"nnvvj0pN"),
        1 => random.byte() | 128,
        _ => random.byte() & 127,
    }
}

fn numbers(random: &mut Random, names: usize) -> Vec<u8> {
    let counts = [(3, 0, 0), (60, 1, 6), (6, 7, 24), (1, 90, 100), (1, 95, 98), (1, 255, 255)];
    let count = random.ranged(if names == 0 { &[(1, 0, 0)] } else { &counts });
    // now and then the last number
    let number = |_| if random.once_in(20) { names.min(256) - 1 } else { random.below(names) };
    (0..count).map(number).map(|n| n as u8).collect()
}

/// Sections of these entries; one time in four they stand in another order than their offsets, and one
/// time in four with other bytes between.
fn laid_out(random: &mut Random, names: &[Vec<u8>], rows: &[Row]) -> Sections {
    let mut order: Vec<usize> = (0..rows.len()).collect();
    if random.once_in(4) {
        random.shuffle(&mut order);
    }
    let gaps = random.once_in(4);
    let mut data = vec![];
    let mut offsets = vec![0; rows.len()];
    for i in order {
        if gaps && random.once_in(2) {
            let gap = random.between(1, 9);
            data.extend(random.bytes(gap));
        }
        offsets[i] = data.len();
        data.extend(entry_bytes(&rows[i]));
    }
    let mut sections = Sections { phones: phone_table(names), index: index(&offsets), data };
    if random.once_in(4) {
        let more = random.between(1, 9);
        sections.phones.extend(random.bytes(more));
        sections.index.extend(random.bytes(more));
        sections.data.extend(random.bytes(more));
    }
    sections
}

/// Breaks the form of a section, damages an entry, or alters any byte.
pub fn broken(random: &mut Random, lexicon: &Lexicon) -> Lexicon {
    let mut sections = lexicon.sections.clone();
    break_one(random, &mut sections, lexicon);
    if random.once_in(6) {
        break_one(random, &mut sections, lexicon);
    }
    Lexicon::new(sections)
}

fn break_one(random: &mut Random, sections: &mut Sections, lexicon: &Lexicon) {
    let names = lexicon.names.as_ref().map_or(0, Vec::len);
    let entries = lexicon.count();
    let entry = random.below(entries.max(1));
    let offset = lexicon.offsets.iter().flatten().nth(entry).copied().unwrap_or(0);
    let Sections { phones, index, data } = sections;
    let len = data.len();
    match random.below(14) {
        0 => break_phones(random, phones, names),
        1 => index.truncate(random.below(index.len() + 1)),
        2 => {
            let more = [1, 2, random.between(1, 9), 1 << 30, u32::MAX as usize];
            let count = (entries + more[random.below(5)]) as u32;
            put(index, 0, &count.to_le_bytes());
        }
        3 | 4 => data.truncate(random.below(len + 1)),
        5 => data.clear(),
        6 | 7 => {
            let outside = [len, len - 1.min(len), len + random.below(9), u32::MAX as usize];
            let outside = outside[random.below(4)] as u32;
            put(index, 4 + 4 * entry, &outside.to_le_bytes());
        }
        8 => put(data, offset + 2, &[128 + random.below(128) as u8]),
        // a word or a list that is longer than it was
        9 => put(data, offset + 1, &[random.byte()]),
        way @ (10 | 11) => {
            let Ok(Compiled { word, numbers, .. }) = lexicon.entry(entry) else { return };
            let count = offset + 2 + word.len();
            match way {
                10 => put(data, count, &[random.byte()]),
                _ => put(data, count + 1 + random.below(numbers.len().max(1)), &[names as u8]),
            }
        }
        _ => {
            let index = (1, index, 4 * entries + 4);
            tables::alter(random, [(1, phones, 600), index, (2, data, len + 1)]);
        }
    }
}

/// A phone table that breaks its form, or nearly does.
pub fn broken_table(random: &mut Random, lexicon: &Lexicon) -> Rc<Lexicon> {
    let mut table = lexicon.sections.phones.clone();
    let names = lexicon.names.as_ref().map_or(0, Vec::len);
    break_phones(random, &mut table, names);
    Lexicon::of_table(table)
}

fn break_phones(random: &mut Random, table: &mut Vec<u8>, names: usize) {
    let way = random.below(tables::BREAKS);
    tables::break_form(random, table, names, way);
}

impl Shrink for Rc<Lexicon> {
    fn smaller(&self) -> Vec<Rc<Lexicon>> {
        let given = &self.sections;
        let all = match (&self.names, &self.offsets) {
            (Some(names), Some(offsets)) => {
                let tables =
                    with(given, names.smaller(), |s, names| s.phones = phone_table(&names));
                let read = |i| self.entry(i).map(|entry| row(entry.word, entry.tag, entry.numbers));
                let fewer = match (0..self.count()).map(read).collect::<Result<Vec<Row>, _>>() {
                    Ok(rows) => fewer_rows(given, names, &rows),
                    Err(_) => fewer_bytes(given, offsets),
                };
                [tables, fewer].concat()
            }
            _ => given.smaller(),
        };
        all.into_iter().map(Lexicon::new).map(Rc::new).collect()
    }
}

/// Entries left out or made plainer, and written one behind the other.
fn fewer_rows(given: &Sections, names: &[Vec<u8>], rows: &Vec<Row>) -> Vec<Sections> {
    let all = [vec![rows.clone()], rows.smaller()].concat();
    all.iter().map(|rows| sections(names, rows)).filter(|plainer| plainer != given).collect()
}

/// Offsets left out, or bytes, behind which the offsets move.
fn fewer_bytes(given: &Sections, offsets: &[usize]) -> Vec<Sections> {
    let cut = |sections: &mut Sections, part: Range<usize>| {
        let moved = offsets.iter().map(|offset| moved(*offset, &part));
        sections.index = index(&moved.collect::<Vec<usize>>());
        sections.data = without(&given.data, &part);
    };
    let fewer = with(given, shorter(offsets), |s, offsets| s.index = index(&offsets));
    [fewer, with(given, parts(given.data.len()), cut)].concat()
}
