//! Settings stores of many shapes with the values and versions beside them, and ways to damage them.

use crate::prelude::*;
use crate::records::{number, put};
use crate::settings::{Known, Record, KIND, KNOWN, LARGEST, LONGEST, REAL, RECORD};
use crate::settings::{FIRST, LEVEL, NAME, NAME_LEN, ONE, STRETCH};
use std::collections::BTreeSet;

/// The most records behind record 0.
const MOST: usize = LARGEST / RECORD - 1;

/// Floats that are no stretch: next to the range, around 0, subnormal, infinite, NaNs of many patterns, and others.
pub const NO_STRETCHES: [u32; 24] = [
    STRETCH.low - 1,
    STRETCH.high + 1,
    0,
    1 << 31,
    1,
    0x8000_0001,
    0x007f_ffff,
    0x0080_0000,
    0x7f7f_ffff,
    0xff7f_ffff,
    0x7f80_0000,
    0xff80_0000,
    0x7f80_0001,
    0xff80_0001,
    0x7fbf_ffff,
    0x7fc0_0000,
    0xffc0_0000,
    0x7fff_ffff,
    u32::MAX,
    100,
    ONE | 1 << 31,
    STRETCH.low | 1 << 31,
    STRETCH.high | 1 << 31,
    0x4180_0000,
];

/// Stretches at the edges of their range, and next to 1.0.
pub const STRETCHES: [u32; 8] = [
    STRETCH.low,
    STRETCH.low + 1,
    STRETCH.high - 1,
    STRETCH.high,
    ONE - 1,
    ONE,
    ONE + 1,
    0x3fc0_0000,
];

/// Versions that are none: 0, 3, and some whose low half or low byte is right.
pub const NO_VERSIONS: [u32; 10] = [0, 3, 4, 256, 257, 258, 65_537, 65_538, 0x8000_0001, u32::MAX];

/// Names that nearly are known, and others.
pub const UNKNOWN: [&[u8]; 16] = [
    b"",
    b"x",
    b"pitc",
    b"itch",
    b"pitchx",
    b"Pitch",
    b"pitch\0",
    b"stretc",
    b"STRETCH",
    b"stretch\0",
    b"leve",
    b"levels",
    b"leveL",
    b"abcdefghijklmno",
    b"\xe9\x80\xff",
    &[255; LONGEST],
];

/// Whole numbers at the edges of a setting's range.
pub fn wholes(Known { low, high, .. }: &Known) -> [u32; 4] {
    [*low, low + 1, high - 1, *high]
}

/// Whole numbers that a setting does not take: those next to its range, and others.
pub fn no_wholes(Known { low, high, .. }: &Known) -> [u32; 8] {
    let [least, most] = [i32::MIN as u32, i32::MAX as u32];
    [low.wrapping_sub(1), high + 1, low.wrapping_sub(2), low + 0x1_0000, least, most, ONE, 999]
}

pub fn any_bits(random: &mut Random) -> u32 {
    random.below(1 << 32) as u32
}

/// The bits of a value that a setting takes; one in three at an edge.
pub fn fitting(random: &mut Random, known: &Known) -> u32 {
    match (random.once_in(3), known.kind) {
        (true, REAL) => STRETCHES[random.below(STRETCHES.len())],
        (true, _) => wholes(known)[random.below(4)],
        (false, _) => within(random, known),
    }
}

/// The bits of any value that a setting takes: those of floats above 0.0 go up with them.
pub fn within(random: &mut Random, known: &Known) -> u32 {
    random.between(known.low as usize, known.high as usize) as u32
}

/// A kind and bits that a setting does not take.
pub fn misfit(random: &mut Random, known: &Known) -> (u32, u32) {
    let bits = match (random.below(4), known.kind) {
        (0, _) => return (3 - known.kind, fitting(random, known)),
        (1, _) => any_bits(random),
        (_, REAL) => NO_STRETCHES[random.below(NO_STRETCHES.len())],
        _ => no_wholes(known)[random.below(8)],
    };
    match known.takes(known.kind, bits) {
        true => misfit(random, known),
        false => (known.kind, bits),
    }
}

/// A reader's version; one in 24 is none.
pub fn version(random: &mut Random) -> u32 {
    match random.below(24) {
        0 => NO_VERSIONS[random.below(NO_VERSIONS.len())],
        _ => random.between(1, 2) as u32,
    }
}

/// A name that no version knows.
pub fn unknown(random: &mut Random) -> Vec<u8> {
    match random.below(4) {
        0 => random.pick(&UNKNOWN).to_vec(),
        1 => {
            let len = random.between(0, LONGEST);
            random.bytes(len)
        }
        _ => (0..random.between(1, 5)).map(|_| random.pick_byte(b"aceilpstv")).collect(),
    }
}

/// So many different names: most of the known ones, then others, in any order.
fn names(random: &mut Random, count: usize) -> Vec<Vec<u8>> {
    let mut names: Vec<Vec<u8>> = KNOWN.map(|known| known.name.into()).into();
    names.retain(|_| !random.once_in(5));
    names.extend((0..count).map(|_| unknown(random)));
    // in the place of those that come twice
    names.extend((0..count).map(|i| format!("n{i}").into()));
    let mut seen = BTreeSet::new();
    names.retain(|name| seen.insert(name.clone()));
    names.truncate(count);
    random.shuffle(&mut names);
    names
}

/// A store with a sound chain, whose known settings have values that they take; but level, one time in eight.
fn sound(random: &mut Random) -> Vec<u8> {
    let few = [(40, 0, 0), (200, 1, 4), (300, 3, 12), (100, 13, 40)];
    let count = random.ranged(&[&few[..], &[(1, 41, MOST), (1, MOST, MOST)]].concat());
    let names = names(random, count);
    let unreached = random.ranged(&[(1, 0, 0), (1, 1, 6)]).min(MOST - count);
    let records = 1 + count + unreached;
    let rest = random.between(1, 31) * usize::from(records <= MOST && random.once_in(3));
    let len = RECORD * records + rest;
    let store = if random.once_in(3) { vec![0; len] } else { records::random(random, len) };
    let mut numbers: Vec<usize> = (1..records).collect();
    if !random.once_in(3) {
        random.shuffle(&mut numbers);
    }
    let mut record = |(at, name): (usize, Vec<u8>)| {
        let known = KNOWN.iter().find(|known| known.is(&name));
        let (kind, bits) = match known {
            Some(known) if known.name == LEVEL.name && random.once_in(8) => misfit(random, known),
            Some(known) => (known.kind, fitting(random, known)),
            None => (random.between(1, 2) as u32, any_bits(random)),
        };
        Record { at, name, kind, bits }
    };
    let chain: Vec<Record> = numbers.into_iter().zip(names).map(&mut record).collect();
    settings::write(&store, random.between(1, 2), &chain)
}

/// Any store; five in six are sound.
pub fn random(random: &mut Random) -> Vec<u8> {
    let mut store = sound(random);
    if random.once_in(6) {
        damage(random, &mut store);
        if random.once_in(4) && settings::has_length(store.len()) {
            damage(random, &mut store);
        }
    }
    store
}

/// Makes a store such as 02 refuses, or nearly does: the driver's reader decides.
fn damage(random: &mut Random, store: &mut Vec<u8>) {
    let records = store.len() / RECORD;
    let Ok(chain) = settings::chain(store) else {
        let at = random.below(store.len());
        store[at] = random.byte();
        return;
    };
    let any = |random: &mut Random| chain.get(random.below(chain.len().max(1)));
    // the record that is damaged, record 0 if there is no other
    let at = RECORD * any(random).map_or(0, |record| record.at);
    let link = if random.once_in(4) { FIRST } else { at };
    match random.below(12) {
        0 => {
            let lengths = [0, random.between(1, 30), 31, LARGEST + 1, LARGEST + RECORD];
            store.resize(lengths[random.below(5)], 0);
        }
        1 => {
            let versions = [0, 3, 256, 257, 258, 513, 65_535, random.below(65_536)];
            put(store, 0, versions[random.below(8)]);
        }
        2 => {
            let outside = [records, records + 1, 2_048, 65_535, records.next_multiple_of(256)];
            put(store, link, outside[random.below(5)]);
        }
        3 => put(store, at, at / RECORD),
        4 => {
            // back to a record a little before, or to any
            let i = chain.iter().position(|record| RECORD * record.at == at).unwrap_or(0);
            let back = chain.get(i.saturating_sub(random.between(1, 4)));
            let to = if random.once_in(3) { any(random) } else { back };
            put(store, at, to.map_or(0, |record| record.at));
        }
        5 => {
            if let Some(Record { name, .. }) = any(random) {
                store[at + NAME_LEN] = name.len() as u8;
                store[at + NAME..][..name.len()].copy_from_slice(name);
            }
        }
        6 => store[at + NAME_LEN] = random.pick_byte(&[16, 16, 17, 128, 255]),
        7 => store[at + KIND] = random.pick_byte(&[0, 0, 3, 3, 4, 129, 255]),
        8 | 9 => {
            let known = &KNOWN[random.below(3)];
            let (kind, bits) = misfit(random, known);
            if let Some(record) = known.record(&chain) {
                *store = settings::with_value(store, record.at, bits);
                store[RECORD * record.at + KIND] = kind as u8;
            }
        }
        10 => {
            *store = records::random(random, store.len());
            if random.once_in(2) {
                put(store, 0, random.between(1, 2));
                put(store, FIRST, random.below(records));
            }
        }
        _ => {
            let at = random.below(store.len());
            store[at] ^= 1 << random.below(8);
        }
    }
}

/// A plainer show's stretch, for shrinking.
pub fn plainer_float(bits: &u32) -> Vec<u32> {
    (*bits != ONE).then_some(ONE).into_iter().collect()
}

/// Sound stores with something left out, for shrinking; of any other one, with bytes made zero.
pub fn smaller(store: &[u8]) -> Vec<Vec<u8>> {
    let chain = settings::has_length(store.len()).then(|| settings::chain(store).ok());
    let Some(chain) = chain.flatten() else {
        return records::plainer(store, RECORD, 4);
    };
    let version = number(store);
    let write = |chain: &Vec<Record>| settings::write(store, version, chain);
    let mut all: Vec<Vec<u8>> = chain.smaller().iter().map(write).collect();
    let plain = settings::of(version, &chain);
    all.extend((plain != store).then_some(plain));
    let end = RECORD * (1 + chain.iter().map(|record| record.at).max().unwrap_or(0));
    all.extend(records::less_behind(store, end, &[end, store.len() - store.len() % RECORD]));
    all
}
