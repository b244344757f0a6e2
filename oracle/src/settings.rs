//! The settings store: 02's layout (S-12), read and written by the driver itself, and what 02 makes of it.

use crate::prelude::*;
use crate::records::{number, put, u32_at};
use crate::settings_met::{by_15, by_16, by_2, of_misfit};

/// Bytes of a record.
pub const RECORD: usize = 32;
/// The longest store that 02 accepts.
pub const LARGEST: usize = 65_536;
/// The longest name.
pub const LONGEST: usize = 15;

// Where the fields of a record stand; record 0 has a version, then the first index.
pub const FIRST: usize = 2;
pub const NAME_LEN: usize = 2;
pub const NAME: usize = 3;
pub const KIND: usize = 18;
pub const VALUE: usize = 19;
/// Where the fields of record 0 end, and those of the others.
pub const HEAD_END: usize = 4;
pub const FIELDS_END: usize = 23;

/// The kinds of values.
pub const WHOLE: u32 = 1;
pub const REAL: u32 = 2;

/// The bits of 1.0.
pub const ONE: u32 = 0x3f80_0000;

/// A setting that some version knows.
pub struct Known {
    pub name: &'static str,
    /// The first version that knows it.
    pub since: u32,
    pub kind: u32,
    /// The bits of the lowest and of the highest value, and of the value without a record.
    pub low: u32,
    pub high: u32,
    pub missing: u32,
}

pub const PITCH: Known =
    Known { name: "pitch", since: 1, kind: WHOLE, low: 50, high: 400, missing: 100 };
pub const STRETCH: Known = Known {
    name: "stretch",
    since: 1,
    kind: REAL,
    low: 0.25f32.to_bits(),
    high: 4.0f32.to_bits(),
    missing: ONE,
};
pub const LEVEL: Known =
    Known { name: "level", since: 2, kind: WHOLE, low: 0, high: 100, missing: 80 };

/// All of them, in the order in which a read shows them.
pub const KNOWN: [Known; 3] = [PITCH, STRETCH, LEVEL];

impl Known {
    /// Whether it may have this value.
    pub fn takes(&self, kind: u32, bits: u32) -> bool {
        kind == self.kind
            && match kind {
                WHOLE => (self.low as i32..=self.high as i32).contains(&(bits as i32)),
                _ => {
                    let [low, high, value] = [self.low, self.high, bits].map(f32::from_bits);
                    (low..=high).contains(&value)
                }
            }
    }

    pub fn is(&self, name: &[u8]) -> bool {
        self.name.as_bytes() == name
    }

    /// Its record in a chain, if it has one.
    pub fn record<'a>(&self, chain: &'a [Record]) -> Option<&'a Record> {
        chain.iter().find(|record| self.is(&record.name))
    }
}

/// The setting that a reader of this version knows by a name.
pub fn known(version: u32, name: &[u8]) -> Option<&'static Known> {
    KNOWN.iter().find(|known| known.is(name) && known.since <= version)
}

/// A record of the chain: its number and its fields.
#[derive(Clone, PartialEq)]
pub struct Record {
    pub at: usize,
    pub name: Vec<u8>,
    pub kind: u32,
    pub bits: u32,
}

smaller!(Record: name);

/// The record of a number; of a name that is too long, its field.
pub fn record(store: &[u8], at: usize) -> Record {
    let bytes = &store[RECORD * at..][..RECORD];
    let len = usize::from(bytes[NAME_LEN]).min(LONGEST);
    let (name, kind) = (bytes[NAME..][..len].to_vec(), bytes[KIND].into());
    Record { at, name, kind, bits: u32_at(bytes, VALUE) }
}

/// The records that the chain leads to, and the index that ends it: 0, one outside, or one that was met before.
pub fn walk(store: &[u8]) -> (Vec<usize>, usize) {
    let mut seen = vec![false; store.len() / RECORD];
    seen[0] = true;
    let (mut walked, mut at) = (vec![], number(&store[FIRST..]));
    while seen.get(at) == Some(&false) {
        seen[at] = true;
        walked.push(at);
        at = number(&store[RECORD * at..]);
    }
    (walked, at)
}

/// The records of a sound chain, in its order; of any other, what is amiss.
pub fn chain(store: &[u8]) -> Result<Vec<Record>, &'static str> {
    let (walked, end) = walk(store);
    of_end(end, store.len() / RECORD)?;
    walked.iter().try_for_each(|at| of_record(&store[RECORD * at..]))?;
    let chain: Vec<Record> = walked.iter().map(|at| record(store, *at)).collect();
    of_names(&chain)?;
    Ok(chain)
}

checks! { pub UNSOUND:
    /// The index that ends a chain.
    of_end(end: usize, records: usize) [
        "16: index outside" => end < records,
        "16: circle" => end == 0,
    ]

    /// A record of the chain.
    of_record(record: &[u8]) [
        "16: name over 15 bytes" => usize::from(record[NAME_LEN]) <= LONGEST,
        "16: kind that is neither 1 nor 2" => matches!(record[KIND].into(), WHOLE | REAL),
    ]

    /// The names of a chain.
    of_names(chain: &[Record]) {
        let mut names: Vec<&[u8]> = chain.iter().map(|record| &record.name[..]).collect();
        names.sort();
    } [
        "16: name twice" => names.windows(2).all(|two| two[0] != two[1]),
    ]
}

/// Whether a record's name length and kind are in range.
pub fn is_record(record: &[u8]) -> bool {
    of_record(record).is_ok()
}

/// Whether a store's length is right.
pub fn has_length(len: usize) -> bool {
    (RECORD..=LARGEST).contains(&len)
}

pub fn is_version(version: u32) -> bool {
    matches!(version, 1 | 2)
}

/// The chain of a store for a reader of this version, or the refusal: 2, 15 or 16. Tells what made it.
pub fn read(store: &[u8], version: u32, met: &mut Met) -> Result<Vec<Record>, u32> {
    met.refuse(2, !has_length(store.len()), || by_2(store.len(), version))?;
    let own = number(store) as u32;
    met.refuse(15, !is_version(own) || !is_version(version), || by_15(store, own, version))?;
    let chain = chain(store);
    met.refuse(16, chain.is_err(), || {
        by_16(store, version).into_iter().chain(chain.as_ref().err().copied())
    })?;
    chain.map_err(|_| 16)
}

/// Refuses by 17 a value that a setting of the reader does not take. Tells what made it.
pub fn fit(chain: &[Record], version: u32, met: &mut Met) -> Result<(), u32> {
    let mut misfits = chain.iter().filter(|record| is_misfit(record, version)).peekable();
    met.refuse(17, misfits.peek().is_some(), || misfits.flat_map(of_misfit))
}

/// Whether a record is that of a setting which the reader knows and which does not take its value.
pub fn is_misfit(record: &Record, version: u32) -> bool {
    known(version, &record.name).is_some_and(|known| !known.takes(record.kind, record.bits))
}

/// What a reader is shown behind a 0: how many settings, the bits of each, 0 for one it does not know, and the
/// rack's stretch.
pub fn shown(chain: &[Record], version: u32, show: u32) -> [u32; 5] {
    let bits = |known: &Known| match known.since <= version {
        true => known.record(chain).map_or(known.missing, |record| record.bits),
        false => 0,
    };
    let [pitch, stretch, level] = KNOWN.each_ref().map(bits);
    let count = KNOWN.iter().filter(|known| known.since <= version).count() as u32;
    [count, pitch, stretch, level, times(stretch, show)]
}

/// The bits of the product of two floats, by their bits.
pub fn times(stretch: u32, show: u32) -> u32 {
    (f32::from_bits(stretch) * f32::from_bits(show)).to_bits()
}

/// What is shown, as bytes.
pub fn in_bytes(shown: [u32; 5]) -> Vec<u8> {
    shown.map(u32::to_le_bytes).concat()
}

/// The store with other value bytes in a record.
pub fn with_value(store: &[u8], at: usize, bits: u32) -> Vec<u8> {
    let mut store = store.to_vec();
    store[RECORD * at + VALUE..][..4].copy_from_slice(&bits.to_le_bytes());
    store
}

/// The store with this version and this chain; bytes that no field of these takes stay as they are.
pub fn write(store: &[u8], version: usize, chain: &[Record]) -> Vec<u8> {
    let mut store = store.to_vec();
    put(&mut store, 0, version);
    let at = |i: usize| chain.get(i).map_or(0, |record| record.at);
    put(&mut store, FIRST, at(0));
    for (i, Record { at: own, name, kind, bits }) in chain.iter().enumerate() {
        let record = &mut store[RECORD * own..][..RECORD];
        put(record, 0, at(i + 1));
        record[NAME_LEN] = name.len() as u8;
        record[NAME..NAME + name.len()].copy_from_slice(name);
        record[KIND] = *kind as u8;
        record[VALUE..FIELDS_END].copy_from_slice(&bits.to_le_bytes());
    }
    store
}

/// A store with just this chain: its records in order, zeros in every other byte.
pub fn of(version: usize, chain: &[Record]) -> Vec<u8> {
    let numbered = |(at, record): (usize, &Record)| Record { at, ..record.clone() };
    let chain: Vec<Record> = (1..).zip(chain).map(numbered).collect();
    write(&vec![0; RECORD * (chain.len() + 1)], version, &chain)
}
