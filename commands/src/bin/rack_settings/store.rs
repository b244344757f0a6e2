//! The bytes of a store: its records, the chain of them, and a new store.

use commands::numbers::{u16_at, u32_at};
use pronouncer::{Setting, NAME_BYTES, RECORD_BYTES};

use crate::known::{self, Known};

// The places of fields: of record 0, then of the others.
const VERSION: usize = 0;
const FIRST: usize = 2;
const NEXT: usize = 0;
const LENGTH: usize = 2;
const NAME: usize = 3;
const KIND: usize = 18;
const VALUE: usize = 19;
// The kinds.
const WHOLE: u8 = 1;
const REAL: u8 = 2;

/// A record that the chain reaches.
#[derive(Debug)]
pub struct Record<'a> {
    pub number: usize,
    pub name: &'a [u8],
    pub value: Setting,
}

/// Where a chain breaks.
#[derive(Debug)]
pub enum Break<'a> {
    /// A record leads to one that is not there.
    Outside { from: usize, to: usize, last: usize },
    /// A record leads to one that was met before.
    Circle { from: usize, to: usize },
    /// A record's name has more than 15 bytes.
    Length { record: usize, length: u8 },
    /// A record is of no kind.
    Kind { record: usize, name: &'a [u8], kind: u8 },
    /// Two records have one name.
    Twice { first: usize, second: usize, name: &'a [u8] },
}

/// The store's version, if its bytes are there.
pub fn version(store: &[u8]) -> Option<u32> {
    u32::try_from(u16_at(store, VERSION)?).ok()
}

/// The records in the order of the chain, or where it breaks first.
pub fn chain(store: &[u8]) -> Result<Vec<Record<'_>>, Break<'_>> {
    let records: Vec<&[u8]> = store.chunks_exact(RECORD_BYTES).collect();
    let mut chain: Vec<Record> = Vec::new();
    let (mut from, mut to) = (0, u16_at(store, FIRST).unwrap_or(0));
    while to != 0 {
        if chain.iter().any(|met| met.number == to) {
            return Err(Break::Circle { from, to });
        }
        let Some(bytes) = records.get(to) else {
            return Err(Break::Outside { from, to, last: records.len().saturating_sub(1) });
        };
        let record = record(to, bytes)?;
        if let Some(met) = chain.iter().find(|met| met.name == record.name) {
            return Err(Break::Twice { first: met.number, second: to, name: record.name });
        }
        chain.push(record);
        (from, to) = (to, u16_at(bytes, NEXT).unwrap_or(0));
    }
    Ok(chain)
}

/// The record of a setting, if it has one.
pub fn find<'c, 'a>(chain: &'c [Record<'a>], known: &Known) -> Option<&'c Record<'a>> {
    chain.iter().find(|record| record.name == known.name.as_bytes())
}

/// A record by itself.
fn record(number: usize, bytes: &[u8]) -> Result<Record<'_>, Break<'_>> {
    let length = bytes[LENGTH];
    if usize::from(length) > NAME_BYTES {
        return Err(Break::Length { record: number, length });
    }
    let name = &bytes[NAME..NAME + usize::from(length)];
    let bits = u32_at(bytes, VALUE).unwrap_or(0) as u32;
    let value = match bytes[KIND] {
        WHOLE => Setting::Whole(bits as i32),
        REAL => Setting::Real(f32::from_bits(bits)),
        kind => return Err(Break::Kind { record: number, name, kind }),
    };
    Ok(Record { number, name, value })
}

/// A store with a record for each setting of a version, which has the value that it has without one; and its length.
pub fn new(version: u16) -> (Vec<u8>, u64) {
    let settings: Vec<_> = known::of_version(version.into()).collect();
    let mut store = vec![0; RECORD_BYTES];
    put_u16(&mut store, VERSION, version);
    put_u16(&mut store, FIRST, 1);
    for (number, setting) in (1..).zip(&settings) {
        let mut record = [0; RECORD_BYTES];
        let is_last = usize::from(number) == settings.len();
        put_u16(&mut record, NEXT, if is_last { 0 } else { number + 1 });
        record[LENGTH] = setting.name.len() as u8;
        record[NAME..NAME + setting.name.len()].copy_from_slice(setting.name.as_bytes());
        record[KIND] = setting.missing.kind() as u8;
        record[VALUE..VALUE + 4].copy_from_slice(&setting.missing.bits().to_le_bytes());
        store.extend(record);
    }
    let length = store.len() as u64;
    (store, length)
}

fn put_u16(bytes: &mut [u8], at: usize, number: u16) {
    bytes[at..at + 2].copy_from_slice(&number.to_le_bytes());
}
