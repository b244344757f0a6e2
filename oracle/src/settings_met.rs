//! Rows of the table for settings: why they are refused, and what accepted ones have.

use crate::prelude::*;
use crate::records::number;
use crate::settings::{chain, is_misfit, is_record, is_version, known, record, walk};
use crate::settings::{Known, Record, FIELDS_END, HEAD_END, KIND, KNOWN, LARGEST, LEVEL, LONGEST};
use crate::settings::{NAME, NAME_LEN, PITCH, REAL, RECORD, STRETCH, WHOLE};

/// Rows of a float that is no stretch, behind the name of what has it.
macro_rules! no_stretch {
    ($all:ident: $met:ident $what:literal) => {
        rows! { pub $all:
            $met(bits: u32) {
                let x = f32::from_bits(bits);
                let is_quiet = bits & 0x0040_0000 != 0;
            } [
                concat!($what, " next below 0.25") => bits == STRETCH.low - 1,
                concat!($what, " next above 4.0") => bits == STRETCH.high + 1,
                concat!($what, " below 0.25, above 0.0") => 0.0 < x && x < 0.25,
                concat!($what, " above 4.0") => x > 4.0,
                concat!($what, " below 0.0") => x < 0.0,
                concat!($what, " 0.0") => bits == 0,
                concat!($what, " minus 0.0") => bits == 1 << 31,
                concat!($what, " subnormal") => x.is_subnormal(),
                concat!($what, " infinite") => x == f32::INFINITY,
                concat!($what, " infinite below 0.0") => x == f32::NEG_INFINITY,
                concat!($what, " NaN, quiet") => x.is_nan() && is_quiet,
                concat!($what, " NaN, signalling") => x.is_nan() && !is_quiet,
                concat!($what, " NaN with a sign") => x.is_nan() && x.is_sign_negative(),
            ]
        }
    };
}

/// Rows of a whole number that pitch or level does not take, behind the name of what has it.
macro_rules! no_whole {
    ($all:ident: $met:ident $what:literal) => {
        rows! { pub $all:
            $met(known: &Known, number: i32) {
                let (is_pitch, is_level) = (known.name == PITCH.name, known.name == LEVEL.name);
            } [
                concat!($what, " pitch 49") => is_pitch && number == 49,
                concat!($what, " pitch 401") => is_pitch && number == 401,
                concat!($what, " pitch below 49") => is_pitch && number < 49,
                concat!($what, " pitch above 401") => is_pitch && number > 401,
                concat!($what, " level -1") => is_level && number == -1,
                concat!($what, " level 101") => is_level && number == 101,
                concat!($what, " level below -1") => is_level && number < -1,
                concat!($what, " level above 101") => is_level && number > 101,
            ]
        }
    };
}

no_stretch! { RECORD_STRETCH: of_stretch "17: stretch" }
no_stretch! { SHOW: of_show "17: show" }
no_stretch! { GIVEN_STRETCH: of_given_stretch "17: given stretch" }
no_whole! { RECORD_WHOLE: of_whole "17:" }
no_whole! { GIVEN_WHOLE: of_given_whole "17: given" }

/// Why the value of a known setting's record is refused.
pub fn of_misfit(record: &Record) -> Vec<&'static str> {
    match known(2, &record.name) {
        Some(known) if known.kind != record.kind => of_kind(known),
        Some(known) if known.kind == WHOLE => of_whole(known, record.bits as i32),
        _ => of_stretch(record.bits),
    }
}

/// How many records the circle has that a chain ends in; 0 if it ends otherwise.
fn circle((walked, end): &(Vec<usize>, usize)) -> usize {
    let from = walked.iter().position(|at| at == end);
    from.map_or(0, |from| walked.len() - from)
}

rows! { pub ROWS:
    /// Why a length is refused.
    by_2(len: usize, version: u32) [
        "2: no bytes" => len == 0,
        "2: 31 bytes" => len == 31,
        "2: 1 to 30 bytes" => (1..31).contains(&len),
        "2: 65,537 bytes" => len == LARGEST + 1,
        "2: more bytes" => len > LARGEST + 1,
        "2: reader's version wrong too" => !is_version(version),
    ]

    /// Why versions are refused.
    by_15(store: &[u8], own: u32, version: u32) {
        let low_byte = |version: u32| !is_version(version) && is_version(version % 256);
    } [
        "15: store's version 0" => own == 0,
        "15: store's version 3" => own == 3,
        "15: store's version, its low byte 1 or 2" => low_byte(own),
        "15: store's version, any other" => own > 3,
        "15: reader's version 0" => version == 0,
        "15: reader's version 3" => version == 3,
        "15: reader's version, its low byte 1 or 2" => low_byte(version),
        "15: reader's version, its low half 1 or 2" => version > 2 && is_version(version % 65_536),
        "15: reader's version 4,294,967,295" => version == u32::MAX,
        "15: both versions" => !is_version(own) && !is_version(version),
        "15: records unsound too" => chain(store).is_err(),
    ]

    /// Why a chain is refused, beside what is amiss first.
    by_16(store: &[u8], version: u32) {
        let way = walk(store);
        let circle = circle(&way);
        let (walked, end) = way;
        let records = store.len() / RECORD;
        let fields = |at: &usize| &store[RECORD * at..][..FIELDS_END];
        let chain: Vec<Record> = walked.iter().map(|at| record(store, *at)).collect();
        let twice = |name: &[u8]| chain.iter().filter(|record| record.name == name).count() > 1;
        let one_twice = |is: fn(&Record) -> bool| chain.iter().any(|r| is(r) && twice(&r.name));
        let behind = |r: &Record| &store[RECORD * r.at + NAME + r.name.len()..RECORD * r.at + KIND];
        let differ_behind = |r: &Record| {
            let mut same = chain.iter().filter(|other| other.name == r.name);
            same.any(|other| behind(other) != behind(r))
        };
    } [
        "16: first index outside" => walked.is_empty(),
        "16: next index outside" => !walked.is_empty() && end >= records,
        "16: index of the first record that is not there" => end == records,
        "16: index of a part of a record" => end == records && store.len() % RECORD > 0,
        "16: index 2,048 and more" => end >= 2_048,
        "16: circle of 1 record" => circle == 1,
        "16: circle of 2 records" => circle == 2,
        "16: circle of 3 records" => circle == 3,
        "16: circle of more records" => circle > 3,
        "16: circle behind other records" => circle > 0 && circle < walked.len(),
        "16: name length 16" => walked.iter().any(|at| fields(at)[NAME_LEN] == 16),
        "16: name length of more" => walked.iter().any(|at| fields(at)[NAME_LEN] > 16),
        "16: kind 0" => walked.iter().any(|at| fields(at)[KIND] == 0),
        "16: kind 3" => walked.iter().any(|at| fields(at)[KIND] == 3),
        "16: kind of more" => walked.iter().any(|at| fields(at)[KIND] > 3),
        "16: known name twice" => one_twice(|r| known(1, &r.name).is_some()),
        "16: level twice" => twice(b"level"),
        "16: level twice for version 1" => version == 1 && twice(b"level"),
        "16: empty name twice" => twice(b""),
        "16: name of 15 bytes twice" => one_twice(|r| r.name.len() == LONGEST),
        "16: name twice, other bytes behind it" => chain.iter().any(|r| twice(&r.name) && differ_behind(r)),
        "16: a known value out of range too" => chain.iter().any(|r| is_misfit(r, version)),
    ]

    /// Which setting has a value of the other kind.
    of_kind(known: &Known) [
        "17: pitch a float" => known.name == PITCH.name,
        "17: stretch a whole number" => known.name == STRETCH.name,
        "17: level a float" => known.name == LEVEL.name,
    ]
}

rows! { pub FEATURES:
    /// What an accepted store has.
    features(store: &[u8], chain: &[Record], version: u32) {
        let (own, records) = (number(store) as u32, store.len() / RECORD);
        let is_reached = |at: &usize| chain.iter().any(|record| record.at == *at);
        let unreached: Vec<usize> = (1..records).filter(|at| !is_reached(at)).collect();
        let is_bad = |at: &usize| !is_record(&store[RECORD * at..]);
        let behind = |r: &Record| !zeros(&store[RECORD * r.at + NAME + r.name.len()..RECORD * r.at + KIND]);
        let beside = |r: &Record| !zeros(&store[RECORD * r.at + FIELDS_END..RECORD * (r.at + 1)]);
        let unknown = || chain.iter().filter(|r| known(2, &r.name).is_none());
        let near = |r: &Record| KNOWN.iter().any(|k| is_near(k.name.as_bytes(), &r.name));
        let level = LEVEL.record(chain);
        let is_nan = |r: &Record| r.kind == REAL && f32::from_bits(r.bits).is_nan();
    } [
        "store of version 1, reader of version 1" => own == 1 && version == 1,
        "store of version 1, reader of version 2" => own == 1 && version == 2,
        "store of version 2, reader of version 1" => own == 2 && version == 1,
        "store of version 2, reader of version 2" => own == 2 && version == 2,
        "one record" => chain.len() == 1,
        "2 to 40 records" => (2..=40).contains(&chain.len()),
        "over 40 records" => chain.len() > 40,
        "2,047 records" => chain.len() == 2_047,
        "store of 65,536 bytes" => store.len() == LARGEST,
        "bytes behind the last whole record" => store.len() % RECORD > 0,
        "31 bytes behind the last whole record" => store.len() % RECORD == 31,
        "records in another order than their numbers" => chain.windows(2).any(|two| two[0].at > two[1].at),
        "record that the chain does not reach" => !unreached.is_empty(),
        "such a record with a length or kind out of range" => unreached.iter().any(is_bad),
        "bytes behind a name" => chain.iter().any(behind),
        "bytes behind the fields of record 0" => !zeros(&store[HEAD_END..RECORD]),
        "bytes behind the fields of another record" => chain.iter().any(beside),
        "unknown name" => unknown().count() > 0,
        "unknown name that is nearly a known one" => unknown().any(near),
        "unknown name with a float that is a NaN" => unknown().any(is_nan),
        "empty name" => chain.iter().any(|record| record.name.is_empty()),
        "name of 15 bytes" => chain.iter().any(|record| record.name.len() == LONGEST),
        "name with a byte of 128 or more" => chain.iter().any(|record| !record.name.is_ascii()),
        "pitch without a record" => PITCH.record(chain).is_none(),
        "stretch without a record" => STRETCH.record(chain).is_none(),
        "level without a record, version 2" => version == 2 && level.is_none(),
        "level that version 2 refuses, for version 1" => version == 1 && level.is_some_and(|r| is_misfit(r, 2)),
        "level a float, for version 1" => version == 1 && level.is_some_and(|r| r.kind == REAL),
    ]

    /// At which edge of a known setting's range a value stands.
    edges(known: &Known, bits: u32) {
        let is = |wanted: Known, edge: u32| known.name == wanted.name && bits == edge;
    } [
        "pitch 50" => is(PITCH, 50),
        "pitch 400" => is(PITCH, 400),
        "stretch 0.25" => is(STRETCH, STRETCH.low),
        "stretch next above 0.25" => is(STRETCH, STRETCH.low + 1),
        "stretch next below 4.0" => is(STRETCH, STRETCH.high - 1),
        "stretch 4.0" => is(STRETCH, STRETCH.high),
        "level 0" => is(LEVEL, 0),
        "level 100" => is(LEVEL, 100),
    ]
}

/// Whether a name is another one but for its case, or but for bytes at its end.
fn is_near(known: &[u8], name: &[u8]) -> bool {
    let starts = |long: &[u8], short: &[u8]| short.len() > 3 && long.starts_with(short);
    name.eq_ignore_ascii_case(known) || starts(known, name) || starts(name, known)
}
