//! Settings stores for the short inputs: every small one, and stores at 02's limits and just past them.

use crate::prelude::*;
use crate::records::put;
use crate::settings::{Known, Record, FIELDS_END, KIND, KNOWN, LARGEST, LONGEST, NAME};
use crate::settings::{NAME_LEN, REAL, RECORD, WHOLE};
use crate::settings_shapes::{no_wholes, wholes, NO_STRETCHES, STRETCHES, UNKNOWN};

pub fn record(at: usize, name: impl AsRef<[u8]>, kind: u32, bits: u32) -> Record {
    Record { at, name: name.as_ref().into(), kind, bits }
}

/// A store of every known setting and an unknown one, in another order than their numbers, a record that the chain
/// does not reach, and a part of one; every byte that no field takes is something.
pub fn good() -> Vec<u8> {
    let chain = [
        record(3, "pitch", WHOLE, 60),
        record(1, "level", WHOLE, 70),
        record(5, "x", REAL, 0x7fc0_0000),
        record(2, "stretch", REAL, 0x3fc0_0000),
    ];
    settings::write(&records::filled(6 * RECORD + 5), 2, &chain)
}

/// A store of every known setting: this one with such a value, the others with the one that they have without a record.
pub fn with_value(known: &Known, kind: u32, bits: u32) -> Vec<u8> {
    let chain = KNOWN.map(|other| match other.name == known.name {
        true => record(0, known.name, kind, bits),
        false => record(0, other.name, other.kind, other.missing),
    });
    settings::of(1, &chain)
}

/// Every kind with every value at an edge, or beside, of a setting.
pub fn values(known: &Known) -> Vec<(u32, u32)> {
    let wholes = [&wholes(known)[..], &no_wholes(known)].concat();
    let floats = [&STRETCHES[..], &NO_STRETCHES].concat();
    each! {
        for bits in [wholes, floats].concat();
        [(WHOLE, bits), (REAL, bits)]
    }
}

/// Each setting with each value at an edge or beside, among others and alone.
fn valued() -> Vec<Vec<u8>> {
    each! {
        for known in &KNOWN;
        for (kind, bits) in values(known);
        [with_value(known, kind, bits), settings::of(2, &[record(0, known.name, kind, bits)])]
    }
}

/// The good store with each of its bytes altered.
fn altered_bytes() -> Vec<Vec<u8>> {
    records::altered(&good(), RECORD, FIELDS_END - 1, &[0, 1, 2, 3, 6, 15, 16, 128, 255])
}

/// Three records with every way to link them, one index being outside; two of them may have one name.
fn linked() -> Vec<Vec<u8>> {
    each! {
        for names in [["pitch", "x", "level"], ["x", "pitch", "x"], ["pitch", "pitch", "y"]];
        let chain = names.map(|name| record(0, name, WHOLE, 100));
        let store = settings::of(1, &chain);
        for first in 0..5;
        for one in 0..5;
        for two in 0..5;
        for three in 0..5;
        let links = [(2, first), (RECORD, one), (2 * RECORD, two), (3 * RECORD, three)];
        [links.into_iter().fold(store.clone(), |mut store, (at, link)| {
            put(&mut store, at, link);
            store
        })]
    }
}

/// Two names: each length, the same twice with other bytes behind, or one byte or one length apart.
fn named() -> Vec<Vec<u8>> {
    let two = |a: &[u8], b: &[u8]| {
        let chain = [record(1, a, WHOLE, 0), record(2, b, REAL, 0)];
        settings::write(&records::filled(3 * RECORD), 1, &chain)
    };
    let mut all = each! {
        for len in 0..=LONGEST;
        let name = vec![b'n'; len];
        let longer = [&name[..], b"m"].concat();
        let other = [&longer[len.min(1)..len], b"m"].concat();
        let names = [name.clone(), longer[..(len + 1).min(LONGEST)].to_vec(), other];
        names.iter().map(|other| two(&name, other)).collect::<Vec<_>>()
    };
    let known = KNOWN.map(|known| known.name.as_bytes());
    all.extend(
        each! { for name in UNKNOWN.into_iter().chain(known); known.map(|known| two(name, known)) },
    );
    // every length and every kind in a record of the chain
    let good = good();
    all.extend((0..=255).map(|len| records::with_byte(&good, 5 * RECORD + NAME_LEN, len)));
    all.extend((0..=255).map(|kind| records::with_byte(&good, 5 * RECORD + KIND, kind)));
    // in the record that it does not reach
    all.extend((0..=255).map(|kind| records::with_byte(&good, 4 * RECORD + KIND, kind)));
    all
}

/// A chain of so many records, pitch the last, in a store of so many bytes.
fn long(count: usize, len: usize) -> Vec<u8> {
    let others = (1..count).map(|at| record(at, format!("{at}"), REAL, at as u32));
    let chain: Vec<Record> = others.chain([record(count, "pitch", WHOLE, 60)]).collect();
    settings::write(&vec![0xee; len], 2, &chain)
}

/// Stores at 02's limits, and just past them.
fn limits() -> Vec<Vec<u8>> {
    let good = good();
    let most = LARGEST / RECORD - 1;
    let mut all: Vec<Vec<u8>> = (0..=good.len()).map(|len| good[..len].to_vec()).collect();
    all.extend((RECORD..=3 * RECORD).map(|len| records::resized(&[1], len)));
    // versions that are whole numbers of two bytes
    all.extend([0, 3, 255, 256, 257, 258, 512, 513, 65_535].map(|version| {
        let mut store = good.clone();
        put(&mut store, 0, version);
        store
    }));
    // the longest ones; the last index of a store that lacks a byte is outside
    let lengths = [LARGEST - RECORD, LARGEST - 1, LARGEST, LARGEST + 1, LARGEST + RECORD];
    all.extend(lengths.map(|len| records::resized(&long(1, 64), len)));
    let full = long(most, LARGEST);
    all.push(full[..LARGEST - 1].to_vec());
    // the last record leads back to the first, to itself, or out; or it has the name of the first
    for link in [1, most, most + 1, 65_535] {
        let mut store = full.clone();
        put(&mut store, RECORD * most, link);
        all.push(store);
    }
    let name = RECORD + NAME_LEN..RECORD + NAME + LONGEST;
    let mut twice = full.clone();
    twice.copy_within(name, RECORD * most + NAME_LEN);
    all.extend([twice, full]);
    all
}

/// All of these.
pub fn all() -> Vec<Vec<u8>> {
    [vec![good()], valued(), altered_bytes(), linked(), named(), limits()].concat()
}
