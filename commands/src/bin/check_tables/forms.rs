//! The form of each section: the library decides it, and where one breaks, the byte is looked for here.

use commands::numbers::u32_at;
use pronouncer::{Letters, Lexicon, Refused, Sayable};

use crate::report::{Detail, Fault, Kind, Place, Report};

/// The most phones of a table, and bytes of a phone.
const MOST_PHONES: usize = 256;
const PHONE_BYTES: u8 = pronouncer::PHONE_BYTES as u8;
/// The bytes of lts.index, of a node and of the largest lts.model.
const STARTS: usize = 52;
pub const NODE: usize = 6;
const LARGEST_MODEL: usize = 65_536 * NODE;
/// The bytes in front of a machine's cells, and of a cell.
pub const FRONT: usize = 4;
pub const CELL: usize = 2;

/// Where a section breaks its form, and what was expected there.
struct Break(usize, &'static str);

/// Tells whether a section has its form.
pub fn check(name: &'static str, bytes: &[u8], report: &mut Report) -> bool {
    let found = first_break(name, bytes).map(|Break(byte, expected)| {
        let sentence = format!("breaks its form: expected {expected}");
        (Place::at(name, byte), sentence)
    });
    let is_taken = taken(name, bytes).is_ok();
    if let Some(fault) = Fault::judged(Kind::Form, name, is_taken, found) {
        report.details.push(Detail::Fault(fault));
        return false;
    }
    let (count, things) = count(name, bytes);
    report.details.push(Detail::Held(name, count, things));
    match name {
        "lex.index" => report.summary.entries = Some(count),
        "lts.model" => report.summary.nodes = Some(count),
        _ => {}
    }
    true
}

/// The calls that take sections, with this one among others whose form holds.
fn taken(name: &str, bytes: &[u8]) -> Result<(), Refused> {
    let section = |place: &str, usual| if place == name { bytes } else { usual };
    let lexicon = Lexicon {
        phones: section("lex.phones", &[0; 4]),
        index: section("lex.index", &[0; 4]),
        data: section("lex.data", &[]),
    };
    let letters = Letters {
        phones: section("lts.phones", &[0; 4]),
        index: section("lts.index", &[0; STARTS]),
        model: section("lts.model", &[]),
    };
    let sayable =
        Sayable { prefix: section("aswd.p", &[0; FRONT]), suffix: section("aswd.s", &[0; FRONT]) };
    lexicon.check_lexicon()?;
    letters.predict("", &mut [])?;
    sayable.is_sayable("")?;
    Ok(())
}

/// How many of what a section holds whose form holds.
fn count(name: &str, bytes: &[u8]) -> (usize, &'static str) {
    let counted = u32_at(bytes, 0).unwrap_or(0);
    match name {
        "lex.phones" | "lts.phones" => (counted, "phones"),
        "lex.index" => (counted, "entries"),
        "lex.data" => (bytes.len(), "bytes"),
        "lts.index" => (STARTS / 2, "letters"),
        "lts.model" => (bytes.len() / NODE, "nodes"),
        _ => (bytes.len().saturating_sub(FRONT) / CELL, "cells"),
    }
}

fn first_break(name: &str, bytes: &[u8]) -> Option<Break> {
    let (wanted, expected) = match name {
        "lex.phones" | "lts.phones" => return table_break(bytes),
        "lex.index" => {
            let offsets = u32_at(bytes, 0).unwrap_or(0);
            let expected = "4 bytes that count the entries, and 4 for each of them";
            (4 + 4 * offsets, expected)
        }
        "lts.index" => (STARTS, "52 bytes, 2 for each letter"),
        "lts.model" => {
            let fits = bytes.len().is_multiple_of(NODE) && bytes.len() <= LARGEST_MODEL;
            let expected = "6 bytes for each node, 65,536 nodes at most";
            return (!fits).then_some(Break(bytes.len(), expected));
        }
        "aswd.p" | "aswd.s" => (FRONT, "4 bytes in front of the cells"),
        _ => return None,
    };
    (bytes.len() < wanted).then_some(Break(bytes.len(), expected))
}

/// Where a table of phones breaks.
fn table_break(bytes: &[u8]) -> Option<Break> {
    let Some(count) = u32_at(bytes, 0) else {
        return Some(Break(bytes.len(), "4 bytes that count the phones"));
    };
    if count > MOST_PHONES {
        return Some(Break(0, "a count of 256 phones at most"));
    }
    let mut at = 4;
    for _ in 0..count {
        let Some(&length) = bytes.get(at) else {
            let expected = "another phone, since the count says more";
            return Some(Break(bytes.len(), expected));
        };
        if length > PHONE_BYTES {
            return Some(Break(at, "a phone's length, 15 at most"));
        }
        let end = at + 1 + usize::from(length);
        let text = &bytes[at + 1..end.min(bytes.len())];
        if let Some(high) = text.iter().position(|byte| !byte.is_ascii()) {
            return Some(Break(at + 1 + high, "a byte below 128"));
        }
        if end > bytes.len() {
            return Some(Break(bytes.len(), "the rest of a phone"));
        }
        at = end;
    }
    None
}
