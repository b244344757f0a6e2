//! Byte strings as the recorded list writes them. `.` is empty; a piece is two hex digits, `"text"`,
//! `<text>` (a length byte and a text), `[text]` (a cell of 16 bytes), or `{N}` and a piece N times.

use crate::prelude::*;
use crate::records::{number, u32_at};
use crate::settings::RECORD;
use crate::tables::phone_names;

/// What bytes are, which tells how they are written.
#[derive(Clone, Copy)]
pub enum Form {
    Bytes,
    /// A word or a phone.
    Text,
    PhoneTable,
    PhoneList,
    Store,
    /// Any bytes, which a call leaves as a store.
    Spare,
    Sheet,
    /// Any bytes, at whose front a call leaves as many cells as its answer says.
    Cells,
    /// A yes or no.
    YesOrNo,
    /// A number, and the bits of a float.
    Number,
    Float,
    Settings,
    /// The numbers that read_settings gives back, behind its refusal.
    Shown,
}

impl Form {
    pub fn shown(self, given: &[u8]) -> String {
        match self {
            Form::Bytes | Form::Spare | Form::Cells => bytes(given),
            Form::Text => text(given),
            Form::PhoneTable => phone_table(given),
            Form::PhoneList => or_dot(cells_of(given, given.len() / CELL)),
            Form::Store => store(given),
            Form::Sheet => sheet(given),
            Form::YesOrNo => bytes(&given[..1]),
            Form::Number => u32_at(given, 0).to_string(),
            Form::Float => float(u32_at(given, 0)),
            Form::Settings => settings(given),
            Form::Shown => shown(given),
        }
    }

    /// What a call left of it.
    pub fn at_exit(self, left: &[u8], answer: Answer) -> String {
        match self {
            Form::Spare => store(left),
            Form::Cells => or_dot(cells_of(left, answer.value as usize)),
            form => form.shown(left),
        }
    }
}

/// A call as a line: its name and its parts, of which the first may be written otherwise.
pub fn line(name: &str, parts: &[Part], handed: &[Vec<u8>], front: &[String]) -> String {
    let mut words = [&[name.to_string()], front].concat();
    for (part, bytes) in parts.iter().zip(all_bytes(parts, handed)).skip(front.len()) {
        words.push(part.form.shown(bytes));
    }
    words.join(" ")
}

/// The value of an answer; behind it the numbers that follow, where they are told.
pub fn value(answer: Answer) -> String {
    let Answer { value, second, third, .. } = answer;
    match (second, third) {
        (0, 0) => value.to_string(),
        (_, 0) => format!("{value}:{second}"),
        _ => format!("{value}:{second}:{third}"),
    }
}

/// Any bytes.
pub fn bytes(bytes: &[u8]) -> String {
    or_dot(pieces(bytes))
}

/// A word or a phone: in quotes, if it can be.
pub fn text(text: &[u8]) -> String {
    marked(text, '"', '"').unwrap_or_else(|| bytes(text))
}

/// A phone table: its count, so many strings, then the bytes behind them.
fn phone_table(table: &[u8]) -> String {
    let (count, mut rest) = table.split_at(table.len().min(4));
    let mut text: String = count.iter().map(|b| format!("{b:02x}")).collect();
    for name in phone_names(table).unwrap_or_default() {
        let (string, behind) = rest.split_at(1 + name.len());
        text += &marked(&name, '<', '>').unwrap_or_else(|| pieces(string));
        rest = behind;
    }
    or_dot(text + &pieces(rest))
}

/// A store: slot by slot, with its phones as cells.
pub fn store(store: &[u8]) -> String {
    or_dot(parted(store, 0).1)
}

/// A store's first bytes, as many as are told, and the rest of it.
pub fn parted(store: &[u8], first: usize) -> (String, String) {
    let used = store.get(4..6).map_or(0, number);
    let (head, slots) = store.split_at(store.len().min(SLOT));
    let (first, head) = head.split_at(first);
    let slots = records(slots, SLOT, used, |slot| {
        // the phones stand from 64 on, their count at 51
        let count = slot.get(51).map_or(0, |count| usize::from(*count));
        match slot.len() == SLOT && (1..=MOST_PHONES).contains(&count) {
            true => pieces(&slot[..64]) + &cells_of(&slot[64..], count),
            false => pieces(slot),
        }
    });
    (pieces(first), pieces(head) + &slots)
}

/// A sheet: item by item, with texts as such.
pub fn sheet(sheet: &[u8]) -> String {
    let used = sheet.get(8..10).map_or(0, number);
    or_dot(records(sheet, ITEM, used + 1, |item| with_text(item, 16)))
}

/// A settings store: record by record, with names as such.
fn settings(store: &[u8]) -> String {
    let (head, rest) = store.split_at(store.len().min(RECORD));
    or_dot(pieces(head) + &records(rest, RECORD, rest.len(), |record| with_text(record, 2)))
}

/// What read_settings shows.
fn shown(numbers: &[u8]) -> String {
    let [count, pitch, stretch, level, rack] = [0, 4, 8, 12, 16].map(|at| u32_at(numbers, at));
    let ([pitch, level], [stretch, rack]) =
        ([pitch, level].map(|n| n as i32), [stretch, rack].map(float));
    format!("count {count} pitch {pitch} stretch {stretch} level {level} rack {rack}")
}

/// A float: its bits, and the number that they are.
pub fn float(bits: u32) -> String {
    format!("{bits:08x}({:?})", f32::from_bits(bits))
}

/// A record with a text in it, whose length stands at this place.
fn with_text(record: &[u8], at: usize) -> String {
    let end = at + 1 + record.get(at).map_or(0, |len| usize::from(*len));
    match record.get(at + 1..end).and_then(|text| marked(text, '<', '>')) {
        Some(text) => pieces(&record[..at]) + &text + &pieces(&record[end..]),
        None => pieces(record),
    }
}

/// So many records one by one, as far as there are bytes; then the bytes behind.
fn records(bytes: &[u8], size: usize, count: usize, shown: impl Fn(&[u8]) -> String) -> String {
    let (front, behind) = bytes.split_at(size.saturating_mul(count).min(bytes.len()));
    front.chunks(size).map(shown).collect::<String>() + &pieces(behind)
}

fn cells_of(list: &[u8], count: usize) -> String {
    records(list, CELL, count, |given| {
        let name = given.get(1..1 + usize::from(given[0])).filter(|name| cell(name) == given);
        name.and_then(|name| marked(name, '[', ']')).unwrap_or_else(|| pieces(given))
    })
}

/// A text between marks, if it may stand there.
fn marked(text: &[u8], open: char, close: char) -> Option<String> {
    let fits = !text.is_empty() && text.iter().all(|b| is_plain(*b, close));
    fits.then(|| format!("{open}{}{close}", String::from_utf8_lossy(text)))
}

/// Whether a byte may stand in a text that this mark ends.
fn is_plain(byte: u8, close: char) -> bool {
    byte.is_ascii_graphic() && char::from(byte) != close
}

fn pieces(bytes: &[u8]) -> String {
    let mut text = String::new();
    let mut rest = bytes;
    while let Some(first) = rest.first() {
        let same = rest.iter().take_while(|b| *b == first).count();
        let quoted = rest.iter().take_while(|b| is_plain(**b, '"')).count();
        let (taken, piece) = match (same, quoted) {
            (4.., _) => (same, format!("{{{same}}}{first:02x}")),
            (_, 3..) => (quoted, format!("\"{}\"", String::from_utf8_lossy(&rest[..quoted]))),
            _ => (1, format!("{first:02x}")),
        };
        text += &piece;
        rest = &rest[taken..];
    }
    text
}

fn or_dot(text: String) -> String {
    match text.is_empty() {
        true => ".".into(),
        false => text,
    }
}
