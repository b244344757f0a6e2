//! Bytes lent to the library, and how large an output is handed in.

use crate::prelude::*;
use std::borrow::Cow;

const GUARD: [u8; 24] = [0xa5; 24];

/// Lent bytes between two guards, so that a stray write shows.
pub struct Lent(Vec<u8>);

impl Lent {
    pub fn new(bytes: &[u8]) -> Lent {
        Lent([&GUARD[..], bytes, &GUARD].concat())
    }

    pub fn bytes(&self) -> &[u8] {
        &self.0[GUARD.len()..self.0.len() - GUARD.len()]
    }

    pub fn bytes_mut(&mut self) -> &mut [u8] {
        let end = self.0.len() - GUARD.len();
        &mut self.0[GUARD.len()..end]
    }

    /// The number that the bytes are.
    pub fn number(&self) -> u32 {
        u32::from_le_bytes(self.bytes().try_into().expect("a number has four bytes"))
    }

    fn guards_kept(&self) -> bool {
        self.0.starts_with(&GUARD) && self.0.ends_with(&GUARD)
    }
}

/// Whether a call may write what it is lent.
enum Use {
    Read,
    Written,
    /// An output, whose length depends on the answer.
    Output(Room),
}

/// Something that a call is lent.
pub struct Part<'a> {
    pub name: &'static str,
    pub form: Form,
    /// The bytes as they are handed in; none of an output.
    pub bytes: Cow<'a, [u8]>,
    used: Use,
}

impl<'a> Part<'a> {
    pub fn read(name: &'static str, form: Form, bytes: impl Into<Cow<'a, [u8]>>) -> Part<'a> {
        Part { name, form, bytes: bytes.into(), used: Use::Read }
    }

    /// A number, which is handed over by value.
    pub fn number(name: &'static str, form: Form, number: u32) -> Part<'a> {
        Part::read(name, form, number.to_le_bytes().to_vec())
    }

    /// A part that the call may write.
    pub fn written(name: &'static str, form: Form, bytes: &'a [u8]) -> Part<'a> {
        Part { used: Use::Written, ..Part::read(name, form, bytes) }
    }

    /// An output, which is the first thing that its call writes.
    pub fn output(form: Form, room: Room) -> Part<'a> {
        Part { used: Use::Output(room), ..Part::read("the output", form, &[][..]) }
    }

    pub fn is_written(&self) -> bool {
        !matches!(self.used, Use::Read)
    }

    pub fn is_output(&self) -> bool {
        matches!(self.used, Use::Output(_))
    }

    /// What was altered though nothing may alter it, if anything was.
    pub fn altered(&self, lent: &Lent) -> Option<String> {
        match self.used {
            Use::Read if lent.bytes() != &self.bytes[..] => Some(self.name.into()),
            _ => (!lent.guards_kept()).then(|| format!("bytes beside {}", self.name)),
        }
    }
}

/// What a call may write, as it is handed in, where an answer needs so many bytes of an output.
pub fn handed(parts: &[Part], need: usize) -> Vec<Vec<u8>> {
    let handed = |part: &Part| match &part.used {
        Use::Read => None,
        Use::Written => Some(part.bytes.to_vec()),
        Use::Output(room) => Some(room.bytes(need)),
    };
    parts.iter().filter_map(handed).collect()
}

/// The bytes of every part, given those of the parts that are written.
pub fn all_bytes<'a>(parts: &'a [Part], handed: &'a [Vec<u8>]) -> Vec<&'a [u8]> {
    let mut handed = handed.iter();
    let bytes = |part: &'a Part| match part.is_written() {
        true => handed.next().expect("all that is written is handed in"),
        false => &part.bytes[..],
    };
    parts.iter().map(bytes).collect()
}

/// How long an output is, beside what its answer needs.
#[derive(Clone, Copy, PartialEq)]
pub enum Size {
    Exact,
    More(usize),
    Short(usize),
    /// So many bytes, whatever its answer needs.
    Bytes(usize),
}

/// An output: its length, and the bytes in it at first.
#[derive(Clone, Copy, PartialEq)]
pub struct Room {
    pub size: Size,
    pub fill: u8,
    /// How much each byte is more than the one before.
    pub step: u8,
}

impl Room {
    pub const PLAIN: Room = Room { size: Size::Exact, fill: 0x77, step: 0 };

    /// A room of this size for a short input, whose bytes differ.
    pub fn of(size: Size) -> Room {
        Room { size, fill: 0x30, step: 7 }
    }

    /// A room for any call; one in ten is too short.
    pub fn random(random: &mut Random, widest: usize) -> Room {
        let size = match random.weighted(&[8, 4, 5, 1, 2]) {
            0 => Size::Exact,
            1 => Size::More(1),
            2 => Size::More(random.between(1, widest)),
            3 => Size::More(100 * random.between(1, widest)),
            _ => Size::Short(random.between(1, widest)),
        };
        Room { size, fill: random.byte(), step: random.byte() }
    }

    /// A room that is never too short, of one byte only, so that a list of cases stays small.
    pub fn to_record(random: &mut Random, widest: usize) -> Room {
        let size = match random.below(3) {
            0 => Size::Exact,
            1 => Size::More(1),
            _ => Size::More(random.between(1, widest)),
        };
        Room { size, fill: random.byte(), step: 0 }
    }

    /// The output as handed in, for an answer that needs so many bytes.
    pub fn bytes(&self, need: usize) -> Vec<u8> {
        let len = match self.size {
            Size::Exact => need,
            Size::More(more) => need + more,
            Size::Short(less) => need.saturating_sub(less),
            Size::Bytes(len) => len,
        };
        let byte = |i: usize| self.fill.wrapping_add(self.step.wrapping_mul(i as u8));
        (0..len).map(byte).collect()
    }
}

/// Plainer rooms.
impl Shrink for Room {
    fn smaller(&self) -> Vec<Room> {
        let sizes = match self.size {
            Size::Exact | Size::Bytes(_) => vec![],
            Size::More(1) | Size::Short(1) => vec![Size::Exact],
            Size::More(n) => vec![Size::Exact, Size::More(1), Size::More(n / 2)],
            Size::Short(n) => vec![Size::Exact, Size::Short(1), Size::Short(n / 2)],
        };
        let mut rooms = with(self, sizes, |room, size| room.size = size);
        let plain = Room { size: self.size, ..Room::PLAIN };
        rooms.extend((*self != plain).then_some(plain));
        rooms
    }
}
