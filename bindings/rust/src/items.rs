//! The items of a sheet and their links, over any bytes.

use crate::phones;
use crate::{ITEM_BYTES, LARGEST_BYTES};

// Kinds of items, and the places of their fields.
pub const WORD: u8 = 1;
pub const SYLLABLE: u8 = 2;
pub const PHONE: u8 = 3;
const KIND: usize = 0;
pub const STRESS: usize = 1;
pub const VERSION: usize = 1;
const NEXT: usize = 2;
const FIRST_CHILD: usize = 4;
const PARENT: usize = 8;
const USED: usize = 8;
const NEXT_PHONE: usize = 12;
pub const SOURCE: usize = 15;
const TEXT_LENGTH: usize = 16;
const TEXT: usize = 17;

/// How many items a sheet has at most, the first among them.
const MOST_ITEMS: usize = LARGEST_BYTES / ITEM_BYTES;

/// The items of a sheet that are used, item 0 in front; any bytes will do.
#[derive(Clone, Copy)]
pub struct Items<'s>(&'s [u8]);

impl<'s> Items<'s> {
    pub fn of(bytes: &'s [u8]) -> Items<'s> {
        let lent = (bytes.len() / ITEM_BYTES).min(MOST_ITEMS);
        let used = if lent == 0 { 0 } else { Items(bytes).field(0, USED) + 1 };
        Items(&bytes[..ITEM_BYTES * used.min(lent)])
    }

    fn has(self, at: usize) -> bool {
        at > 0 && at < self.0.len() / ITEM_BYTES
    }

    pub fn byte(self, at: usize, place: usize) -> u8 {
        self.0[ITEM_BYTES * at + place]
    }

    /// Whether a syllable, linked or not, has this byte as its stress.
    pub fn have_stress(self, byte: u8) -> bool {
        let mut items = self.0.chunks_exact(ITEM_BYTES).skip(1);
        items.any(|item| item[KIND] == SYLLABLE && item[STRESS] == byte)
    }

    fn field(self, at: usize, place: usize) -> usize {
        usize::from(u16::from_le_bytes([self.byte(at, place), self.byte(at, place + 1)]))
    }

    pub fn text(self, at: usize, most: usize) -> &'s str {
        let item = &self.0[ITEM_BYTES * at..ITEM_BYTES * (at + 1)];
        phones::text(&item[TEXT..], item[TEXT_LENGTH], most)
    }
}

/// Items of one kind along one of their links. It ends at 0, at an item that does not belong there, and at
/// one that it met before. As an item belongs to one parent, all chains of a sheet together meet no item
/// twice.
#[derive(Clone)]
pub struct Chain<'s> {
    pub items: Items<'s>,
    next: usize,
    kind: u8,
    parent: Option<usize>,
    link: usize,
    met: [u64; MOST_ITEMS / 64],
}

impl<'s> Chain<'s> {
    /// The children of an item; item 0 is the parent of the words.
    pub fn children(items: Items<'s>, parent: usize, kind: u8) -> Chain<'s> {
        Chain::along(items, parent, FIRST_CHILD, kind, Some(parent), NEXT)
    }

    /// The phones of all words.
    pub fn phones(items: Items<'s>) -> Chain<'s> {
        Chain::along(items, 0, NEXT_PHONE, PHONE, None, NEXT_PHONE)
    }

    fn along(
        items: Items<'s>,
        from: usize,
        first: usize,
        kind: u8,
        parent: Option<usize>,
        link: usize,
    ) -> Chain<'s> {
        let next = if items.0.is_empty() { 0 } else { items.field(from, first) };
        let met = [0; MOST_ITEMS / 64];
        Chain { items, next, kind, parent, link, met }
    }

    fn belongs(&self, at: usize) -> bool {
        self.items.has(at)
            && self.items.byte(at, KIND) == self.kind
            && self.parent.is_none_or(|parent| self.items.field(at, PARENT) == parent)
            && self.met[at / 64] & 1 << (at % 64) == 0
    }
}

impl Iterator for Chain<'_> {
    type Item = usize;

    fn next(&mut self) -> Option<usize> {
        let at = self.next;
        if !self.belongs(at) {
            return None;
        }
        self.met[at / 64] |= 1 << (at % 64);
        self.next = self.items.field(at, self.link);
        Some(at)
    }
}
