use core::fmt;
use core::iter::FusedIterator;

use crate::phones::{self, PhoneList};
use crate::{CELL_BYTES, ENTRY_PHONES, LARGEST_BYTES, SLOT_BYTES, WORD_BYTES};

/// An entry of a [`Store`](crate::Store).
#[derive(Clone, Copy)]
#[non_exhaustive]
pub struct Entry<'s> {
    /// The word: as it was given if the entry is exact, otherwise in small letters.
    pub word: &'s str,
    /// The tag: one byte, "0" where none was given.
    pub tag: &'s str,
    /// The phones, with their stress.
    pub phones: PhoneList<'s>,
    /// Whether it matches only a word of the same bytes.
    pub exact: bool,
}

/// A line of a text of entries, with the remark "exact" behind an exact one: a text makes none.
impl fmt::Debug for Entry<'_> {
    fn fmt(&self, f: &mut fmt::Formatter<'_>) -> fmt::Result {
        write!(f, "{} {} : {}", self.word, self.tag, self.phones)?;
        if self.exact {
            f.write_str(" # exact")?;
        }
        Ok(())
    }
}

// The places of a slot's fields.
const NEXT: usize = 0;
const FIRST: usize = 0;
const TAG: usize = 2;
const USED: usize = 4;
const WORD_LENGTH: usize = 3;
const WORD: usize = 4;
const PHONE_COUNT: usize = 51;
const EXACT: usize = 52;
const PHONES: usize = 64;

/// How many slots a store has at most, the first among them.
const MOST_SLOTS: usize = LARGEST_BYTES / SLOT_BYTES;

/// The entries of a [`Store`](crate::Store) in order. It ends at 0, at a slot that is not used, and at one that
/// it met before.
#[derive(Clone)]
pub struct Entries<'s> {
    /// The slots that are used, slot 0 in front; any bytes will do.
    slots: &'s [u8],
    next: usize,
    met: [bool; MOST_SLOTS],
}

impl<'s> Entries<'s> {
    pub(crate) fn of(bytes: &'s [u8]) -> Entries<'s> {
        let lent = (bytes.len() / SLOT_BYTES).min(MOST_SLOTS);
        let (next, used) = match bytes.get(..SLOT_BYTES) {
            Some(slot) => (field(slot, FIRST), field(slot, USED) + 1),
            None => (0, 0),
        };
        Entries { slots: &bytes[..SLOT_BYTES * used.min(lent)], next, met: [false; MOST_SLOTS] }
    }

    /// A slot that is used and was not met.
    fn slot(&self, at: usize) -> Option<&'s [u8]> {
        if at == 0 || *self.met.get(at)? {
            return None;
        }
        self.slots.get(SLOT_BYTES * at..SLOT_BYTES * (at + 1))
    }
}

impl<'s> Iterator for Entries<'s> {
    type Item = Entry<'s>;

    fn next(&mut self) -> Option<Entry<'s>> {
        let slot = self.slot(self.next)?;
        self.met[self.next] = true;
        self.next = field(slot, NEXT);
        let count = usize::from(slot[PHONE_COUNT]).min(ENTRY_PHONES);
        Some(Entry {
            word: phones::text(&slot[WORD..], slot[WORD_LENGTH], WORD_BYTES),
            tag: phones::text(&slot[TAG..], 1, 1),
            phones: PhoneList::from_cells(&slot[PHONES..PHONES + CELL_BYTES * count]),
            exact: slot[EXACT] == 1,
        })
    }
}

impl FusedIterator for Entries<'_> {}

/// What is still to come.
impl fmt::Debug for Entries<'_> {
    fn fmt(&self, f: &mut fmt::Formatter<'_>) -> fmt::Result {
        f.debug_list().entries(self.clone()).finish()
    }
}

fn field(slot: &[u8], place: usize) -> usize {
    usize::from(u16::from_le_bytes([slot[place], slot[place + 1]]))
}
