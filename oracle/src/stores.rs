//! The store: 01's layout with 02's count (S-2) and exact entries (S-8), read and written by the driver itself.

use crate::prelude::*;
use crate::records::{number, put, zeros};
use std::ops::Range;

/// Bytes of a slot.
pub const SLOT: usize = 512;
/// The longest store that 01 accepts.
pub const LARGEST: usize = 65_536;
/// The most phones of an entry.
pub const MOST_PHONES: usize = 24;

// Where the fields of a slot stand.
const TAG: usize = 2;
const WORD_LEN: usize = 3;
const WORD: usize = 4;
const WORD_END: usize = WORD + words::LONGEST;
const COUNT: usize = WORD_END;
pub const EXACT: usize = COUNT + 1;
const PHONES: usize = 64;
const PHONES_END: usize = PHONES + MOST_PHONES * CELL;
/// Where the links of slot 0 end, and where all its fields do.
const LINKS_END: usize = 6;
pub const HEAD_END: usize = 16;
/// Where its count stands: how often entries were added.
const ADDED: Range<usize> = 8..HEAD_END;

/// A runtime entry; the word of an ordinary one is folded.
#[derive(Clone, PartialEq, Eq)]
pub struct Entry {
    pub tag: u8,
    pub word: Vec<u8>,
    pub phones: Vec<Vec<u8>>,
    pub exact: bool,
}

impl Entry {
    pub fn key(&self) -> Key {
        Key { word: self.word.clone(), tag: self.tag, exact: self.exact }
    }
}

/// A runtime entry in its slot.
#[derive(Clone, PartialEq, Eq)]
pub struct Placed {
    pub slot: usize,
    pub entry: Entry,
}

smaller!(Entry: phones, word);
smaller!(Placed: entry);

/// The count of a store.
pub fn count(store: &[u8]) -> u64 {
    u64::from_le_bytes(store[ADDED].try_into().expect("a count has eight bytes"))
}

/// A store with another count.
pub fn with_count(store: &[u8], count: u64) -> Vec<u8> {
    let mut store = store.to_vec();
    store[ADDED].copy_from_slice(&count.to_le_bytes());
    store
}

/// Whether the count is the largest, of any bytes.
pub fn is_spent(store: &[u8]) -> bool {
    store.get(ADDED) == Some(&[255; 8])
}

/// Whether a store's length is right.
pub fn has_length(len: usize) -> bool {
    len % SLOT == 0 && (SLOT..=LARGEST).contains(&len)
}

/// The entries of a sound store, the oldest first; of any other store, what is amiss.
pub fn read(store: &[u8]) -> Result<Vec<Placed>, &'static str> {
    of_length(store.len())?;
    of_head(store)?;
    let slots: Vec<&[u8]> = store.chunks(SLOT).collect();
    let [first, last, used] = [0, 2, 4].map(|at| number(&slots[0][at..]));
    let mut seen = vec![false; slots.len()];
    let mut chain = vec![];
    let mut at = first;
    while at != 0 {
        of_link(at, used, &seen)?;
        seen[at] = true;
        let entry = read_slot(slots[at])?;
        chain.push(Placed { slot: at, entry });
        at = number(slots[at]);
    }
    of_chain(&chain, last, used)?;
    Ok(chain)
}

fn read_slot(slot: &[u8]) -> Result<Entry, &'static str> {
    of_slot(slot)?;
    let cells = slot[PHONES..].chunks(CELL).take(slot[COUNT].into());
    let phone = |bytes: &[u8]| of_phone(bytes).map(|()| bytes[1..][..bytes[0].into()].to_vec());
    let phones = cells.map(phone).collect::<Result<_, _>>()?;
    let word = slot[WORD..][..slot[WORD_LEN].into()].to_vec();
    Ok(Entry { tag: slot[TAG], word, phones, exact: slot[EXACT] == 1 })
}

checks! { pub UNSOUND:
    /// A store's length.
    of_length(len: usize) [
        "store: wrong length" => has_length(len),
    ]

    /// Its slot 0.
    of_head(store: &[u8]) [
        "store: bytes before the count" => zeros(&store[LINKS_END..ADDED.start]),
        "store: bytes behind the count" => zeros(&store[HEAD_END..SLOT]),
        "store: more used than there are slots" => unused(store) <= store.len(),
    ]

    /// A slot that the chain leads to.
    of_link(at: usize, used: usize, seen: &[bool]) [
        "store: chain leaves the used slots" => at <= used,
        "store: chain comes back to a slot" => !seen[at],
    ]

    /// The chain as a whole.
    of_chain(chain: &[Placed], last: usize, used: usize) {
        let mut keys: Vec<_> = chain.iter().map(|placed| placed.entry.key()).collect();
        keys.sort();
    } [
        "store: chain misses a used slot" => chain.len() >= used,
        "store: 'last' is not the chain's last" => chain.last().map_or(0, |placed| placed.slot) == last,
        "store: two entries of one key" => keys.windows(2).all(|two| two[0] != two[1]),
    ]

    /// A used slot.
    of_slot(slot: &[u8]) {
        let (len, count) = (usize::from(slot[WORD_LEN]), usize::from(slot[COUNT]));
        let is_exact = slot[EXACT] == 1;
    } [
        "store: tag of 128 or more" => slot[TAG] <= 127,
        "store: word over 47 bytes" => len <= words::LONGEST,
        "store: word with a high byte" => slot[WORD..][..len].is_ascii(),
        "store: byte 52 over 1" => slot[EXACT] <= 1,
        "store: ordinary word with a capital" => is_exact || is_folded(&slot[WORD..][..len]),
        "store: bytes past a word" => zeros(&slot[WORD + len..WORD_END]),
        "store: over 24 phones" => count <= MOST_PHONES,
        "store: bytes 53 to 63 of a slot" => zeros(&slot[EXACT + 1..PHONES]),
        "store: bytes past the phones' count" => zeros(&slot[PHONES + CELL * count..PHONES_END]),
        "store: bytes 448 to 511 of a slot" => zeros(&slot[PHONES_END..]),
    ]

    /// A phone of an entry.
    of_phone(bytes: &[u8]) {
        let len = usize::from(bytes[0]);
    } [
        "store: phone over 15 bytes" => len < CELL,
        "store: phone with a high byte" => bytes[1..][..len].is_ascii(),
        "store: bytes past a phone" => zeros(&bytes[1 + len..]),
    ]
}

/// Whether a word has no capital.
pub fn is_folded(word: &[u8]) -> bool {
    !word.iter().any(u8::is_ascii_uppercase)
}

/// The rows of what is amiss in a store whose length is right.
pub const UNSOUND_BYTES: &[Rows] = match UNSOUND {
    [_length, bytes @ ..] => bytes,
    [] => &[],
};

/// The store with these entries, the oldest first, in their slots, which are 1 to so many. Its count and the slots
/// past the used ones stay as they are.
pub fn write(store: &[u8], chain: &[Placed]) -> Vec<u8> {
    let mut store = store.to_vec();
    let slot_of = |at: usize| chain.get(at).map_or(0, |placed| placed.slot);
    let last = chain.last().map_or(0, |placed| placed.slot);
    store[..ADDED.start].fill(0);
    store[HEAD_END..SLOT].fill(0);
    for (at, value) in [(0, slot_of(0)), (2, last), (4, chain.len())] {
        put(&mut store, at, value);
    }
    for (i, placed) in chain.iter().enumerate() {
        let slot = &mut store[SLOT * placed.slot..][..SLOT];
        let Entry { tag, word, phones, exact } = &placed.entry;
        slot.fill(0);
        put(slot, 0, slot_of(i + 1));
        slot[TAG] = *tag;
        slot[WORD_LEN] = word.len() as u8;
        slot[WORD..WORD + word.len()].copy_from_slice(word);
        slot[COUNT] = phones.len() as u8;
        slot[EXACT] = u8::from(*exact);
        slot[PHONES..][..CELL * phones.len()].copy_from_slice(&cells(phones));
    }
    store
}

/// A new store of so many slots, its other slots filled with a byte.
pub fn new(slots: usize, fill: u8) -> Vec<u8> {
    let mut store = vec![fill; SLOT * slots];
    store[..SLOT].fill(0);
    store
}

/// The number of slots that entries can have.
pub fn room(store: &[u8]) -> usize {
    store.len() / SLOT - 1
}

/// The bytes of a slot that stand behind those that a store uses.
pub fn unused(store: &[u8]) -> usize {
    SLOT * (number(&store[4..]) + 1)
}

/// The first byte that differs though the add of this key has no part in it: it may touch slot 0's
/// links, the links of the slots, and the whole slot of the key, which is one of the used ones.
pub fn stray(before: &[u8], after: &[u8], key_slot: usize) -> Option<usize> {
    let touched = |at: usize| match at / SLOT {
        0 => at < LINKS_END,
        slot if slot == key_slot => true,
        _ => at % SLOT < TAG,
    };
    let altered = |at: &usize| before[*at] != after[*at];
    (0..before.len()).filter(altered).find(|at| !touched(*at) || *at >= unused(after))
}
