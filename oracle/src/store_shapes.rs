//! Stores of many shapes, and ways to damage them.

use crate::prelude::*;
use crate::records::put;
use crate::stores::{Placed, EXACT, LARGEST};
use crate::tables::first_fit;

/// A sound store beside a lexicon that has its form, grown by adds over some words, some of them exact if they may be.
pub fn random(
    random: &mut Random,
    empty: &Scene,
    words: &[Vec<u8>],
    phones: &Phones,
    exact: bool,
) -> Vec<u8> {
    let all = LARGEST / SLOT;
    let slots = random.ranged(&[(3, 1, 1), (16, 2, 8), (6, 2, 24), (1, all, all)]);
    let adds = random.ranged(&[(1, 0, 0), (4, slots - 1, slots - 1), (4, 0, 2 * slots - 1)]);
    of_size(random, empty, words, phones, [slots, adds], exact)
}

/// A sound store of so many slots, grown by so many adds; every other one is then renumbered, has other
/// texts in it, another count, or anything in its unused slots.
pub fn of_size(
    random: &mut Random,
    empty: &Scene,
    words: &[Vec<u8>],
    phones: &Phones,
    [slots, adds]: [usize; 2],
    exact: bool,
) -> Vec<u8> {
    // a large store takes more words than a pool has
    let any = adds > 24;
    let add = |_| {
        let add = add(random, empty, words, phones, exact);
        if any {
            of_any_word(random, add)
        } else {
            add
        }
    };
    let adds: Vec<Add> = (0..adds).map(add).collect();
    let mut store = empty.with_store(stores::new(slots, 0)).grown(&adds);
    if random.once_in(4) {
        store = renumbered(random, &store);
    }
    if random.once_in(8) {
        store = odd(random, &store, phones);
    }
    if random.once_in(2) {
        spoil_unused(random, &mut store);
    }
    if random.once_in(2) {
        store = stores::with_count(&store, count(random));
    }
    store
}

/// A count of any kind: none, few, one that soon carries, the largest or nearly, or any.
pub fn count(random: &mut Random) -> u64 {
    let few = random.below(300) as u64;
    match random.weighted(&[1, 4, 4, 1, 2, 8]) {
        0 => 0,
        1 => few,
        2 => (1 << (8 * random.between(1, 7))) - 1 - few % 3,
        3 => u64::MAX,
        4 => u64::MAX - 1 - few % 30,
        _ => few | (few << 32) | (random.below(1 << 31) as u64) << random.below(34),
    }
}

/// An entry that can be added, over some words; two in three are exact if they may be.
pub fn add(
    random: &mut Random,
    scene: &Scene,
    words: &[Vec<u8>],
    phones: &Phones,
    exact: bool,
) -> Add {
    let word = &words[random.below(words.len())];
    let tag = first_fit(|| words::tag(random), |tag| !words::is_refused(tag));
    let count = random.ranged(&[(1, 0, 0), (10, 1, 5), (2, 6, 24), (1, 24, 24)]);
    let exact = exact && !random.once_in(3);
    let word = if exact { words::cased(random, word) } else { words::recased(random, word) };
    let phones = List::of(&known(random, scene, phones, count));
    Add { wanted: Wanted::new(word, tag), phones, exact }
}

/// The same entry of nearly any word.
fn of_any_word(random: &mut Random, mut add: Add) -> Add {
    let word = &mut add.wanted.word;
    word.truncate(words::LONGEST - 3);
    word.extend(random.bytes(3).iter().map(|b| b & 127));
    add
}

/// An entry that can be added, of a size that a list can hold.
pub fn few_phones(
    random: &mut Random,
    scene: &Scene,
    words: &[Vec<u8>],
    phones: &Phones,
    exact: bool,
) -> Add {
    let mut add = add(random, scene, words, phones, exact);
    add.phones.cells.truncate(6);
    add
}

/// So many phones that may be added.
pub fn known(random: &mut Random, scene: &Scene, phones: &Phones, count: usize) -> Vec<Vec<u8>> {
    let table = scene.lexicon.names.as_deref().unwrap_or_default();
    let phone = |_| match table.is_empty() || random.once_in(3) {
        true => random.pick(phones.names).into(),
        false => table[random.below(table.len())].clone(),
    };
    (0..count).map(phone).collect()
}

/// The same entries in other slots.
pub fn renumbered(random: &mut Random, store: &[u8]) -> Vec<u8> {
    let mut chain = stores::read(store).expect("the store is sound");
    let mut slots: Vec<usize> = chain.iter().map(|placed| placed.slot).collect();
    random.shuffle(&mut slots);
    for (placed, slot) in chain.iter_mut().zip(slots) {
        placed.slot = slot;
    }
    stores::write(store, &chain)
}

/// The same with one of its entries exact that was not, or the other way round; not sound where that is amiss.
pub fn of_other_kind(random: &mut Random, store: &[u8]) -> Vec<u8> {
    let mut store = store.to_vec();
    match stores::unused(&store) / SLOT - 1 {
        0 => {}
        used => store[SLOT * random.between(1, used) + EXACT] ^= 1,
    }
    store
}

/// Phones that are in no table, and words and tags that no line of text can hold.
fn odd(random: &mut Random, store: &[u8], phones: &Phones) -> Vec<u8> {
    let mut chain = stores::read(store).expect("the store is sound");
    for placed in &mut chain {
        let entry = &mut placed.entry;
        match random.below(4) {
            0 => entry.tag = random.byte() & 127,
            1 => {
                let at = random.below(entry.word.len() + 1);
                entry.word.insert(at, random.pick_byte(b"\0 :#\"\x7f"));
                entry.word.truncate(words::LONGEST);
            }
            _ => entry.phones.fill_with(|| phones.phone(random)),
        }
    }
    let odd = stores::write(store, &chain);
    // it is not sound where two keys have become one
    stores::read(&odd).map_or(store.to_vec(), |_| odd)
}

/// Fills the slots past the used ones.
pub fn spoil_unused(random: &mut Random, store: &mut [u8]) {
    records::spoil(random, store, stores::unused(store));
}

/// A store that is no longer sound, or still is: the driver's reader decides.
pub fn damaged(random: &mut Random, store: &[u8]) -> Vec<u8> {
    let mut store = store.to_vec();
    let slots = store.len() / SLOT;
    let used = stores::unused(&store) / SLOT - 1;
    let slot = SLOT * random.between(usize::from(used > 0), used);
    match random.below(18) {
        0 => {
            let lengths = [0, SLOT - 1, store.len() - 1, store.len() + 1, LARGEST + SLOT];
            store.resize(lengths[random.below(5)], 0);
        }
        1 => store.truncate(SLOT * random.below(slots)),
        2 => {
            // a field of slot 0
            let field = 2 * random.below(3);
            let link = [random.below(slots + 2), 65_535, 256][random.weighted(&[8, 1, 1])];
            put(&mut store, field, link);
        }
        3 => put(&mut store, slot, random.below(used + 2)),
        4 if used > 1 => {
            // the key of another slot, or its word and tag
            let other = SLOT * random.between(1, used);
            store.copy_within(other + 2..other + 51, slot + 2);
            if random.once_in(2) {
                store[slot + EXACT] = store[other + EXACT];
            }
        }
        way @ 5..=12 => damage_slot(random, &mut store[slot..][..SLOT], way),
        13 if used > 0 && used + 1 < slots => {
            let links = (0..=used).map(|slot| SLOT * slot).chain([2]).collect();
            records::in_place_of(&mut store, SLOT, [slot / SLOT, used + 1], links);
        }
        14 => store[random.pick_byte(&[6, 7, 16, 17, 255]) as usize] = random.byte(),
        15 | 16 => store[slot + EXACT] = random.pick_byte(&[0, 0, 1, 2, 3, 128, 255]),
        _ => {
            let at = random.below(store.len());
            store[at] ^= 1 << random.below(8);
        }
    }
    store
}

/// Alters a field of a slot, or any byte of it, in one of the ways.
fn damage_slot(random: &mut Random, slot: &mut [u8], way: usize) {
    match way {
        5 => slot[random.between(4, 12)] = random.pick_byte(b"AZMN@["),
        6 => slot[3] = random.pick_byte(&[0, 1, 2, 20, 46, 47, 48, 49, 127, 128, 255]),
        7 => slot[51] = random.pick_byte(&[0, 1, 2, 23, 24, 25, 26, 128, 255]),
        8 => {
            let cell = 64 + 16 * random.below(5);
            slot[cell] = random.pick_byte(&[0, 1, 2, 14, 15, 16, 17, 128, 255]);
        }
        9 => slot[2] = random.byte(),
        10 => slot[random.between(2, 120)] |= 128,
        11 => slot[random.below(SLOT)] = random.byte(),
        _ => {
            let zero = [6, 50, 53, 63, 63, 447, 448, 511][random.below(8)];
            slot[zero] = random.between(1, 255) as u8;
        }
    }
}

/// Sound stores with something left out, for shrinking; of an unsound one, with bytes made zero.
pub fn smaller(store: &[u8]) -> Vec<Vec<u8>> {
    let Ok(chain) = stores::read(store) else {
        return records::plainer(store, SLOT, 4);
    };
    let rewritten = |chain: &Vec<Placed>| {
        // the slots stay in their order
        let before = |slot: usize| chain.iter().filter(|other| other.slot < slot).count();
        let placed = |placed: &Placed| Placed { slot: 1 + before(placed.slot), ..placed.clone() };
        stores::write(store, &chain.iter().map(placed).collect::<Vec<_>>())
    };
    let mut all: Vec<Vec<u8>> = chain.smaller().iter().map(rewritten).collect();
    all.extend((stores::count(store) > 0).then(|| stores::with_count(store, 0)));
    let from = stores::unused(store);
    let lengths = [from, from + SLOT, from + 2 * SLOT];
    all.extend(records::less_behind(store, from, &lengths));
    let placed = |(slot, placed): (usize, &Placed)| Placed { slot, ..placed.clone() };
    let ordered: Vec<Placed> = (1..).zip(&chain).map(placed).collect();
    if ordered != chain {
        all.push(rewritten(&ordered));
    }
    all
}
