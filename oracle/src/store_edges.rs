//! Stores for the short inputs: every small one, and stores at 01's limits and just past them.

use crate::prelude::*;
use crate::stores::{Placed, LARGEST};

/// An ordinary entry to be added, its phones parted by blanks.
pub fn add(word: &str, tag: &str, phones: &str) -> Add {
    let phones: Vec<&str> = phones.split_whitespace().collect();
    Add { wanted: Wanted::new(word, tag), phones: List::of(&phones), exact: false }
}

/// An exact one.
pub fn exact(word: &str, tag: &str, phones: &str) -> Add {
    Add { exact: true, ..add(word, tag, phones) }
}

/// A new store of so many slots with a byte in the others, after some adds.
pub fn grown(slots: usize, fill: u8, adds: &[Add]) -> Vec<u8> {
    let lexicon = Rc::new(Lexicon::of::<&str>(&[], &[]));
    Scene::new(&lexicon, stores::new(slots, fill)).grown(adds)
}

/// Every store that up to so many adds over two words and three tags leave.
pub fn small(most: usize) -> Vec<Vec<u8>> {
    let keys = [("a", ""), ("A", "n"), ("a", "v"), ("b", "nil"), ("b", "n"), ("B", "v")];
    let made = |keys: &Vec<(&str, &str)>| {
        let adds = keys.iter().zip(["k", "t", "s", "r"]);
        let adds = adds.map(|((word, tag), phone)| add(word, tag, phone));
        grown(most + 1, 0, &adds.collect::<Vec<Add>>())
    };
    words::every(&keys, most).iter().map(made).collect()
}

/// Every store that up to so many adds of one letter leave, exact and ordinary ones, over two tags.
pub fn small_exact(most: usize) -> Vec<Vec<u8>> {
    let ordinary = [("a", ""), ("A", "n")].map(|(word, tag)| add(word, tag, ""));
    let keys = [("a", ""), ("a", "n"), ("A", ""), ("A", "n")];
    let all = [&ordinary[..], &keys.map(|(word, tag)| exact(word, tag, ""))].concat();
    let made = |adds: &Vec<Add>| {
        let adds = adds.iter().zip(["k", "t", "s", "r"]);
        let adds = adds.map(|(add, phone)| Add { phones: List::of(&[phone]), ..add.clone() });
        grown(most + 1, 0, &adds.collect::<Vec<Add>>())
    };
    words::every(&all, most).iter().map(made).collect()
}

/// A store of two entries, the newer in the first slot, and a slot with anything in it.
pub fn good() -> Vec<u8> {
    let adds = [add("lead", "v", "l iy d"), add("a", "n", "ax"), add("lead", "v", "l iy")];
    grown(4, 0xb7, &adds)
}

/// The same with exact entries: "Lead", in the first slot, and "lead", between them an ordinary "lead".
pub fn good_exact() -> Vec<u8> {
    let adds = [exact("Lead", "v", "l eh"), exact("lead", "v", "k"), add("Lead", "v", "l iy")];
    grown(5, 0xb7, &[&adds[..], &[exact("Lead", "v", "l eh d")]].concat())
}

/// The good store with each of its bytes altered, and the one with exact entries with the fields of a slot.
pub fn altered_bytes() -> Vec<Vec<u8>> {
    let all = records::altered(&good(), SLOT, 70, &[0, 1, 2, 3, 24, 65, 128, 255]);
    let good = good_exact();
    let fields = each! {
        for slot in 1..=3;
        for at in (2..10).chain(49..66);
        [0, 1, 2, 65, 97, 128, 255].map(|byte| records::with_byte(&good, SLOT * slot + at, byte))
    };
    [all, fields].concat()
}

/// Stores at 01's limits, and just past them.
pub fn limits() -> Vec<Vec<u8>> {
    let good = good();
    let mut all = vec![good.clone(), good_exact(), stores::new(1, 0), stores::new(2, 0xff)];
    all.extend([0, 1, 511, 513, 1_023, 2_047, 2_049].map(|len| records::resized(&good, len)));
    all.extend([LARGEST - 1, LARGEST, LARGEST + 1, LARGEST + SLOT].map(|len| vec![0; len]));
    // cut behind its last used slot, and before it
    all.extend([3, 2, 1].map(|slots| good[..slots * SLOT].to_vec()));
    // every slot used, or all but one
    for (count, slots) in [(127, 128), (126, 128), (2, 3)] {
        let words = (0..count).map(|i| format!("w{i}"));
        let adds = words.map(|word| add(&word, "", &"k ".repeat(word.len() % 4)));
        all.push(grown(slots, 0x5a, &adds.collect::<Vec<Add>>()));
    }
    // full of exact entries, of an exact one and its twin, of one that an ordinary add must not replace
    all.push(grown(3, 0, &[exact("lead", "v", "k"), exact("Lead", "v", "t")]));
    all.push(grown(3, 0, &[add("lead", "v", "k"), exact("lead", "v", "t")]));
    all.push(grown(2, 0, &[exact("a", "", "ey")]));
    all.push(grown(
        128,
        0,
        &(0..127).map(|i| exact(&format!("W{i}"), "", "k")).collect::<Vec<_>>(),
    ));
    // counts at 02's limits
    let counts = [0, u64::MAX - 1, u64::MAX, 255, 1 << 63];
    all.extend(counts.map(|count| stores::with_count(&good, count)));
    // longest texts
    let longest = add(&"w".repeat(47), &"t".repeat(47), &"brth ".repeat(24));
    all.push(grown(2, 0, &[longest]));
    all.push(grown(3, 0, &[add("", "", ""), add("lead", "nil", "")]));
    all.extend(odd());
    all.extend(unsound());
    all
}

/// Sound stores that no add of text leaves: odd bytes in words and tags, phones that are in no table.
fn odd() -> Vec<Vec<u8>> {
    let good = good();
    let chain = stores::read(&good).expect("the store is sound");
    let tags = with(&chain, [0, 127, b'N'], |chain, tag| chain[0].entry.tag = tag);
    let words = [&b"a: #\"\0"[..], &[127; 47], b"lead", b"[@`{"];
    let words = with(&chain, words, |chain, word| chain[0].entry.word = word.to_vec());
    let phones = vec![b"abcdefghijklmno".to_vec(), vec![], vec![127, 0]];
    let phones = with(&chain, [phones], |chain, phones| chain[0].entry.phones = phones);
    // a longer length over zero bytes is a longer word
    let longer = records::with_byte(&good, SLOT + 3, 47);
    let chains = [tags, words, phones].concat();
    // any bytes in an exact word
    let exact = with(&chain, [&b"A: #\"\0Z"[..], &[b'Z'; 47]], |chain, word| {
        chain[0].entry = Entry { word: word.to_vec(), exact: true, ..chain[0].entry.clone() };
    });
    let chains = [chains, exact].concat();
    chains.iter().map(|chain| stores::write(&good, chain)).chain([longer]).collect()
}

/// Stores that break one part of what sound means, where altering one byte does not do it.
fn unsound() -> Vec<Vec<u8>> {
    let good = good();
    // a chain without an end, one that misses a slot, one that leaves the used slots
    let links = [(SLOT, 2), (4, 3), (4, 1), (4, 0), (5, 1), (SLOT, 3), (SLOT + 1, 255), (2, 2)];
    let mut all = Vec::from(links.map(|(at, byte)| records::with_byte(&good, at, byte)));
    let changes: [fn(&mut Vec<u8>); 11] = [
        // the largest count, and a byte before it
        |s| s[7..16].fill(255),
        // one key in both slots; one word in both
        |s| s.copy_within(SLOT + 2..SLOT + 51, 2 * SLOT + 2),
        |s| s.copy_within(SLOT + 3..SLOT + 51, 2 * SLOT + 3),
        // entries that slot 0 does not know of
        |s| s[..6].fill(0),
        // the third slot linked, but not used
        |s| {
            s.copy_within(2 * SLOT..3 * SLOT, 3 * SLOT);
            s[3 * SLOT + 2] = b'z';
            s[SLOT] = 3;
            s[2] = 3;
        },
        // the third slot in the place of the first, whose entry it has
        |s| {
            s.copy_within(SLOT..2 * SLOT, 3 * SLOT);
            s[2 * SLOT] = 3;
            s[2] = 3;
        },
        // a word of 48 bytes, over its neighbour; 25 phones
        |s| {
            s[SLOT + 3] = 48;
            s[SLOT + 4..SLOT + 52].fill(b'w');
        },
        |s| s[SLOT + 51] = 25,
        // one exact key in both slots; twins that have become one key; a capital in an ordinary word
        |s| {
            s.copy_within(SLOT + 2..SLOT + 51, 2 * SLOT + 2);
            s[SLOT + stores::EXACT] = 1;
            s[2 * SLOT + stores::EXACT] = 1;
        },
        |s| {
            s.copy_from_slice(&records::resized(&good_exact(), 4 * SLOT));
            s[2 * SLOT + stores::EXACT] = 0;
        },
        |s| {
            s.copy_from_slice(&records::resized(&good_exact(), 4 * SLOT));
            s[SLOT + stores::EXACT] = 0;
        },
    ];
    all.extend(with(&good, changes, |store, change| change(store)));
    all
}

rows! { pub STORE:
    /// What a sound store has.
    features(store: &[u8], entries: &[Placed]) {
        let ordered = (1..).zip(entries).all(|(slot, placed)| slot == placed.slot);
        let unused = &store[stores::unused(store)..];
    } [
        "store without entries" => entries.is_empty(),
        "store with every slot used" => !entries.is_empty() && unused.is_empty(),
        "store of 127 entries" => entries.len() == 127,
        "store in another order than its slots" => !ordered,
        "anything in unused slots" => !records::zeros(unused),
        "store whose count is 0" => stores::count(store) == 0,
        "store whose count is the largest" => stores::is_spent(store),
    ]
}

rows! { pub EXACT:
    /// What the entries of a sound store have, some of them exact.
    of_exact(entries: &[Placed]) {
        let keys: Vec<Key> = entries.iter().map(|placed| placed.entry.key()).collect();
        let exact = || keys.iter().filter(|key| key.exact);
        let other = |key: &Key, other: &Key| {
            key.word != other.word && key.word.eq_ignore_ascii_case(&other.word)
        };
        let twin = |key: &Key| keys.contains(&key.twin());
    } [
        "store with exact entries" => exact().next().is_some(),
        "store of exact entries alone" => !keys.is_empty() && keys.iter().all(|key| key.exact),
        "exact entry without capitals" => exact().any(|key| stores::is_folded(&key.word)),
        "exact entry and its ordinary twin" => exact().any(twin),
        "exact entries in other capitals" => exact().any(|key| exact().any(|two| other(key, two))),
    ]
}

/// The store with its count one higher. Tells what the count met.
pub fn raised(store: &[u8], met: &mut Met) -> Vec<u8> {
    let count = stores::count(store);
    met.all(of_count(count));
    stores::with_count(store, count + 1)
}

rows! { pub RAISED:
    /// What a count has that becomes one higher.
    of_count(count: u64) [
        "count 0 becomes 1" => count == 0,
        "count carries into the next byte" => count % 256 == 255,
        "count becomes the largest" => count + 1 == u64::MAX,
    ]
}
