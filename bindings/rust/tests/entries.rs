//! The entries of a store read back, over sound stores and over any bytes.

mod sections;

use pronouncer::{PhoneList, Store};
use sections::{cells, NO_WORDS};

/// The entries as text, and that every way to count them agrees.
fn reading(bytes: &mut [u8]) -> String {
    let store = Store::over(bytes);
    assert_eq!(store.len(), store.iter().count());
    let (len, is_empty) = (store.len(), store.is_empty());
    assert_eq!(is_empty, len == 0);
    assert_eq!((&store).into_iter().count(), store.len());
    let count = store.bytes().get(8..16).map(|bytes| bytes.try_into().expect("eight bytes"));
    assert_eq!(store.count(), count.map_or(0, u64::from_le_bytes));
    let mut entries = store.iter();
    entries.by_ref().for_each(drop);
    assert!(entries.next().is_none(), "what has ended stays so");
    format!("{store:?}")
}

/// Entries that say little: a word, a tag and phones.
type Added<'a> = (&'a str, &'a str, &'a [&'a str]);

fn a_store(slots: usize, added: &[Added]) -> Vec<u8> {
    let mut bytes = vec![0xff; 512 * slots];
    let mut store = Store::new_store(&mut bytes).expect("a store");
    for (word, tag, phones) in added {
        let cells = cells(phones);
        store
            .add_entry(&NO_WORDS, word, tag, PhoneList::from_cells(&cells), false)
            .expect("it is added");
    }
    bytes
}

/// Iris, lead, and iris once more, which is then the last; slot 3 is not used.
fn two_entries() -> Vec<u8> {
    let added: [Added; 3] =
        [("Iris", "noun", &["ay", "r"]), ("lead", "", &[]), ("iris", "n", &["ay", "r", "ih", "s"])];
    a_store(4, &added)
}

#[test]
fn in_the_order_of_the_store() {
    assert_eq!(reading(&mut a_store(2, &[])), "[]");
    let mut bytes = two_entries();
    assert_eq!(reading(&mut bytes), "[lead 0 : , iris n : ay r ih s]");
    let store = Store::over(&mut bytes);
    let last = store.iter().last().expect("there are two");
    assert_eq!((last.word, last.tag), ("iris", "n"));
    assert_eq!(last.phones.iter().collect::<Vec<_>>(), ["ay", "r", "ih", "s"]);
    let mut entries = store.iter();
    entries.next();
    assert_eq!(format!("{entries:?}"), "[iris n : ay r ih s]");
}

#[test]
fn entries_go_into_another_store() {
    let mut bytes = two_entries();
    let mut longer = a_store(9, &[]);
    let mut other = Store::over(&mut longer);
    for entry in &Store::over(&mut bytes) {
        other
            .add_entry(&NO_WORDS, entry.word, entry.tag, entry.phones, entry.exact)
            .expect("it is added");
    }
    assert_eq!(format!("{other:?}"), "[lead 0 : , iris n : ay r ih s]");
}

#[test]
fn a_full_store() {
    let words: Vec<String> = (0..127).map(|number| format!("word{number}")).collect();
    let added: Vec<Added> = words.iter().map(|word| (word.as_str(), "", &["k"; 24][..])).collect();
    let mut bytes = a_store(128, &added);
    let store = Store::over(&mut bytes);
    assert_eq!(store.len(), 127);
    assert!(store.iter().map(|entry| entry.word).eq(words));
    assert!(store.iter().all(|entry| entry.phones.to_string() == ["k"; 24].join(" ")));
}

#[test]
fn whether_it_is_exact() {
    let mut bytes = two_entries();
    assert!(Store::over(&mut bytes).iter().all(|entry| !entry.exact));
    for byte in 0..=255 {
        bytes[1024 + 52] = byte;
        let store = Store::over(&mut bytes);
        assert!(store.iter().map(|entry| entry.exact).eq([byte == 1, false]), "{byte}");
        let remark = if byte == 1 { " # exact" } else { "" };
        assert_eq!(format!("{store:?}"), format!("[lead 0 : {remark}, iris n : ay r ih s]"));
    }
}

#[test]
fn each_byte_altered() {
    let plain = two_entries();
    for at in 0..plain.len() {
        for step in [1, 2, 3, 128, 255] {
            let mut bytes = plain.clone();
            bytes[at] = bytes[at].wrapping_add(step);
            reading(&mut bytes);
            let store = Store::over(&mut bytes);
            assert!(store.len() < 4, "byte {at} with {step} more");
            for entry in &store {
                assert!(entry.word.len() <= 47 && entry.tag.len() <= 1 && entry.phones.len() <= 24);
            }
        }
    }
}

#[test]
fn circles_and_links_to_nowhere() {
    let link = |bytes: &mut [u8], slot: usize, to: u16| {
        bytes[512 * slot..512 * slot + 2].copy_from_slice(&to.to_le_bytes());
    };
    let mut bytes = two_entries();
    link(&mut bytes, 1, 2);
    assert_eq!(reading(&mut bytes), "[lead 0 : , iris n : ay r ih s]");
    link(&mut bytes, 2, 2);
    assert_eq!(reading(&mut bytes), "[lead 0 : ]");
    for nowhere in [3, 4, 127, 128, 65_535] {
        link(&mut bytes, 2, nowhere);
        assert_eq!(reading(&mut bytes), "[lead 0 : ]");
    }
    link(&mut bytes, 0, 0);
    assert_eq!(reading(&mut bytes), "[]");
    // A tag and a word that are no ASCII, and a count that is too large, are read as far as they can be.
    link(&mut bytes, 0, 2);
    bytes[1024 + 2..1024 + 6].copy_from_slice(&[200, 255, b'a', 200]);
    bytes[1024 + 51] = 255;
    let store = Store::over(&mut bytes);
    let entry = store.iter().next().expect("it can be followed");
    assert_eq!((entry.word, entry.tag, entry.phones.len()), ("a", "", 24));
}

#[test]
fn every_length_and_any_bytes() {
    let plain = two_entries();
    for length in 0..plain.len() {
        reading(&mut plain[..length].to_vec());
    }
    for fill in [0, 1, 2, 0x7f, 0xff] {
        for length in [0, 1, 511, 512, 1023, 65_535, 65_536, 66_048, 200_000] {
            let mut bytes = vec![fill; length];
            reading(&mut bytes);
            assert!(Store::over(&mut bytes).len() < 128, "{length} bytes of {fill}");
        }
    }
}

#[test]
fn links_by_chance() {
    let mut state = 1u64;
    let mut chance = || {
        state = state.wrapping_mul(6_364_136_223_846_793_005).wrapping_add(1);
        (state >> 57) as u8
    };
    for _ in 0..50 {
        let mut bytes: Vec<u8> = (0..65_536).map(|_| chance()).collect();
        for slot in bytes.chunks_mut(512) {
            slot[1] = 0;
        }
        bytes[4..6].copy_from_slice(&127u16.to_le_bytes());
        reading(&mut bytes);
        assert!(Store::over(&mut bytes).len() < 128);
    }
}
