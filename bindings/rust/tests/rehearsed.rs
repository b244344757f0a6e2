//! The words rehearsed in the scope document, through the binding.

mod sections;

use pronouncer::{
    example, is_vowel, split_stress, Lexicon, PhoneList, Refusal, Sayable, Source, Store, Stress,
    LIST_BYTES,
};
use sections::{cells, entries, found, phone_table, NO_TREES, NO_WORDS};

#[test]
fn marks() {
    let cases = [
        ("", ""),
        ("k ae t", "001"),
        ("eh k s t r ax", "010001"),
        ("s ih ng er", "0011"),
        ("s t", "01"),
        ("t pau aa", "101"),
        ("ae t h r ax", "10001"),
        ("ae t l ax", "0101"),
    ];
    for (phones, wanted) in cases {
        let (mut room, mut marks) = ([9; 128], [9; 8]);
        let list = PhoneList::write(phones, &mut room).expect("it fits");
        let told = list.syllabify(&mut marks).expect("it is accepted");
        let digits: String = told.iter().map(|mark| char::from(b'0' + mark)).collect();
        assert_eq!(digits, wanted, "{phones}");
        assert!(marks[wanted.len()..].iter().all(|&byte| byte == 9), "the marks' rest stays");
    }
}

#[test]
fn stress() {
    assert_eq!(split_stress("ax11"), ("ax1", Some(Stress::Stressed)));
    assert_eq!(split_stress("ae2"), ("ae2", None));
    assert_eq!(split_stress("t0"), ("t", Some(Stress::Unstressed)));
    assert_eq!(split_stress("0"), ("", Some(Stress::Unstressed)));
    assert_eq!(split_stress(""), ("", None));
    assert!(is_vowel("ax") && !is_vowel("pau") && !is_vowel("é"));
}

#[test]
fn an_empty_store() {
    let mut slots = [7; 512];
    let store = Store::new_store(&mut slots).expect("a store");
    let addenda = |phones: &str| Some((Source::Addenda, phones.to_string()));
    assert_eq!(found(&NO_WORDS, &store, "in", ""), addenda("ih n"));
    assert_eq!(found(&NO_WORDS, &store, ",", ""), addenda(""));
    assert!(found(&NO_WORDS, &store, "email", "").is_some());
    assert_eq!(found(&NO_WORDS, &store, "Email", ""), None);
}

#[test]
fn lead_and_lead() {
    let mut slots = [7; 3 * 512];
    let mut store = Store::new_store(&mut slots).expect("a store");
    let mut add = |tag: &str, phones: &[&str]| {
        let cells = cells(phones);
        store
            .add_entry(&NO_WORDS, "lead", tag, PhoneList::from_cells(&cells), false)
            .expect("it is added");
        found(&NO_WORDS, &store, "lead", "").expect("it was added").1
    };
    assert_eq!(add("v", &["l", "iy", "d"]), "l iy d");
    assert_eq!(add("n", &["l", "eh", "d"]), "l iy d");
    assert_eq!(add("v", &["l", "iy", "d"]), "l eh d");
    assert_eq!(found(&NO_WORDS, &store, "LEAD", "verb"), Some((Source::Runtime, "l iy d".into())));
}

#[test]
fn words_without_letters() {
    let mut out = [9; 16];
    for word in ["", "a#"] {
        for letters in [NO_TREES, example::LETTERS] {
            assert!(letters.predict(word, &mut out).expect("it is accepted").phones().is_empty());
        }
    }
    assert_eq!(out, [9; 16]);
}

#[test]
fn words_of_47_and_48_bytes() {
    let (long, longer) = ("w".repeat(47), "w".repeat(48));
    let mut slots = [0; 1024];
    let mut store = Store::new_store(&mut slots).expect("a store");
    let none = PhoneList::from_cells(b"");
    assert_eq!(store.add_entry(&NO_WORDS, &long, &long, none, false), Ok(()));
    assert_eq!(found(&NO_WORDS, &store, &long, ""), Some((Source::Runtime, String::new())));
    for (word, tag) in [(&longer, &long), (&long, &longer)] {
        let refused = store.add_entry(&NO_WORDS, word, tag, none, false).unwrap_err();
        assert_eq!(refused.refusal, Refusal::Text);
    }
    assert!(example::SAYABLE.is_sayable(&long).is_ok());
    assert_eq!(example::SAYABLE.is_sayable(&longer).unwrap_err().refusal, Refusal::Text);
}

#[test]
fn entries_of_24_and_25_phones() {
    let mut slots = [0; 1024];
    let mut store = Store::new_store(&mut slots).expect("a store");
    let (long, longer) = (cells(&["k"; 24]), cells(&["k"; 25]));
    assert_eq!(store.add_entry(&NO_WORDS, "a", "", PhoneList::from_cells(&long), false), Ok(()));
    let refused = store.add_entry(&NO_WORDS, "a", "", PhoneList::from_cells(&longer), false);
    assert_eq!(refused.unwrap_err().refusal, Refusal::Phones);
}

#[test]
fn lists_of_96_and_97_phones() {
    let mut marks = [0; 97];
    let (long, longer) = (cells(&["k"; 96]), cells(&["k"; 97]));
    let told = PhoneList::from_cells(&long).syllabify(&mut marks).expect("it is accepted");
    assert_eq!(told.len(), 96);
    let refused = PhoneList::from_cells(&longer).syllabify(&mut marks);
    assert_eq!(refused.unwrap_err().refusal, Refusal::Phones);

    let phones = phone_table(&["k"]);
    let (index, data) = entries(&[("long", b'0', &[0; 96]), ("longer", b'0', &[0; 97])]);
    let lexicon = Lexicon { phones: &phones, index: &index, data: &data };
    assert_eq!(lexicon.check_lexicon(), Ok(true));
    let (mut slots, mut out) = ([0; 512], [0; LIST_BYTES]);
    let store = Store::new_store(&mut slots).expect("a store");
    let found = lexicon.lookup(&store, "long", "", &mut out).expect("it is accepted");
    assert_eq!(found.expect("it is there").phones.len(), 96);
    let refused = lexicon.lookup(&store, "longer", "", &mut out).unwrap_err();
    assert_eq!(refused.refusal, Refusal::Phones);
}

#[test]
fn nil_is_a_tag_of_its_own_in_lookup() {
    let mut slots = [0; 1024];
    let mut store = Store::new_store(&mut slots).expect("a store");
    let cells = cells(&["k"]);
    let phones = PhoneList::from_cells(&cells);
    store.add_entry(&NO_WORDS, "a", "v", phones, false).expect("it is added");
    assert!(found(&NO_WORDS, &store, "a", "").is_some());
    assert!(found(&NO_WORDS, &store, "a", "nil").is_none());
    store
        .add_entry(&NO_WORDS, "a", "nil", phones, false)
        .expect_err("nil is 0 in adding, and there is no slot for it");
}

/// A table of aswd: "#" leads from 0 to cell `start`, where the consonant and V lead back.
fn machine(start: usize, consonant: u8) -> Vec<u8> {
    let mut cells = vec![0; start + 3];
    let to_start = |symbol: u8| 128 * start as u16 + u16::from(symbol);
    cells[0] = to_start(b'#');
    cells[start] = to_start(b'V');
    cells[start + 1] = to_start(consonant);
    let skipped = [0; 4];
    skipped.into_iter().chain(cells.into_iter().flat_map(u16::to_le_bytes)).collect()
}

#[test]
fn forwards_in_the_prefix_and_backwards_in_the_suffix() {
    let (prefix, suffix) = (machine(2, b'k'), machine(2, b's'));
    let sayable = Sayable { prefix: &prefix, suffix: &suffix };
    assert_eq!(sayable.is_sayable("Kits"), Ok(false));
    assert_eq!(sayable.is_sayable("Kis"), Ok(true));
    assert_eq!(sayable.is_sayable("Sik"), Ok(false));
}

#[test]
fn both_tables_start_at_the_prefixs_hash() {
    let prefix = machine(2, b'k');
    let sayable = |suffix: &[u8]| Sayable { prefix: &prefix, suffix }.is_sayable("a");
    assert_eq!(sayable(&machine(2, b'k')), Ok(true));
    assert_eq!(sayable(&machine(3, b'k')), Ok(false));
}
