//! Sizes at their edges: a full store, the largest count, a full sheet, and outputs of exactly the bytes that are
//! needed.

mod sections;

use pronouncer::{
    example, PhoneList, Refusal, Sheet, SheetVersion, Store, ITEM_BYTES, LARGEST_BYTES,
};
use sections::{cells, reading, with_count, NO_WORDS, VERSIONS};

#[test]
fn a_store_of_127_entries() {
    let mut slots = vec![0xff; LARGEST_BYTES];
    let mut store = Store::new_store(&mut slots).expect("a store");
    let cells = cells(&["k"; 24]);
    let phones = PhoneList::from_cells(&cells);
    for number in 0..127 {
        let word = format!("word{number}");
        assert_eq!(store.add_entry(&NO_WORDS, &word, "", phones, false), Ok(()), "{word}");
    }
    let before = store.bytes().to_vec();
    let refused = store.add_entry(&NO_WORDS, "word127", "", phones, false).unwrap_err();
    assert_eq!((refused.refusal, refused.line), (Refusal::Full, 0));
    assert_eq!(store.bytes(), before);
    assert_eq!(store.add_entry(&NO_WORDS, "WORD0", "nil", phones, false), Ok(()));
    assert_eq!(
        store.add_entry(&NO_WORDS, "word0", "n", phones, false).unwrap_err().refusal,
        Refusal::Full
    );

    let mut out = [0; 24 * 16];
    for word in ["word0", "word126"] {
        let found = NO_WORDS.lookup(&store, word, "", &mut out).expect("it is accepted");
        assert_eq!(found.expect("it was added").phones.len(), 24);
    }
}

/// Lines taken, slots newly used and lines that replaced an entry; or why not, and the line.
fn previewed(
    store: &mut Store<'_>,
    spare: &mut [u8],
    text: &str,
) -> Result<(usize, usize, usize), (Refusal, usize)> {
    let told = store.preview_entries(&NO_WORDS, spare, text);
    told.map(|preview| (preview.lines(), preview.newly_used(), preview.replaced()))
        .map_err(|refused| (refused.refusal, refused.line))
}

#[test]
fn texts_of_127_and_128_entries() {
    let (mut slots, mut spare) = (vec![0xff; LARGEST_BYTES], vec![0; LARGEST_BYTES]);
    let mut store = Store::new_store(&mut slots).expect("a store");
    let text: String = (0..127).map(|number| format!("word{number} : k\n")).collect();
    let longer = format!("{text}word127 : k");

    assert_eq!(previewed(&mut store, &mut spare, &longer), Err((Refusal::Full, 128)));
    assert_eq!((Store::over(&mut spare).len(), Store::over(&mut spare).count()), (127, u64::MAX));
    assert_eq!((store.len(), store.count()), (0, 0));
    assert_eq!(previewed(&mut store, &mut spare, &text), Ok((127, 127, 0)));
    assert_eq!(store.accept_entries(&spare), Ok(()));
    assert_eq!((store.len(), store.count()), (127, 1));

    let twice = [&text[..], &text].concat();
    assert_eq!(previewed(&mut store, &mut spare, &twice), Ok((254, 0, 254)));
    assert_eq!(store.accept_entries(&spare), Ok(()));
    assert_eq!((store.len(), store.count()), (127, 2));
    assert_eq!(previewed(&mut store, &mut spare, &longer), Err((Refusal::Full, 128)));
}

#[test]
fn the_largest_count() {
    let mut new = vec![0; 2 * 512];
    Store::new_store(&mut new).expect("a store");
    let none = PhoneList::from_cells(b"");
    type Add = fn(&mut Store<'_>) -> Result<(), Refusal>;
    let adds: [Add; 4] = [
        |store| {
            let told = store.add_entry(&NO_WORDS, "a", "", PhoneList::from_cells(b""), false);
            told.map_err(|refused| refused.refusal)
        },
        |store| {
            let told = store.add_entry(&NO_WORDS, "a", "", PhoneList::from_cells(b""), true);
            told.map_err(|refused| refused.refusal)
        },
        |store| {
            let told = store.add_entries(&NO_WORDS, &mut [0; 1024], "a :");
            told.map(drop).map_err(|refused| refused.refusal)
        },
        |store| {
            let mut spare = [0; 1024];
            let preview = store.preview_entries(&NO_WORDS, &mut spare, "a :");
            preview.expect("it is shown at every count").accept().map_err(|refused| refused.refusal)
        },
    ];
    for add in adds {
        let mut slots = with_count(&new, u64::MAX - 2);
        let mut store = Store::over(&mut slots);
        for count in [u64::MAX - 1, u64::MAX] {
            assert_eq!((add(&mut store), store.count()), (Ok(()), count));
        }
        let before = store.bytes().to_vec();
        assert_eq!(add(&mut store), Err(Refusal::Count));
        assert_eq!(store.bytes(), before);
        // Lookups go on.
        assert!(NO_WORDS.lookup(&store, "a", "", &mut []).expect("it is accepted").is_some());

        // The cure: a new store with the same entries.
        let mut longer = vec![0; 3 * 512];
        let mut other = Store::new_store(&mut longer).expect("a store");
        for entry in &store {
            other
                .add_entry(&NO_WORDS, entry.word, entry.tag, entry.phones, entry.exact)
                .expect("it is added");
        }
        assert_eq!((other.len(), other.count()), (1, 1));
        assert_eq!(other.add_entry(&NO_WORDS, "b", "", none, false), Ok(()));
    }
}

#[test]
fn a_full_store_in_front_of_more_bytes() {
    let mut slots = vec![0; 1024];
    let mut store = Store::new_store(&mut slots).expect("a store");
    let none = PhoneList::from_cells(b"");
    assert_eq!(store.add_entry(&NO_WORDS, "a", "", none, false), Ok(()));
    assert_eq!(
        store.add_entry(&NO_WORDS, "b", "", none, false).unwrap_err().refusal,
        Refusal::Full
    );

    let mut longer = [store.bytes(), &[0xff; 512]].concat();
    let mut store = Store::over(&mut longer);
    assert_eq!(store.add_entry(&NO_WORDS, "b", "", none, false), Ok(()));
    for word in ["a", "b"] {
        assert!(NO_WORDS.lookup(&store, word, "", &mut []).expect("it is accepted").is_some());
    }
}

#[test]
fn lengths_of_a_store() {
    for length in [0, 1, 511, 513, 1023, 65_535, 65_537, 66_048] {
        let mut slots = vec![5; length];
        let refused = Store::new_store(&mut slots).unwrap_err();
        assert_eq!(refused.refusal, Refusal::Unsound, "{length}");
        assert!(slots.iter().all(|&byte| byte == 5), "{length}");
    }
    for length in [512, 1024, 65_536] {
        let mut slots = vec![5; length];
        assert!(Store::new_store(&mut slots).is_ok(), "{length}");
        assert!(slots[..512].iter().all(|&byte| byte == 0));
        assert!(slots[512..].iter().all(|&byte| byte == 5));
    }
}

#[test]
fn lengths_of_a_sheet() {
    for length in [0, 1, 63, 65_537] {
        let mut items = vec![5; length];
        let refused = Sheet::new_sheet(&mut items, SheetVersion::V2).unwrap_err();
        assert_eq!(refused.refusal, Refusal::Unsound, "{length}");
        assert!(items.iter().all(|&byte| byte == 5), "{length}");
    }
    for (length, version) in
        [64, 65, 127, 65_535, 65_536].into_iter().flat_map(|length| VERSIONS.map(|v| (length, v)))
    {
        let mut items = vec![5; length];
        assert!(Sheet::new_sheet(&mut items, version).is_ok(), "{length}");
        let number = version.number() as u8;
        assert_eq!(items[..64], [&[0, number][..], &[0; 62]].concat());
        assert!(items[64..].iter().all(|&byte| byte == 5));
    }
}

/// Says a word until it is refused, and tells how often it was said.
fn fill(sheet: &mut Sheet<'_>, store: &Store<'_>, word: &str) -> usize {
    let mut said = 0;
    loop {
        match sheet.say_word(&example::LEXICON, &example::LETTERS, store, word, "") {
            Ok(_) => said += 1,
            Err(refused) => {
                assert_eq!((refused.refusal, refused.line), (Refusal::Short, 0));
                return said;
            }
        }
    }
}

#[test]
fn a_sheet_of_1023_items() {
    let (mut slots, mut items) = (vec![0; 512], vec![0xff; LARGEST_BYTES]);
    let store = Store::new_store(&mut slots).expect("a store");
    let mut sheet = Sheet::new_sheet(&mut items, SheetVersion::V2).expect("a sheet");
    // "cat" needs 5 items, "," one.
    assert_eq!(fill(&mut sheet, &store, "cat"), 204);
    assert_eq!(fill(&mut sheet, &store, ","), 3);
    assert_eq!(sheet.words().count(), 207);
    assert_eq!(sheet.phones().count(), 612);

    let wanted = ["cat[k ae t 1]"; 204].join(" ") + " , , ,";
    assert_eq!(reading(&sheet), wanted);

    let string = ["k ae t"; 204].join(" ");
    let mut out = vec![0; string.len()];
    assert_eq!(sheet.phone_string(&mut out).expect("it fits"), string);
    let mut out = vec![9; string.len() - 1];
    assert_eq!(sheet.phone_string(&mut out).unwrap_err().refusal, Refusal::Short);
    assert!(out.iter().all(|&byte| byte == 9));
}

#[test]
fn a_sheet_with_a_remainder() {
    let (mut slots, mut lent) = (vec![0; 512], vec![0xee; 1 + 65_535]);
    let store = Store::new_store(&mut slots).expect("a store");
    let mut sheet =
        Sheet::new_sheet(&mut lent[1..], SheetVersion::V2).expect("a sheet at an odd place");
    assert_eq!(fill(&mut sheet, &store, ","), 1022);
    assert_eq!(sheet.words().count(), 1022);
    assert!(lent[1 + 1023 * ITEM_BYTES..].iter().all(|&byte| byte == 0xee));
    assert_eq!(lent[0], 0xee);
}

#[test]
fn outputs_of_exactly_the_bytes() {
    let mut slots = [0; 512];
    let store = Store::new_store(&mut slots).expect("a store");
    let mut out = [9; 48];
    let found = example::LEXICON.lookup(&store, "cat", "", &mut out).expect("it fits");
    assert_eq!(found.expect("it is there").phones.to_string(), "k ae1 t");
    assert_eq!(example::LETTERS.predict("tab", &mut out).expect("it fits").phones().len(), 3);

    let mut long = [9; 64];
    example::LETTERS.predict("tab", &mut long).expect("it fits");
    assert_eq!(long[48..], [9; 16], "the output keeps its bytes behind the answer");
    assert!(example::LEXICON
        .lookup(&store, ",", "", &mut [])
        .expect("no phones need no room")
        .is_some());
    let x = example::LETTERS.predict("x", &mut long).expect("it fits");
    assert_eq!(x.phones().to_string(), "k s");
}

#[test]
fn phones_written_from_a_text() {
    let mut room = [9; 32];
    let refused = |text: &str, room: &mut [u8]| PhoneList::write(text, room).unwrap_err().refusal;
    assert_eq!(refused("k ae t", &mut room), Refusal::Short);
    assert_eq!(refused("k é", &mut room), Refusal::Text);
    assert_eq!(refused(&"k".repeat(16), &mut room), Refusal::Phones);
    assert_eq!(room, [9; 32], "a refusal leaves the bytes");

    let list = PhoneList::write("\tk\n aaaaaaaaaaaaaaa ", &mut room).expect("it fits");
    assert_eq!(list.iter().collect::<Vec<_>>(), ["k", "aaaaaaaaaaaaaaa"]);
    assert_eq!(format!("{list:?}"), r#"["k", "aaaaaaaaaaaaaaa"]"#);
    assert!(PhoneList::write("", &mut []).expect("it fits").is_empty());
}

#[test]
fn sections_tell_their_lengths() {
    assert_eq!(
        format!("{:?}", NO_WORDS),
        "Lexicon { phones: 4 bytes, index: 4 bytes, data: 0 bytes }"
    );
    assert_eq!(
        format!("{:?}", example::LETTERS),
        "Letters { phones: 70 bytes, index: 52 bytes, model: 156 bytes }"
    );
    assert_eq!(format!("{:?}", example::SAYABLE), "Sayable { prefix: 50 bytes, suffix: 50 bytes }");
}
