//! Where each word of a sheet came from: byte 15 of its item, which a sound sheet has in words alone.

mod sections;

use pronouncer::{
    example, PhoneList, Refusal, Refused, Sheet, SheetVersion, Source, Store, Unsound, WordSource,
    ITEM_BYTES, SLOT_BYTES,
};
use sections::{cells, reading};

/// The place of the source in an item.
const SOURCE: usize = 15;

fn say(sheet: &mut Sheet<'_>, store: &Store<'_>, word: &str, tag: &str) -> Result<usize, Refused> {
    let said = sheet.say_word(&example::LEXICON, &example::LETTERS, store, word, tag);
    said.map(|said| said.place())
}

fn add(store: &mut Store<'_>, word: &str, tag: &str, exact: bool) {
    let cells = cells(&["k"]);
    let phones = PhoneList::from_cells(&cells);
    store.add_entry(&example::LEXICON, word, tag, phones, exact).expect("it is added");
}

/// The sources of a sheet's words, as they are told.
fn sources(sheet: &Sheet<'_>) -> Vec<String> {
    sheet.words().map(|word| word.source().to_string()).collect()
}

#[test]
fn a_word_of_each() {
    let (mut slots, mut items) = (vec![7; 4 * SLOT_BYTES], vec![7; 64 * ITEM_BYTES]);
    let mut store = Store::new_store(&mut slots).expect("a store");
    let mut sheet = Sheet::new_sheet(&mut items, SheetVersion::V2).expect("a sheet");
    add(&mut store, "iris", "", false);
    add(&mut store, "Mel", "", true);
    add(&mut store, "cat", "v", false);
    let said = [
        ("Iris", "n", WordSource::Found(Source::Runtime)),
        ("Mel", "", WordSource::Found(Source::Runtime)),
        ("mel", "", WordSource::Letters),
        ("to", "", WordSource::Found(Source::Addenda)),
        (",", "", WordSource::Found(Source::Addenda)),
        ("lead", "v", WordSource::Found(Source::Compiled)),
        ("Lead", "v", WordSource::Letters),
        ("cat", "v", WordSource::Found(Source::Runtime)),
        ("cat", "n", WordSource::Found(Source::Compiled)),
        ("a#12", "", WordSource::Letters),
        ("#", "n", WordSource::Found(Source::Addenda)),
        ("#", "v", WordSource::Letters),
    ];
    for (word, tag, _) in said {
        say(&mut sheet, &store, word, tag).expect("it is said");
    }
    let told: Vec<(&str, WordSource)> =
        sheet.words().map(|word| (word.text(), word.source())).collect();
    assert_eq!(told, said.map(|(word, _, source)| (word, source)));
}

#[test]
fn it_stands_in_words_alone() {
    let items = four_words();
    let bytes: Vec<(u8, u8)> =
        items.chunks(ITEM_BYTES).take(17).map(|item| (item[0], item[SOURCE])).collect();
    let (syllable, phone) = ((2, 0), (3, 0));
    let wanted = [
        &[(0, 0), (1, 1), syllable, phone][..],
        &[(1, 2), syllable, phone, phone],
        &[(1, 3), syllable, phone, phone, phone],
        &[(1, 4), syllable, phone, phone],
    ];
    assert_eq!(bytes, wanted.concat());
}

#[test]
fn later_entries_change_none() {
    let (mut slots, mut items) = (vec![0; 2 * SLOT_BYTES], vec![0; 64 * ITEM_BYTES]);
    let mut store = Store::new_store(&mut slots).expect("a store");
    let mut sheet = Sheet::new_sheet(&mut items, SheetVersion::V2).expect("a sheet");
    assert_eq!(say(&mut sheet, &store, "gobo", ""), Ok(0));
    add(&mut store, "gobo", "", false);
    assert_eq!(sources(&sheet), ["letters"]);
    assert_eq!(say(&mut sheet, &store, "Gobo", ""), Ok(0));
    assert_eq!(sources(&sheet), ["letters", "runtime"]);

    // A refused word leaves them, too.
    assert_eq!(say(&mut sheet, &store, "é", ""), Err(Refusal::Text.into()));
    assert_eq!(sources(&sheet), ["letters", "runtime"]);
}

/// A word of each source on a sheet of 30 items; the words are items 1, 4, 8 and 13.
fn four_words() -> Vec<u8> {
    let (mut slots, mut items) = (vec![0; 2 * SLOT_BYTES], vec![7; 30 * ITEM_BYTES]);
    let mut store = Store::new_store(&mut slots).expect("a store");
    let mut sheet = Sheet::new_sheet(&mut items, SheetVersion::V2).expect("a sheet");
    add(&mut store, "iris", "", false);
    for word in ["iris", "to", "cat", "go"] {
        say(&mut sheet, &store, word, "").expect("it is said");
    }
    assert_eq!(reading(&sheet), "iris[k 0] to[t ax 0] cat[k ae t 1] go[g ow 1]");
    assert_eq!(sources(&sheet), ["runtime", "addenda", "compiled", "letters"]);
    items
}

/// Sees that both calls on a sheet refuse it by 2, and leave it as it is.
fn is_unsound(items: &mut [u8], store: &Store<'_>, altered: &str) {
    let before = items.to_vec();
    let mut refused = Refused::from(Refusal::Unsound);
    refused.unsound = Some(Unsound::SheetBytes);
    let (mut sheet, mut out) = (Sheet::over(items), [9; 99]);
    assert_eq!(sheet.phone_string(&mut out), Err(refused), "{altered}");
    assert_eq!(say(&mut sheet, store, "cat", ""), Err(refused), "{altered}");
    assert!(items == before && out == [9; 99], "{altered}");
}

/// Sees that both calls take a sheet.
fn is_sound(items: &mut [u8], store: &Store<'_>, altered: &str) {
    let (mut sheet, mut out) = (Sheet::over(items), [0; 99]);
    assert_eq!(sheet.phone_string(&mut out), Ok("k t ax k ae t g ow"), "{altered}");
    assert_eq!(say(&mut sheet, store, "cat", ""), Ok(0), "{altered}");
}

#[test]
fn each_byte_in_each_item() {
    let mut slots = [0; SLOT_BYTES];
    let store = Store::new_store(&mut slots).expect("a store");
    let plain = four_words();
    for item in 0..=18 {
        for byte in 0..=255 {
            let mut items = plain.clone();
            items[ITEM_BYTES * item + SOURCE] = byte;
            let fits = match item {
                1 | 4 | 8 | 13 => (1..=4).contains(&byte),
                0..=16 => byte == 0,
                _ => true, // not used
            };
            let is_told = if fits { is_sound } else { is_unsound };
            is_told(&mut items, &store, &format!("byte {SOURCE} of item {item} is {byte}"));
        }
    }
}

#[test]
fn the_byte_beside_it_is_0() {
    let mut slots = [0; SLOT_BYTES];
    let store = Store::new_store(&mut slots).expect("a store");
    for item in 0..=16 {
        let mut items = four_words();
        items[ITEM_BYTES * item + 14] = 1;
        is_unsound(&mut items, &store, &format!("byte 14 of item {item} is 1"));
    }
}

#[test]
fn a_byte_that_is_none_is_read_as_the_letters() {
    let mut items = four_words();
    for byte in 0..=255 {
        items[ITEM_BYTES + SOURCE] = byte;
        let source = Sheet::over(&mut items).words().next().map(|word| word.source());
        let wanted = match byte {
            1 => WordSource::Found(Source::Runtime),
            2 => WordSource::Found(Source::Addenda),
            3 => WordSource::Found(Source::Compiled),
            _ => WordSource::Letters,
        };
        assert_eq!(source, Some(wanted), "{byte}");
    }
}

#[test]
fn names_and_numbers() {
    let found = [Source::Runtime, Source::Addenda, Source::Compiled].map(WordSource::Found);
    let told = found.into_iter().chain([WordSource::Letters]);
    let told: Vec<(u32, String)> =
        told.map(|source| (source.number(), source.to_string())).collect();
    let wanted = [(1, "runtime"), (2, "addenda"), (3, "compiled"), (4, "letters")];
    assert_eq!(told, wanted.map(|(number, name)| (number, name.to_string())));
}
