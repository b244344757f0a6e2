//! Versions of a sheet: what comes off a phone as its stress, how the bare phones are cut, and which stresses a sound sheet
//! has. versions.c hands over numbers that are no version; which cause a refused sheet has stands in causes.rs.

mod sections;

use pronouncer::SheetVersion::{self, V1, V2};
use pronouncer::{
    example, Letters, Lexicon, Refusal, Sheet, Store, Stress, WordSource, ITEM_BYTES, SLOT_BYTES,
};
use sections::{entries, phone_table, reading, VERSIONS};

/// The bytes of a sheet with these words, said in order, in bytes that held something else.
fn sheet_of(
    version: SheetVersion,
    lexicon: &Lexicon<'_>,
    letters: &Letters<'_>,
    words: &[&str],
) -> Vec<u8> {
    let (mut slots, mut items) = ([0; SLOT_BYTES], vec![7; 64 * ITEM_BYTES]);
    let store = Store::new_store(&mut slots).expect("a store");
    let mut sheet = Sheet::new_sheet(&mut items, version).expect("a sheet");
    for word in words {
        sheet.say_word(lexicon, letters, &store, word, "").expect("it is said");
    }
    assert_eq!(sheet.version(), Some(version));
    items
}

/// A compiled entry of these phones, said on a sheet.
fn with_phones(version: SheetVersion, phones: &str) -> Vec<u8> {
    let phones: Vec<&str> = phones.split(' ').collect();
    let numbers: Vec<u8> = (0..phones.len() as u8).collect();
    let (index, data) = entries(&[("word", b'0', &numbers)]);
    let lexicon = Lexicon { phones: &phone_table(&phones), index: &index, data: &data };
    sheet_of(version, &lexicon, &example::LETTERS, &["word"])
}

fn read(mut items: Vec<u8>) -> String {
    reading(&Sheet::over(&mut items))
}

#[test]
fn what_comes_off_and_how_it_is_cut() {
    for (phones, in_1, in_2) in [
        ("l ay1 m l ay2 t", "[l ay m l ay2 t 1]", "[l ay m 1][l ay t 2]"),
        ("ae2 t l ax0", "[ae2 t l ax 0]", "[ae t 2][l ax 0]"),
        ("ae2", "[ae2 0]", "[ae 2]"),
        // The last digit of a syllable is its stress.
        ("k1 ae2 t", "[k ae2 t 1]", "[k ae t 2]"),
        ("k2 ae1 t", "[k2 ae t 1]", "[k ae t 1]"),
        ("k ae1 t2", "[k ae t2 1]", "[k ae t 2]"),
        ("k ae2 t0", "[k ae2 t 0]", "[k ae t 0]"),
        // One digit comes off; what is left is the phone.
        ("ae22", "[ae22 0]", "[ae2 2]"),
        ("ae12", "[ae12 0]", "[ae1 2]"),
        ("ae21", "[ae2 1]", "[ae2 1]"),
        ("t2", "[t2 0]", "[t 2]"),
        ("2", "[2 0]", "[ 2]"),
        ("ae3", "[ae3 0]", "[ae3 0]"),
    ] {
        assert_eq!(read(with_phones(V1, phones)), format!("word{in_1}"));
        assert_eq!(read(with_phones(V2, phones)), format!("word{in_2}"));
    }
}

#[test]
fn without_a_2_both_are_alike_but_for_byte_1() {
    let words = ["lead", "cat", "to", ",", "gobo", "tempo#two", "latitude", "12"];
    let [mut one, two] =
        VERSIONS.map(|version| sheet_of(version, &example::LEXICON, &example::LETTERS, &words));
    assert_eq!((one[1], two[1]), (1, 2));
    one[1] = 2;
    assert!(one == two);
}

#[test]
fn a_stress_is_typed() {
    let stresses = |version, phones| -> Vec<Stress> {
        let mut items = with_phones(version, phones);
        let sheet = Sheet::over(&mut items);
        sheet.words().flat_map(|word| word.syllables()).map(|syllable| syllable.stress()).collect()
    };
    let three = [Stress::Stressed, Stress::Secondary, Stress::Unstressed];
    assert_eq!(stresses(V2, "ay1 l ay2 l ay0"), three);
    assert_eq!(stresses(V1, "ay1 l ay2 l ay0"), [Stress::Stressed, Stress::Unstressed]);
    assert_eq!(three.map(|stress| stress.digit()), ['1', '2', '0']);
    for version in VERSIONS {
        assert_eq!(three.map(|stress| version.has_stress(stress)), [true, version == V2, true]);
    }
}

#[test]
fn letters_may_give_a_2() {
    let sounds = example::LETTERS.phones.to_vec();
    let at = sounds.windows(3).position(|phone| phone == b"ae1").expect("the phone of a");
    let sounds = [&sounds[..at], b"ae2", &sounds[at + 3..]].concat();
    let letters = Letters { phones: &sounds, ..example::LETTERS };
    for (version, wanted) in [(V1, "tab[t ae2 b 0]"), (V2, "tab[t ae b 2]")] {
        let mut items = sheet_of(version, &example::LEXICON, &letters, &["tab"]);
        let sheet = Sheet::over(&mut items);
        assert_eq!(reading(&sheet), wanted);
        assert_eq!(sheet.words().next().map(|word| word.source()), Some(WordSource::Letters));
    }
}

#[test]
fn an_added_entry_on_sheets_of_both() {
    let (mut slots, mut spare) = (vec![0; 2 * SLOT_BYTES], vec![0; 2 * SLOT_BYTES]);
    let mut store = Store::new_store(&mut slots).expect("a store");
    let (lexicon, letters) = (example::LEXICON, example::LETTERS);
    let text = "limelight n : l ay1 m l ay2 t";
    assert_eq!(store.add_entries(&lexicon, &mut spare, text), Ok(1));

    // One sheet's bytes, begun anew with another version each time.
    let mut items = vec![7; 20 * ITEM_BYTES];
    for (version, wanted) in [
        (V2, "Limelight[l ay m 1][l ay t 2]"),
        (V1, "Limelight[l ay m l ay2 t 1]"),
        (V2, "Limelight[l ay m 1][l ay t 2]"),
    ] {
        let mut sheet = Sheet::new_sheet(&mut items, version).expect("a sheet");
        assert_eq!(reading(&sheet), "");
        sheet.say_word(&lexicon, &letters, &store, "Limelight", "").expect("it is said");
        assert_eq!(reading(&sheet), wanted);
        // The version stays as words come in.
        assert_eq!(sheet.version(), Some(version));
    }
}

#[test]
fn phones_are_written_bare() {
    let mut out = [0; 32];
    for (version, wanted) in [(V1, "l ay m l ay2 t"), (V2, "l ay m l ay t")] {
        let mut items = with_phones(version, "l ay1 m l ay2 t");
        let sheet = Sheet::over(&mut items);
        assert_eq!(sheet.phone_string(&mut out), Ok(wanted));
        assert_eq!(sheet.phones().collect::<Vec<_>>().join(" "), wanted);
    }
}

/// Whether the calls on a sheet take it; they agree.
fn is_sound(items: &[u8]) -> bool {
    let (mut slots, mut items, mut out) = ([0; SLOT_BYTES], items.to_vec(), [9; 99]);
    let (store, before) = (Store::new_store(&mut slots).expect("a store"), items.clone());
    let mut sheet = Sheet::over(&mut items);
    let string = sheet.phone_string(&mut out).map(drop);
    let said = sheet.say_word(&example::LEXICON, &example::LETTERS, &store, "cat", "").map(drop);
    assert_eq!(string, said);
    if let Err(refused) = said {
        assert_eq!((refused.refusal, refused.line), (Refusal::Unsound, 0));
        assert!(items == before && out == [9; 99], "a refusal altered a lent byte");
    }
    said.is_ok()
}

#[test]
fn each_byte_as_a_version() {
    let with = |mut items: Vec<u8>, version| {
        items[1] = version;
        is_sound(&items)
    };
    for byte in 0..=255 {
        for version in VERSIONS {
            let plain = with_phones(version, "ay1 l ay0");
            assert_eq!(with(plain, byte), matches!(byte, 1 | 2), "{byte}");
        }
        // With a secondary stress.
        assert_eq!(with(with_phones(V2, "ay1 l ay2"), byte), byte == 2, "{byte}");
    }
}

#[test]
fn each_byte_as_a_stress() {
    for version in VERSIONS {
        // The syllables are items 2 and 4, the word and the phones the others.
        let plain = with_phones(version, "ay1 l ay0");
        for (item, byte) in (1..=6).flat_map(|item| (0..=255).map(move |byte| (item, byte))) {
            let mut items = plain.clone();
            items[item * ITEM_BYTES + 1] = byte;
            let fits = match item {
                2 | 4 => matches!(byte, b'0' | b'1') || byte == b'2' && version == V2,
                _ => byte == 0,
            };
            assert_eq!(is_sound(&items), fits, "version {version}, item {item}, byte {byte}");
        }
    }
}

#[test]
fn numbers() {
    for version in VERSIONS {
        assert_eq!(SheetVersion::try_from(version.number()), Ok(version));
        assert_eq!(version.to_string(), version.number().to_string());
    }
    let large = [257, 258, 65_537, 65_538, (1 << 24) + 1, (1 << 31) + 2, u32::MAX];
    for number in (0..=256).chain(large).filter(|number| !matches!(number, 1 | 2)) {
        let refused = SheetVersion::try_from(number).expect_err("it is no version");
        assert_eq!((refused.refusal, refused.line, refused.unsound), (Refusal::Version, 0, None));
    }
    let refused = SheetVersion::try_from(3).expect_err("it is no version").to_string();
    assert!(refused.starts_with("a version is not known: that of a sheet to begin, "), "{refused}");
    assert!(refused.contains("(refusal 15); begin a sheet with version 1 or 2"), "{refused}");
}

#[test]
fn of_any_bytes() {
    for (mut bytes, version) in [
        (vec![], None),
        (vec![2], None),
        (vec![9, 1], Some(V1)),
        (vec![0, 2, 0], Some(V2)),
        (vec![0, 3, 0], None),
        (vec![0; 64], None),
        (vec![255; 65_537], None),
    ] {
        assert_eq!(Sheet::over(&mut bytes).version(), version);
    }
}
