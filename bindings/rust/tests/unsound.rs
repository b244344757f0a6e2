//! The sheet's iterators over bytes that are no sound sheet: they end, meet no item twice and never panic.

mod sections;

use pronouncer::{
    example, ListedPhones, PhoneList, Phones, Refusal, Sheet, SheetVersion, Store, Stress,
    Syllables, Words,
};
use sections::reading;

/// Reads all there is, and tells how many items were met.
fn met(bytes: &mut [u8]) -> usize {
    let sheet = Sheet::over(bytes);
    let words = sheet.words();
    let syllables = words.clone().flat_map(|word| word.syllables());
    let phones = syllables.clone().flat_map(|syllable| syllable.phones());
    let texts = words.clone().map(|word| word.text().len()).sum::<usize>();
    assert!(texts <= 47 * words.clone().count());
    assert!(phones.clone().all(|phone| phone.len() <= 15));
    assert!(sheet.phones().count() < 1024);
    words.count() + syllables.count() + phones.count()
}

/// A sheet with two words, and how many items it uses.
fn two_words() -> (Vec<u8>, usize) {
    let (mut slots, mut items) = (vec![0; 512], vec![0; 20 * 64]);
    let store = Store::new_store(&mut slots).expect("a store");
    let mut sheet = Sheet::new_sheet(&mut items, SheetVersion::V2).expect("a sheet");
    for word in ["lead", "gobo"] {
        sheet
            .say_word(&example::LEXICON, &example::LETTERS, &store, word, "v")
            .expect("it is said");
    }
    assert_eq!(reading(&sheet), "lead[l iy d 1] gobo[g ow 1][b ow 1]");
    assert_eq!(format!("{sheet:?}"), "[lead[l iy d 1], gobo[g ow 1, b ow 1]]");
    (items, 12)
}

#[test]
fn iterators_have_names_and_tell_what_is_to_come() {
    let (mut items, _) = two_words();
    let sheet = Sheet::over(&mut items);
    let mut words: Words<'_> = (&sheet).into_iter();
    let lead = words.next().expect("the first");
    assert_eq!(format!("{words:?}"), "[gobo[g ow 1, b ow 1]]");
    let mut syllables: Syllables<'_> = lead.syllables();
    assert_eq!(format!("{syllables:?}"), "[l iy d 1]");
    let syllable = syllables.next().expect("the first");
    assert_eq!(syllable.stress(), Stress::Stressed);
    let mut phones: Phones<'_> = syllable.phones();
    assert_eq!(phones.next(), Some("l"));
    assert_eq!(format!("{phones:?}"), r#"["iy", "d"]"#);
    assert!(syllables.next().is_none() && syllables.next().is_none());
    let mut all: Phones<'_> = sheet.phones();
    assert_eq!(all.by_ref().count(), 7);
    assert_eq!(all.next(), None);
}

#[test]
fn a_stress_that_is_none() {
    let (mut items, _) = two_words();
    for (byte, stress) in [
        (b'0', Stress::Unstressed),
        (b'1', Stress::Stressed),
        (b'2', Stress::Secondary),
        (b'3', Stress::Unstressed),
        (0, Stress::Unstressed),
    ] {
        items[2 * 64 + 1] = byte;
        let sheet = Sheet::over(&mut items);
        let first = sheet.words().flat_map(|word| word.syllables()).next();
        assert_eq!(first.map(|syllable| syllable.stress()), Some(stress));
    }
}

#[test]
fn each_byte_altered() {
    let (plain, used) = two_words();
    assert_eq!(met(&mut plain.clone()), used);
    for at in 0..plain.len() {
        for step in [1, 2, 3, 5, 12, 64, 128, 255] {
            let mut items = plain.clone();
            items[at] = items[at].wrapping_add(step);
            assert!(met(&mut items) < 20, "byte {at} with {step} more");
        }
    }
}

#[test]
fn every_length() {
    let (plain, _) = two_words();
    for length in 0..plain.len() {
        met(&mut plain[..length].to_vec());
    }
    for fill in [0, 1, 2, 3, 0xff] {
        for length in [0, 1, 63, 64, 128, 65_535, 65_536, 65_600, 200_000] {
            assert!(met(&mut vec![fill; length]) < 1024, "{length} bytes of {fill}");
        }
    }
}

/// A number from 0 to 1,023 that looks like chance.
fn chance(state: &mut u64) -> u16 {
    *state = state.wrapping_mul(6_364_136_223_846_793_005).wrapping_add(1_442_695_040_888_963_407);
    (*state >> 54) as u16
}

#[test]
fn links_by_chance() {
    let mut state = 1;
    for _ in 0..50 {
        let mut items = vec![0; 65_536];
        for item in items.chunks_mut(64) {
            item[0] = (chance(&mut state) % 4) as u8;
            for field in item[2..14].chunks_mut(2) {
                let small = chance(&mut state) % 4;
                field.copy_from_slice(&(chance(&mut state) >> small).to_le_bytes());
            }
        }
        items[8..10].copy_from_slice(&1023u16.to_le_bytes());
        assert!(met(&mut items) < 1024);
    }
}

#[test]
fn circles() {
    let (mut items, _) = two_words();
    let link = |items: &mut [u8], item: usize, field: usize, to: u16| {
        items[64 * item + field..64 * item + field + 2].copy_from_slice(&to.to_le_bytes());
    };
    // The last word leads to the first, a syllable to itself, a phone to the one before; a syllable names
    // another's phones.
    link(&mut items, 6, 2, 1);
    link(&mut items, 2, 2, 2);
    link(&mut items, 4, 2, 3);
    link(&mut items, 4, 12, 3);
    link(&mut items, 10, 4, 8);
    assert_eq!(reading(&Sheet::over(&mut items)), "lead[l iy 1] gobo[g ow 1][ 1]");
    assert_eq!(Sheet::over(&mut items).phones().collect::<Vec<_>>(), ["l", "iy"]);
    let refused = Sheet::over(&mut items).phone_string(&mut [0; 99]).unwrap_err();
    assert_eq!(refused.refusal, Refusal::Unsound);
}

#[test]
fn cells_of_any_bytes() {
    let mut cells = [0xff; 40];
    assert_eq!(PhoneList::from_cells(&cells).iter().collect::<Vec<_>>(), ["", ""]);
    cells[1..3].copy_from_slice(b"ae");
    cells[16] = 200;
    cells[17..32].fill(b'k');
    let list = PhoneList::from_cells(&cells);
    assert_eq!(list.iter().collect::<Vec<_>>(), ["ae", "kkkkkkkkkkkkkkk"]);
    assert_eq!(list.to_string(), "ae kkkkkkkkkkkkkkk");
    let mut phones: ListedPhones<'_> = (&list).into_iter();
    assert_eq!((phones.len(), phones.next()), (2, Some("ae")));
    assert_eq!(format!("{phones:?}"), r#"["kkkkkkkkkkkkkkk"]"#);
}
