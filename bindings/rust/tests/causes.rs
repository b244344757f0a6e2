//! Which cause a refusal by 2 has, of each call that takes a store or a sheet, and its message. Those of the
//! settings' calls stand in settings.rs.

mod sections;

use pronouncer::{example, PhoneList, Refusal, Refused, Sheet, SheetVersion, Store, Unsound};
use sections::{NO_WORDS, VERSIONS};

/// Sees that a call was refused by 2 with this cause.
fn caused<T: std::fmt::Debug>(told: Result<T, Refused>, cause: Unsound) {
    let refused = told.expect_err("it must be refused");
    assert_eq!((refused.refusal, refused.line), (Refusal::Unsound, 0));
    assert_eq!(refused.unsound, Some(cause));
}

fn a_store(slots: usize) -> Vec<u8> {
    let mut bytes = vec![7; 512 * slots];
    Store::new_store(&mut bytes).expect("a store");
    bytes
}

fn a_sheet(items: usize, version: SheetVersion) -> Vec<u8> {
    let mut bytes = vec![7; 64 * items];
    Sheet::new_sheet(&mut bytes, version).expect("a sheet");
    bytes
}

#[test]
fn of_lengths() {
    for length in [0, 511, 513, 66_048] {
        let (mut bytes, cause) = (vec![0; length], Unsound::StoreLength(length));
        caused(Store::new_store(&mut bytes), cause);
        let mut store = Store::over(&mut bytes);
        let none = PhoneList::from_cells(b"");
        caused(NO_WORDS.lookup(&store, "a", "", &mut []), cause);
        caused(store.add_entry(&NO_WORDS, "a", "", none, false), cause);
        caused(store.add_entries(&NO_WORDS, &mut [], "a : k"), cause);
        caused(store.preview_entries(&NO_WORDS, &mut [], "a : k"), cause);
        caused(store.accept_entries(&[]), cause);
    }
    for length in [0, 63, 65_537] {
        let (mut bytes, cause) = (vec![0; length], Unsound::SheetLength(length));
        caused(Sheet::new_sheet(&mut bytes, SheetVersion::V2), cause);
        caused(Sheet::over(&mut bytes).phone_string(&mut []), cause);
    }
}

#[test]
fn of_bytes() {
    // A link of slot 0 leads to a slot that is not used; a byte beside the fields of slot 0 is not 0.
    for at in [0, 2, 4, 6, 7, 16, 511] {
        let mut bytes = a_store(2);
        bytes[at] = 1;
        let mut store = Store::over(&mut bytes);
        let (none, cause) = (PhoneList::from_cells(b""), Unsound::StoreBytes);
        caused(NO_WORDS.lookup(&store, "a", "", &mut []), cause);
        caused(store.add_entry(&NO_WORDS, "a", "", none, false), cause);
        caused(store.add_entries(&NO_WORDS, &mut [], "a : k"), cause);
        caused(store.preview_entries(&NO_WORDS, &mut [], "a : k"), cause);
        caused(store.accept_entries(&[]), cause);
    }
    for version in VERSIONS {
        let mut items = a_sheet(2, version);
        items[8] = 1;
        caused(Sheet::over(&mut items).phone_string(&mut []), Unsound::SheetBytes);
    }
}

#[test]
fn of_versions() {
    for number in (0..=255).filter(|number| !matches!(number, 1 | 2)) {
        let cause = match number {
            0 => Unsound::SheetUnversioned,
            _ => Unsound::SheetVersion(number),
        };
        let (mut items, mut slots) = (a_sheet(10, SheetVersion::V2), a_store(1));
        assert_eq!(said(&mut items, &mut slots), Ok(()));
        items[1] = number;
        caused(Sheet::over(&mut items).phone_string(&mut []), cause);
        caused(said(&mut items, &mut slots), cause);
        // As of a sheet without words, and of bytes that are no sheet.
        caused(Sheet::over(&mut items[..64]).phone_string(&mut []), cause);
        caused(said(&mut [number; 640], &mut slots), cause);
    }
}

#[test]
fn of_stresses() {
    // Cat is a word, one syllable, item 2, and its phones.
    let stressed = |version, item: usize, stress: u8| {
        let (mut items, mut slots) = (a_sheet(11, version), a_store(1));
        assert_eq!(said(&mut items, &mut slots), Ok(()));
        items[item * 64 + 1] = stress;
        said(&mut items, &mut slots)
    };
    caused(stressed(SheetVersion::V1, 2, b'2'), Unsound::SheetStress(SheetVersion::V1));
    assert_eq!(stressed(SheetVersion::V2, 2, b'2'), Ok(()));
    for version in VERSIONS {
        assert_eq!(stressed(version, 2, b'0'), Ok(()));
        for stress in [0, 1, 2, b'/', b'3', 255] {
            caused(stressed(version, 2, stress), Unsound::SheetBytes);
        }
        // No other item has a stress.
        for item in [1, 3, 4, 5] {
            caused(stressed(version, item, b'2'), Unsound::SheetBytes);
        }
    }
}

#[test]
fn none_of_stresses_past_the_used_items() {
    let (mut items, mut slots) = (a_sheet(10, SheetVersion::V1), a_store(1));
    items[9 * 64..9 * 64 + 2].copy_from_slice(b"\x022");
    assert_eq!(said(&mut items, &mut slots), Ok(()));
    // Not sound for another reason.
    items[10] = 0;
    caused(said(&mut items, &mut slots), Unsound::SheetBytes);
}

/// Ordinary polish in slot 1 and exact Polish in slot 2; one slot is not used.
fn two_entries() -> Vec<u8> {
    let mut bytes = a_store(4);
    let mut store = Store::over(&mut bytes);
    for (word, exact) in [("polish", false), ("Polish", true)] {
        let none = PhoneList::from_cells(b"");
        store.add_entry(&NO_WORDS, word, "", none, exact).expect("it is added");
    }
    bytes
}

/// The places where the word, and whether it is exact, stand in the two slots.
const ORDINARY: [usize; 2] = [512 + 4, 512 + 52];
const EXACT: [usize; 2] = [1024 + 4, 1024 + 52];

#[test]
fn of_slots() {
    let whether = [ORDINARY[1], EXACT[1]];
    let neither = whether.into_iter().flat_map(|at| [2, 3, 128, 255].map(|byte| (at, byte)));
    let beside = whether.into_iter().flat_map(|at| (at + 1..at + 12).map(|at| (at, 1)));
    let capitals = [(ORDINARY[0], b'P'), (EXACT[1], 0)];
    for (at, byte) in neither.chain(beside).chain(capitals) {
        let mut bytes = two_entries();
        bytes[at] = byte;
        let (none, cause) = (PhoneList::from_cells(b""), Unsound::StoreBytes);
        let spare = bytes.clone();
        let mut store = Store::over(&mut bytes);
        caused(NO_WORDS.lookup(&store, "a", "", &mut []), cause);
        for exact in [false, true] {
            caused(store.add_entry(&NO_WORDS, "a", "", none, exact), cause);
        }
        caused(store.add_entries(&NO_WORDS, &mut [], "a : k"), cause);
        caused(store.preview_entries(&NO_WORDS, &mut [], "a : k"), cause);
        caused(Store::over(&mut two_entries()).accept_entries(&spare), Unsound::SpareBytes);
    }
}

#[test]
fn none_of_slots() {
    let lookup = |alterations: &[(usize, u8)]| {
        let mut bytes = two_entries();
        alterations.iter().for_each(|&(at, byte)| bytes[at] = byte);
        NO_WORDS.lookup(&Store::over(&mut bytes), "a", "", &mut []).map(drop)
    };
    // An exact word may have small letters, also beside the same ordinary one; but no two have one key.
    assert_eq!(lookup(&[]), Ok(()));
    assert_eq!(lookup(&[(ORDINARY[1], 1)]), Ok(()));
    assert_eq!(lookup(&[(EXACT[0], b'p')]), Ok(()));
    caused(lookup(&[(EXACT[0], b'p'), (ORDINARY[1], 1)]), Unsound::StoreBytes);
    caused(lookup(&[(EXACT[0], b'p'), (EXACT[1], 0)]), Unsound::StoreBytes);
}

#[test]
fn of_a_spare() {
    for spare in [0, 512, 1536] {
        let (mut bytes, mut lent) = (a_store(2), vec![0; spare]);
        let (mut store, cause) =
            (Store::over(&mut bytes), Unsound::SpareLength { store: 1024, spare });
        caused(store.add_entries(&NO_WORDS, &mut lent, "a : k"), cause);
        caused(store.preview_entries(&NO_WORDS, &mut lent, "a : k"), cause);
        caused(store.accept_entries(&lent), cause);
    }
}

#[test]
fn of_a_spare_to_be_accepted() {
    // The count may be anything; what stands beside it may not.
    for at in [0, 2, 4, 6, 7, 16, 511] {
        let (mut bytes, mut spare) = (a_store(2), a_store(2));
        spare[at] = 1;
        caused(Store::over(&mut bytes).accept_entries(&spare), Unsound::SpareBytes);
        // The store comes before the spare.
        let mut bytes = spare.clone();
        caused(Store::over(&mut bytes).accept_entries(&spare), Unsound::StoreBytes);
    }
    let spare = vec![9; 1024];
    caused(Store::over(&mut a_store(2)).accept_entries(&spare), Unsound::SpareBytes);
}

#[test]
fn none_of_a_count() {
    for at in 8..16 {
        let (mut bytes, mut spare) = (a_store(2), vec![0; 1024]);
        bytes[at] = 200;
        let mut store = Store::over(&mut bytes);
        assert!(NO_WORDS.lookup(&store, "a", "", &mut []).is_ok());
        assert!(store.preview_entries(&NO_WORDS, &mut spare, "a : k").is_ok());
        let refused = store.accept_entries(&a_store(2)).expect_err("the counts differ");
        assert_eq!((refused.refusal, refused.unsound), (Refusal::Count, None));
        assert_eq!(store.add_entries(&NO_WORDS, &mut spare, "a : k"), Ok(1));
    }
}

/// What a word is refused by, onto a sheet and with a store.
fn said(items: &mut [u8], slots: &mut [u8]) -> Result<(), Refused> {
    let (lexicon, letters) = (example::LEXICON, example::LETTERS);
    Sheet::over(items).say_word(&lexicon, &letters, &Store::over(slots), "cat", "").map(drop)
}

#[test]
fn of_a_word_the_store_before_the_sheet() {
    let (mut slots, mut items) = (a_store(1), a_sheet(10, SheetVersion::V1));
    assert_eq!(said(&mut items, &mut slots), Ok(()));
    assert_eq!(said(&mut items, &mut slots[..511]), {
        let mut refused = Refused::from(Refusal::Unsound);
        refused.unsound = Some(Unsound::StoreLength(511));
        Err(refused)
    });
    caused(said(&mut items[..60], &mut slots), Unsound::SheetLength(60));
    // The sheet of cat is not sound without its last phone's item.
    caused(said(&mut items[..320], &mut slots), Unsound::SheetBytes);
    slots[0] = 1;
    caused(said(&mut items, &mut slots), Unsound::StoreBytes);
    caused(said(&mut items[..60], &mut slots), Unsound::StoreBytes);
    items[1] = 0;
    caused(said(&mut items, &mut slots), Unsound::StoreBytes);
}

#[test]
fn its_message() {
    let messages = [
        (
            Unsound::StoreLength(513),
            "the store has 513 bytes (refusal 2); lend 512 to 65,536, a multiple of 512",
        ),
        (
            Unsound::StoreBytes,
            "the store was never begun, or somebody else wrote into it (refusal 2); \
             begin it with new_store, and let only calls write it",
        ),
        (
            Unsound::SheetLength(63),
            "the sheet has 63 bytes (refusal 2); lend 64 to 65,536",
        ),
        (
            Unsound::SheetUnversioned,
            "the sheet was made by an earlier library, or was never begun (refusal 2); \
             begin a new sheet with new_sheet",
        ),
        (
            Unsound::SheetVersion(7),
            "the sheet has the unknown version 7: it was made by a later library, or is no sheet (refusal 2); \
             begin a new sheet, or use the library that made it",
        ),
        (
            Unsound::SheetStress(SheetVersion::V1),
            "a syllable has the stress 2, which version 1 of a sheet has not (refusal 2); \
             begin a new sheet of version 2, and let only calls write it",
        ),
        (
            Unsound::SheetBytes,
            "the sheet was never begun, or somebody else wrote into it (refusal 2); \
             begin it with new_sheet, and let only calls write it",
        ),
        (
            Unsound::SpareLength {
                store: 1024,
                spare: 512,
            },
            "the spare has 512 bytes and the store 1024 (refusal 2); lend a spare as long as the store",
        ),
        (
            Unsound::SpareBytes,
            "the spare was never filled, or somebody else wrote into it (refusal 2); \
             preview the text again, and let only calls write the spare",
        ),
        (
            Unsound::SettingsLength(31),
            "the settings have 31 bytes (refusal 2); lend 32 to 65,536",
        ),
    ];
    for (cause, message) in messages {
        let mut refused = Refused::from(Refusal::Unsound);
        refused.unsound = Some(cause);
        assert_eq!(refused.to_string(), message);
    }
}
