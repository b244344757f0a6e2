//! Sections, sheets and settings cut off at every length. Each lies in bytes of its own, so that memcheck sees a step
//! beyond them.

use pronouncer::{
    example, read_settings, write_setting, Letters, Lexicon, Refusal, Refused, Sayable, Setting,
    Sheet, SheetVersion, Store,
};

/// The first bytes of a text in an allocation of just that length.
fn cut(bytes: &[u8], length: usize) -> Box<[u8]> {
    bytes[..length].into()
}

/// Sees that every cut of a section is refused, by the number that belongs to its length, and what the whole
/// one answers.
fn each_cut<T: std::fmt::Debug + PartialEq>(
    section: &[u8],
    call: impl Fn(&[u8]) -> Result<T, Refused>,
    whole: T,
    refusal: impl Fn(usize) -> Refusal,
) {
    for length in 0..section.len() {
        let told = call(&cut(section, length)).map_err(|refused| refused.refusal);
        assert_eq!(told, Err(refusal(length)), "cut after {length}");
    }
    assert_eq!(call(&cut(section, section.len())), Ok(whole));
}

/// A lookup into an output of just the bytes that it needs.
fn lead(lexicon: Lexicon<'_>) -> Result<String, Refused> {
    let (mut slots, mut out) = (cut(&[0; 512], 512), cut(&[9; 48], 48));
    let store = Store::new_store(&mut slots)?;
    let found = lexicon.lookup(&store, "lead", "v", &mut out)?;
    Ok(found.expect("it is there").phones.to_string())
}

#[test]
fn lexicon() {
    let whole = example::LEXICON;
    let phones = || "l iy1 d".to_string();
    each_cut(
        whole.phones,
        |phones| lead(Lexicon { phones, ..whole }),
        phones(),
        |_| Refusal::Section,
    );
    each_cut(whole.index, |index| lead(Lexicon { index, ..whole }), phones(), |_| Refusal::Section);
    each_cut(whole.data, |data| lead(Lexicon { data, ..whole }), phones(), |_| Refusal::Damaged);
    for length in 0..whole.data.len() {
        let data = &cut(whole.data, length);
        assert_eq!(Lexicon { data, ..whole }.check_lexicon(), Ok(false));
    }
}

#[test]
fn letters() {
    let whole = example::LETTERS;
    let say = |letters: Letters<'_>| {
        let mut out = cut(&[9; 48], 48);
        letters.predict("faz", &mut out).map(|predicted| predicted.phones().to_string())
    };
    let phones = || "f ae1 z".to_string();
    each_cut(
        whole.phones,
        |phones| say(Letters { phones, ..whole }),
        phones(),
        |_| Refusal::Section,
    );
    each_cut(whole.index, |index| say(Letters { index, ..whole }), phones(), |_| Refusal::Section);
    each_cut(
        whole.model,
        |model| say(Letters { model, ..whole }),
        phones(),
        |length| {
            if length % 6 == 0 {
                Refusal::Damaged
            } else {
                Refusal::Section
            }
        },
    );
}

#[test]
fn sayable() {
    let whole = example::SAYABLE;
    for length in 0..whole.prefix.len() {
        let bytes = &cut(whole.prefix, length);
        for sayable in [Sayable { prefix: bytes, ..whole }, Sayable { suffix: bytes, ..whole }] {
            let told = sayable.is_sayable("xylem");
            assert_eq!(told.is_err(), length < 4, "cut after {length}: {told:?}");
        }
    }
    let (prefix, suffix) = (&cut(whole.prefix, 50)[..], &cut(whole.suffix, 50)[..]);
    assert_eq!(Sayable { prefix, suffix }.is_sayable("xylem"), Ok(true));
}

#[test]
fn sheet_and_store() {
    let (mut slots, mut spare) = (cut(&[7; 1024], 1024), cut(&[9; 1024], 1024));
    let mut items = cut(&[7; 6 * 64], 6 * 64);
    let mut store = Store::new_store(&mut slots).expect("a store");
    let text = cut(b"fly n : f l ay1", 15);
    assert_eq!(store.add_entries(&example::LEXICON, &mut spare, &text), Ok(1));
    let mut sheet = Sheet::new_sheet(&mut items, SheetVersion::V2).expect("a sheet");
    let (word, tag) = (cut(b"Fly", 3), cut(b"n", 1));
    sheet
        .say_word(&example::LEXICON, &example::LETTERS, &store, &word, &tag)
        .expect("five items are enough");
    let preview = store.preview_entries(&example::LEXICON, &mut spare, &text);
    assert_eq!(preview.and_then(|preview| preview.accept()), Ok(()));
    for length in 0..spare.len() {
        let told = store.accept_entries(&cut(&spare, length)).map_err(|refused| refused.refusal);
        assert_eq!(told, Err(Refusal::Unsound), "cut after {length}");
    }
    let store_bytes = store.bytes().to_vec();

    let string = |bytes: &[u8]| {
        let (mut bytes, mut out) = (cut(bytes, bytes.len()), cut(&[9; 6], 6));
        Sheet::over(&mut bytes).phone_string(&mut out).map(str::to_string)
    };
    each_cut(sheet.bytes(), string, "f l ay".into(), |_| Refusal::Unsound);
    for length in (0..store_bytes.len()).step_by(64) {
        let (mut bytes, mut out) = (cut(&store_bytes, length), [0; 48]);
        let told = example::LEXICON.lookup(&Store::over(&mut bytes), "fly", "", &mut out);
        assert_eq!(told.map(drop).map_err(|refused| refused.refusal), Err(Refusal::Unsound));
    }
}

#[test]
fn settings() {
    let refusal = |length: usize| if length < 32 { Refusal::Unsound } else { Refusal::Records };
    let read = |settings: &[u8]| read_settings(settings, 2, 2.0).map(|shown| shown.rack);
    each_cut(&example::SETTINGS, read, 2.5, refusal);
    let write = |settings: &[u8]| {
        let (mut settings, name) = (cut(settings, settings.len()), cut(b"level", 5));
        write_setting(&mut settings, 2, &name, Setting::Whole(1))
    };
    each_cut(&example::SETTINGS, write, (), refusal);
}
