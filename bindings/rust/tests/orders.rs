//! Entries in either order: where their words differ in more than capitals, nothing that is asked tells which came first.

mod sections;

use pronouncer::{example, PhoneList, Sheet, SheetVersion, Store};
use sections::{cells, found};

/// A word, a tag, its phones, and whether the entry is exact.
type Given<'a> = (&'a str, &'a str, &'a [&'a str], bool);

const IRIS: Given = ("Iris", "noun", &["ay", "r", "ih", "s"], false);
const LEAD: Given = ("LEAD", "", &["l", "eh", "d"], true);
const POLISH: Given = ("Polish", "n", &["p", "ow"], false);

fn a_store(added: &[Given]) -> Vec<u8> {
    let mut bytes = vec![0xff; 512 * 8];
    let mut store = Store::new_store(&mut bytes).expect("a store");
    for (word, tag, phones, exact) in added {
        let cells = cells(phones);
        store
            .add_entry(&example::LEXICON, word, tag, PhoneList::from_cells(&cells), *exact)
            .expect("it is added");
    }
    bytes
}

/// All that is asked of a store: each word with each tag, found and said.
fn asked(bytes: &mut [u8]) -> Vec<String> {
    let store = Store::over(bytes);
    let words = ["Iris", "iris", "IRIS", "LEAD", "lead", "Polish", "polish", "house", "to", "zyx"];
    let tags = ["", "n", "noun", "v", "nil"];
    let pairs = words.iter().flat_map(|word| tags.map(|tag| (*word, tag)));
    let told = |(word, tag)| {
        let mut items = vec![0; 64 * 32];
        let mut sheet = Sheet::new_sheet(&mut items, SheetVersion::V2).expect("a sheet");
        let said = sheet.say_word(&example::LEXICON, &example::LETTERS, &store, word, tag);
        let found = found(&example::LEXICON, &store, word, tag);
        format!("{word}/{tag}: {found:?}, {said:?}, {items:?}")
    };
    pairs.map(told).collect()
}

#[test]
fn two_names() {
    for [one, two] in [[IRIS, LEAD], [IRIS, POLISH], [POLISH, LEAD]] {
        for older in [&[][..], &[POLISH], &[LEAD, IRIS]] {
            let [mut one_first, mut two_first] =
                [[one, two], [two, one]].map(|new| a_store(&[older, &new].concat()));
            assert_ne!(one_first, two_first, "slots or links differ");
            assert_eq!(asked(&mut one_first), asked(&mut two_first));
        }
    }
}

/// Those of one word keep their order.
#[test]
fn many_names() {
    let other_iris: Given = ("iris", "v", &["ih"], false);
    let mut first = a_store(&[IRIS, other_iris, LEAD, POLISH]);
    let told = asked(&mut first);
    for added in [
        [LEAD, POLISH, IRIS, other_iris],
        [IRIS, LEAD, other_iris, POLISH],
        [POLISH, IRIS, LEAD, other_iris],
    ] {
        assert_eq!(asked(&mut a_store(&added)), told);
    }
}

/// What the rule is not about: one word, with two tags or in other capitals.
#[test]
fn one_word() {
    let verb: Given = ("polish", "v", &["p", "aa"], false);
    let capitals: Given = ("POLISH", "n", &["p", "aa"], false);
    for (other, noun_first, noun_last) in [(verb, "p ow", "p aa"), (capitals, "p aa", "p ow")] {
        let phones = |added: [Given; 2]| {
            let mut bytes = a_store(&added);
            found(&example::LEXICON, &Store::over(&mut bytes), "polish", "").expect("it is there").1
        };
        assert_eq!(phones([POLISH, other]), noun_first);
        assert_eq!(phones([other, POLISH]), noun_last);
    }
}
