//! The phones of docs/GUIDE.md: all 50, those that can be typed, and words that have them.

mod running;

use pronouncer::{example, PhoneList, Store, LIST_BYTES, SLOT_BYTES};
use running::{file, folder, run};
use std::collections::BTreeSet;
use std::fs;
use std::path::Path;

const SAY: &str = env!("CARGO_BIN_EXE_say");

/// The table's pairs: a phone, and a word or a remark.
fn pairs() -> Vec<(String, String)> {
    let path = Path::new(env!("CARGO_MANIFEST_DIR")).join("../docs/GUIDE.md");
    let guide = fs::read_to_string(path).expect("the guide is there");
    let (_, phones) = guide.split_once("## Phones").expect("a section of phones");
    let rows = phones.lines().skip_while(|line| !line.starts_with("| `aa`"));
    let mut pairs = Vec::new();
    for row in rows.take_while(|line| line.starts_with('|')) {
        let cells: Vec<&str> = row.trim_matches('|').split('|').map(str::trim).collect();
        for pair in cells.chunks(2) {
            pairs.push((pair[0].trim_matches('`').into(), pair[1].into()));
        }
    }
    pairs
}

#[test]
fn each_phone_can_be_typed_but_one() {
    let phones: BTreeSet<String> = pairs().into_iter().map(|(phone, _)| phone).collect();
    assert_eq!(phones.len(), 50);
    let folder = folder("each_phone_can_be_typed");
    for phone in phones {
        let names = file(&folder, "names.txt", format!("word : {phone} ay1 {phone}\n"));
        let said = run(SAY, &["--entries".into(), names, "word".into()], "");
        let count = said.out.split_whitespace().filter(|told| **told == *phone).count();
        let typed = phone != "h#";
        assert_eq!(count, if !typed { 0 } else { 2 + usize::from(phone == "ay") }, "{phone}");
    }
}

#[test]
fn words_have_their_phones() {
    for (phone, word) in pairs() {
        let Some(word) = word.strip_prefix('`') else {
            continue;
        };
        let said = run(SAY, &[word.trim_matches('`')], "");
        let has = said.out.split_whitespace().any(|told| told == phone);
        assert!(has && said.err.is_empty(), "{phone}: {said:?}");
    }
}

#[test]
fn the_one_that_cannot_be_typed_can_be_added() {
    let (mut slots, mut room) = ([0; 2 * SLOT_BYTES], [0; LIST_BYTES]);
    let mut store = Store::new_store(&mut slots).expect("a store");
    let phones = PhoneList::write("h#", &mut room).expect("a list");
    store.add_entry(&example::LEXICON, "word", "", phones, false).expect("it is added");
}
