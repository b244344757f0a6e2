//! Where the letters stopped, as predict and say_word tell it.

mod sections;

use pronouncer::{
    example, Lexicon, PhoneList, Predicted, Refusal, Refused, Sheet, SheetVersion, Store,
    LIST_BYTES,
};
use sections::{cells, entries, phone_table, reading, NO_TREES, NO_WORDS};

/// Words that no source has, the place in each, and the phones of the letters behind it.
const WORDS: [(&str, usize, &str); 10] = [
    ("tempo#two", 6, "t w ow1"),
    ("TEMPO#TWO", 6, "t w ow1"),
    ("#ab", 1, "ae1 b"),
    ("a#", 2, ""),
    ("a#12", 2, ""),
    ("a#b#c", 4, "k"),
    ("##", 2, ""),
    ("a\"c$b", 0, "ae1 k b"),
    ("abc", 0, "ae1 b k"),
    ("", 0, ""),
];

fn predicted<'o>(word: &str, out: &'o mut [u8]) -> Predicted<'o> {
    example::LETTERS.predict(word, out).expect("it is accepted")
}

#[test]
fn of_predict() {
    for (word, place, phones) in WORDS.into_iter().chain([("#", 1, "")]) {
        let mut out = [9; LIST_BYTES];
        let told = predicted(word, &mut out);
        assert_eq!((told.place(), told.phones().to_string()), (place, phones.into()), "{word}");
    }
}

#[test]
fn of_predict_without_a_letter_to_read() {
    for (word, place) in [("tempo#", 6), ("tempo#2", 6), ("#", 1), ("2", 0)] {
        let told = NO_TREES.predict(word, &mut []).expect("no tree is walked");
        assert_eq!((told.place(), told.phones().len()), (place, 0), "{word}");
    }
}

#[test]
fn of_predict_in_the_longest_words() {
    let mut out = [0; LIST_BYTES];
    for at in 0..47 {
        let mut word = [b'b'; 47];
        word[at] = b'#';
        let told = example::LETTERS.predict(word, &mut out).expect("it is accepted");
        assert_eq!((told.place(), told.phones().len()), (at + 1, 46 - at));
        assert_eq!(word.split_at(told.place()).1, &[b'b'; 47][..46 - at]);
    }
    assert_eq!(predicted(&"#".repeat(47), &mut out).place(), 47);
}

#[test]
fn a_refused_predict_tells_its_refusal_alone() {
    let mut out = [9; 47];
    let told = example::LETTERS.predict("tempo#two", &mut out).map(drop);
    assert_eq!(told, Err(Refused::from(Refusal::Short)));
    assert_eq!(out, [9; 47]);
}

/// Where the letters of a word stopped that is said with a store, and the sheet then.
fn said(lexicon: &Lexicon<'_>, store: &Store<'_>, word: &str, tag: &str) -> (usize, String) {
    let mut items = [7; 64 * 64];
    let mut sheet = Sheet::new_sheet(&mut items, SheetVersion::V2).expect("a sheet");
    let said = sheet.say_word(lexicon, &example::LETTERS, store, word, tag).expect("it is said");
    (said.place(), reading(&sheet))
}

#[test]
fn of_say_word_from_the_letters() {
    let (mut slots, mut out) = ([0; 512], [0; LIST_BYTES]);
    let store = Store::new_store(&mut slots).expect("a store");
    for (word, place, phones) in WORDS {
        assert_eq!(said(&NO_WORDS, &store, word, "v").0, place, "{word}");
        assert_eq!(predicted(word, &mut out).phones().to_string(), phones);
    }
    let two = (6, "tempo#two[t w ow 1]".into());
    assert_eq!(said(&example::LEXICON, &store, "tempo#two", ""), two);
    // The library's own table has "#" as a noun.
    assert_eq!(said(&NO_WORDS, &store, "#", "v"), (1, "#".into()));
}

#[test]
fn of_say_word_where_the_word_is_found() {
    let mut slots = [0; 1024];
    let mut store = Store::new_store(&mut slots).expect("a store");
    for tag in ["", "n"] {
        assert_eq!(said(&NO_WORDS, &store, "#", tag), (0, "#[hh ae sh 1]".into()));
    }

    let phones = phone_table(&["k"]);
    let (index, data) = entries(&[("tempo#two", b'0', &[0])]);
    let lexicon = Lexicon { phones: &phones, index: &index, data: &data };
    assert_eq!(said(&lexicon, &store, "tempo#two", ""), (0, "tempo#two[k 0]".into()));
    assert_eq!(said(&lexicon, &store, "Tempo#two", "").0, 6, "capitals are not found");

    let cells = cells(&["t", "uw"]);
    let phones = PhoneList::from_cells(&cells);
    store.add_entry(&NO_WORDS, "tempo#two", "", phones, false).expect("it is added");
    for word in ["tempo#two", "Tempo#Two"] {
        assert_eq!(said(&lexicon, &store, word, "v"), (0, format!("{word}[t uw 0]")));
    }
}
