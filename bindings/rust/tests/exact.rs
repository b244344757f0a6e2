//! Exact entries beside ordinary ones: which are one entry, which a lookup gives, and that texts leave them as they
//! are.

mod sections;

use pronouncer::{
    example, PhoneList, Refusal, Sheet, SheetVersion, Source, Store, LARGEST_BYTES, SLOT_BYTES,
};
use sections::{cells, found, reading, with_count, NO_WORDS};

/// A word, a tag, a phone, and whether the entry is exact.
type Added<'a> = (&'a str, &'a str, &'a str, bool);

fn add(store: &mut Store<'_>, (word, tag, phone, exact): Added) -> Result<(), Refusal> {
    let cells = cells(&[phone]);
    let told = store.add_entry(&NO_WORDS, word, tag, PhoneList::from_cells(&cells), exact);
    told.map_err(|refused| refused.refusal)
}

/// A store of so many entries at most, with these.
fn a_store(most: usize, added: &[Added]) -> Vec<u8> {
    let mut bytes = vec![0xff; SLOT_BYTES * (most + 1)];
    let mut store = Store::new_store(&mut bytes).expect("a store");
    added.iter().for_each(|&entry| assert_eq!(add(&mut store, entry), Ok(())));
    bytes
}

/// The phones that a store of these entries has for a word and a tag; "" where it has none.
fn phones(added: &[Added], word: &str, tag: &str) -> String {
    let mut bytes = a_store(added.len(), added);
    found(&NO_WORDS, &Store::over(&mut bytes), word, tag).map_or("".into(), |(_, phones)| phones)
}

const ORDINARY: Added = ("polish", "", "k", false);
const SMALL: Added = ("polish", "", "t", true);
const CAPITAL: Added = ("Polish", "", "p", true);

#[test]
fn three_keys_in_any_order() {
    let orders = [
        [ORDINARY, SMALL, CAPITAL],
        [ORDINARY, CAPITAL, SMALL],
        [SMALL, ORDINARY, CAPITAL],
        [SMALL, CAPITAL, ORDINARY],
        [CAPITAL, ORDINARY, SMALL],
        [CAPITAL, SMALL, ORDINARY],
    ];
    for order in orders {
        assert_eq!(Store::over(&mut a_store(3, &order)).len(), 3);
        for (word, phone) in
            [("polish", "t"), ("Polish", "p"), ("POLISH", "k"), ("pOLISH", "k"), ("polis", "")]
        {
            assert_eq!(phones(&order, word, ""), phone, "{word} of {order:?}");
        }
    }
}

#[test]
fn the_one_of_the_same_key_is_replaced() {
    let plain = a_store(3, &[ORDINARY, SMALL, CAPITAL]);
    let replaced = |entry| {
        let mut bytes = plain.clone();
        let mut store = Store::over(&mut bytes);
        assert_eq!(add(&mut store, entry), Ok(()));
        format!("{store:?}")
    };
    let [ordinary, small, capital] =
        ["polish 0 : k", "polish 0 : t # exact", "Polish 0 : p # exact"];
    for word in ["polish", "Polish", "POLISH"] {
        assert_eq!(replaced((word, "", "s", false)), format!("[{small}, {capital}, polish 0 : s]"));
    }
    let told = replaced(("polish", "nil", "s", true));
    assert_eq!(told, format!("[{ordinary}, {capital}, polish 0 : s # exact]"));
    let told = replaced(("Polish", "0", "s", true));
    assert_eq!(told, format!("[{ordinary}, {small}, Polish 0 : s # exact]"));
}

#[test]
fn each_spelling_and_each_tag_is_a_key() {
    let added: [Added; 6] = [
        ("ab", "", "k", true),
        ("aB", "", "k", true),
        ("Ab", "", "k", true),
        ("AB", "", "k", true),
        ("AB", "noun", "k", true),
        ("ab", "noun", "k", false),
    ];
    let mut bytes = a_store(6, &added);
    let exact = ["ab 0", "aB 0", "Ab 0", "AB 0", "AB n"].map(|key| format!("{key} : k # exact"));
    let told = format!("[{}, ab n : k]", exact.join(", "));
    assert_eq!(format!("{:?}", Store::over(&mut bytes)), told);
}

#[test]
fn an_exact_match_comes_before_an_ordinary_one_of_any_age() {
    let (noun, exact_noun) = (("polish", "n", "k", false), ("polish", "n", "t", true));
    for tag in ["", "n", "noun"] {
        assert_eq!(phones(&[noun, ORDINARY, exact_noun], "polish", tag), "t");
        assert_eq!(phones(&[exact_noun, noun, ORDINARY], "polish", tag), "t");
    }
    // Other bytes never match it.
    for word in ["polish", "POLISH", "polis", "Polishe", "Polis", ""] {
        assert_eq!(phones(&[CAPITAL], word, ""), "", "{word}");
    }
    assert_eq!(phones(&[CAPITAL], "Polish", ""), "p");
}

#[test]
fn bytes_and_tag_match_together() {
    let noun = ("polish", "n", "t", true);
    assert_eq!(phones(&[noun, ORDINARY], "polish", "v"), "k");
    assert_eq!(phones(&[noun, ("polish", "n", "k", false)], "polish", "v"), "");
    // Nil is a tag of its own in a lookup.
    assert_eq!(phones(&[("polish", "v", "t", true), ORDINARY], "polish", "nil"), "k");
    // Of those that match the oldest is found, be its tag the one wanted or "0".
    let verb = ("polish", "v", "s", true);
    for (wanted, phone) in [("v", "s"), ("n", "t"), ("", "t"), ("a", "k")] {
        assert_eq!(phones(&[noun, verb, ORDINARY], "polish", wanted), phone, "{wanted}");
    }
    assert_eq!(phones(&[SMALL, verb], "polish", "v"), "t");
    assert_eq!(phones(&[verb, SMALL], "polish", "v"), "s");
}

#[test]
fn before_the_table_and_the_lexicon() {
    let added = [("lead", "n", "t", true), ("Lead", "", "k", true), ("email", "", "p", true)];
    let mut bytes = a_store(3, &added);
    let store = Store::over(&mut bytes);
    let told = |word, tag| found(&example::LEXICON, &store, word, tag);
    assert_eq!(told("lead", "n"), Some((Source::Runtime, "t".into())));
    assert_eq!(told("lead", "v"), Some((Source::Compiled, "l iy1 d".into())));
    assert_eq!(told("Lead", "v"), Some((Source::Runtime, "k".into())));
    assert_eq!(told("LEAD", "v"), None);
    assert_eq!(told("email", ""), Some((Source::Runtime, "p".into())));
    assert_eq!(told("in", "").map(|(source, _)| source), Some(Source::Addenda));
}

#[test]
fn said_onto_a_sheet() {
    let mut bytes = a_store(3, &[ORDINARY, ("Polish", "n", "ow", true)]);
    let (store, mut items) = (Store::over(&mut bytes), [0; 32 * 64]);
    let mut sheet = Sheet::new_sheet(&mut items, SheetVersion::V2).expect("a sheet");
    for (word, tag) in [("Polish", ""), ("polish", ""), ("POLISH", "n"), ("Polish", "v")] {
        sheet.say_word(&NO_WORDS, &example::LETTERS, &store, word, tag).expect("it is said");
    }
    assert_eq!(reading(&sheet), "Polish[ow 0] polish[k 0] POLISH[k 0] Polish[k 0]");
}

#[test]
fn a_full_store_has_no_slot_for_the_other_of_two() {
    for exact in [false, true] {
        let mut bytes = a_store(1, &[("polish", "", "k", exact)]);
        let before = bytes.clone();
        let mut store = Store::over(&mut bytes);
        assert_eq!(add(&mut store, ("polish", "", "t", !exact)), Err(Refusal::Full));
        assert_eq!(add(&mut store, ("Polish", "", "t", true)), Err(Refusal::Full));
        assert_eq!(store.bytes(), before);
        assert_eq!(add(&mut store, ("polish", "", "t", exact)), Ok(()));
        assert_eq!(store.len(), 1);
    }
}

#[test]
fn a_store_of_127_entries() {
    let mut slots = vec![0xff; LARGEST_BYTES];
    let mut store = Store::new_store(&mut slots).expect("a store");
    let entry = |number: usize| (format!("Word{}", number / 2), number % 2 == 1);
    for number in 0..127 {
        let (word, exact) = entry(number);
        assert_eq!(add(&mut store, (&word, "", "k", exact)), Ok(()));
    }
    assert_eq!(store.len(), 127);
    let before = store.bytes().to_vec();
    assert_eq!(add(&mut store, ("Word63", "", "t", true)), Err(Refusal::Full));
    assert_eq!(add(&mut store, ("word62", "", "t", true)), Err(Refusal::Full));
    assert_eq!(store.bytes(), before);
    for number in 0..127 {
        let (word, exact) = entry(number);
        assert_eq!(add(&mut store, (&word, "", "t", exact)), Ok(()));
    }
    assert_eq!((store.len(), store.count()), (127, 254));
}

#[test]
fn texts_leave_exact_entries_as_they_are() {
    let mut bytes = a_store(4, &[CAPITAL, SMALL]);
    let (mut spare, kept) = (vec![0; bytes.len()], bytes[SLOT_BYTES..3 * SLOT_BYTES].to_vec());
    let mut store = Store::over(&mut bytes);
    let text = "Polish : k\npolish : s\npolish n : k";
    let preview = store.preview_entries(&NO_WORDS, &mut spare, text).expect("it is shown");
    assert_eq!((preview.lines(), preview.newly_used(), preview.replaced()), (3, 2, 1));
    preview.accept().expect("it is accepted");
    let told = "[Polish 0 : p # exact, polish 0 : t # exact, polish 0 : s, polish n : k]";
    assert_eq!(format!("{store:?}"), told);
    assert_eq!(store.add_entries(&NO_WORDS, &mut spare, "POLISH : k"), Ok(1));
    assert_eq!(found(&NO_WORDS, &store, "Polish", ""), Some((Source::Runtime, "p".into())));

    // No slot is left, and no line replaces an exact entry.
    let mut full = a_store(2, &[CAPITAL, SMALL]);
    let told = Store::over(&mut full).add_entries(&NO_WORDS, &mut spare[..1536], "polish : t");
    let refused = told.expect_err("it must be refused");
    assert_eq!((refused.refusal, refused.line), (Refusal::Full, 1));

    // But for its link, which goes on to the new ones, each slot is as it was.
    assert_eq!(bytes[SLOT_BYTES + 2..2 * SLOT_BYTES], kept[2..SLOT_BYTES]);
    assert_eq!(bytes[2 * SLOT_BYTES + 2..3 * SLOT_BYTES], kept[SLOT_BYTES + 2..]);
}

#[test]
fn what_is_shown_makes_an_ordinary_entry() {
    let mut bytes = a_store(1, &[CAPITAL]);
    let line = format!("{:?}", Store::over(&mut bytes).iter().next().expect("it was added"));
    let (mut other, mut spare) = (a_store(1, &[]), [0; 2 * SLOT_BYTES]);
    let mut other = Store::over(&mut other);
    assert_eq!(other.add_entries(&NO_WORDS, &mut spare, line), Ok(1));
    assert_eq!(format!("{other:?}"), "[polish 0 : p]");
}

#[test]
fn each_add_counts() {
    let mut bytes = a_store(2, &[]);
    let mut store = Store::over(&mut bytes);
    let adds = [(CAPITAL, Ok(())), (ORDINARY, Ok(())), (SMALL, Err(Refusal::Full))];
    for ((entry, told), count) in adds.into_iter().zip([1, 2, 2]) {
        assert_eq!((add(&mut store, entry), store.count()), (told, count));
    }
    assert_eq!((add(&mut store, CAPITAL), store.count()), (Ok(()), 3));
}

#[test]
fn how_it_is_kept() {
    let word = "The-Polish.Word_Of#47 Bytes[With]`Others@AZaz{}";
    assert_eq!(word.len(), 47);
    let exact = a_store(1, &[(word, "verb", "k", true)]);
    let ordinary = a_store(1, &[(word, "verb", "k", false)]);
    let at = SLOT_BYTES + 4;
    assert_eq!(exact[at..at + 47], *word.as_bytes());
    assert_eq!(ordinary[at..at + 47], *word.to_ascii_lowercase().as_bytes());
    assert_eq!((exact[SLOT_BYTES + 52], ordinary[SLOT_BYTES + 52]), (1, 0));
    assert_eq!(exact[SLOT_BYTES + 53..SLOT_BYTES + 64], [0; 11]);

    // In small letters the two differ in that byte alone.
    let (mut exact, ordinary) = (a_store(1, &[SMALL]), a_store(1, &[("polish", "", "t", false)]));
    exact[SLOT_BYTES + 52] = 0;
    assert_eq!(exact, ordinary);
}

#[test]
fn bytes_without_small_letters() {
    for word in ["", "42", "@[`{", "-"] {
        let both = [(word, "", "k", false), (word, "", "t", true)];
        let mut bytes = a_store(2, &both);
        assert_eq!(Store::over(&mut bytes).len(), 2, "{word}");
        assert_eq!(phones(&both, word, ""), "t", "{word}");
    }
}

#[test]
fn entries_go_into_a_new_store() {
    let mut bytes = with_count(&a_store(3, &[CAPITAL, ORDINARY, SMALL]), u64::MAX);
    let (store, mut other) = (Store::over(&mut bytes), a_store(3, &[]));
    let mut other = Store::over(&mut other);
    for entry in &store {
        let told = other.add_entry(&NO_WORDS, entry.word, entry.tag, entry.phones, entry.exact);
        assert_eq!(told, Ok(()));
    }
    assert_eq!(format!("{other:?}"), format!("{store:?}"));
}
