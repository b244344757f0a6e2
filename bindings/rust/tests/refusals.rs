//! Every refusal that each call can give, with its line, and that no lent byte is altered then. Those of the
//! settings' calls stand in settings.rs.

mod sections;

use pronouncer::{
    example, Letters, Lexicon, PhoneList, Refusal, Refused, Sayable, Sheet, SheetVersion, Store,
    LIST_BYTES,
};
use sections::{cells, entries, phone_table, with_count, NO_TREES, NO_WORDS, VERSIONS};

/// A section that breaks every form but that of lex.data.
const BROKEN: &[u8] = b"\xff\xff\xff";

/// Words over 47 bytes or with a byte of 128 or more.
const BAD_WORDS: [&[u8]; 2] = [&[b'w'; 48], b"caf\xe9"];

fn refused(refusal: Refusal) -> Refused {
    refusal.into()
}

/// Runs a call on a store or sheet, and sees that it is refused so and that the bytes stay.
fn stays<T: std::fmt::Debug>(
    bytes: &mut [u8],
    refusal: Refusal,
    call: impl FnOnce(&mut [u8]) -> Result<T, Refused>,
) {
    let before = bytes.to_vec();
    let told = call(bytes).expect_err("it must be refused");
    assert_eq!((told.refusal, told.line), (refusal, 0));
    assert_eq!(told.unsound.is_some(), refusal == Refusal::Unsound);
    assert!(bytes == before, "{refusal:?} altered a lent byte");
}

fn new_store(slots: usize) -> Vec<u8> {
    let mut bytes = vec![7; 512 * slots];
    Store::new_store(&mut bytes).expect("a store");
    bytes
}

fn new_sheet(items: usize) -> Vec<u8> {
    let mut bytes = vec![7; 64 * items];
    Sheet::new_sheet(&mut bytes, SheetVersion::V2).expect("a sheet");
    bytes
}

/// The example with one section broken, for each that has a form of its own.
fn broken_lexicons() -> [Lexicon<'static>; 2] {
    let whole = example::LEXICON;
    [Lexicon { phones: BROKEN, ..whole }, Lexicon { index: BROKEN, ..whole }]
}

fn broken_letters() -> [Letters<'static>; 3] {
    let whole = example::LETTERS;
    [
        Letters { phones: BROKEN, ..whole },
        Letters { index: BROKEN, ..whole },
        Letters { model: BROKEN, ..whole },
    ]
}

#[test]
fn check_lexicon() {
    for lexicon in broken_lexicons() {
        assert_eq!(lexicon.check_lexicon(), Err(refused(Refusal::Section)));
    }
    let cut_off = Lexicon { data: b"", ..example::LEXICON };
    assert_eq!(cut_off.check_lexicon(), Ok(false));
}

/// A lexicon whose only entry, cat, has 97 phones.
fn overlong() -> [Vec<u8>; 3] {
    let (index, data) = entries(&[("cat", b'0', &[0; 97])]);
    [phone_table(&["k"]), index, data]
}

#[test]
fn lookup() {
    let (mut good, mut bad, mut out) = (new_store(1), vec![7; 512], [9; LIST_BYTES]);
    let (good, bad) = (Store::over(&mut good), Store::over(&mut bad));
    let run =
        |lexicon: &Lexicon<'_>, store: &Store<'_>, word: &[u8], tag: &[u8], out: &mut [u8]| {
            lexicon.lookup(store, word, tag, out).map(drop)
        };
    let whole = example::LEXICON;
    for broken in broken_lexicons() {
        stays(&mut out, Refusal::Section, |out| run(&broken, &bad, BAD_WORDS[0], b"", out));
    }
    stays(&mut out, Refusal::Unsound, |out| run(&whole, &bad, BAD_WORDS[0], b"", out));
    for word in BAD_WORDS {
        stays(&mut out, Refusal::Text, |out| run(&whole, &good, word, b"", out));
        stays(&mut out, Refusal::Text, |out| run(&whole, &good, b"cat", word, out));
    }
    let cut_off = Lexicon { data: b"n\x03cat\x03\x00", ..whole };
    stays(&mut out, Refusal::Damaged, |out| run(&cut_off, &good, b"cat", b"", out));
    let [phones, index, data] = &overlong();
    let long = Lexicon { phones, index, data };
    stays(&mut out[..0], Refusal::Phones, |out| run(&long, &good, b"cat", b"", out));
    stays(&mut out[..47], Refusal::Short, |out| run(&whole, &good, b"cat", b"", out));
}

#[test]
fn predict() {
    let mut out = [9; LIST_BYTES];
    for letters in broken_letters() {
        stays(&mut out, Refusal::Section, |out| letters.predict(BAD_WORDS[0], out).map(drop));
    }
    for word in BAD_WORDS {
        stays(&mut out, Refusal::Text, |out| NO_TREES.predict(word, out).map(drop));
    }
    stays(&mut out[..0], Refusal::Damaged, |out| NO_TREES.predict("cat", out).map(drop));
    stays(&mut out[..47], Refusal::Short, |out| example::LETTERS.predict("cat", out).map(drop));
}

#[test]
fn syllabify() {
    let mut marks = [9; 97];
    let (mut high, many) = (cells(&["k"; 97]), cells(&["k"; 97]));
    high[16 * 96 + 1] = 0x80;
    let mut long = cells(&["k"]);
    long[0] = 16;
    let run =
        |cells: &[u8], marks: &mut [u8]| PhoneList::from_cells(cells).syllabify(marks).map(drop);
    stays(&mut marks, Refusal::Text, |marks| run(&high, marks));
    stays(&mut marks[..0], Refusal::Phones, |marks| run(&many, marks));
    stays(&mut marks, Refusal::Phones, |marks| run(&long, marks));
    stays(&mut marks[..95], Refusal::Short, |marks| run(&many[16..], marks));
}

#[test]
fn is_sayable() {
    let whole = example::SAYABLE;
    for sayable in [Sayable { prefix: BROKEN, ..whole }, Sayable { suffix: BROKEN, ..whole }] {
        assert_eq!(sayable.is_sayable(BAD_WORDS[0]), Err(refused(Refusal::Section)));
    }
    for word in BAD_WORDS {
        assert_eq!(whole.is_sayable(word), Err(refused(Refusal::Text)));
    }
}

#[test]
fn new_store_and_new_sheet() {
    stays(&mut [7; 513], Refusal::Unsound, |bytes| Store::new_store(bytes).map(drop));
    for version in VERSIONS {
        stays(&mut [7; 63], Refusal::Unsound, |bytes| Sheet::new_sheet(bytes, version).map(drop));
    }
}

#[test]
fn add_entry() {
    for exact in [false, true] {
        each_refusal_of_add_entry(exact);
    }
}

fn each_refusal_of_add_entry(exact: bool) {
    let many = cells(&[&["k"; 24][..], &["zz"]].concat());
    let (many, known) = (PhoneList::from_cells(&many), cells(&["k"; 25]));
    let known = PhoneList::from_cells(&known);
    let run =
        |bytes: &mut [u8], refusal, lexicon: &Lexicon<'_>, [word, tag]: [&[u8]; 2], phones| {
            stays(bytes, refusal, |bytes| {
                Store::over(bytes).add_entry(lexicon, word, tag, phones, exact)
            });
        };
    let broken = Lexicon { phones: BROKEN, ..NO_WORDS };
    let (mut full, mut bad) = (new_store(1), with_count(&[7; 512], u64::MAX));
    let mut largest = with_count(&full, u64::MAX);
    run(&mut bad, Refusal::Section, &broken, [BAD_WORDS[0], b""], many);
    run(&mut bad, Refusal::Unsound, &NO_WORDS, [BAD_WORDS[0], b""], many);
    for (word, phones) in [(BAD_WORDS[0], many), (BAD_WORDS[1], known), (b"a", many)] {
        run(&mut largest, Refusal::Count, &NO_WORDS, [word, b""], phones);
    }
    for word in BAD_WORDS {
        run(&mut full, Refusal::Text, &NO_WORDS, [word, b""], many);
        run(&mut full, Refusal::Text, &NO_WORDS, [b"a", word], many);
    }
    run(&mut full, Refusal::UnknownPhone, &NO_WORDS, [b"a", b""], many);
    run(&mut full, Refusal::Phones, &NO_WORDS, [b"a", b""], known);
    run(&mut full, Refusal::Full, &NO_WORDS, [b"a", b""], PhoneList::from_cells(b""));
}

/// A call that takes a text of entries, and tells how many lines it took.
type Taking = fn(&mut Store<'_>, &Lexicon<'_>, &mut [u8], &[u8]) -> Result<usize, Refused>;

fn add_text(
    store: &mut Store<'_>,
    lexicon: &Lexicon<'_>,
    spare: &mut [u8],
    text: &[u8],
) -> Result<usize, Refused> {
    store.add_entries(lexicon, spare, text)
}

fn preview_text(
    store: &mut Store<'_>,
    lexicon: &Lexicon<'_>,
    spare: &mut [u8],
    text: &[u8],
) -> Result<usize, Refused> {
    store.preview_entries(lexicon, spare, text).map(|preview| preview.lines())
}

/// Each call that takes a text, and what the largest count is refused by where the text has a byte of 128.
const TAKING: [(Taking, Refusal); 2] = [(add_text, Refusal::Count), (preview_text, Refusal::Text)];

#[test]
fn a_text_as_a_whole() {
    let broken = Lexicon { phones: BROKEN, ..NO_WORDS };
    let (mut good, mut bad) = (new_store(2), with_count(&[7; 1024], u64::MAX));
    let mut largest = with_count(&good, u64::MAX);
    let text: &[u8] = b"a : k\nno colon\n# \x80";
    for (take, at_the_largest) in TAKING {
        let run = |lexicon: &Lexicon<'_>, store: &mut [u8], spare: usize, refusal: Refusal| {
            let mut spare = vec![9; spare];
            stays(store, refusal, |bytes| take(&mut Store::over(bytes), lexicon, &mut spare, text));
            assert!(spare.iter().all(|&byte| byte == 9), "{refusal:?} altered the spare");
        };
        run(&broken, &mut bad, 512, Refusal::Section);
        run(&NO_WORDS, &mut bad, 1024, Refusal::Unsound);
        run(&NO_WORDS, &mut good, 512, Refusal::Unsound);
        run(&NO_WORDS, &mut largest, 512, Refusal::Unsound);
        run(&NO_WORDS, &mut largest, 1024, at_the_largest);
        run(&NO_WORDS, &mut good, 1024, Refusal::Text);
    }
}

#[test]
fn the_largest_count_before_a_line() {
    let mut store = with_count(&new_store(2), u64::MAX);
    let mut spare = vec![9; 1024];
    stays(&mut store, Refusal::Count, |bytes| {
        Store::over(bytes).add_entries(&NO_WORDS, &mut spare, "no colon")
    });
    assert_eq!(spare, [9; 1024], "the spare stays as it was");
    let told = Store::over(&mut store).preview_entries(&NO_WORDS, &mut spare, "no colon").map(drop);
    assert_eq!(told.map_err(|told| (told.refusal, told.line)), Err((Refusal::Line, 1)));
}

#[test]
fn a_text_at_a_line() {
    let long = format!("{} : k", "w".repeat(48));
    let many = format!("c : {}", "k ".repeat(25));
    let faults = [
        (long.as_str(), Refusal::Text),
        ("no colon", Refusal::Line),
        (" : k", Refusal::Line),
        ("c : k zz", Refusal::UnknownPhone),
        (&many, Refusal::Phones),
        ("c : k", Refusal::Full),
    ];
    let mut after = new_store(3);
    let cells = cells(&["k"]);
    for word in ["a", "b"] {
        let phones = PhoneList::from_cells(&cells);
        Store::over(&mut after).add_entry(&NO_WORDS, word, "", phones, false).expect("it is added");
    }
    let after = with_count(&after, u64::MAX);
    for (line, refusal) in faults {
        let text = format!("# two names\nA : k\n\n b nil : k\n{line}\nneither this");
        for (take, _) in TAKING {
            let (mut store, mut spare) = (new_store(3), vec![9; 3 * 512]);
            let told = take(&mut Store::over(&mut store), &NO_WORDS, &mut spare, text.as_bytes());
            let told = told.expect_err("it must be refused");
            assert_eq!((told.refusal, told.line, told.unsound), (refusal, 5, None));
            assert_eq!(store, new_store(3), "{refusal:?} altered the store");
            assert_eq!(spare, after, "the spare holds the lines before, and the largest count");
            stays(&mut store, Refusal::Count, |bytes| Store::over(bytes).accept_entries(&spare));
        }
    }
}

#[test]
fn accept_entries() {
    let (good, mut filled) = (new_store(2), vec![9; 1024]);
    let mut store = good.clone();
    let taken = preview_text(&mut Store::over(&mut store), &NO_WORDS, &mut filled, b"a : k");
    assert_eq!(taken, Ok(1));
    let run = |store: &[u8], spare: &[u8], refusal: Refusal| {
        stays(&mut store.to_vec(), refusal, |bytes| Store::over(bytes).accept_entries(spare));
    };
    // Not sound, be the counts as they may.
    let spoilt = |bytes: &[u8]| [&bytes[..6], &[1], &bytes[7..]].concat();
    let largest = with_count(&good, u64::MAX);
    for store in [&good, &largest] {
        run(&spoilt(store), &filled, Refusal::Unsound);
        run(&store[..512], &filled, Refusal::Unsound);
        run(store, &filled[..512], Refusal::Unsound);
        run(store, &spoilt(&filled), Refusal::Unsound);
        run(store, &[9; 1024], Refusal::Unsound);
    }
    // Other counts, above and below; and the largest in both.
    for count in [1, 255, 256, 1 << 56, u64::MAX] {
        run(&good, &with_count(&filled, count), Refusal::Count);
        run(&with_count(&good, count), &filled, Refusal::Count);
    }
    run(&largest, &with_count(&filled, u64::MAX), Refusal::Count);
    assert_eq!(Store::over(&mut store).accept_entries(&filled), Ok(()));
    assert_eq!(store, with_count(&filled, 1));
}

/// What a word is said with; each test spoils some of it.
#[derive(Clone, Copy)]
struct Said<'a> {
    lexicon: Lexicon<'a>,
    letters: Letters<'a>,
    store: &'a Store<'a>,
    word: &'a [u8],
    tag: &'a [u8],
}

impl Said<'_> {
    fn onto(self, sheet: &mut [u8]) -> Result<(), Refused> {
        let (lexicon, letters) = (&self.lexicon, &self.letters);
        Sheet::over(sheet).say_word(lexicon, letters, self.store, self.word, self.tag).map(drop)
    }
}

/// The word cat on whole sections.
fn cat<'a>(store: &'a Store<'a>) -> Said<'a> {
    let (lexicon, letters) = (example::LEXICON, example::LETTERS);
    Said { lexicon, letters, store, word: b"cat", tag: b"" }
}

#[test]
fn say_word_with_bad_sections_stores_and_sheets() {
    let (mut good, mut bad) = (new_store(1), vec![7; 512]);
    let (good, bad) = (Store::over(&mut good), Store::over(&mut bad));
    let (mut sheet, mut rubbish) = (new_sheet(5), vec![7; 320]);
    let long = Said { store: &bad, word: BAD_WORDS[0], ..cat(&good) };
    for lexicon in broken_lexicons() {
        stays(&mut rubbish, Refusal::Section, |bytes| Said { lexicon, ..long }.onto(bytes));
    }
    for letters in broken_letters() {
        stays(&mut rubbish, Refusal::Section, |bytes| Said { letters, ..long }.onto(bytes));
        stays(&mut sheet, Refusal::Section, |bytes| Said { letters, ..cat(&good) }.onto(bytes));
    }
    stays(&mut sheet, Refusal::Unsound, |bytes| long.onto(bytes));
    stays(&mut rubbish, Refusal::Unsound, |bytes| Said { store: &good, ..long }.onto(bytes));
}

#[test]
fn say_word_with_bad_words_and_tables() {
    let (mut slots, mut sheet) = (new_store(1), new_sheet(5));
    let store = Store::over(&mut slots);
    let cat = cat(&store);
    for word in BAD_WORDS {
        stays(&mut sheet, Refusal::Text, |bytes| Said { word, ..cat }.onto(bytes));
        stays(&mut sheet, Refusal::Text, |bytes| Said { tag: word, ..cat }.onto(bytes));
    }
    let cut_off = Lexicon { data: b"", ..cat.lexicon };
    stays(&mut sheet, Refusal::Damaged, |bytes| Said { lexicon: cut_off, ..cat }.onto(bytes));
    let no_tables = Said { lexicon: NO_WORDS, letters: NO_TREES, ..cat };
    stays(&mut sheet, Refusal::Damaged, |bytes| no_tables.onto(bytes));
    let [phones, index, data] = &overlong();
    let lexicon = Lexicon { phones, index, data };
    stays(&mut sheet, Refusal::Phones, |bytes| Said { lexicon, ..cat }.onto(bytes));
    stays(&mut sheet, Refusal::Short, |bytes| cat.onto(bytes));
}

#[test]
fn phone_string() {
    let (mut slots, mut items, mut out) = (new_store(1), new_sheet(9), [9; 6]);
    let mut rubbish = vec![7; 64];
    stays(&mut out, Refusal::Unsound, |out| Sheet::over(&mut rubbish).phone_string(out).map(drop));
    let (store, mut sheet) = (Store::over(&mut slots), Sheet::over(&mut items));
    sheet.say_word(&example::LEXICON, &example::LETTERS, &store, "cat", "").expect("it is said");
    stays(&mut out[..5], Refusal::Short, |out| sheet.phone_string(out).map(drop));
    assert_eq!(sheet.phone_string(&mut out), Ok("k ae t"));
}

#[test]
fn each_message_says_cause_and_cure() {
    let all = [
        (Refusal::Section, 1),
        (Refusal::Unsound, 2),
        (Refusal::Text, 3),
        (Refusal::Line, 4),
        (Refusal::UnknownPhone, 5),
        (Refusal::Damaged, 6),
        (Refusal::Phones, 7),
        (Refusal::Full, 8),
        (Refusal::Short, 9),
        (Refusal::Count, 12),
        (Refusal::Version, 15),
        (Refusal::Records, 16),
        (Refusal::Range, 17),
        (Refusal::Other(18), 18),
    ];
    for (refusal, number) in all {
        assert_eq!(refusal.number(), number);
        let message = refused(refusal).to_string();
        let wanted = [refusal.cause(), &format!("(refusal {number})"), refusal.cure()];
        assert!(wanted.iter().all(|part| message.contains(part)), "{message}");
        assert!(!message.contains("line 0"), "{message}");
    }
    assert!(Refusal::Range.cure().contains("no write mends them: write new settings"));
    assert!(Refusal::Version.cure().contains("begin a sheet with version 1 or 2"));
}
