//! What a preview shows, what accepting it makes of the store, and which spares are accepted.

mod sections;

use pronouncer::{PhoneList, Preview, Refusal, Refused, Store, Unsound};
use sections::{cells, with_count, NO_WORDS};

/// A store of four slots with these words; slots that are not used hold rubbish.
fn a_store(words: &[&str]) -> Vec<u8> {
    let mut bytes: Vec<u8> = (0..4 * 512).map(|at| at as u8).collect();
    let mut store = Store::new_store(&mut bytes).expect("a store");
    let cells = cells(&["t"]);
    for word in words {
        let phones = PhoneList::from_cells(&cells);
        store.add_entry(&NO_WORDS, word, "", phones, false).expect("it is added");
    }
    bytes
}

/// A spare that holds something else.
fn a_spare() -> Vec<u8> {
    vec![0xa5; 4 * 512]
}

fn numbers(preview: &Preview<'_, '_>) -> (usize, usize, usize) {
    (preview.lines(), preview.newly_used(), preview.replaced())
}

#[test]
fn what_it_tells() {
    let told = |words: &[&str], text: &str| {
        let (mut bytes, mut spare) = (a_store(words), a_spare());
        let mut store = Store::over(&mut bytes);
        let preview = store.preview_entries(&NO_WORDS, &mut spare, text).expect("it is shown");
        numbers(&preview)
    };
    assert_eq!(told(&[], ""), (0, 0, 0));
    assert_eq!(told(&["a"], "# nothing\n\n \t\r\n"), (0, 0, 0));
    assert_eq!(told(&[], "b:k"), (1, 1, 0));
    assert_eq!(told(&["b"], "b:k"), (1, 0, 1));
    assert_eq!(told(&["b"], "b n:k"), (1, 1, 0));
    // A line that replaces an earlier line's entry replaces one, too.
    assert_eq!(told(&[], "b:k\nB:t"), (2, 1, 1));
    assert_eq!(told(&["a", "b", "c"], "\"C\" nil : k\na:k\nA:\na 0:k"), (4, 0, 4));
    assert_eq!(told(&["a"], "b:k\na:k\n# c\nc:k\nb:t"), (4, 2, 2));
}

#[test]
fn what_is_live_stays() {
    let (mut bytes, mut spare) = (a_store(&["a", "b"]), a_spare());
    let before = bytes.clone();
    let mut store = Store::over(&mut bytes);
    let preview =
        store.preview_entries(&NO_WORDS, &mut spare, "A : k\nc : k").expect("it is shown");
    assert_eq!(format!("{:?}", preview.store()), "[a 0 : t, b 0 : t]");
    assert_eq!(format!("{:?}", preview.entries()), "[b 0 : t, a 0 : k, c 0 : k]");
    assert_eq!(
        format!("{preview:?}"),
        "Preview { lines: 2, newly_used: 1, replaced: 1, entries: [b 0 : t, a 0 : k, c 0 : k] }"
    );
    let mut out = [0; 16];
    let found = NO_WORDS.lookup(preview.store(), "a", "", &mut out).expect("it is accepted");
    assert_eq!(found.expect("it was added").phones.to_string(), "t");

    // A preview that is dropped changes nothing.
    drop(preview);
    assert_eq!(bytes, before);
}

/// Texts that are taken, and texts that stop or are refused as a whole.
const TEXTS: [&str; 12] = [
    "",
    "# nothing",
    "a : k",
    "d : k t",
    "a : k\nA : t k\na n :",
    "c : k\nb : k\na : k",
    "x",
    "d : k\n : k",
    "a : k\nd : qq",
    "b : k\nd : k\ne : k",
    "d : k # é",
    "d : k k k k k k k k k k k k k k k k k k k k k k k k k",
];

/// What a call is refused by, and the line.
type Told<T> = Result<T, (Refusal, usize)>;

fn told<T>(result: Result<T, Refused>) -> Told<T> {
    result.map_err(|refused| (refused.refusal, refused.line))
}

#[test]
fn both_steps_are_the_old_call() {
    for words in [&[][..], &["a"], &["a", "b"], &["b", "c", "a"]] {
        for text in TEXTS {
            let (mut once, mut once_spare) = (a_store(words), a_spare());
            let (mut twice, mut twice_spare) = (a_store(words), a_spare());
            let (before, count) = (once.clone(), words.len() as u64);
            let mut store = Store::over(&mut once);
            let at_once = told(store.add_entries(&NO_WORDS, &mut once_spare, text));
            let mut store = Store::over(&mut twice);
            let preview = store.preview_entries(&NO_WORDS, &mut twice_spare, text);
            let in_steps = told(preview.and_then(|preview| {
                let (lines, newly_used, replaced) = numbers(&preview);
                assert_eq!(lines, newly_used + replaced);
                assert_eq!(preview.entries().count(), preview.store().len() + newly_used);
                preview.accept().map(|()| lines)
            }));
            assert_eq!(in_steps, at_once, "{text:?}");
            assert!(once == twice && once_spare == twice_spare, "{text:?}");
            match at_once {
                Ok(_) => {
                    assert_eq!(
                        once_spare,
                        with_count(&once, count),
                        "they differ in the count only"
                    );
                    assert_eq!(once, with_count(&once, count + 1));
                }
                Err((_, 0)) => assert!(once == before && once_spare == a_spare()),
                Err(_) => {
                    assert_eq!(once, before);
                    assert_eq!(once_spare, with_count(&once_spare, u64::MAX));
                }
            }
        }
    }
}

#[test]
fn a_stop_at_the_first_line_leaves_a_copy() {
    let (mut bytes, mut spare) = (a_store(&["a"]), a_spare());
    let mut store = Store::over(&mut bytes);
    let stopped = told(store.preview_entries(&NO_WORDS, &mut spare, "x").map(drop));
    assert_eq!(stopped, Err((Refusal::Line, 1)));
    assert_eq!(spare[8..16], [255; 8]);
    assert_eq!(spare, with_count(&bytes, u64::MAX));
}

#[test]
fn a_text_without_lines_counts() {
    let (mut bytes, mut spare) = (a_store(&["a"]), a_spare());
    let before = bytes.clone();
    let mut store = Store::over(&mut bytes);
    store.preview_entries(&NO_WORDS, &mut spare, "").expect("it is shown").accept().expect("taken");
    assert_eq!(store.count(), 2);
    assert_eq!(store.add_entries(&NO_WORDS, &mut spare, "# none"), Ok(0));
    assert_eq!(store.count(), 3);
    assert_eq!(bytes, with_count(&before, 3));
}

#[test]
fn the_largest_count_is_shown_and_never_accepted() {
    let (bytes, mut spare) = (a_store(&[]), a_spare());
    let mut bytes = with_count(&bytes, u64::MAX);
    let mut store = Store::over(&mut bytes);
    let preview = store.preview_entries(&NO_WORDS, &mut spare, "a : k").expect("it is shown");
    assert_eq!(numbers(&preview), (1, 1, 0));
    let refused = preview.accept().expect_err("the count is the largest");
    assert_eq!(refused, Refused::from(Refusal::Count));
    assert!(store.is_empty());
    assert_eq!(Store::over(&mut spare).count(), u64::MAX);
}

#[test]
fn a_spare_is_accepted_whole() {
    // Also a longer or another chain, phones that no table knows, and what stands in slots that are not used.
    let (mut bytes, mut spare) = (a_store(&["a", "b"]), a_store(&["c", "d"]));
    spare[512 + 65] = b'?';
    spare[3 * 512..].fill(0x77);
    let mut store = Store::over(&mut bytes);
    assert_eq!(store.accept_entries(&spare), Ok(()));
    assert_eq!(format!("{store:?}"), "[c 0 : ?, d 0 : t]");
    assert_eq!(bytes, with_count(&spare, 3));
}

#[test]
fn each_byte_of_a_spare_altered() {
    let (plain, mut filled) = (a_store(&["a"]), a_spare());
    let mut bytes = plain.clone();
    let preview =
        Store::over(&mut bytes).preview_entries(&NO_WORDS, &mut filled, "b : k").map(drop);
    assert_eq!(preview, Ok(()));
    for at in 0..filled.len() {
        for step in [1, 2, 128, 255] {
            let (mut bytes, mut spare) = (plain.clone(), filled.clone());
            spare[at] = spare[at].wrapping_add(step);
            match Store::over(&mut bytes).accept_entries(&spare) {
                Ok(()) => {
                    assert!(at >= 512, "byte {at} with {step} more");
                    assert_eq!(bytes, with_count(&spare, 2));
                }
                Err(refused) => {
                    let of_count = (8..16).contains(&at);
                    let cause = (!of_count).then_some(Unsound::SpareBytes);
                    let refusal = if of_count { Refusal::Count } else { Refusal::Unsound };
                    assert_eq!((refused.refusal, refused.unsound), (refusal, cause), "byte {at}");
                    assert!(at < 3 * 512, "slot 3 is not used");
                    assert_eq!(bytes, plain);
                }
            }
        }
    }
}
