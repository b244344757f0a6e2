//! A list of calls on one store, its spare and one sheet, refused ones among them, with the sheet read back after
//! each.

mod sections;

use pronouncer::{example, PhoneList, Refusal, Sheet, SheetVersion, Store};
use sections::{cells, reading};

/// A store, its spare and a sheet that live through a list of calls.
struct Show {
    slots: Vec<u8>,
    spare: Vec<u8>,
    items: Vec<u8>,
}

impl Show {
    /// A store of two entries, an equal spare and a sheet of 24 items, in bytes that held something else.
    fn begun() -> Show {
        let mut slots = vec![0xff; 3 * 512];
        Store::new_store(&mut slots).expect("a store");
        let mut show = Show { spare: slots.clone(), slots, items: vec![0xff; 25 * 64 + 5] };
        show.clear();
        show
    }

    fn clear(&mut self) {
        Sheet::new_sheet(&mut self.items, SheetVersion::V2).expect("a sheet");
    }

    fn add(&mut self, word: &str, tag: &str, phones: &[&str]) -> Result<(), Refusal> {
        let cells = cells(phones);
        let mut store = Store::over(&mut self.slots);
        let told =
            store.add_entry(&example::LEXICON, word, tag, PhoneList::from_cells(&cells), false);
        told.map_err(|refused| refused.refusal)
    }

    /// How many lines were taken, or why none was, and the line.
    fn add_text(&mut self, text: &str) -> Result<usize, (Refusal, usize)> {
        let mut spare = vec![3; self.slots.len()];
        let told = Store::over(&mut self.slots).add_entries(&example::LEXICON, &mut spare, text);
        told.map_err(|refused| (refused.refusal, refused.line))
    }

    /// Lines taken, slots newly used and lines that replaced an entry; or why there is nothing to see, and the
    /// line.
    fn preview(&mut self, text: &str) -> Result<(usize, usize, usize), (Refusal, usize)> {
        let mut store = Store::over(&mut self.slots);
        let told = store.preview_entries(&example::LEXICON, &mut self.spare, text);
        told.map(|preview| (preview.lines(), preview.newly_used(), preview.replaced()))
            .map_err(|refused| (refused.refusal, refused.line))
    }

    fn accept(&mut self) -> Result<(), Refusal> {
        let told = Store::over(&mut self.slots).accept_entries(&self.spare);
        told.map_err(|refused| refused.refusal)
    }

    /// Where the letters stopped, or why the word was not said.
    fn say(&mut self, word: &str, tag: &str) -> Result<usize, Refusal> {
        let store = Store::over(&mut self.slots);
        let mut sheet = Sheet::over(&mut self.items);
        let told = sheet.say_word(&example::LEXICON, &example::LETTERS, &store, word, tag);
        told.map(|said| said.place()).map_err(|refused| refused.refusal)
    }

    /// The sources of the words on the sheet.
    fn sources(&mut self) -> String {
        let sheet = Sheet::over(&mut self.items);
        let told: Vec<String> = sheet.words().map(|word| word.source().to_string()).collect();
        told.join(" ")
    }

    /// What is on the sheet; the phone string and the chain of phones must tell the same phones.
    fn reads(&mut self) -> String {
        let sheet = Sheet::over(&mut self.items);
        let by_words: Vec<&str> = sheet
            .words()
            .flat_map(|word| word.syllables())
            .flat_map(|syllable| syllable.phones())
            .collect();
        assert_eq!(by_words, sheet.phones().collect::<Vec<_>>());
        let mut out = [0; 256];
        assert_eq!(sheet.phone_string(&mut out), Ok(by_words.join(" ").as_str()));
        reading(&sheet)
    }
}

#[test]
fn a_show() {
    let mut show = Show::begun();
    assert_eq!(show.reads(), "");

    // The lexicon has lead as a noun first, and as a verb; it has no capitals, so Lead goes to the letters.
    assert_eq!(show.say("lead", ""), Ok(0));
    assert_eq!(show.say("lead", "v"), Ok(0));
    assert_eq!(show.say("Lead", ""), Ok(0));
    let three = "lead[l eh d 1] lead[l iy d 1] Lead[l eh 1][ae d 1]";
    assert_eq!(show.reads(), three);

    // Refused calls change nothing.
    assert_eq!(show.say("", &"v".repeat(48)), Err(Refusal::Text));
    assert_eq!(show.add("lead", "", &["l", "qq", "d"]), Err(Refusal::UnknownPhone));
    let stopped = show.add_text("lead : l ih d\nlead v l iy d");
    assert_eq!(stopped, Err((Refusal::Line, 2)));
    assert_eq!(show.reads(), three);

    // A word without phones has no syllables.
    assert_eq!(show.say(",", ""), Ok(0));
    assert_eq!(show.reads(), format!("{three} ,"));
    assert_eq!(show.sources(), "compiled compiled letters addenda");
}

#[test]
fn entries_between_words() {
    let mut show = Show::begun();
    for word in ["lead", "lead", "Lead", ","] {
        assert_eq!(show.say(word, "v"), Ok(0));
    }
    let before = "lead[l iy d 1] lead[l iy d 1] Lead[l eh 1][ae d 1] ,";
    assert_eq!(show.reads(), before);

    // An added entry comes before the lexicon's, and takes capitals; what was said before stays. Six items
    // are unused.
    assert_eq!(show.add("Lead", "", &["l", "ih0", "d"]), Ok(()));
    assert_eq!(show.say("LEAD", "v"), Ok(0));
    assert_eq!(show.reads(), format!("{before} LEAD[l ih d 0]"));
    assert_eq!(show.say("tabs", ""), Err(Refusal::Short));
    assert_eq!(show.say(".", ""), Ok(0));
    assert_eq!(show.say(".", ""), Err(Refusal::Short));
    assert_eq!(show.reads(), format!("{before} LEAD[l ih d 0] ."));
    // The library's own table has "," with another tag than v, and "." was asked without one.
    assert_eq!(show.sources(), "compiled compiled letters letters runtime addenda");

    // A new sheet drops the words, not the entries.
    show.clear();
    assert_eq!(show.reads(), "");
    assert_eq!(show.say("lead", "n"), Ok(0));
    assert_eq!(show.reads(), "lead[l ih d 0]");
    assert_eq!(show.sources(), "runtime");
}

#[test]
fn a_text_is_taken_whole_or_not_at_all() {
    let mut show = Show::begun();
    let too_many = "a : k\nb : k\nc : k";
    assert_eq!(show.add_text(too_many), Err((Refusal::Full, 3)));
    assert_eq!(show.say("b", ""), Ok(0));
    assert_eq!(
        show.add_text(
            "# tonight\n\"gobo\" n : g ow1 b ow0 # twice\nGobo n : g ow0 b ow1\n\nb : iy1"
        ),
        Ok(3)
    );
    for word in ["gobo", "b"] {
        assert_eq!(show.say(word, ""), Ok(0));
    }
    assert_eq!(show.reads(), "b[b 0] gobo[g ow 0][b ow 1] b[iy 1]");
    assert_eq!(show.sources(), "letters runtime runtime");
}

#[test]
fn a_text_is_seen_before_it_is_taken() {
    let mut show = Show::begun();
    assert_eq!(show.preview("gobo : g ow1 b ow0"), Ok((1, 1, 0)));
    assert_eq!(show.say("gobo", ""), Ok(0));
    assert_eq!(show.accept(), Ok(()));
    assert_eq!(show.say("gobo", ""), Ok(0));
    let both = "gobo[g ow 1][b ow 1] gobo[g ow 1][b ow 0]";
    assert_eq!(show.reads(), both);
    assert_eq!(show.sources(), "letters runtime");

    // A text that stops spoils the spare; a byte of 128 or more leaves it.
    assert_eq!(show.preview("b : iy1"), Ok((1, 1, 0)));
    assert_eq!(show.preview("b : k\nb b"), Err((Refusal::Line, 2)));
    assert_eq!(show.accept(), Err(Refusal::Count));
    assert_eq!(show.preview("b : iy1"), Ok((1, 1, 0)));
    assert_eq!(show.preview("b : k # é"), Err((Refusal::Text, 0)));
    assert_eq!(show.accept(), Ok(()));
    show.clear();
    assert_eq!(show.say("b", ""), Ok(0));
    assert_eq!(show.reads(), "b[iy 1]");
}

#[test]
fn a_spare_goes_stale() {
    let mut show = Show::begun();
    // Equal to the store it is taken once, and then is behind by one.
    assert_eq!((show.accept(), show.accept()), (Ok(()), Err(Refusal::Count)));

    // Behind an entry, behind a text, and behind another spare.
    assert_eq!(show.preview("b : iy1"), Ok((1, 1, 0)));
    assert_eq!(show.add("b", "", &["b"]), Ok(()));
    assert_eq!(show.accept(), Err(Refusal::Count));
    assert_eq!(show.preview("b : iy1"), Ok((1, 0, 1)));
    assert_eq!(show.add_text(""), Ok(0));
    assert_eq!(show.accept(), Err(Refusal::Count));
    assert_eq!(show.preview("b : iy1"), Ok((1, 0, 1)));
    let kept = show.spare.clone();
    assert_eq!(show.preview("b : eh1"), Ok((1, 0, 1)));
    assert_eq!(show.accept(), Ok(()));
    show.spare = kept;
    assert_eq!(show.accept(), Err(Refusal::Count));
    assert_eq!(show.say("b", ""), Ok(0));
    assert_eq!(show.reads(), "b[eh 1]");

    // Refused adds and previews between do not count.
    assert_eq!(show.preview("b : iy1"), Ok((1, 0, 1)));
    assert_eq!(show.add("c", "", &["qq"]), Err(Refusal::UnknownPhone));
    assert_eq!(show.add_text("c"), Err((Refusal::Line, 1)));
    assert_eq!(show.accept(), Ok(()));
}

#[test]
fn a_word_with_a_hash_before_and_behind_its_entry() {
    let mut show = Show::begun();
    assert_eq!(show.say("Cat#Tab", "n"), Ok(4));
    assert_eq!(show.reads(), "Cat#Tab[t ae b 1]");
    assert_eq!(show.say("a#lead", &"n".repeat(48)), Err(Refusal::Text));

    assert_eq!(show.add("cat#tab", "n", &["k", "ae1", "t"]), Ok(()));
    assert_eq!(show.say("Cat#Tab", "n"), Ok(0));
    assert_eq!(show.say("Cat#Tab", "v"), Ok(4));
    let three = "Cat#Tab[t ae b 1] Cat#Tab[k ae t 1] Cat#Tab[t ae b 1]";
    assert_eq!(show.reads(), three);

    // Nine items are unused.
    assert_eq!(show.say("a#latitude", ""), Err(Refusal::Short));
    assert_eq!(show.say("latitude#a", ""), Ok(9));
    assert_eq!(show.reads(), format!("{three} latitude#a[ae 1]"));
    assert_eq!(show.sources(), "letters runtime letters letters");
}

#[test]
fn entries_of_other_racks() {
    // A store's bytes are all there is to it: they are read again elsewhere.
    let mut show = Show::begun();
    assert_eq!(show.add("iris", "n", &["ay1", "r", "ih0", "s"]), Ok(()));
    let kept = show.slots.clone();
    let mut other = Show::begun();
    other.slots = kept;
    assert_eq!(other.say("Iris", ""), Ok(0));
    assert_eq!(other.reads(), "Iris[ay 1][r ih s 0]");
}
