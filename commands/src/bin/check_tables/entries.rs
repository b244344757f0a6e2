//! The compiled entries: the library decides whether they are whole and in order, and where not, the first at fault is
//! looked for here.

use commands::numbers::u32_at;
use pronouncer::Lexicon;

use crate::report::{Detail, Fault, Kind, Place, Report};

/// An entry: where it stands in lex.data, and its parts.
#[derive(Clone, Copy)]
pub struct Entry<'a> {
    pub at: usize,
    pub tag: u8,
    pub word: &'a [u8],
    pub numbers: &'a [u8],
}

impl<'a> Entry<'a> {
    /// The entry at a place; none if a part of it lies outside.
    fn read(data: &'a [u8], at: usize) -> Option<Entry<'a>> {
        let (&tag, rest) = data.get(at..)?.split_first()?;
        let (word, rest) = counted(rest)?;
        let (numbers, _) = counted(rest)?;
        Some(Entry { at, tag, word, numbers })
    }

    /// Where it ends.
    fn end(&self) -> usize {
        self.at + 3 + self.word.len() + self.numbers.len()
    }

    /// Where its word begins, and where the numbers of its phones do.
    fn parts_at(&self) -> [usize; 2] {
        [self.at + 2, self.end() - self.numbers.len()]
    }

    /// The word, for people.
    pub fn shown(&self) -> String {
        String::from_utf8_lossy(self.word).into_owned()
    }
}

/// As many bytes as the first one says, and those behind them.
fn counted(bytes: &[u8]) -> Option<(&[u8], &[u8])> {
    let (&count, rest) = bytes.split_first()?;
    rest.split_at_checked(usize::from(count))
}

/// Where lex.index says that entry i starts.
fn offset(lexicon: &Lexicon, i: usize) -> usize {
    u32_at(lexicon.index, 4 + 4 * i).unwrap_or(usize::MAX)
}

fn entry<'a>(lexicon: &Lexicon<'a>, i: usize) -> Option<Entry<'a>> {
    Entry::read(lexicon.data, offset(lexicon, i))
}

fn count(lexicon: &Lexicon) -> usize {
    u32_at(lexicon.index, 0).unwrap_or(0)
}

/// The entries of a lexicon in order, up to one that cannot be read.
pub fn all<'a>(lexicon: &Lexicon<'a>) -> impl Iterator<Item = Entry<'a>> {
    let lexicon = *lexicon;
    (0..count(&lexicon)).map_while(move |i| entry(&lexicon, i))
}

/// Tells of the entries of sections that have their form, and counts words; whether they are whole and in order.
pub fn check(lexicon: &Lexicon, report: &mut Report) -> bool {
    let is_taken = lexicon.check_lexicon() == Ok(true);
    if let Some(fault) = Fault::judged(Kind::Lexicon, "lex.data", is_taken, first_fault(lexicon)) {
        report.details.push(Detail::Fault(fault));
        return false;
    }
    let sentence = "every entry is whole, and the words are in order";
    report.note("lexicon", sentence);
    tally(lexicon, report);
    true
}

/// Counts different words, and those with more than one entry.
fn tally(lexicon: &Lexicon, report: &mut Report) {
    let words: Vec<&[u8]> = all(lexicon).map(|entry| entry.word).collect();
    let groups = words.chunk_by(|one, next| one == next);
    report.summary.words = Some(groups.clone().count());
    report.summary.homographs = Some(groups.filter(|group| group.len() > 1).count());
}

/// What is wrong with an entry.
enum Wrong {
    /// It starts outside lex.data.
    Outside,
    /// A part of it lies outside.
    Cut,
    /// Its word has a byte of 128 or more, there.
    High(usize),
    /// There is a number without a phone.
    NoPhone(usize, u8),
    /// Its word is smaller than the one before.
    Falls,
}

/// The first entry at fault: where, and what was expected.
fn first_fault(lexicon: &Lexicon) -> Option<(Place, String)> {
    let phones = u32_at(lexicon.phones, 0).unwrap_or(0);
    (0..count(lexicon)).find_map(|i| {
        let wrong = wrong(lexicon, phones, i)?;
        Some(misplaced(lexicon, phones, i, &wrong).unwrap_or_else(|| told(lexicon, i, &wrong)))
    })
}

fn wrong(lexicon: &Lexicon, phones: usize, i: usize) -> Option<Wrong> {
    if offset(lexicon, i) >= lexicon.data.len() {
        return Some(Wrong::Outside);
    }
    let Some(found) = entry(lexicon, i) else {
        return Some(Wrong::Cut);
    };
    if let Some(wrong) = wrong_inside(&found, phones) {
        return Some(wrong);
    }
    let before = i.checked_sub(1).and_then(|before| entry(lexicon, before));
    let falls = before.is_some_and(|before| found.word < before.word);
    falls.then_some(Wrong::Falls)
}

/// What is wrong with an entry that lies inside lex.data.
fn wrong_inside(entry: &Entry, phones: usize) -> Option<Wrong> {
    let [word, numbers] = entry.parts_at();
    if let Some(place) = entry.word.iter().position(|byte| !byte.is_ascii()) {
        return Some(Wrong::High(word + place));
    }
    let is_missing = |&number: &u8| usize::from(number) >= phones;
    let place = entry.numbers.iter().position(is_missing)?;
    Some(Wrong::NoPhone(numbers + place, entry.numbers[place]))
}

/// The fault of lex.index, where it seems to be at fault: entries lie side by side, and this one, or the one before an
/// entry out of order, starts elsewhere, though a good one stands where it should.
fn misplaced(lexicon: &Lexicon, phones: usize, i: usize, wrong: &Wrong) -> Option<(Place, String)> {
    let before = matches!(wrong, Wrong::Falls).then(|| i - 1);
    before.into_iter().chain([i]).find_map(|i| {
        let expected = match i.checked_sub(1) {
            Some(before) => entry(lexicon, before)?.end(),
            None => 0,
        };
        let good = |entry: &Entry| wrong_inside(entry, phones).is_none();
        Entry::read(lexicon.data, expected).filter(good)?;
        (offset(lexicon, i) != expected).then(|| {
            let behind = match i {
                0 => "where lex.data begins",
                _ => "where the entry before it ends",
            };
            let sentence = format!(
                "entry {i} starts at byte {} of lex.data: expected byte {expected}, {behind}",
                offset(lexicon, i)
            );
            (index_place(i), sentence)
        })
    })
}

/// Where the offset of entry i stands.
fn index_place(i: usize) -> Place {
    Place { entry: Some(i), ..Place::at("lex.index", 4 + 4 * i) }
}

/// A byte of entry i.
fn data_place(i: usize, byte: usize) -> Place {
    Place { entry: Some(i), ..Place::at("lex.data", byte) }
}

/// The fault of entry i where it stands.
fn told(lexicon: &Lexicon, i: usize, wrong: &Wrong) -> (Place, String) {
    let at = offset(lexicon, i);
    let place = match *wrong {
        Wrong::Outside => index_place(i),
        Wrong::Cut | Wrong::Falls => data_place(i, at),
        Wrong::High(byte) | Wrong::NoPhone(byte, _) => data_place(i, byte),
    };
    let word = |i| entry(lexicon, i).map_or(String::new(), |entry| entry.shown());
    let sentence = match *wrong {
        Wrong::Outside => format!(
            "entry {i} starts at byte {at} of lex.data: expected a place inside its {} bytes",
            lexicon.data.len()
        ),
        Wrong::Cut => format!(
            "entry {i} is damaged: expected its tag, word and phone numbers inside lex.data"
        ),
        Wrong::High(_) => format!("the word of entry {i} is damaged: expected a byte below 128"),
        Wrong::NoPhone(_, number) => format!(
            "entry {i}, \"{}\", names phone {number}: expected a number that lex.phones has",
            word(i)
        ),
        Wrong::Falls => format!(
            "entry {i}, \"{}\", stands behind \"{}\": expected words in the order of their bytes",
            word(i),
            word(i - 1)
        ),
    };
    (place, sentence)
}
