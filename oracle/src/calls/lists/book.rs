//! The book beside a list of calls: the papers and the original, which has its own entries, the text of the latest
//! accepted first step, and the version and the words of the sheet. For the exact entries of each word it has an original
//! more; the words of a sheet of version 2 it says with each of two digits in the place of every "2".

use super::run::Side;
use super::state::State;
use super::{Act, Sections, CALLS};
use crate::prelude::*;
use crate::scene::with_digit;
use crate::sheets::Reading;
use crate::spoken::{Said, Word};
use original::lexicon::probe;
use std::collections::BTreeMap;
use std::mem::take;

pub struct Book<'a> {
    sections: &'a Sections,
    /// The original with its entries, the ordinary ones; none if it cannot take any.
    entries: Option<lexicon::Lexicon>,
    /// The original with the exact entries of each word.
    exact: BTreeMap<Vec<u8>, lexicon::Lexicon>,
    pending: Vec<u8>,
    /// The row of a second step that came now.
    accept: &'static str,
    /// The version of the sheet.
    version: u8,
    sheet: Sheet,
    /// The words of earlier sheets, with their versions and as they were said.
    earlier: Vec<(u8, Wanted, Word)>,
    met: &'a mut Met,
    /// Whether a text stopped behind lines that it took.
    stops: bool,
    /// Whether the call before was refused.
    refused: bool,
}

/// The words of a sheet. The original says those since the last add in one utterance.
#[derive(Default)]
pub struct Sheet {
    wanted: Vec<Wanted>,
    /// The places that they told.
    places: Vec<u64>,
    /// The words that were said before the last add, and their phone strings.
    said: Vec<Word>,
    strings: Vec<String>,
    /// How many utterances the original said.
    parts: usize,
    /// Whether a word came behind a text that stopped behind lines that it took.
    behind_stop: bool,
    /// Whether a new sheet was refused while there were words, and whether a word came behind it.
    kept: bool,
    behind_kept: bool,
}

impl<'a> Book<'a> {
    pub fn new(sections: &'a Sections, version: u8, met: &'a mut Met) -> Book<'a> {
        let table = &sections.table;
        Book {
            sections,
            entries: table.names.as_ref().map(|_| table.original().clone()),
            exact: BTreeMap::new(),
            pending: vec![],
            accept: "accept: right away",
            version,
            sheet: Sheet::default(),
            earlier: vec![],
            met,
            stops: false,
            refused: false,
        }
    }

    /// A call that was not refused. The words before an add saw the old entries.
    fn take(&mut self, act: &Act) -> Result<(), String> {
        match act {
            Act::NewSheet(version) => {
                self.version = u8::try_from(*version).map_err(|_| "a version that is not known")?;
                return Ok(());
            }
            Act::SayWord(wanted) => {
                self.sheet.behind_stop |= self.stops;
                self.sheet.behind_kept |= self.sheet.kept;
                self.sheet.wanted.push(wanted.clone());
                return Ok(());
            }
            Act::Preview(text) => {
                self.pending = text.clone();
                return Ok(());
            }
            // a second step needs no table
            Act::Accept if self.pending.is_empty() => return Ok(()),
            _ => self.say()?,
        }
        let entries = self.entries.as_mut().ok_or("entries without a table")?;
        let table = &self.sections.table;
        let told = ask(|| match act {
            Act::AddEntry(Add { wanted: Wanted { word, tag }, phones, exact }) => {
                let phones: Vec<&str> = phones.texts().into_iter().map(ascii).collect();
                let own = || table.original().clone();
                let entries = match exact {
                    true => self.exact.entry(word.clone()).or_insert_with(own),
                    false => entries,
                };
                entries.add_entry(ascii(word), ways(tag)[0], &phones)
            }
            Act::AddText { text, .. } => entries.add_entries(ascii(text)).map(drop),
            Act::Accept => entries.add_entries(ascii(&self.pending)).map(drop),
            _ => Ok(()),
        });
        told?.map_err(|error| format!("the original refuses: {error}"))
    }

    /// Whether a second step is accepted follows from the calls before it; the counts must say the same.
    fn follow(&mut self, act: &Act, answer: &Answer) -> Result<(), String> {
        let (accepted, stop) = (answer.refusal == 0, answer.refusal > 0 && answer.value > 0);
        let previewed = self.accept.ends_with("preview");
        let is_word = matches!(act, Act::SayWord(_));
        self.met.add("word between the two steps", is_word && accepted && previewed);
        if let Act::Accept = act {
            let row = self.accept;
            self.met.row(row);
            if accepted == row.starts_with("12") {
                return Err(format!("the counts are not what the calls before make them: {row}"));
            }
        }
        self.accept = match act {
            Act::Preview(_) | Act::AddText { .. } if stop => "12: behind a stop",
            Act::Preview(_) if !accepted && previewed => "accept: a refusal since the preview",
            Act::Preview(_) if accepted && previewed => "accept: behind another preview",
            Act::Preview(_) if accepted => "accept: behind a preview",
            Act::AddEntry(_) if accepted => "12: behind an add entry",
            Act::AddText { .. } if accepted => "12: behind add text",
            Act::Accept if accepted => "12: behind an accept",
            _ => self.accept,
        };
        Ok(())
    }

    /// Says the words that were not said yet, in one utterance; a word with exact entries ends it.
    fn say(&mut self) -> Result<(), String> {
        let pending = self.sheet.wanted.get(self.sheet.said.len()..).unwrap_or_default();
        let Some(entries) = &self.entries else {
            return Ok(());
        };
        let is_ordinary = |wanted: &Wanted| !self.exact.contains_key(&wanted.word);
        let alike = |one: &Wanted, next: &Wanted| {
            one.word == next.word || (is_ordinary(one) && is_ordinary(next))
        };
        for words in pending.chunk_by(alike) {
            let exact = self.exact.get(&words[0].word).map_or(&[][..], probe::added);
            let seen = [exact, probe::added(entries)].concat();
            let said = said(self.sections, self.version, seen, words)?;
            if said.words.iter().any(|word| !word.syllables.is_empty()) {
                self.sheet.strings.push(said.phone_string);
            }
            self.sheet.said.extend(said.words);
            self.sheet.parts += 1;
        }
        Ok(())
    }

    /// Whether a store's entries are the book's: the ordinary ones, and the exact ones of each word.
    fn has_entries(&self, store: &[u8]) -> Result<bool, String> {
        let entries = stores::read(store)?.into_iter().map(|placed| placed.entry);
        let entries: Vec<Entry> = entries.collect();
        let ordinary = self.entries.iter().map(|own| (Peers::Ordinary, own));
        let exact = self.exact.iter().map(|(word, own)| (Peers::Exact(word), own));
        let lists: Vec<_> = ordinary.chain(exact).collect();
        let same = |(peers, own): &(Peers, &lexicon::Lexicon)| {
            let own = probe::added(own).iter().map(|added| peers.entry(added));
            own.eq(entries.iter().filter(|entry| peers.have(entry)).cloned())
        };
        let count: usize = lists.iter().map(|(_, own)| probe::added(own).len()).sum();
        Ok(count == entries.len() && lists.iter().all(same))
    }
}

impl Side for Book<'_> {
    const SCENE: fn(&Rc<Lexicon>, Vec<u8>) -> Scene = Scene::new;

    fn outcome<C: Call>(&mut self, act: Option<&Act>, input: &C::Input) -> Result<Outcome, String> {
        let expected = C::default().expected(input);
        let outcome = expected.outcome?;
        if let Some(act) = act {
            let accepted = outcome.answer.refusal == 0;
            if let Act::NewSheet(version) = act {
                let words = !self.sheet.wanted.is_empty();
                self.met.all(new_sheet(self.version.into(), *version, accepted, words));
                self.sheet.kept |= words && !accepted;
            }
            let name = format!("{}: {}", C::NAME, expected.row);
            let row = CALLS.iter().copied().flatten().find(|row| **row == name);
            self.met.row(row.unwrap_or_else(|| panic!("the table has no row {name}")));
            self.met.row("calls in all");
            self.met.add("refused call, then an accepted one", self.refused && accepted);
            self.refused = !accepted;
            self.stops |= expected.met.contains(&"stop: earlier lines in the spare");
            self.follow(act, &outcome.answer)?;
            if accepted {
                self.take(act)?;
            }
            if let Act::SayWord(wanted) = act {
                self.met.all(marked(&wanted.word, &outcome.answer));
                self.sheet.places.extend(accepted.then_some(outcome.answer.second));
            }
        }
        Ok(outcome)
    }

    /// The driver's sheet must read as the words that the original says, and the store hold its entries.
    fn close(&mut self, state: &State) -> Result<(Answer, Vec<u8>), String> {
        self.say()?;
        self.met.row("phone_string: at an utterance's end");
        self.met.all(utterance(&self.sheet));
        self.met.all(in_version(self.version, &self.sheet, &self.earlier));
        let Sheet { wanted, said, strings, .. } = take(&mut self.sheet);
        if sheets::reading(&state.sheet) != Some(Reading::of(self.version, &said)) {
            return Err("the original says otherwise word by word than in a row".into());
        }
        let words = wanted.into_iter().zip(said);
        self.earlier.extend(words.map(|(wanted, word)| (self.version, wanted, word)));
        if !self.has_entries(&state.store)? {
            return Err("the original's entries are not the store's".into());
        }
        let phones = strings.join(" ").into_bytes();
        Ok((Answer::accepted(0, phones.len()), phones))
    }
}

/// Words in one utterance by the original with these entries, on a sheet of a version.
fn said(
    Sections { lexicon, trees, .. }: &Sections,
    version: u8,
    seen: Vec<probe::Added>,
    words: &[Wanted],
) -> Result<Said, String> {
    if version == 1 {
        let lexicon = probe::with_added(lexicon.original(), seen);
        return spoken::say(&lexicon, trees.original(), words);
    }
    let seen: Vec<Entry> = seen.iter().map(|added| Peers::Ordinary.entry(added)).collect();
    stresses::of_both(|digit| {
        let held = with_digit(lexicon, &seen.iter().collect::<Vec<_>>(), digit);
        spoken::say(&held.reader, trees.with_digit(digit).original(), words)
    })
}

/// What a second step met, and what met the two of them.
pub const STEPS: &[Rows] = &[
    &["accept: right away", "accept: behind a preview", "accept: behind another preview"],
    &["accept: a refusal since the preview", "12: behind a stop", "12: behind an add entry"],
    &["12: behind add text", "12: behind an accept", "word between the two steps"],
];

rows! { pub ROWS:
    /// What a word has that is said, accepted or refused.
    marked(word: &[u8], answer: &Answer) {
        let is_marked = places::place(word) > 0;
        let untold = is_marked && answer.second == 0;
    } [
        "say_word: place told" => answer.second > 0,
        "say_word: '#' in a found word" => untold && answer.refusal == 0,
        "say_word: '#' in a refused word" => untold && answer.refusal > 0,
    ]

    /// What a new sheet of a version met on a sheet of another, with words or without.
    new_sheet(old: u32, new: u32, accepted: bool, words: bool) [
        "new sheet that changes the version" => accepted && old != new,
        "new sheet that keeps the version" => accepted && old == new,
        "new sheet refused by 15, the words stay" => !accepted && words,
        "new sheet refused by 15 on a sheet without words" => !accepted && !words,
        "new sheet refused by 15 whose lowest byte is the version" => !accepted && old == new % 256,
        "new sheet refused by 15 whose lowest byte is the other" =>
            !accepted && old != new % 256 && sheets::is_version(new % 256),
    ]

    /// What the version of a sheet met, beside the words of earlier sheets.
    in_version(version: u8, sheet: &Sheet, earlier: &[(u8, Wanted, Word)]) {
        let secondary = sheet.said.iter().flat_map(|word| &word.syllables).any(|s| s.stress == b'2');
        let whole = sheet.said.iter().flat_map(Word::phones).any(|phone| phone.ends_with(b"2"));
        let otherwise = |(wanted, word): (&Wanted, &Word)| {
            let other = |(old, same, before): &(u8, Wanted, Word)| {
                *old != version && same == wanted && before.syllables != word.syllables
            };
            earlier.iter().any(other)
        };
    } [
        "utterance in version 1" => version == 1,
        "utterance in version 2" => version == 2,
        "utterance in version 1 with a phone that ends in 2" => version == 1 && whole,
        "utterance in version 2 with a secondary stress" => version == 2 && secondary,
        "word that is said otherwise in the other version" =>
            sheet.wanted.iter().zip(&sheet.said).any(otherwise),
        "word behind a new sheet refused by 15" => sheet.behind_kept,
    ]

    /// What the words of a sheet met.
    utterance(sheet: &Sheet) {
        let said: Vec<_> = sheet.wanted.iter().zip(&sheet.said).collect();
        let later = |i: usize, differs: fn(&Word, &Word) -> bool| {
            let mut later = said[i + 1..].iter();
            later.any(|(wanted, word)| *wanted == said[i].0 && differs(word, said[i].1))
        };
        let otherwise = |i: usize| later(i, |one, other| one.syllables != other.syllables);
        let elsewhere = |i: usize| later(i, |one, other| one.source != other.source);
        let alike = |i: usize| {
            later(i, |one, other| one.source != other.source && one.syllables == other.syllables)
        };
        let found = |i: usize| {
            let mut later = sheet.wanted.iter().zip(&sheet.places).skip(i);
            sheet.places[i] > 0 && later.any(|next| next == (&sheet.wanted[i], &0))
        };
        let words = said.len();
    } [
        "utterance without words" => words == 0,
        "utterance without phones" => words > 0 && sheet.strings.is_empty(),
        "utterance of one word" => words == 1,
        "utterance of 2 to 10 words" => (2..=10).contains(&words),
        "utterance of more words" => words > 10,
        "utterance that saw one list of entries" => sheet.parts == 1,
        "utterance that saw several" => sheet.parts > 1,
        "word that is said otherwise the second time" => (0..words).any(otherwise),
        "word of another source the second time" => (0..words).any(elsewhere),
        "word of another source that is said alike" => (0..words).any(alike),
        "word that tells a place, then is found" => (0..words).any(found),
        "text that stops behind lines taken, then a word" => sheet.behind_stop,
    ]
}
