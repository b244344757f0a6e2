//! One word: said on a new sheet, and read back from it with its source.

use std::io::Write;

use commands::program::{tell, Fault};
use commands::refusals;
use commands::typed::Word;
use pronouncer::{
    Letters, Lexicon, Refused, Sayable, Sheet, SheetVersion, Store, Stress, WordSource,
};
use pronouncer::{LARGEST_BYTES, LIST_BYTES};

use crate::tally::Tally;
use crate::{plain, warnings};

/// What words are said with.
pub struct Desk<'a> {
    pub lexicon: Lexicon<'a>,
    pub letters: Letters<'a>,
    pub sayable: Sayable<'a>,
    pub store: Store<'a>,
    /// Whether words are asked in their plain form.
    pub plain: bool,
    /// Whether only words from the letters are listed.
    pub guessed: bool,
    /// The version of the sheets.
    pub version: SheetVersion,
}

/// What was told of a word.
pub struct Said {
    source: WordSource,
    /// Where its letters stopped; 0 if they were not read.
    pub place: usize,
    pub has_phones: bool,
    /// The first phone that kept its "2", where the sheet has no secondary stress.
    pub with_2: Option<String>,
    /// Its syllables, each behind its stress.
    reading: String,
}

impl Said {
    /// Whether the word came from its letters.
    pub fn is_guessed(&self) -> bool {
        self.source == WordSource::Letters
    }
}

impl Desk<'_> {
    /// Says one word, with its warning.
    pub fn say(&self, field: &[u8], out: &mut dyn Write) -> Result<Tally, Fault> {
        let typed = Word::typed(field);
        if !self.plain {
            return self.answer(field.to_vec(), &typed, out);
        }
        let mut tally = Tally::default();
        let asked = plain::words(self, &typed);
        let differs = asked != [typed];
        for word in asked {
            let name =
                if differs { [field, b" -> ", &word.field()].concat() } else { field.to_vec() };
            tally += self.answer(name, &word, out)?;
        }
        Ok(tally)
    }

    /// A line for a word, behind the name that it is told by, if it is one to list.
    fn answer(&self, name: Vec<u8>, word: &Word, out: &mut dyn Write) -> Result<Tally, Fault> {
        let said = match self.said(word) {
            Ok(said) => said,
            Err(refused) => {
                let name = String::from_utf8_lossy(&name);
                let why = refusals::words(refused.refusal);
                tell(format_args!("{name} is refused: {why}"));
                return Ok(Tally { words: 1, refused: 1, ..Tally::default() });
            }
        };
        if said.is_guessed() || !self.guessed {
            let told = format!(" ({}):{}\n", said.source, said.reading);
            out.write_all(&[&name, told.as_bytes()].concat())?;
        }
        for warning in warnings::of(self, word, &said) {
            tell(format_args!("warning: {warning}"));
        }
        let guessed = usize::from(said.is_guessed());
        let silent = usize::from(said.is_guessed() && !said.has_phones);
        Ok(Tally { words: 1, guessed, silent, refused: 0 })
    }

    /// Whether a word is found.
    pub fn has(&self, word: &Word) -> bool {
        let mut phones = [0; LIST_BYTES];
        let found = self.lexicon.lookup(&self.store, &word.text, &word.tag, &mut phones);
        matches!(found, Ok(Some(_)))
    }

    fn said(&self, word: &Word) -> Result<Said, Refused> {
        let mut items = vec![0; LARGEST_BYTES];
        let mut sheet = Sheet::new_sheet(&mut items, self.version)?;
        let (lexicon, letters) = (&self.lexicon, &self.letters);
        let said = sheet.say_word(lexicon, letters, &self.store, &word.text, &word.tag)?;
        let has_phones = sheet.phones().next().is_some();
        let source = sheet.words().next().map_or(WordSource::Letters, |word| word.source());
        let with_2 = self.with_2(&sheet);
        Ok(Said { source, place: said.place(), has_phones, with_2, reading: reading(&sheet) })
    }

    fn with_2(&self, sheet: &Sheet) -> Option<String> {
        if self.version.has_stress(Stress::Secondary) {
            return None;
        }
        sheet.phones().find(|phone| phone.ends_with('2')).map(str::to_string)
    }
}

/// The syllables of a sheet with one word.
fn reading(sheet: &Sheet) -> String {
    let syllables = sheet.words().flat_map(|word| word.syllables());
    let told: Vec<String> = syllables
        .map(|syllable| {
            let phones: Vec<&str> = syllable.phones().collect();
            format!(" {} {}", syllable.stress(), phones.join(" "))
        })
        .collect();
    if told.is_empty() {
        return " no phones".into();
    }
    told.join(" |")
}
