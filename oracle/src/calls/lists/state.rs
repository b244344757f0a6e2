//! What a list of calls works on, and its log: what it gives back, as bytes that are compared.

use super::run::Side;
use super::Act;
use crate::calls::new_sheet::{self, NewSheet};
use crate::prelude::*;
use crate::sheets::Reading;
use crate::spoken::{Syllable, Word};

/// What a list works on, as the call before has left it.
#[derive(Default)]
pub struct State {
    pub store: Vec<u8>,
    pub spare: Vec<u8>,
    pub sheet: Vec<u8>,
    pub log: Vec<u8>,
    /// How many calls of the list were made.
    calls: usize,
}

impl State {
    /// Makes a call, which may be an act of the list. Takes what it writes, and logs its answer and what it altered.
    pub fn call<C: Call>(
        &mut self,
        side: &mut impl Side,
        act: Option<&Act>,
        input: &C::Input,
    ) -> Result<(), String> {
        let outcome = side.outcome::<C>(act, input)?;
        self.calls += usize::from(act.is_some());
        log::put(&mut self.log, "call", format!("{}: {}", self.calls, outcome.answer).as_bytes());
        let parts = C::default().lent(input);
        let written = parts.iter().filter(|part| part.is_written());
        for (part, bytes) in written.zip(outcome.written) {
            if bytes != part.bytes[..] {
                log::put(&mut self.log, part.name, &bytes);
            }
            match part.name {
                "the store" => self.store = bytes,
                "the sheet" => self.sheet = bytes,
                "the spare" => self.spare = bytes,
                other => unreachable!("no call of a list writes {other}"),
            }
        }
        Ok(())
    }

    /// Makes its sheet a new one of a version.
    pub fn new_sheet(
        &mut self,
        side: &mut impl Side,
        act: Option<&Act>,
        version: u32,
    ) -> Result<(), String> {
        let input = new_sheet::Input::new(self.sheet.clone(), version);
        self.call::<NewSheet>(side, act, &input)
    }

    /// The same, which ends the sheet's words; one of an unknown version is refused, and they stay.
    pub fn renew(
        &mut self,
        side: &mut impl Side,
        act: Option<&Act>,
        version: u32,
    ) -> Result<(), String> {
        if sheets::is_version(version) {
            self.close(side)?;
        }
        self.new_sheet(side, act, version)
    }

    /// The end of a sheet's words. Logs what reading it gives, if it can be read, and its phone string.
    pub fn close(&mut self, side: &mut impl Side) -> Result<(), String> {
        let (answer, phones) = side.close(self)?;
        let reading = sheets::reading(&self.sheet);
        let reading = reading.map_or("cannot be read".into(), |reading| told(&reading));
        log::put(&mut self.log, "reads", reading.as_bytes());
        let phones = format!("{answer}, {}", notation::bytes(&phones));
        log::put(&mut self.log, "phone_string", phones.as_bytes());
        Ok(())
    }
}

/// A reading as text: the version, each word with its source and its syllables, then the phones forwards and backwards.
fn told(reading: &Reading) -> String {
    let list = |phones: &[Vec<u8>]| {
        let phones: Vec<String> = phones.iter().map(|phone| notation::text(phone)).collect();
        phones.join(" ")
    };
    let syllable = |one: &Syllable| format!(" {}({})", one.stress, list(&one.phones));
    let word = |word: &Word| {
        let syllables: String = word.syllables.iter().map(syllable).collect();
        format!("{} of {}{syllables}", notation::text(&word.text), word.source)
    };
    let words: Vec<String> = reading.words.iter().map(word).collect();
    let (forwards, backwards) = (list(&reading.forwards), list(&reading.backwards));
    format!("version {}: {}; {forwards}; {backwards}", reading.version, words.join(", "))
}
