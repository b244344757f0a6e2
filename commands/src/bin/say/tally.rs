//! How many words were asked, and what became of them.

use std::fmt;
use std::ops::AddAssign;

use commands::program::Status;

/// Counts of words.
#[derive(Default)]
pub struct Tally {
    pub words: usize,
    /// From the letters.
    pub guessed: usize,
    pub refused: usize,
    /// From letters that gave no phones.
    pub silent: usize,
}

impl Tally {
    /// How a run that asked these words ends.
    pub fn status(&self) -> Status {
        match (self.refused, self.silent) {
            (0, 0) => Status::Done,
            _ => Status::Refused,
        }
    }
}

impl AddAssign for Tally {
    fn add_assign(&mut self, more: Tally) {
        self.words += more.words;
        self.guessed += more.guessed;
        self.refused += more.refused;
        self.silent += more.silent;
    }
}

/// For the check before the show.
impl fmt::Display for Tally {
    fn fmt(&self, f: &mut fmt::Formatter<'_>) -> fmt::Result {
        let Tally { words, guessed, refused, .. } = self;
        write!(f, "words: {words}, guessed: {guessed}, refused: {refused}")
    }
}
