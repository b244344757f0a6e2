//! Inside the original `lexicon`: its onset list and its addenda, from which inputs are made, and the
//! runtime entries of a lexicon.

use super::Lexicon;

pub fn onsets() -> &'static [&'static str] {
    super::ONSET_CLUSTERS
}

/// The rows of the addenda: tag, word, phones.
pub fn addenda() -> &'static [(char, &'static str, &'static [&'static str])] {
    super::ADDENDA
}

/// A runtime entry: tag, word, phones.
pub type Added = (char, String, Vec<&'static str>);

/// The runtime entries, the oldest first.
pub fn added(lexicon: &Lexicon) -> &[Added] {
    &lexicon.added
}

/// The same lexicon with these runtime entries.
pub fn with_added(lexicon: &Lexicon, added: Vec<Added>) -> Lexicon {
    Lexicon { added, ..lexicon.clone() }
}
