//! The source of a word, which its item keeps (02, S-6): 1 runtime, 2 addenda, 3 compiled, 4 letter trees. The original
//! does not tell it, but can be made to show it.

use crate::prelude::*;
use lexicon::probe;

/// The last of the sources, the letter trees.
pub const LETTERS: u8 = 4;

/// A phone that no table has, since it has over 15 bytes.
const MARK: &str = "of a runtime entry";

/// The source that the original shows: with the mark in the place of its runtime entries' phones it answers by the mark
/// where one of them answers, and a lexicon without entries has the addenda alone.
pub fn shown(lexicon: &lexicon::Lexicon, wanted: &Wanted) -> Result<u8, String> {
    let (word, tag) = (ascii(&wanted.word), ways(&wanted.tag)[0]);
    let marked = |(tag, word, _): &probe::Added| (*tag, word.clone(), vec![MARK]);
    let marked = probe::with_added(lexicon, probe::added(lexicon).iter().map(marked).collect());
    let empty = Lexicon::of::<&str>(&[], &[]);
    let (found, addendum) = ask(|| (marked.lookup(word, tag), empty.original().lookup(word, tag)))?;
    Ok(match found {
        Some(phones) if phones == [MARK] => 1,
        _ if addendum.is_some() => 2,
        Some(_) => 3,
        None => LETTERS,
    })
}
