//! Stub: a token is one word, its name.

use crate::language::Language;
use crate::utterance::{ItemId, RelId, Utterance};

pub fn token_to_words(_lang: &Language, utt: &Utterance, token: ItemId) -> Vec<String> {
    vec![utt.name(token).to_string()]
}

pub fn add_word(utt: &mut Utterance, words: RelId, _token: ItemId, name: &str) {
    let word = utt.append(words, None);
    utt.set_str(word, "name", name);
}
