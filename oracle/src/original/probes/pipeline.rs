//! Inside the original `pipeline`: the steps that give words their tags and say them, and the product of two stretches.

use crate::ffeature::FeaturePath;
use crate::language::Language;
use crate::utterance::{ItemId, Utterance};

/// Gives each word of an utterance its tag, then its syllables and segments; no pauses, no later rules.
pub fn say(lang: &Language, utt: &mut Utterance) {
    super::tag_parts_of_speech(lang, utt);
    super::insert_pronunciations(lang, utt);
}

/// Says words that have their tags.
pub fn insert_pronunciations(lang: &Language, utt: &mut Utterance) {
    super::insert_pronunciations(lang, utt);
}

/// The stretch of an item, if it has one, times another.
pub fn local_stretch(utt: &Utterance, item: ItemId, path: &FeaturePath, stretch: f32) -> f32 {
    super::local_stretch(utt, item, path, stretch)
}
