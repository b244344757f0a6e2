//! The calls that are compared, one module each.

mod adding;
mod filling;

use crate::run::{Compared, Runner};

/// The modules of the calls, and all of them with their counts, none of them begun.
macro_rules! calls {
    ($($module:ident::$call:ident)*) => {
        $(pub mod $module;)*

        pub fn all(seed: u64) -> Vec<Box<dyn Compared>> {
            vec![$(Runner::<$module::$call>::boxed(seed)),*]
        }
    };
}

calls! {
    predict::Predict
    syllabify::Syllabify
    is_sayable::IsSayable
    is_vowel::IsVowel
    split_stress::SplitStress
    check_lexicon::CheckLexicon
    lookup::Lookup
    new_store::NewStore
    add_entry::AddEntry
    add_entries::AddEntries
    preview_entries::PreviewEntries
    accept_entries::AcceptEntries
    two_steps::TwoSteps
    new_sheet::NewSheet
    say_word::SayWord
    phone_string::PhoneString
    read_settings::ReadSettings
    write_setting::WriteSetting
    settings_kept::SettingsKept
    either_order::EitherOrder
    lists::Lists
}
