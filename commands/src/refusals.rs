//! Each refusal in plain words: its number, its meaning and what to do.

use pronouncer::Refusal;

/// The words for a refusal, its number first.
pub fn words(refusal: Refusal) -> String {
    let number = refusal.number();
    let (cause, cure) = match refusal {
        Refusal::Section => (
            "a section breaks its form",
            "Run check_tables on the folder: it says which one and where.",
        ),
        Refusal::Unsound => {
            ("the store or the sheet is damaged or has a wrong length", "Begin with a new one.")
        }
        Refusal::Text => (
            "a word or tag has more than 47 bytes, or a byte is not ASCII",
            "Shorten it, or write it with plain letters.",
        ),
        Refusal::Line => ("a line has no colon, or no word before it", "Write: word tag : phones"),
        Refusal::UnknownPhone => {
            ("a phone is in neither lex.phones nor the 50 known phones", "Correct its spelling.")
        }
        Refusal::Damaged => (
            "the entry or the letter tree of this word is damaged",
            "Run check_tables on the folder: it says which.",
        ),
        Refusal::Phones => (
            "too many phones: an added entry has at most 24, a word 96",
            "Take some away, or split the word in two.",
        ),
        Refusal::Full => (
            "the store is full: the largest holds 127 entries",
            "Begin a new store with the entries that this show needs.",
        ),
        Refusal::Short => ("the sheet has no room for the word", "Begin a new sheet."),
        Refusal::Count => (
            "the store was changed since the preview, or was changed as often as it can be",
            "Preview again; where that does not help, begin a new store and add the entries to it.",
        ),
        Refusal::Version => (
            "a version is not known: of a sheet to begin, of the settings or of their reader",
            "Name 1 or 2, or write new settings (rack_settings --new).",
        ),
        Refusal::Records => (
            "the chain of settings is damaged, or the setting to write is unknown or has no record",
            "Name one that has a record, or write new settings (rack_settings --new).",
        ),
        Refusal::Range => (
            "a setting, the value to write or the show's stretch is of the wrong kind or out of its range",
            "Give one in its range; where a setting is not, write new ones (rack_settings --new).",
        ),
        other => (other.cause(), other.cure()),
    };
    format!("{number}, {cause}. {cure}")
}
