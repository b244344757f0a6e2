//! What is doubtful about a word that was said, and what to do.

use commands::program::quoted;
use commands::typed::Word;

use crate::desk::{Desk, Said};
use crate::plain;

/// Its warnings: of its letters, then of its stress.
pub fn of(desk: &Desk, word: &Word, said: &Said) -> impl Iterator<Item = String> {
    of_letters(desk, word, said).into_iter().chain(of_stress(desk, word, said))
}

/// Of a word that kept a "2": on a sheet of a later version it is a stress.
fn of_stress(desk: &Desk, word: &Word, said: &Said) -> Option<String> {
    let (name, version) = (quoted(&word.field()), desk.version);
    let phone = quoted(said.with_2.as_ref()?.as_bytes());
    Some(format!(
        "{name}: {phone} is no phone, as version {version} of a sheet has no secondary stress: use --sheet-version 2"
    ))
}

/// Of a word from its letters, the first warning that applies.
fn of_letters(desk: &Desk, word: &Word, said: &Said) -> Option<String> {
    if !said.is_guessed() {
        return None;
    }
    let name = quoted(&word.field());
    let found = found_plainly(desk, word);
    if said.place > 0 {
        return Some(stopped(word, said, found));
    }
    if let Some(found) = found {
        return Some(format!(
            "{name} is not in the lexicon, but {found} is: type that, or use --plain"
        ));
    }
    if !said.has_phones {
        return Some(format!(
            "nothing in {name} gave a phone: write it as it is spoken, or add an entry for it (--entries)"
        ));
    }
    if let Some(left_out) = left_out(&word.text) {
        return Some(format!(
            "{name} was read without {left_out}: write that as it is spoken, or add an entry (--entries)"
        ));
    }
    if let Ok(false) = desk.sayable.is_sayable(&word.text) {
        return Some(format!(
            "{name} does not look like a word that can be said: write its letters as words, or add an entry (--entries)"
        ));
    }
    None
}

/// Of a word with "#": what was read. No entry can be typed for it, since "#" begins a remark there.
fn stopped(word: &Word, said: &Said, found: Option<String>) -> String {
    let name = quoted(&word.field());
    let behind = &word.text[said.place..];
    let read = match behind {
        [] => "only what stands behind the last \"#\" is read".into(),
        _ => format!("only {} was read, which stands behind the last \"#\"", quoted(behind)),
    };
    let cause = match (said.has_phones, left_out(behind)) {
        (false, _) => format!("nothing in {name} gave a phone, as {read}"),
        (true, None) => format!("{name}: {read}"),
        (true, Some(left_out)) => format!("{name}: {read}, and that without {left_out}"),
    };
    let cure = match found {
        Some(found) => format!("type {found}, which is in the lexicon, or use --plain"),
        None => "write it all as it is spoken, without \"#\"".into(),
    };
    format!("{cause}: {cure}")
}

/// The word's plain form, if that is found and was not asked for.
fn found_plainly(desk: &Desk, word: &Word) -> Option<String> {
    if desk.plain {
        return None;
    }
    let plain = plain::words(desk, word);
    let is_found = plain.iter().all(|word| desk.has(word));
    let names: Vec<String> = plain.iter().map(|word| quoted(&word.field())).collect();
    is_found.then(|| names.join(" with "))
}

/// What the letter trees do not read: what is no letter, but for apostrophes.
fn left_out(letters: &[u8]) -> Option<String> {
    let is_left_out = |byte: &u8| !byte.is_ascii_alphabetic() && *byte != b'\'';
    let left_out: Vec<u8> = letters.iter().copied().filter(is_left_out).collect();
    (!left_out.is_empty()).then(|| quoted(&left_out))
}
