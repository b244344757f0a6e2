//! Texts of entries, in files, and the words for one that is refused: its place and what is wrong there.

use std::fs::File;
use std::io::Read;
use std::path::Path;

use pronouncer::{Lexicon, PhoneList, Refusal, Refused, Store};
use pronouncer::{LIST_BYTES, SLOT_BYTES, WORD_BYTES};

use crate::program::{quoted, Fault};
use crate::refusals;
use crate::typed::{fields, Word};

/// A longer text is not read.
const MOST_BYTES: usize = 1 << 24;

/// What stands at the front of a text that was saved as UTF-8 with a mark.
const BYTE_ORDER_MARK: &[u8] = b"\xef\xbb\xbf";

/// The most bytes that are shown of a word or a phone.
const MOST_SHOWN: usize = 100;

/// What is told of a phone that cannot be added.
const UNKNOWN: &str = "is in neither lex.phones nor the 50 known phones. Correct its spelling.";

/// The text of a file.
///
/// # Errors
///
/// It cannot be read, or is too long.
pub fn read(file: &Path) -> Result<Vec<u8>, Fault> {
    let name = file.display();
    let mut text = Vec::new();
    File::open(file)
        .and_then(|file| file.take(MOST_BYTES as u64 + 1).read_to_end(&mut text))
        .map_err(|error| Fault::Told(format!("cannot read {name}: {error}")))?;
    if text.len() > MOST_BYTES {
        return Err(Fault::Told(format!("{name} has more than {MOST_BYTES} bytes; part it")));
    }
    Ok(text)
}

/// The lines before one, which counts from 1; none where it is 0.
pub fn before(text: &[u8], line: usize) -> &[u8] {
    let lines = text.split_inclusive(|byte| *byte == b'\n').take(line.saturating_sub(1));
    &text[..lines.map(<[u8]>::len).sum()]
}

/// Why the text of a file is refused.
pub fn refused(lexicon: &Lexicon, file: &Path, text: &[u8], refused: Refused) -> String {
    let told = match refused.line {
        0 => text_refused(text, refused),
        line => line_refused(lexicon, text, line, refused),
    };
    format!("entries of {}{told}", file.display())
}

/// Why an entry that was typed is refused: the word, the tag or the phone at fault, where it is one of them.
pub fn entry_refused(lexicon: &Lexicon, word: &Word, phones: &[u8], refusal: Refusal) -> String {
    let named = match refusal {
        Refusal::Text | Refusal::UnknownPhone | Refusal::Phones => {
            no_word(&word.text).or_else(|| no_word(&word.tag)).or_else(|| unknown(lexicon, phones))
        }
        _ => None,
    };
    named.unwrap_or_else(|| refusals::words(refusal))
}

/// Why a text is no word and no tag.
fn no_word(text: &[u8]) -> Option<String> {
    let high = text.iter().position(|byte| !byte.is_ascii());
    too_long(text).or_else(|| high.map(|at| format!("3, {}", not_ascii(&text[at..]))))
}

/// Why a text is refused as a whole.
fn text_refused(text: &[u8], refused: Refused) -> String {
    let high = text.iter().position(|byte| !byte.is_ascii());
    let (Refusal::Text, Some(at)) = (refused.refusal, high) else {
        return format!(" are refused: {}", refusals::words(refused.refusal));
    };
    let why = if text.starts_with(BYTE_ORDER_MARK) {
        "a byte order mark stands there. Save the file as plain text without one.".into()
    } else {
        not_ascii(&text[at..])
    };
    let (line, byte) = place(text, at);
    format!(": line {line}, byte {byte} is refused: 3, {why}")
}

/// The line of a byte and its place there, both from 1 on.
fn place(text: &[u8], at: usize) -> (usize, usize) {
    let ends = |byte: &u8| *byte == b'\n';
    let begin = text[..at].iter().rposition(ends).map_or(0, |end| end + 1);
    (1 + text[..at].iter().copied().filter(ends).count(), 1 + at - begin)
}

/// That the letter at the front of a text, or its first byte, is not ASCII.
fn not_ascii(text: &[u8]) -> String {
    let front = text.utf8_chunks().next();
    let letter = match front.and_then(|chunk| chunk.valid().chars().next()) {
        Some(letter) => format!("\"{letter}\""),
        None => format!("the byte {}", text[0]),
    };
    format!("{letter} is not ASCII. Write it with plain letters.")
}

/// Why a line is refused.
fn line_refused(lexicon: &Lexicon, text: &[u8], line: usize, refused: Refused) -> String {
    let entry = text.split(|byte| *byte == b'\n').nth(line - 1);
    let entry = front(entry.unwrap_or_default(), b'#');
    let words = front(entry, b':');
    let phones = entry.get(words.len() + 1..).unwrap_or_default();
    let named = match refused.refusal {
        Refusal::Text => long(words),
        Refusal::UnknownPhone => unknown(lexicon, phones),
        _ => None,
    };
    let why = named.unwrap_or_else(|| refusals::words(refused.refusal));
    format!(": line {line} is refused: {why}")
}

/// Of the word without its quote marks and the tag, that the first over 47 bytes is too long.
fn long(words: &[u8]) -> Option<String> {
    let mut words = fields(words);
    let mut word = words.next()?;
    while let Some(inner) = word.strip_prefix(b"\"").or(word.strip_suffix(b"\"")) {
        word = inner;
    }
    too_long(word).or_else(|| too_long(words.next()?))
}

fn too_long(text: &[u8]) -> Option<String> {
    let told = || format!("3, {} has more than 47 bytes. Shorten it.", shown(text));
    (text.len() > WORD_BYTES).then(told)
}

/// Of the first phone that is unknown, that it is.
fn unknown(lexicon: &Lexicon, phones: &[u8]) -> Option<String> {
    let phone = fields(phones).find(|phone| !is_known(lexicon, phone))?;
    Some(format!("5, the phone {} {UNKNOWN}", shown(phone)))
}

fn shown(text: &[u8]) -> String {
    match text.split_at_checked(MOST_SHOWN) {
        Some((front, [_, ..])) => quoted(&[front, b".."].concat()),
        _ => quoted(text),
    }
}

/// What stands before the first such byte.
fn front(text: &[u8], end: u8) -> &[u8] {
    text.split(|byte| *byte == end).next().unwrap_or_default()
}

/// Whether an entry of this phone alone could be added.
fn is_known(lexicon: &Lexicon, phone: &[u8]) -> bool {
    let (mut slots, mut room) = ([0; 2 * SLOT_BYTES], [0; LIST_BYTES]);
    let added = Store::new_store(&mut slots).and_then(|mut store| {
        let list = PhoneList::write(&String::from_utf8_lossy(phone), &mut room)?;
        store.add_entry(lexicon, "a", "", list, false)
    });
    added.is_ok()
}
