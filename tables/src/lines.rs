//! Lines of a source file, read as `add_entries` reads a text of entries.

use crate::fault::Faults;

/// A line that is not blank: its number from 1 on, and its text before "#" without outer blanks.
#[derive(Debug, PartialEq, Eq)]
pub struct Line<'a> {
    pub number: usize,
    pub text: &'a str,
}

/// The blanks of 01: bytes 9 to 13 and 32.
pub fn is_blank(byte: char) -> bool {
    matches!(byte, '\u{9}'..='\u{d}' | ' ')
}

/// The fields of a text, between blanks.
pub fn fields(text: &str) -> Vec<&str> {
    text.split(is_blank).filter(|f| !f.is_empty()).collect()
}

/// The lines that are not blank. A byte of 128 or more is a fault, in a comment too.
pub fn read<'a>(bytes: &'a [u8], faults: &mut Faults) -> Vec<Line<'a>> {
    let mut lines = Vec::new();
    for (i, raw) in bytes.split(|&b| b == b'\n').enumerate() {
        match std::str::from_utf8(raw) {
            Ok(whole) if whole.is_ascii() => {
                let text = whole.split('#').next().unwrap_or("").trim_matches(is_blank);
                if !text.is_empty() {
                    let number = i + 1;
                    lines.push(Line { number, text });
                }
            }
            _ => faults.add(
                i + 1,
                "has a byte of 128 or more; write plain letters, no accents and no curly quotes",
            ),
        }
    }
    lines
}
