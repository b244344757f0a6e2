//! Lines of entries, as 01 reads them.

use crate::shrink;

/// The fields of a line that names an entry.
pub struct Fields<'a> {
    /// The first field as it stands; the word is it without its outer quote marks.
    pub first: &'a [u8],
    pub word: &'a [u8],
    pub tag: &'a [u8],
    /// The fields before the colon.
    pub count: usize,
    pub phones: Vec<&'a [u8]>,
}

/// What a line is.
pub enum Line<'a> {
    /// Skipped: blank, or a comment.
    Nothing,
    Entry(Fields<'a>),
    NoColon,
    NoWord,
}

pub fn is_blank(byte: &u8) -> bool {
    matches!(byte, 9..=13 | 32)
}

/// A line without its end.
pub fn read(line: &[u8]) -> Line<'_> {
    let line = line.split(|b| *b == b'#').next().unwrap_or_default();
    if line.iter().all(is_blank) {
        return Line::Nothing;
    }
    let Some(colon) = line.iter().position(|b| *b == b':') else {
        return Line::NoColon;
    };
    let head = fields(&line[..colon]);
    let Some(first) = head.first() else {
        return Line::NoWord;
    };
    Line::Entry(Fields {
        first,
        word: unquoted(first),
        tag: head.get(1).copied().unwrap_or_default(),
        count: head.len(),
        phones: fields(&line[colon + 1..]),
    })
}

/// The parts between blanks.
fn fields(text: &[u8]) -> Vec<&[u8]> {
    text.split(is_blank).filter(|part| !part.is_empty()).collect()
}

/// A field without the quote marks at its ends.
fn unquoted(mut field: &[u8]) -> &[u8] {
    while let [b'"', rest @ ..] | [rest @ .., b'"'] = field {
        field = rest;
    }
    field
}

/// Texts with lines left out, or bytes, for shrinking.
pub fn shorter(text: &[u8]) -> Vec<Vec<u8>> {
    let lines: Vec<&[u8]> = text.split_inclusive(|b| *b == b'\n').collect();
    let fewer = shrink::shorter(&lines).into_iter().map(|lines| lines.concat());
    fewer.chain(shrink::shorter(text)).collect()
}
