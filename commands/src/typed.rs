//! Words as they are typed.

/// A word and its tag.
#[derive(Debug, Clone, PartialEq, Eq)]
pub struct Word {
    /// The word's bytes.
    pub text: Vec<u8>,
    /// The tag's bytes; none where no tag is typed.
    pub tag: Vec<u8>,
}

impl Word {
    /// A tag stands behind the first slash, where there is a word before it.
    pub fn typed(field: &[u8]) -> Word {
        let slash = field.iter().skip(1).position(|byte| *byte == b'/');
        let (text, tag) = match slash {
            Some(at) => (&field[..at + 1], &field[at + 2..]),
            None => (field, &field[..0]),
        };
        Word { text: text.to_vec(), tag: tag.to_vec() }
    }

    /// As it is typed.
    pub fn field(&self) -> Vec<u8> {
        if self.tag.is_empty() {
            self.text.clone()
        } else {
            [&self.text[..], b"/", &self.tag].concat()
        }
    }
}

/// What stands between blanks, which are the library's: the bytes 9 to 13 and 32.
pub fn fields(text: &[u8]) -> impl Iterator<Item = &[u8]> {
    text.split(|byte| matches!(byte, 9..=13 | b' ')).filter(|field| !field.is_empty())
}
