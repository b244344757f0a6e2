use core::error::Error;
use core::fmt;

use crate::unsound::Unsound;

/// Why a call was refused. Where several apply, the first in rank order is told; `docs/FORMATS.md` has the
/// order.
///
/// ```
/// use pronouncer::Refusal;
///
/// assert_eq!(Refusal::Full.number(), 8);
/// assert_eq!(Refusal::Full.cause(), "the store has no unused slot and no entry that the new one replaces");
/// assert!(Refusal::Full.cure().starts_with("lend a longer store"));
/// ```
#[derive(Debug, Clone, Copy, PartialEq, Eq, Hash)]
#[non_exhaustive]
pub enum Refusal {
    /// 1: a section breaks its form.
    Section,
    /// 2: a store or sheet has a wrong length or is not sound, settings have a wrong length, the spare's length is
    /// not the store's, or a spare to be accepted is not a sound store.
    Unsound,
    /// 3: a word or tag is over 47 bytes, or a text has a byte of 128 or more.
    Text,
    /// 4: an entry line has no colon, or no word before it.
    Line,
    /// 5: a phone to be added is neither in lex.phones nor one of the 50.
    UnknownPhone,
    /// 6: the compiled entry that was read, or the letter tree that was walked, is damaged.
    Damaged,
    /// 7: a phone list has over 96 phones or a phone over 15 bytes, or an entry over 24 phones.
    Phones,
    /// 8: the store has neither an unused slot nor an entry that the new one replaces.
    Full,
    /// 9: the sheet has too few unused items, or an output is too short.
    Short,
    /// 12: the spare to be accepted was filled from the store as it was before something else was accepted, or from
    /// a text that stopped at a line; or the store's count is the largest.
    Count,
    /// 15: a version is not known: that of a sheet to begin, of settings or of their reader.
    Version,
    /// 16: the settings' records break their form, or a setting to be written is unknown or has no record.
    Records,
    /// 17: a known setting, a value to be written or the show's stretch is of the wrong kind or out of range.
    Range,
    /// A number that this crate does not know: the library is a later one.
    Other(u32),
}

impl Refusal {
    /// The library's number for it, the same in C.
    pub fn number(self) -> u32 {
        match self {
            Refusal::Section => 1,
            Refusal::Unsound => 2,
            Refusal::Text => 3,
            Refusal::Line => 4,
            Refusal::UnknownPhone => 5,
            Refusal::Damaged => 6,
            Refusal::Phones => 7,
            Refusal::Full => 8,
            Refusal::Short => 9,
            Refusal::Count => 12,
            Refusal::Version => 15,
            Refusal::Records => 16,
            Refusal::Range => 17,
            Refusal::Other(number) => number,
        }
    }

    pub(crate) fn of_number(number: u32) -> Refusal {
        match number {
            1 => Refusal::Section,
            2 => Refusal::Unsound,
            3 => Refusal::Text,
            4 => Refusal::Line,
            5 => Refusal::UnknownPhone,
            6 => Refusal::Damaged,
            7 => Refusal::Phones,
            8 => Refusal::Full,
            9 => Refusal::Short,
            12 => Refusal::Count,
            15 => Refusal::Version,
            16 => Refusal::Records,
            17 => Refusal::Range,
            other => Refusal::Other(other),
        }
    }

    /// What is wrong.
    pub fn cause(self) -> &'static str {
        match self {
            Refusal::Section => "a section breaks its form",
            Refusal::Unsound => {
                "a store or sheet has a wrong length or is not sound, settings have a wrong length, \
                 the spare is not as long as the store, or a spare to be accepted is not a sound store"
            }
            Refusal::Text => "a word or tag is over 47 bytes, or a text has a byte of 128 or more",
            Refusal::Line => "the line has no colon, or no word before it",
            Refusal::UnknownPhone => "a phone is neither in lex.phones nor one of the 50",
            Refusal::Damaged => "the lexicon's entry or the letter tree for this word is damaged",
            Refusal::Phones => {
                "a phone list has over 96 phones or a phone over 15 bytes, or an entry has over 24 phones"
            }
            Refusal::Full => "the store has no unused slot and no entry that the new one replaces",
            Refusal::Short => "the sheet has too few unused items, or the output is too short",
            Refusal::Count => {
                "the spare was filled from the store as it was before something else was accepted, \
                 or from a text that stopped at a line, or the store's count is the largest"
            }
            Refusal::Version => {
                "a version is not known: that of a sheet to begin, of settings or of their reader"
            }
            Refusal::Records => {
                "the settings have an index outside, a circle, a name twice or a length or kind out of range, \
                 or the setting to write is unknown to that version or has no record"
            }
            Refusal::Range => {
                "a known setting, the value to write or the show's stretch is of the wrong kind or out of range"
            }
            Refusal::Other(_) => "the library gave a number that this crate does not know",
        }
    }

    /// What to do.
    pub fn cure(self) -> &'static str {
        match self {
            Refusal::Section => {
                "hand over each section singly, whole and in its place, as docs/FORMATS.md lays it out"
            }
            Refusal::Unsound => {
                "lend a store of 512 to 65,536 bytes, a multiple of 512, or a sheet of 64 to 65,536, \
                 begin it with new_store or new_sheet, and let only calls write it; \
                 lend settings of 32 to 65,536 bytes, and a spare as long as the store"
            }
            Refusal::Text => "write it shorter, or in ASCII",
            Refusal::Line => "write WORD TAG : PHONE PHONE, or begin the line with # if it is a remark",
            Refusal::UnknownPhone => {
                "spell each phone as lex.phones does, with a blank between two"
            }
            Refusal::Damaged => {
                "take a whole copy of the tables; until then add the word to the store, which is read first"
            }
            Refusal::Phones => "hand over fewer or shorter phones",
            Refusal::Full => {
                "lend a longer store with these bytes in front: 512 bytes an entry, 127 entries at most"
            }
            Refusal::Short => {
                "begin a new sheet, or lend more bytes: 64 for each word, syllable and phone of a sheet, \
                 16 a phone, 1 a mark, 1 a character"
            }
            Refusal::Count => {
                "preview the text again; where the store's count is the largest, \
                 begin a new store and add its entries again"
            }
            Refusal::Version => {
                "begin a sheet with version 1 or 2, and ask for settings with 1 or 2; \
                 settings of another version are read by the library that has it, \
                 or written anew as docs/FORMATS.md lays them out"
            }
            Refusal::Records => {
                "where the records are at fault write new settings as docs/FORMATS.md lays them out; \
                 else write a setting that the version knows and that has a record: no call adds one"
            }
            Refusal::Range => {
                "hand over pitch as a whole number of 50 to 400, stretch as a float of 0.25 to 4.0, \
                 level as a whole number of 0 to 100; where the settings hold another value \
                 no write mends them: write new settings as docs/FORMATS.md lays them out"
            }
            Refusal::Other(_) => "build this crate and libpronouncer.a from one checkout",
        }
    }
}

/// A refused call: why, and in which line. It says what is wrong and what to do. Nothing that was lent to the
/// call was altered, but for the spare of [`Store::add_entries`](crate::Store::add_entries) and
/// [`Store::preview_entries`](crate::Store::preview_entries) where a line is at fault.
///
/// ```
/// use pronouncer::{example, Refusal, Store};
///
/// let (mut slots, mut spare) = ([0; 512], [0; 512]);
/// let mut store = Store::new_store(&mut slots)?;
/// let refused = store.add_entries(&example::LEXICON, &mut spare, "# names\niris ay1 r ih0 s").unwrap_err();
/// assert_eq!((refused.refusal, refused.line), (Refusal::Line, 2));
/// assert_eq!(
///     refused.to_string(),
///     "line 2: the line has no colon, or no word before it (refusal 4); \
///      write WORD TAG : PHONE PHONE, or begin the line with # if it is a remark"
/// );
/// # Ok::<(), pronouncer::Refused>(())
/// ```
#[derive(Debug, Clone, Copy, PartialEq, Eq, Hash)]
#[non_exhaustive]
pub struct Refused {
    /// Why.
    pub refusal: Refusal,
    /// The line of the text of entries that is at fault, counted from 1; 0 where no line is.
    pub line: usize,
    /// Of a refusal by [`Unsound`](Refusal::Unsound), which cause it has.
    pub unsound: Option<Unsound>,
}

/// Without a line.
impl From<Refusal> for Refused {
    fn from(refusal: Refusal) -> Refused {
        Refused { refusal, line: 0, unsound: None }
    }
}

impl fmt::Display for Refused {
    fn fmt(&self, f: &mut fmt::Formatter<'_>) -> fmt::Result {
        if self.line > 0 {
            write!(f, "line {}: ", self.line)?;
        }
        match self.unsound {
            Some(unsound) => unsound.fmt(f)?,
            None => f.write_str(self.refusal.cause())?,
        }
        let cure = match self.unsound {
            Some(unsound) => unsound.cure(),
            None => self.refusal.cure(),
        };
        write!(f, " (refusal {}); {cure}", self.refusal.number())
    }
}

impl Error for Refused {}
