use core::fmt;
use core::iter::FusedIterator;
use core::slice::ChunksExact;

use crate::refusal::{Refusal, Refused};
use crate::{foreign, CELL_BYTES, PHONE_BYTES};

/// A phone list in lent bytes: cells of 16 bytes, a length and 15 bytes of text.
///
/// Lists that the library answers are `PhoneList`s over the output that was lent to it. One to hand in is
/// written from a text, or lent as it is:
///
/// ```
/// use pronouncer::{PhoneList, LIST_BYTES};
///
/// let mut room = [0; LIST_BYTES];
/// let phones = PhoneList::write("k ae1 t", &mut room)?;
/// assert_eq!(phones.len(), 3);
/// assert_eq!(phones.iter().collect::<Vec<&str>>(), ["k", "ae1", "t"]);
/// assert_eq!(phones.to_string(), "k ae1 t");
/// # Ok::<(), pronouncer::Refused>(())
/// ```
#[derive(Clone, Copy)]
pub struct PhoneList<'a> {
    cells: &'a [u8],
}

impl<'a> PhoneList<'a> {
    /// Any bytes, read as cells; a remainder behind the last whole cell is ignored.
    pub fn from_cells(cells: &'a [u8]) -> PhoneList<'a> {
        PhoneList { cells }
    }

    /// Writes the phones of a text, which stand between blanks, into lent bytes, 16 a phone.
    ///
    /// # Errors
    ///
    /// With the bytes left as they were: [`Text`](Refusal::Text) for a text that is not ASCII,
    /// [`Phones`](Refusal::Phones) for a phone over 15 bytes, [`Short`](Refusal::Short) where the bytes are
    /// too few.
    pub fn write(text: &str, room: &'a mut [u8]) -> Result<PhoneList<'a>, Refused> {
        let phones = text.split_ascii_whitespace();
        if !text.is_ascii() {
            return Err(Refusal::Text.into());
        }
        if phones.clone().any(|phone| phone.len() > PHONE_BYTES) {
            return Err(Refusal::Phones.into());
        }
        let count = phones.clone().count();
        if room.len() / CELL_BYTES < count {
            return Err(Refusal::Short.into());
        }
        for (cell, phone) in room.chunks_exact_mut(CELL_BYTES).zip(phones) {
            cell.fill(0);
            cell[0] = phone.len() as u8;
            cell[1..=phone.len()].copy_from_slice(phone.as_bytes());
        }
        Ok(PhoneList { cells: &room[..CELL_BYTES * count] })
    }

    /// The cells.
    pub fn cells(&self) -> &'a [u8] {
        self.cells
    }

    /// How many phones there are.
    pub fn len(&self) -> usize {
        self.cells.len() / CELL_BYTES
    }

    /// Whether there is no phone.
    pub fn is_empty(&self) -> bool {
        self.len() == 0
    }

    /// The phones' texts in order. In bytes that no call would accept, a text ends before what is not UTF-8.
    pub fn iter(&self) -> ListedPhones<'a> {
        ListedPhones(self.cells.chunks_exact(CELL_BYTES))
    }

    /// Marks where syllables end: a byte for each phone, 1 behind the last of a syllable, else 0. The marks
    /// are the first bytes of those lent.
    ///
    /// The phones are bare, without stress: see [`split_stress`].
    ///
    /// # Errors
    ///
    /// [`Text`](Refusal::Text), [`Phones`](Refusal::Phones) for over 96 phones or a phone over 15 bytes,
    /// [`Short`](Refusal::Short) where the bytes lent for the marks are too few.
    ///
    /// ```
    /// use pronouncer::PhoneList;
    ///
    /// let (mut room, mut marks) = ([0; 96], [0; 6]);
    /// let extra = PhoneList::write("eh k s t r ax", &mut room)?;
    /// assert_eq!(extra.syllabify(&mut marks)?, [0, 1, 0, 0, 0, 1]);
    /// # Ok::<(), pronouncer::Refused>(())
    /// ```
    pub fn syllabify<'m>(&self, marks: &'m mut [u8]) -> Result<&'m [u8], Refused> {
        let count = foreign::syllabify(self.cells, marks).accepted()?.count();
        Ok(&marks[..count])
    }
}

/// The phones' texts in order.
impl<'a> IntoIterator for &PhoneList<'a> {
    type Item = &'a str;
    type IntoIter = ListedPhones<'a>;

    fn into_iter(self) -> ListedPhones<'a> {
        self.iter()
    }
}

/// The texts of the phones of a [`PhoneList`] in order.
#[derive(Clone)]
pub struct ListedPhones<'a>(ChunksExact<'a, u8>);

impl<'a> Iterator for ListedPhones<'a> {
    type Item = &'a str;

    fn next(&mut self) -> Option<&'a str> {
        let cell = self.0.next()?;
        Some(text(&cell[1..], cell[0], PHONE_BYTES))
    }

    fn size_hint(&self) -> (usize, Option<usize>) {
        self.0.size_hint()
    }
}

impl ExactSizeIterator for ListedPhones<'_> {}

impl FusedIterator for ListedPhones<'_> {}

/// What is still to come.
impl fmt::Debug for ListedPhones<'_> {
    fn fmt(&self, f: &mut fmt::Formatter<'_>) -> fmt::Result {
        f.debug_list().entries(self.clone()).finish()
    }
}

/// The phones with a blank between two.
impl fmt::Display for PhoneList<'_> {
    fn fmt(&self, f: &mut fmt::Formatter<'_>) -> fmt::Result {
        for (place, phone) in self.iter().enumerate() {
            f.write_str(if place > 0 { " " } else { "" })?;
            f.write_str(phone)?;
        }
        Ok(())
    }
}

impl fmt::Debug for PhoneList<'_> {
    fn fmt(&self, f: &mut fmt::Formatter<'_>) -> fmt::Result {
        self.iter().fmt(f)
    }
}

/// How a syllable, or a vowel, is stressed. It says its digit.
///
/// ```
/// use pronouncer::Stress;
///
/// let all = [Stress::Unstressed, Stress::Stressed, Stress::Secondary];
/// assert_eq!(all.map(|stress| stress.to_string()), ["0", "1", "2"]);
/// ```
#[derive(Debug, Clone, Copy, PartialEq, Eq, Hash)]
#[non_exhaustive]
pub enum Stress {
    /// "0"
    Unstressed,
    /// "1": the primary stress.
    Stressed,
    /// "2": the secondary stress, which a sheet of version 1 does not have.
    Secondary,
}

impl Stress {
    /// The digit behind a phone, and of a syllable on the sheet: `'0'`, `'1'` or `'2'`.
    pub fn digit(self) -> char {
        match self {
            Stress::Unstressed => '0',
            Stress::Stressed => '1',
            Stress::Secondary => '2',
        }
    }

    pub(crate) fn of_digit(digit: u8) -> Option<Stress> {
        match digit {
            b'0' => Some(Stress::Unstressed),
            b'1' => Some(Stress::Stressed),
            b'2' => Some(Stress::Secondary),
            _ => None,
        }
    }
}

impl fmt::Display for Stress {
    fn fmt(&self, f: &mut fmt::Formatter<'_>) -> fmt::Result {
        self.digit().fmt(f)
    }
}

/// Whether a phone is a vowel; an unknown one is a consonant. Beyond the fifteen calls.
///
/// ```
/// assert!(pronouncer::is_vowel("ae"));
/// assert!(!pronouncer::is_vowel("t"));
/// assert!(!pronouncer::is_vowel("ae1"));
/// ```
pub fn is_vowel(phone: &str) -> bool {
    foreign::is_vowel(phone.as_bytes()).kind == 1
}

/// A phone without its stress, and the stress: the last "0" or "1", if it has one. So it is by version 1 of a
/// sheet: a "2" stays. Beyond the fifteen calls.
///
/// ```
/// use pronouncer::{split_stress, Stress};
///
/// assert_eq!(split_stress("ae1"), ("ae", Some(Stress::Stressed)));
/// assert_eq!(split_stress("ae2"), ("ae2", None));
/// ```
pub fn split_stress(phone: &str) -> (&str, Option<Stress>) {
    let answer = foreign::split_stress(phone.as_bytes());
    let stress = u8::try_from(answer.kind).ok().and_then(Stress::of_digit);
    (phone.get(..answer.count()).unwrap_or(phone), stress)
}

/// A text with its length beside it, `most` bytes at most, up to the first that is not UTF-8.
pub(crate) fn text(bytes: &[u8], length: u8, most: usize) -> &str {
    let text = &bytes[..usize::from(length).min(most)];
    core::str::from_utf8(text)
        .or_else(|fault| core::str::from_utf8(&text[..fault.valid_up_to()]))
        .unwrap_or("")
}
