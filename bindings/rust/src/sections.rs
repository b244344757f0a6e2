use core::fmt;

use crate::phones::PhoneList;
use crate::refusal::Refused;
use crate::store::Store;
use crate::{foreign, unsound, CELL_BYTES};

/// The three sections of a compiled lexicon. They may hold any bytes; each call sees for itself that it can
/// read them.
#[derive(Clone, Copy)]
pub struct Lexicon<'a> {
    /// lex.phones: the phones that entries name by number.
    pub phones: &'a [u8],
    /// lex.index: where in lex.data each entry stands.
    pub index: &'a [u8],
    /// lex.data: the entries, in the order of their words.
    pub data: &'a [u8],
}

/// The three sections of the letter trees, which tell the phones of a word that nobody wrote down.
#[derive(Clone, Copy)]
pub struct Letters<'a> {
    /// lts.phones: the phones that leaves name by number.
    pub phones: &'a [u8],
    /// lts.index: the first node of each letter.
    pub index: &'a [u8],
    /// lts.model: the nodes.
    pub model: &'a [u8],
}

/// The two sections that tell whether a word can be said or must be spelled.
#[derive(Clone, Copy)]
pub struct Sayable<'a> {
    /// aswd.p: read forwards.
    pub prefix: &'a [u8],
    /// aswd.s: read backwards.
    pub suffix: &'a [u8],
}

/// Where a pronunciation was found. A word of a sheet has a [`WordSource`](crate::WordSource), since it may have been
/// found nowhere.
///
/// ```
/// assert_eq!(pronouncer::Source::Runtime.to_string(), "runtime");
/// ```
#[derive(Debug, Clone, Copy, PartialEq, Eq, Hash)]
#[non_exhaustive]
pub enum Source {
    /// In the store, where it was added.
    Runtime,
    /// In the library's own short table.
    Addenda,
    /// In the lexicon's sections.
    Compiled,
}

impl Source {
    /// The library's number for it, the same in C.
    pub fn number(self) -> u32 {
        match self {
            Source::Runtime => 1,
            Source::Addenda => 2,
            Source::Compiled => 3,
        }
    }

    pub(crate) fn of_number(number: u32) -> Option<Source> {
        match number {
            1 => Some(Source::Runtime),
            2 => Some(Source::Addenda),
            3 => Some(Source::Compiled),
            _ => None,
        }
    }
}

/// `runtime`, `addenda` or `compiled`.
impl fmt::Display for Source {
    fn fmt(&self, f: &mut fmt::Formatter<'_>) -> fmt::Result {
        f.write_str(match self {
            Source::Runtime => "runtime",
            Source::Addenda => "addenda",
            Source::Compiled => "compiled",
        })
    }
}

/// A pronunciation that was found.
#[derive(Debug, Clone, Copy)]
pub struct Found<'o> {
    /// Where it was found.
    pub source: Source,
    /// Its phones, with their stress, in the bytes that were lent for them.
    pub phones: PhoneList<'o>,
}

/// What a word's letters told: its phones, and where the letters stopped.
#[derive(Debug, Clone, Copy)]
pub struct Predicted<'o> {
    phones: PhoneList<'o>,
    place: usize,
}

impl<'o> Predicted<'o> {
    /// The phones, with their stress, in the bytes that were lent for them.
    pub fn phones(&self) -> PhoneList<'o> {
        self.phones
    }

    /// The place just after the last "#" in the word as given, counted in bytes from 0; 0 if there is none. The
    /// letters from there on gave the phones. It is at most the word's length.
    ///
    /// ```
    /// use pronouncer::{example, LIST_BYTES};
    ///
    /// let (word, mut out) = ("tempo#two", [0; LIST_BYTES]);
    /// let predicted = example::LETTERS.predict(word, &mut out)?;
    /// assert_eq!((predicted.place(), predicted.phones().to_string()), (6, "t w ow1".into()));
    /// assert_eq!(word.split_at(predicted.place()), ("tempo#", "two"));
    ///
    /// assert_eq!(example::LETTERS.predict("two", &mut out)?.place(), 0);
    /// # Ok::<(), pronouncer::Refused>(())
    /// ```
    pub fn place(&self) -> usize {
        self.place
    }
}

impl<'a> Lexicon<'a> {
    /// Whether the lexicon is whole: no entry is damaged, every phone number has a phone, and the words are
    /// in the order of their bytes. Ask it once of tables that somebody else made; without it each call still
    /// sees damage where it meets it.
    ///
    /// # Errors
    ///
    /// [`Section`](crate::Refusal::Section).
    ///
    /// ```
    /// use pronouncer::{example, Lexicon, Refusal};
    ///
    /// assert!(example::LEXICON.check_lexicon()?);
    ///
    /// let cut_off = Lexicon { data: b"n\x03ca", ..example::LEXICON };
    /// assert!(!cut_off.check_lexicon()?);
    ///
    /// let no_index = Lexicon { index: b"", ..example::LEXICON };
    /// assert_eq!(no_index.check_lexicon().unwrap_err().refusal, Refusal::Section);
    /// # Ok::<(), pronouncer::Refused>(())
    /// ```
    pub fn check_lexicon(&self) -> Result<bool, Refused> {
        let answer = foreign::check_lexicon(self.sections()).accepted()?;
        Ok(answer.kind == 1)
    }

    /// Looks a word up: in the store, then in the library's own table, then in the lexicon. The phones are
    /// written into `out`, 16 bytes each; [`LIST_BYTES`](crate::LIST_BYTES) are enough for every word.
    ///
    /// The store gives the oldest exact entry that matches, else the oldest ordinary one. An exact entry matches
    /// its own bytes; an ordinary one takes "Cat" for "cat", as table and lexicon do not.
    ///
    /// Of a tag the first byte counts, and none is "0". An entry of the store or of the library's table matches
    /// only if the tags agree or either is "0"; the lexicon gives the entry of that tag, else its first of that
    /// word.
    ///
    /// # Errors
    ///
    /// [`Section`](crate::Refusal::Section), [`Unsound`](crate::Refusal::Unsound) for the store,
    /// [`Text`](crate::Refusal::Text), [`Damaged`](crate::Refusal::Damaged),
    /// [`Phones`](crate::Refusal::Phones) for a compiled entry of over 96 phones,
    /// [`Short`](crate::Refusal::Short) for `out`.
    ///
    /// ```
    /// use pronouncer::{example, Source, Store, LIST_BYTES};
    ///
    /// let (mut slots, mut out) = ([0; 512], [0; LIST_BYTES]);
    /// let store = Store::new_store(&mut slots)?;
    ///
    /// let verb = example::LEXICON.lookup(&store, "lead", "v", &mut out)?.expect("it is there");
    /// assert_eq!((verb.source, verb.phones.to_string()), (Source::Compiled, "l iy1 d".into()));
    ///
    /// assert!(example::LEXICON.lookup(&store, "tormentor", "", &mut out)?.is_none());
    /// # Ok::<(), pronouncer::Refused>(())
    /// ```
    pub fn lookup<'o>(
        &self,
        store: &Store<'_>,
        word: impl AsRef<[u8]>,
        tag: impl AsRef<[u8]>,
        out: &'o mut [u8],
    ) -> Result<Option<Found<'o>>, Refused> {
        let (word, tag) = (word.as_ref(), tag.as_ref());
        let answer = foreign::lookup(self.sections(), store.bytes(), word, tag, out)
            .accepted_on(|| unsound::in_store(store.bytes()))?;
        Ok(Source::of_number(answer.kind).map(|source| Found {
            source,
            phones: PhoneList::from_cells(&out[..CELL_BYTES * answer.count()]),
        }))
    }

    pub(crate) fn sections(&self) -> [&'a [u8]; 3] {
        [self.phones, self.index, self.data]
    }
}

impl<'a> Letters<'a> {
    /// Tells a word's phones from its letters. They are written into `out`, 16 bytes each; 94 phones are the
    /// most.
    ///
    /// Only the letters behind the word's last "#" give phones; where that is, [`Predicted::place`] tells. The
    /// bytes before it are still neighbours of the first letters, so "tempo#two" may have other phones than
    /// "two".
    ///
    /// # Errors
    ///
    /// [`Section`](crate::Refusal::Section), [`Text`](crate::Refusal::Text),
    /// [`Damaged`](crate::Refusal::Damaged), [`Short`](crate::Refusal::Short).
    ///
    /// ```
    /// use pronouncer::{example, LIST_BYTES};
    ///
    /// let mut out = [0; LIST_BYTES];
    /// assert_eq!(example::LETTERS.predict("Tab", &mut out)?.phones().to_string(), "t ae1 b");
    /// # Ok::<(), pronouncer::Refused>(())
    /// ```
    pub fn predict<'o>(
        &self,
        word: impl AsRef<[u8]>,
        out: &'o mut [u8],
    ) -> Result<Predicted<'o>, Refused> {
        let answer = foreign::predict(self.sections(), word.as_ref(), out).accepted()?;
        let phones = PhoneList::from_cells(&out[..CELL_BYTES * answer.count()]);
        Ok(Predicted { phones, place: answer.place() })
    }

    pub(crate) fn sections(&self) -> [&'a [u8]; 3] {
        [self.phones, self.index, self.model]
    }
}

impl Sayable<'_> {
    /// Whether a word can be said as one; else it is better spelled letter by letter.
    ///
    /// # Errors
    ///
    /// [`Section`](crate::Refusal::Section), [`Text`](crate::Refusal::Text).
    ///
    /// ```
    /// use pronouncer::example;
    ///
    /// assert!(example::SAYABLE.is_sayable("Gobo")?);
    /// assert!(!example::SAYABLE.is_sayable("LX7")?);
    /// # Ok::<(), pronouncer::Refused>(())
    /// ```
    pub fn is_sayable(&self, word: impl AsRef<[u8]>) -> Result<bool, Refused> {
        let answer = foreign::is_sayable(self.prefix, self.suffix, word.as_ref()).accepted()?;
        Ok(answer.kind == 1)
    }
}

/// Writes sections by their lengths.
fn lengths(f: &mut fmt::Formatter<'_>, name: &str, sections: &[(&str, &[u8])]) -> fmt::Result {
    let mut told = f.debug_struct(name);
    for (field, section) in sections {
        told.field(field, &format_args!("{} bytes", section.len()));
    }
    told.finish()
}

impl fmt::Debug for Lexicon<'_> {
    fn fmt(&self, f: &mut fmt::Formatter<'_>) -> fmt::Result {
        let sections = [("phones", self.phones), ("index", self.index), ("data", self.data)];
        lengths(f, "Lexicon", &sections)
    }
}

impl fmt::Debug for Letters<'_> {
    fn fmt(&self, f: &mut fmt::Formatter<'_>) -> fmt::Result {
        let sections = [("phones", self.phones), ("index", self.index), ("model", self.model)];
        lengths(f, "Letters", &sections)
    }
}

impl fmt::Debug for Sayable<'_> {
    fn fmt(&self, f: &mut fmt::Formatter<'_>) -> fmt::Result {
        let sections = [("prefix", self.prefix), ("suffix", self.suffix)];
        lengths(f, "Sayable", &sections)
    }
}
