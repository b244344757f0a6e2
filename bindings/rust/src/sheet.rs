use core::fmt;
use core::iter::FusedIterator;

use crate::foreign;
use crate::items::{Chain, Items, PHONE, SOURCE, STRESS, SYLLABLE, VERSION, WORD};
use crate::phones::Stress;
use crate::refusal::Refused;
use crate::sections::{Letters, Lexicon, Source};
use crate::store::Store;
use crate::unsound;
use crate::version::SheetVersion;
use crate::{PHONE_BYTES, WORD_BYTES};

/// A sheet in lent bytes: the words said so far, with their syllables and phones.
///
/// Items have 64 bytes; the first keeps count, and each word, syllable and phone takes one. With 65,536 bytes
/// there are 1,023 of them.
///
/// ```
/// use pronouncer::{example, Sheet, SheetVersion, Store};
///
/// let (mut slots, mut items) = ([0; 512], [0; 64 * 64]);
/// let store = Store::new_store(&mut slots)?;
/// let mut sheet = Sheet::new_sheet(&mut items, SheetVersion::V2)?;
/// for word in ["lead", "cat"] {
///     sheet.say_word(&example::LEXICON, &example::LETTERS, &store, word, "")?;
/// }
///
/// for word in &sheet {
///     println!("{}", word.text());
///     for syllable in word.syllables() {
///         let phones: Vec<&str> = syllable.phones().collect();
///         println!("  {} with stress {}", phones.join(" "), syllable.stress());
///     }
/// }
/// assert_eq!(sheet.phones().collect::<Vec<&str>>(), ["l", "eh", "d", "k", "ae", "t"]);
/// assert_eq!(format!("{sheet:?}"), "[lead[l eh d 1], cat[k ae t 1]]");
/// # Ok::<(), pronouncer::Refused>(())
/// ```
pub struct Sheet<'a> {
    bytes: &'a mut [u8],
}

impl<'a> Sheet<'a> {
    /// Begins a sheet without words, in bytes that may hold anything. Only the first 64 are written. The version
    /// decides which stresses words have there.
    ///
    /// # Errors
    ///
    /// [`Unsound`](crate::Refusal::Unsound) if there are not 64 to 65,536 bytes.
    ///
    /// ```
    /// use pronouncer::{example, Sheet, SheetVersion, Store};
    ///
    /// let (mut slots, mut spare, mut items) = ([0; 1024], [0; 1024], [0; 64 * 64]);
    /// let mut store = Store::new_store(&mut slots)?;
    /// store.add_entries(&example::LEXICON, &mut spare, "limelight : l ay1 m l ay2 t")?;
    /// let mut said = |version| {
    ///     let mut sheet = Sheet::new_sheet(&mut items, version)?;
    ///     sheet.say_word(&example::LEXICON, &example::LETTERS, &store, "limelight", "")?;
    ///     Ok::<String, pronouncer::Refused>(format!("{sheet:?}"))
    /// };
    ///
    /// assert_eq!(said(SheetVersion::V2)?, "[limelight[l ay m 1, l ay t 2]]");
    /// // Version 1 knows no secondary stress, so "ay2" is no vowel there.
    /// assert_eq!(said(SheetVersion::V1)?, "[limelight[l ay m l ay2 t 1]]");
    /// # Ok::<(), pronouncer::Refused>(())
    /// ```
    pub fn new_sheet(bytes: &'a mut [u8], version: SheetVersion) -> Result<Sheet<'a>, Refused> {
        foreign::new_sheet(bytes, version.number()).accepted_on(|| unsound::in_sheet(bytes))?;
        Ok(Sheet { bytes })
    }

    /// Bytes that hold a sheet already. They are not looked at here: a call on bytes that are no sound sheet
    /// is refused with [`Unsound`](crate::Refusal::Unsound), as are sheets that an earlier library began.
    pub fn over(bytes: &'a mut [u8]) -> Sheet<'a> {
        Sheet { bytes }
    }

    /// The version that it was begun with; none where that is unknown, as it is on no sound sheet.
    ///
    /// ```
    /// use pronouncer::{Sheet, SheetVersion};
    ///
    /// let mut items = [0; 64 * 64];
    /// assert_eq!(Sheet::over(&mut items).version(), None);
    /// let sheet = Sheet::new_sheet(&mut items, SheetVersion::V2)?;
    /// assert_eq!(sheet.version(), Some(SheetVersion::V2));
    /// # Ok::<(), pronouncer::Refused>(())
    /// ```
    pub fn version(&self) -> Option<SheetVersion> {
        let number = u32::from(*self.bytes.get(VERSION)?);
        SheetVersion::try_from(number).ok()
    }

    /// Says a word: puts it last, with the phones that [`Lexicon::lookup`] finds, or else
    /// [`Letters::predict`] tells, cut into syllables; which digits are stresses the sheet's version decides.
    /// [`Said::place`] tells where the letters stopped, and [`Word::source`] of the word where its phones came from.
    ///
    /// # Errors
    ///
    /// [`Section`](crate::Refusal::Section) for any of the six, [`Unsound`](crate::Refusal::Unsound) for
    /// store or sheet, [`Text`](crate::Refusal::Text), [`Damaged`](crate::Refusal::Damaged),
    /// [`Phones`](crate::Refusal::Phones) for a compiled entry of over 96 phones,
    /// [`Short`](crate::Refusal::Short) where fewer items are unused than the word needs: one, one for each
    /// syllable and one for each phone.
    pub fn say_word(
        &mut self,
        lexicon: &Lexicon<'_>,
        letters: &Letters<'_>,
        store: &Store<'_>,
        word: impl AsRef<[u8]>,
        tag: impl AsRef<[u8]>,
    ) -> Result<Said, Refused> {
        let (word, tag) = (word.as_ref(), tag.as_ref());
        let (lexicon, letters) = (lexicon.sections(), letters.sections());
        let answer = foreign::say_word(lexicon, letters, store.bytes(), self.bytes, word, tag);
        let answer = answer.accepted_on(|| {
            unsound::in_store(store.bytes()).or_else(|| unsound::in_sheet(self.bytes))
        })?;
        Ok(Said { place: answer.place() })
    }

    /// Writes all phones of the sheet in order, with one blank between two, into `out`.
    ///
    /// # Errors
    ///
    /// [`Unsound`](crate::Refusal::Unsound), [`Short`](crate::Refusal::Short) where `out` has fewer bytes
    /// than the string.
    ///
    /// ```
    /// use pronouncer::{example, Sheet, SheetVersion, Store};
    ///
    /// let (mut slots, mut items, mut out) = ([0; 512], [0; 64 * 64], [0; 80]);
    /// let store = Store::new_store(&mut slots)?;
    /// let mut sheet = Sheet::new_sheet(&mut items, SheetVersion::V2)?;
    /// sheet.say_word(&example::LEXICON, &example::LETTERS, &store, "lead", "v")?;
    /// assert_eq!(sheet.phone_string(&mut out)?, "l iy d");
    /// # Ok::<(), pronouncer::Refused>(())
    /// ```
    pub fn phone_string<'o>(&self, out: &'o mut [u8]) -> Result<&'o str, Refused> {
        let answer = foreign::phone_string(self.bytes, out);
        let count = answer.accepted_on(|| unsound::in_sheet(self.bytes))?.count();
        // A sound sheet's texts are ASCII.
        Ok(core::str::from_utf8(&out[..count]).unwrap_or(""))
    }

    /// The words in order.
    ///
    /// Over bytes that are no sound sheet it gives what it can follow; it meets no item twice, so it ends.
    pub fn words(&self) -> Words<'_> {
        Words(Chain::children(Items::of(self.bytes), 0, WORD))
    }

    /// All phones in order, over all words, without their stress.
    pub fn phones(&self) -> Phones<'_> {
        Phones(Chain::phones(Items::of(self.bytes)))
    }

    /// The bytes.
    pub fn bytes(&self) -> &[u8] {
        self.bytes
    }

    /// Gives the bytes back.
    pub fn into_bytes(self) -> &'a mut [u8] {
        self.bytes
    }
}

/// The words in order.
impl<'s> IntoIterator for &'s Sheet<'_> {
    type Item = Word<'s>;
    type IntoIter = Words<'s>;

    fn into_iter(self) -> Words<'s> {
        self.words()
    }
}

/// What [`Sheet::say_word`] tells of a word that was said.
#[derive(Debug, Clone, Copy, PartialEq, Eq, Hash)]
pub struct Said {
    place: usize,
}

impl Said {
    /// Where the letters stopped, as [`Predicted::place`](crate::Predicted::place) tells it; 0 where the letters
    /// were not read, since the word was found whole. What stands from there on was said.
    ///
    /// ```
    /// use pronouncer::{example, Sheet, SheetVersion, Store};
    ///
    /// let (mut slots, mut items) = ([0; 512], [0; 64 * 64]);
    /// let store = Store::new_store(&mut slots)?;
    /// let mut sheet = Sheet::new_sheet(&mut items, SheetVersion::V2)?;
    /// let mut place = |word: &str| {
    ///     let said = sheet.say_word(&example::LEXICON, &example::LETTERS, &store, word, "")?;
    ///     Ok::<usize, pronouncer::Refused>(said.place())
    /// };
    ///
    /// let word = "tempo#two";
    /// assert_eq!(&word[place(word)?..], "two");
    /// assert_eq!(place("tempo")?, 0);
    /// // "#" is in the library's own table.
    /// assert_eq!(place("#")?, 0);
    /// # Ok::<(), pronouncer::Refused>(())
    /// ```
    pub fn place(&self) -> usize {
        self.place
    }
}

/// A word of a [`Sheet`].
#[derive(Clone, Copy)]
pub struct Word<'s> {
    items: Items<'s>,
    at: usize,
}

impl<'s> Word<'s> {
    /// The word as it was given.
    pub fn text(&self) -> &'s str {
        self.items.text(self.at, WORD_BYTES)
    }

    /// Where its phones came from when it was said: entries that are added later change nothing here. (A byte
    /// that is none, which no sound sheet has, is read as the letters, so that the word is checked.)
    ///
    /// ```
    /// use pronouncer::{example, Sheet, SheetVersion, Source, Store, WordSource};
    ///
    /// let (mut slots, mut items) = ([0; 512], [0; 64 * 64]);
    /// let store = Store::new_store(&mut slots)?;
    /// let mut sheet = Sheet::new_sheet(&mut items, SheetVersion::V2)?;
    /// for word in ["lead", "to", "gobo"] {
    ///     sheet.say_word(&example::LEXICON, &example::LETTERS, &store, word, "")?;
    /// }
    ///
    /// let lead = sheet.words().next().expect("it was said");
    /// assert_eq!(lead.source(), WordSource::Found(Source::Compiled));
    ///
    /// // Words to check before the show.
    /// let guessed = sheet.words().filter(|word| word.source() == WordSource::Letters);
    /// assert_eq!(guessed.map(|word| word.text()).collect::<Vec<&str>>(), ["gobo"]);
    /// # Ok::<(), pronouncer::Refused>(())
    /// ```
    pub fn source(&self) -> WordSource {
        let number = u32::from(self.items.byte(self.at, SOURCE));
        Source::of_number(number).map_or(WordSource::Letters, WordSource::Found)
    }

    /// Its syllables in order; none if it has no phones.
    pub fn syllables(&self) -> Syllables<'s> {
        Syllables(Chain::children(self.items, self.at, SYLLABLE))
    }
}

/// Where the phones of a [`Word`] came from.
///
/// ```
/// use pronouncer::{Source, WordSource};
///
/// assert_eq!(WordSource::Found(Source::Addenda).to_string(), "addenda");
/// assert_eq!(WordSource::Letters.to_string(), "letters");
/// ```
#[derive(Debug, Clone, Copy, PartialEq, Eq, Hash)]
#[non_exhaustive]
pub enum WordSource {
    /// From an entry, where [`Lexicon::lookup`] found it.
    Found(Source),
    /// From the letter trees: they are a guess.
    Letters,
}

impl WordSource {
    /// The library's number for it, the same in C and in the word's item.
    pub fn number(self) -> u32 {
        match self {
            WordSource::Found(source) => source.number(),
            WordSource::Letters => 4,
        }
    }
}

/// `runtime`, `addenda`, `compiled` or `letters`.
impl fmt::Display for WordSource {
    fn fmt(&self, f: &mut fmt::Formatter<'_>) -> fmt::Result {
        match self {
            WordSource::Found(source) => source.fmt(f),
            WordSource::Letters => f.write_str("letters"),
        }
    }
}

/// A syllable of a [`Word`].
#[derive(Clone, Copy)]
pub struct Syllable<'s> {
    items: Items<'s>,
    at: usize,
}

impl<'s> Syllable<'s> {
    /// Its stress; on a sheet of version 1 never [`Secondary`](Stress::Secondary). (A byte that is none, which no
    /// sound sheet has, is read as unstressed.)
    pub fn stress(&self) -> Stress {
        Stress::of_digit(self.items.byte(self.at, STRESS)).unwrap_or(Stress::Unstressed)
    }

    /// Its phones in order, without their stress.
    pub fn phones(&self) -> Phones<'s> {
        Phones(Chain::children(self.items, self.at, PHONE))
    }
}

/// The words of a [`Sheet`] in order.
#[derive(Clone)]
pub struct Words<'s>(Chain<'s>);

impl<'s> Iterator for Words<'s> {
    type Item = Word<'s>;

    fn next(&mut self) -> Option<Word<'s>> {
        let at = self.0.next()?;
        let items = self.0.items;
        Some(Word { items, at })
    }
}

impl FusedIterator for Words<'_> {}

/// The syllables of a [`Word`] in order.
#[derive(Clone)]
pub struct Syllables<'s>(Chain<'s>);

impl<'s> Iterator for Syllables<'s> {
    type Item = Syllable<'s>;

    fn next(&mut self) -> Option<Syllable<'s>> {
        let at = self.0.next()?;
        let items = self.0.items;
        Some(Syllable { items, at })
    }
}

impl FusedIterator for Syllables<'_> {}

/// The phones of a [`Syllable`], or of a whole [`Sheet`], in order.
#[derive(Clone)]
pub struct Phones<'s>(Chain<'s>);

impl<'s> Iterator for Phones<'s> {
    type Item = &'s str;

    fn next(&mut self) -> Option<&'s str> {
        let at = self.0.next()?;
        Some(self.0.items.text(at, PHONE_BYTES))
    }
}

impl FusedIterator for Phones<'_> {}

impl fmt::Debug for Sheet<'_> {
    fn fmt(&self, f: &mut fmt::Formatter<'_>) -> fmt::Result {
        self.words().fmt(f)
    }
}

impl fmt::Debug for Word<'_> {
    fn fmt(&self, f: &mut fmt::Formatter<'_>) -> fmt::Result {
        f.write_str(self.text())?;
        self.syllables().fmt(f)
    }
}

impl fmt::Debug for Syllable<'_> {
    fn fmt(&self, f: &mut fmt::Formatter<'_>) -> fmt::Result {
        for phone in self.phones() {
            write!(f, "{phone} ")?;
        }
        write!(f, "{}", self.stress())
    }
}

/// What is still to come.
impl fmt::Debug for Words<'_> {
    fn fmt(&self, f: &mut fmt::Formatter<'_>) -> fmt::Result {
        f.debug_list().entries(self.clone()).finish()
    }
}

/// What is still to come.
impl fmt::Debug for Syllables<'_> {
    fn fmt(&self, f: &mut fmt::Formatter<'_>) -> fmt::Result {
        f.debug_list().entries(self.clone()).finish()
    }
}

/// What is still to come.
impl fmt::Debug for Phones<'_> {
    fn fmt(&self, f: &mut fmt::Formatter<'_>) -> fmt::Result {
        f.debug_list().entries(self.clone()).finish()
    }
}
