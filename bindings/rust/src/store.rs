use core::fmt;

use crate::entries::{Entries, Entry};
use crate::phones::PhoneList;
use crate::preview::Preview;
use crate::refusal::Refused;
use crate::sections::Lexicon;
use crate::{foreign, unsound};

/// The place of the count.
const COUNT: usize = 8;

/// The entries added at run time, in lent bytes: slots of 512 bytes, of which the first has no entry. With
/// 65,536 bytes there is room for 127 entries.
///
/// The bytes are all there is to a store. They may be kept in a file and lent again with [`Store::over`],
/// also in front of more bytes, which then are unused slots.
///
/// ```
/// use pronouncer::{example, PhoneList, Store, LIST_BYTES};
///
/// let (mut slots, mut room, mut out) = ([0; 4 * 512], [0; LIST_BYTES], [0; LIST_BYTES]);
/// let mut store = Store::new_store(&mut slots)?;
/// store.add_entry(&example::LEXICON, "Dimmer", "n", PhoneList::write("d ih1 m er0", &mut room)?, false)?;
///
/// let found = example::LEXICON.lookup(&store, "dimmer", "", &mut out)?.expect("it was added");
/// assert_eq!(found.phones.to_string(), "d ih1 m er0");
///
/// assert_eq!(store.len(), 1);
/// for entry in &store {
///     println!("{} {} : {}", entry.word, entry.tag, entry.phones);
/// }
/// assert_eq!(format!("{store:?}"), "[dimmer n : d ih1 m er0]");
/// # Ok::<(), pronouncer::Refused>(())
/// ```
pub struct Store<'a> {
    bytes: &'a mut [u8],
}

impl<'a> Store<'a> {
    /// Begins a store without entries, in bytes that may hold anything. Only the first 512 are written.
    ///
    /// # Errors
    ///
    /// [`Unsound`](crate::Refusal::Unsound) if the length is not a multiple of 512 from 512 to 65,536.
    pub fn new_store(bytes: &'a mut [u8]) -> Result<Store<'a>, Refused> {
        foreign::new_store(bytes).accepted_on(|| unsound::in_store(bytes))?;
        Ok(Store { bytes })
    }

    /// Bytes that hold a store already. They are not looked at here: a call on bytes that are no sound store
    /// is refused with [`Unsound`](crate::Refusal::Unsound).
    pub fn over(bytes: &'a mut [u8]) -> Store<'a> {
        Store { bytes }
    }

    /// Adds an entry behind the others, exact or ordinary. An exact one keeps its word as it is, and matches only
    /// the same bytes; an ordinary one keeps it in small letters, and takes capitals for them. Where both match, the
    /// exact one is found. Of a tag the first byte counts; none, and "nil", are "0".
    ///
    /// An entry of the same key goes: the word as it is kept, the tag, and whether it is exact. So `polish`, exact
    /// `polish` and exact `Polish` stand beside each other.
    ///
    /// Entries whose words differ in more than capitals may be added in any order: no word that is looked up or said
    /// then tells which came first.
    ///
    /// # Errors
    ///
    /// [`Section`](crate::Refusal::Section) for lex.phones, [`Unsound`](crate::Refusal::Unsound),
    /// [`Count`](crate::Refusal::Count) where the store's count is the largest, [`Text`](crate::Refusal::Text),
    /// [`UnknownPhone`](crate::Refusal::UnknownPhone), [`Phones`](crate::Refusal::Phones) for over 24 phones,
    /// [`Full`](crate::Refusal::Full).
    ///
    /// ```
    /// use pronouncer::{example, PhoneList, Refused, Store, LIST_BYTES};
    ///
    /// let mut slots = [0; 8 * 512];
    /// let mut store = Store::new_store(&mut slots)?;
    /// let mut add = |word, phones, exact| {
    ///     let mut room = [0; LIST_BYTES];
    ///     store.add_entry(&example::LEXICON, word, "", PhoneList::write(phones, &mut room)?, exact)
    /// };
    /// add("polish", "p ao1 l ih0 sh", false)?;
    /// add("Polish", "p ow1 l ih0 sh", true)?;
    ///
    /// let said = |word| -> Result<String, Refused> {
    ///     let mut out = [0; LIST_BYTES];
    ///     let found = example::LEXICON.lookup(&store, word, "", &mut out)?;
    ///     Ok(found.expect("it was added").phones.to_string())
    /// };
    /// assert_eq!(said("Polish")?, "p ow1 l ih0 sh");
    /// assert_eq!(said("polish")?, "p ao1 l ih0 sh");
    /// assert_eq!(said("POLISH")?, "p ao1 l ih0 sh");
    ///
    /// assert_eq!(
    ///     format!("{store:?}"),
    ///     "[polish 0 : p ao1 l ih0 sh, Polish 0 : p ow1 l ih0 sh # exact]"
    /// );
    /// # Ok::<(), pronouncer::Refused>(())
    /// ```
    pub fn add_entry(
        &mut self,
        lexicon: &Lexicon<'_>,
        word: impl AsRef<[u8]>,
        tag: impl AsRef<[u8]>,
        phones: PhoneList<'_>,
        exact: bool,
    ) -> Result<(), Refused> {
        let (word, tag) = (word.as_ref(), tag.as_ref());
        foreign::add_entry(lexicon.phones, self.bytes, word, tag, phones.cells(), exact)
            .accepted_on(|| unsound::in_store(self.bytes))?;
        Ok(())
    }

    /// Adds a text of entries, one a line, and tells how many lines it took: all entry lines, or none. It is
    /// [`preview_entries`](Store::preview_entries) and [`Preview::accept`] together.
    ///
    /// A line is `WORD TAG : PHONE PHONE`; the tag may be missing, what stands behind a "#" is a remark, and
    /// a line without anything else is skipped. Every line makes an ordinary entry, and exact ones stay as they are.
    /// The spare is as long as the store. After success the two differ in the count only. Where a line is faulty, the
    /// store stays as it was and the spare shows how far the text came: it holds the store with the lines before, and
    /// the largest count.
    ///
    /// # Errors
    ///
    /// With line 0, and then the spare too is left as it was: [`Section`](crate::Refusal::Section),
    /// [`Unsound`](crate::Refusal::Unsound), also for the spare's length, [`Count`](crate::Refusal::Count) where
    /// the store's count is the largest, [`Text`](crate::Refusal::Text) for a byte of 128 or more anywhere. With
    /// the first faulty line: [`Text`](crate::Refusal::Text) for a word or tag over 47 bytes,
    /// [`Line`](crate::Refusal::Line), [`UnknownPhone`](crate::Refusal::UnknownPhone),
    /// [`Phones`](crate::Refusal::Phones), [`Full`](crate::Refusal::Full).
    ///
    /// ```
    /// use pronouncer::{example, Refusal, Store};
    ///
    /// let (mut slots, mut spare) = ([0; 8 * 512], [0; 8 * 512]);
    /// let mut store = Store::new_store(&mut slots)?;
    ///
    /// let text = "# names of tonight\nLead v : l iy1 d\nlead n : l eh1 d\n";
    /// assert_eq!(store.add_entries(&example::LEXICON, &mut spare, text)?, 2);
    ///
    /// let refused = store.add_entries(&example::LEXICON, &mut spare, "gobo : g ow1 b ow0\niris ay1 r ih0 s");
    /// let refused = refused.unwrap_err();
    /// assert_eq!((refused.refusal, refused.line), (Refusal::Line, 2));
    /// # Ok::<(), pronouncer::Refused>(())
    /// ```
    pub fn add_entries(
        &mut self,
        lexicon: &Lexicon<'_>,
        spare: &mut [u8],
        text: impl AsRef<[u8]>,
    ) -> Result<usize, Refused> {
        let answer = foreign::add_entries(lexicon.phones, self.bytes, spare, text.as_ref())
            .accepted_on(|| unsound::in_spare(self.bytes, spare))?;
        Ok(answer.count())
    }

    /// Shows what a text of entries would change, and changes the spare alone: it gets the store with all lines
    /// added. [`Preview::accept`] then takes it; a preview that is dropped changes nothing.
    ///
    /// Lines and spare are those of [`add_entries`](Store::add_entries).
    ///
    /// # Errors
    ///
    /// Those of [`add_entries`](Store::add_entries), but never [`Count`](crate::Refusal::Count). Where a line is
    /// faulty the spare holds the store with the lines before, and the largest count, so that it is never accepted.
    ///
    /// ```
    /// use pronouncer::{example, Store};
    ///
    /// let (mut slots, mut spare) = ([0; 8 * 512], [0; 8 * 512]);
    /// let mut store = Store::new_store(&mut slots)?;
    /// store.add_entries(&example::LEXICON, &mut spare, "lead n : l eh1 d")?;
    ///
    /// let text = "Lead n : l iy1 d\ngobo : g ow1 b ow0";
    /// let preview = store.preview_entries(&example::LEXICON, &mut spare, text)?;
    /// assert_eq!((preview.lines(), preview.newly_used(), preview.replaced()), (2, 1, 1));
    /// preview.accept()?;
    /// assert_eq!(format!("{store:?}"), "[lead n : l iy1 d, gobo 0 : g ow1 b ow0]");
    /// # Ok::<(), pronouncer::Refused>(())
    /// ```
    pub fn preview_entries<'s>(
        &'s mut self,
        lexicon: &Lexicon<'_>,
        spare: &'s mut [u8],
        text: impl AsRef<[u8]>,
    ) -> Result<Preview<'s, 'a>, Refused> {
        let answer = foreign::preview_entries(lexicon.phones, self.bytes, spare, text.as_ref())
            .accepted_on(|| unsound::in_spare(self.bytes, spare))?;
        Ok(Preview::of(self, spare, answer))
    }

    /// Accepts a spare that [`preview_entries`](Store::preview_entries) filled and that was kept: the store gets its
    /// bytes, with the count one higher. [`Preview::accept`] does it where the preview is still at hand.
    ///
    /// The counts alone tell whether the spare is this store's: one that another store of the same length and the
    /// same count filled is taken too.
    ///
    /// # Errors
    ///
    /// [`Unsound`](crate::Refusal::Unsound) for the store, for the spare's length and for a spare that is not a
    /// sound store; [`Count`](crate::Refusal::Count) where something else was accepted since, where the text had
    /// stopped at a line, and where the store's count is the largest.
    ///
    /// ```
    /// use pronouncer::{example, Refusal, Store};
    ///
    /// let (mut slots, mut spare) = ([0; 8 * 512], [0; 8 * 512]);
    /// let mut store = Store::new_store(&mut slots)?;
    /// let added = store.preview_entries(&example::LEXICON, &mut spare, "gobo : g ow1 b ow0")?.lines();
    ///
    /// // Seen and found good, and nothing else was added meanwhile.
    /// assert_eq!((added, store.len()), (1, 0));
    /// store.accept_entries(&spare)?;
    /// assert_eq!((store.len(), store.count()), (1, 1));
    ///
    /// // The store is no longer as the preview saw it.
    /// assert_eq!(store.accept_entries(&spare).unwrap_err().refusal, Refusal::Count);
    /// # Ok::<(), pronouncer::Refused>(())
    /// ```
    pub fn accept_entries(&mut self, spare: &[u8]) -> Result<(), Refused> {
        foreign::accept_entries(self.bytes, spare)
            .accepted_on(|| unsound::in_filled_spare(self.bytes, spare))?;
        Ok(())
    }

    /// How often entries were accepted: each call that adds an entry or a text, or accepts a spare, adds one. A new
    /// store has 0, as have bytes that are too few to hold a count.
    ///
    /// ```
    /// use pronouncer::{example, Store};
    ///
    /// let (mut slots, mut spare) = ([0; 8 * 512], [0; 8 * 512]);
    /// let mut store = Store::new_store(&mut slots)?;
    /// assert_eq!(store.count(), 0);
    /// store.add_entries(&example::LEXICON, &mut spare, "# two\na : k\nb : t")?;
    /// assert_eq!((store.count(), store.len()), (1, 2));
    /// # Ok::<(), pronouncer::Refused>(())
    /// ```
    pub fn count(&self) -> u64 {
        let place = COUNT..COUNT + size_of::<u64>();
        let bytes = self.bytes.get(place).and_then(|bytes| bytes.try_into().ok());
        bytes.map_or(0, u64::from_le_bytes)
    }

    /// The entries, oldest first; one that was added again is the last. A lookup tries the exact ones in this order,
    /// then the ordinary ones.
    ///
    /// Over bytes that are no sound store it gives what it can follow; it meets no slot twice, so it ends.
    pub fn iter(&self) -> Entries<'_> {
        Entries::of(self.bytes)
    }

    /// How many entries there are.
    pub fn len(&self) -> usize {
        self.iter().count()
    }

    /// Whether there is no entry.
    pub fn is_empty(&self) -> bool {
        self.iter().next().is_none()
    }

    /// The bytes.
    pub fn bytes(&self) -> &[u8] {
        self.bytes
    }

    /// Gives the bytes back.
    pub fn into_bytes(self) -> &'a mut [u8] {
        self.bytes
    }
}

/// The entries in order.
impl<'s> IntoIterator for &'s Store<'_> {
    type Item = Entry<'s>;
    type IntoIter = Entries<'s>;

    fn into_iter(self) -> Entries<'s> {
        self.iter()
    }
}

impl fmt::Debug for Store<'_> {
    fn fmt(&self, f: &mut fmt::Formatter<'_>) -> fmt::Result {
        self.iter().fmt(f)
    }
}
