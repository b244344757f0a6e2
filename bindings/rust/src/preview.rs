use core::fmt;

use crate::entries::Entries;
use crate::foreign::Answer;
use crate::refusal::Refused;
use crate::store::Store;

/// What a text of entries would make of a [`Store`], to be seen before it is accepted.
///
/// It keeps the store and the spare to itself: nothing is added in between, and no other store can take it.
/// Lookups go on through [`store`](Preview::store).
///
/// ```
/// use pronouncer::{example, Store, LIST_BYTES};
///
/// let (mut slots, mut spare, mut out) = ([0; 8 * 512], [0; 8 * 512], [0; LIST_BYTES]);
/// let mut store = Store::new_store(&mut slots)?;
/// store.add_entries(&example::LEXICON, &mut spare, "iris n : ih1 r ih0 s")?;
///
/// let text = "# tonight\nIris n : ay1 r ih0 s\ngobo : g ow1 b ow0";
/// let preview = store.preview_entries(&example::LEXICON, &mut spare, text)?;
/// assert_eq!((preview.lines(), preview.newly_used(), preview.replaced()), (2, 1, 1));
/// for entry in preview.entries() {
///     println!("{} {} : {}", entry.word, entry.tag, entry.phones);
/// }
///
/// // What is live is still the store as it was.
/// let found = example::LEXICON.lookup(preview.store(), "iris", "", &mut out)?.expect("it was added");
/// assert_eq!(found.phones.to_string(), "ih1 r ih0 s");
///
/// preview.accept()?;
/// let found = example::LEXICON.lookup(&store, "iris", "", &mut out)?.expect("it was added");
/// assert_eq!(found.phones.to_string(), "ay1 r ih0 s");
/// # Ok::<(), pronouncer::Refused>(())
/// ```
///
/// While there is a preview, its store takes nothing else:
///
/// ```compile_fail,E0499
/// # use pronouncer::{example, PhoneList, Store};
/// # let (mut slots, mut spare) = ([0; 8 * 512], [0; 8 * 512]);
/// # let mut store = Store::new_store(&mut slots)?;
/// let preview = store.preview_entries(&example::LEXICON, &mut spare, "gobo : g ow1 b ow0")?;
/// store.add_entry(&example::LEXICON, "cat", "n", PhoneList::from_cells(b""), false)?;
/// preview.accept()?;
/// # Ok::<(), pronouncer::Refused>(())
/// ```
#[must_use = "the store stays as it was until the preview is accepted"]
pub struct Preview<'s, 'a> {
    store: &'s mut Store<'a>,
    spare: &'s [u8],
    lines: usize,
    newly_used: usize,
    replaced: usize,
}

impl<'s, 'a> Preview<'s, 'a> {
    /// Of a store and the spare that was filled from it.
    pub(crate) fn of(store: &'s mut Store<'a>, spare: &'s [u8], answer: Answer) -> Self {
        let (newly_used, replaced) = (answer.newly_used(), answer.replaced());
        Preview { store, spare, lines: answer.count(), newly_used, replaced }
    }

    /// How many entry lines the text has; each one uses a slot newly or replaces an entry.
    pub fn lines(&self) -> usize {
        self.lines
    }

    /// How many slots would be used that are not used now: how many entries there would be more.
    pub fn newly_used(&self) -> usize {
        self.newly_used
    }

    /// How many lines replace an ordinary entry of the same word and tag, that of an earlier line included.
    pub fn replaced(&self) -> usize {
        self.replaced
    }

    /// The store as it is.
    pub fn store(&self) -> &Store<'a> {
        self.store
    }

    /// The entries that the store would have, in order.
    pub fn entries(&self) -> Entries<'_> {
        Entries::of(self.spare)
    }

    /// Gives the store these entries. The spare stays as it is.
    ///
    /// # Errors
    ///
    /// [`Count`](crate::Refusal::Count) where the store's count is the largest.
    pub fn accept(self) -> Result<(), Refused> {
        self.store.accept_entries(self.spare)
    }
}

impl fmt::Debug for Preview<'_, '_> {
    fn fmt(&self, f: &mut fmt::Formatter<'_>) -> fmt::Result {
        f.debug_struct("Preview")
            .field("lines", &self.lines)
            .field("newly_used", &self.newly_used)
            .field("replaced", &self.replaced)
            .field("entries", &self.entries())
            .finish()
    }
}
