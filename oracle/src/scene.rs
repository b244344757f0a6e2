//! A lexicon beside a store, and the original with the same runtime entries, as far as it has such.

use crate::forever::{hold_bytes, Held};
use crate::prelude::*;
use crate::stores::Placed;
use original::lexicon::probe;
use std::collections::BTreeMap;

/// What lookup and the adds are given.
pub struct Scene {
    // reads what is behind it
    original: Option<Held<lexicon::Lexicon>>,
    pub lexicon: Rc<Lexicon>,
    pub store: Vec<u8>,
    /// The entries of the store, the oldest first; of an unsound one, what is amiss.
    pub entries: Result<Vec<Placed>, &'static str>,
}

/// An entry to be added: its word, its tag and its phones, as they are handed in, and whether it is exact.
#[derive(Clone)]
pub struct Add {
    pub wanted: Wanted,
    pub phones: List,
    pub exact: bool,
}

smaller!(Add: wanted, phones, exact by |exact: &bool| Vec::from_iter(exact.then_some(false)));

impl Add {
    pub fn parts(&self) -> Vec<Part<'_>> {
        let exact = Part::number("exact", Form::YesOrNo, self.exact.into());
        self.wanted.parts().into_iter().chain([self.phones.part(), exact]).collect()
    }

    /// The key that its entry gets.
    pub fn key(&self) -> Key {
        Key::new(&self.wanted.word, &self.wanted.tag, self.exact)
    }

    /// The entry that it makes.
    fn entry(&self) -> Entry {
        let Key { word, tag, exact } = self.key();
        Entry { tag, word, phones: self.phones.texts().into_iter().map(Vec::from).collect(), exact }
    }
}

/// What tells two entries apart (02, S-8): the word as it is stored, the tag, and whether they are exact.
#[derive(Clone, PartialEq, Eq, PartialOrd, Ord)]
pub struct Key {
    pub word: Vec<u8>,
    pub tag: u8,
    pub exact: bool,
}

impl Key {
    /// The key of a word and a tag as handed in: an ordinary word folded; "0" for no tag and for "nil".
    pub fn new(word: &[u8], tag: &[u8], exact: bool) -> Key {
        let tag = match tag {
            b"" | b"nil" => b'0',
            tag => tag[0],
        };
        let word = if exact { word.to_vec() } else { word.to_ascii_lowercase() };
        Key { word, tag, exact }
    }

    /// The same word and tag of the other kind.
    pub fn twin(&self) -> Key {
        Key { exact: !self.exact, ..self.clone() }
    }
}

/// Entries that are to each other what the original's are, which has no exact ones: the ordinary entries, or the exact
/// ones of one word's bytes.
#[derive(Clone, Copy)]
pub enum Peers<'a> {
    Ordinary,
    Exact(&'a [u8]),
}

impl Peers<'_> {
    /// The peers of a key's entry.
    pub fn of(key: &Key) -> Peers<'_> {
        match key.exact {
            true => Peers::Exact(&key.word),
            false => Peers::Ordinary,
        }
    }

    /// Whether an entry is one of them.
    pub fn have(self, entry: &Entry) -> bool {
        match self {
            Peers::Ordinary => !entry.exact,
            Peers::Exact(word) => entry.exact && entry.word == word,
        }
    }

    /// An entry of the original as one of them.
    pub fn entry(self, (tag, word, phones): &probe::Added) -> Entry {
        let (word, exact) = match self {
            Peers::Exact(own) if ascii(own).eq_ignore_ascii_case(word) => (own.to_vec(), true),
            _ => (word.clone().into_bytes(), false),
        };
        let tag = u8::try_from(*tag).expect("tags are ASCII");
        Entry { tag, word, phones: phones.iter().map(|phone| (*phone).into()).collect(), exact }
    }
}

/// The ways to hand the original a tag: no tag can be none or an empty one.
pub fn ways(tag: &[u8]) -> Vec<Option<&str>> {
    match ascii(tag) {
        "" => vec![None, Some("")],
        tag => vec![Some(tag)],
    }
}

/// Accepted bytes as the original takes them.
pub fn ascii(bytes: &[u8]) -> &str {
    std::str::from_utf8(bytes).expect("accepted bytes are ASCII")
}

impl Scene {
    pub fn new(lexicon: &Rc<Lexicon>, store: Vec<u8>) -> Scene {
        let entries = stores::read(&store);
        let original = match &entries {
            Ok(entries) if lexicon.has_form() => {
                let entries = entries.iter().map(|placed| &placed.entry);
                let ordinary = entries.filter(|entry| Peers::Ordinary.have(entry));
                Some(with_entries(lexicon, &ordinary.collect::<Vec<_>>()))
            }
            _ => None,
        };
        Scene { original, lexicon: lexicon.clone(), store, entries }
    }

    /// A new lexicon beside a store.
    pub fn of(lexicon: Lexicon, store: Vec<u8>) -> Rc<Scene> {
        Rc::new(Scene::new(&Rc::new(lexicon), store))
    }

    /// The same without the original, for a store that the library has made.
    pub fn alone(lexicon: &Rc<Lexicon>, store: Vec<u8>) -> Scene {
        Scene { original: None, lexicon: lexicon.clone(), store, entries: Err("not read") }
    }

    /// The same lexicon beside another store.
    pub fn with_store(&self, store: Vec<u8>) -> Rc<Scene> {
        Rc::new(Scene::new(&self.lexicon, store))
    }

    /// The same store beside another lexicon.
    pub fn with_lexicon(&self, lexicon: &Rc<Lexicon>) -> Rc<Scene> {
        Rc::new(Scene::new(lexicon, self.store.clone()))
    }

    /// The phone table of the lexicon, which is all that adding takes of it.
    pub fn table_part(&self) -> Part<'_> {
        let [table, ..] = self.lexicon.sections.parts();
        table
    }

    /// The original with the store's ordinary entries, where store and sections are accepted.
    pub fn original(&self) -> &lexicon::Lexicon {
        let held = self.original.as_ref();
        &held.expect("only sound stores are read").reader
    }

    /// Asks the original for a word. The exact entries of the word's bytes are the first of its list, as if they were
    /// the oldest and ordinary.
    pub fn asked_for<T>(&self, word: &[u8], question: impl FnOnce(&lexicon::Lexicon) -> T) -> T {
        if self.peers(Peers::Exact(word)).next().is_none() {
            return question(self.original());
        }
        question(&with_entries(&self.lexicon, &self.seen_for(word)).reader)
    }

    /// The same with a digit in the place of each phone's last "2".
    pub fn asked_with<T>(
        &self,
        digit: u8,
        word: &[u8],
        question: impl FnOnce(&lexicon::Lexicon) -> T,
    ) -> T {
        question(&with_digit(&self.lexicon, &self.seen_for(word), digit).reader)
    }

    /// The exact entries of a word's bytes, then the ordinary ones.
    fn seen_for<'a>(&'a self, word: &'a [u8]) -> Vec<&'a Entry> {
        self.peers(Peers::Exact(word)).chain(self.peers(Peers::Ordinary)).collect()
    }

    /// The entries of a sound store, the oldest first.
    pub fn entries(&self) -> &[Placed] {
        self.entries.as_ref().expect("the store is sound")
    }

    /// Those of a sound store that are peers, the oldest first.
    pub fn peers<'a>(&'a self, peers: Peers<'a>) -> impl Iterator<Item = &'a Entry> {
        let entries = self.entries().iter().map(|placed| &placed.entry);
        entries.filter(move |entry| peers.have(entry))
    }

    /// Whether a sound store has exact entries.
    pub fn has_exact(&self) -> bool {
        self.entries.iter().flatten().any(|placed| placed.entry.exact)
    }

    /// What the original's list of these peers is after some change.
    pub fn changed<T>(
        &self,
        peers: Peers,
        change: impl FnOnce(&mut lexicon::Lexicon) -> T,
    ) -> (T, Vec<Entry>) {
        let own = || with_entries(&self.lexicon, &self.peers(peers).collect::<Vec<_>>());
        let exact = matches!(peers, Peers::Exact(_)).then(own);
        let mut lexicon = exact.as_ref().map_or(self.original(), |held| &held.reader).clone();
        let told = change(&mut lexicon);
        (told, probe::added(&lexicon).iter().map(|added| peers.entry(added)).collect())
    }

    /// The store when adds of these keys have made the original's list of their peers this one: a known key keeps its
    /// slot, a new one takes the next. The entries of these keys are the last of the chain, in the list's order.
    pub fn store_of(&self, peers: Peers, keys: &[Key], list: &[Entry]) -> Result<Vec<u8>, String> {
        let slot = |placed: &Placed| (placed.entry.key(), placed.slot);
        let mut slots: BTreeMap<Key, usize> = self.entries().iter().map(slot).collect();
        for key in keys {
            let next = slots.len() + 1;
            slots.entry(key.clone()).or_insert(next);
        }
        let is_added = |entry: &Entry| keys.contains(&entry.key());
        let placed = |entry: &Entry| Placed { slot: slots[&entry.key()], entry: entry.clone() };
        let others = self.entries().iter().filter(|placed| !is_added(&placed.entry)).cloned();
        let added = list.iter().filter(|entry| is_added(entry)).map(placed);
        let chain: Vec<Placed> = others.chain(added).collect();
        let told = chain.iter().map(|placed| &placed.entry).filter(|entry| peers.have(entry));
        if chain.len() != slots.len() || !told.eq(list) {
            return Err("the original's list has other entries than the papers say".into());
        }
        let store = stores::write(&self.store, &chain);
        assert!(stores::read(&store) == Ok(chain), "the driver does not read what it wrote");
        Ok(store)
    }

    /// The keys of the store, the oldest first.
    pub fn keys(&self) -> Vec<Key> {
        self.entries().iter().map(|placed| placed.entry.key()).collect()
    }

    /// The slot that an entry of this key has, or would get.
    pub fn slot_for(&self, key: &Key) -> usize {
        let known = self.entries().iter().find(|placed| placed.entry.key() == *key);
        known.map_or(self.entries().len() + 1, |placed| placed.slot)
    }

    /// The store grown by adds, and its count with it; those without room are left out.
    pub fn grown(&self, adds: &[Add]) -> Vec<u8> {
        let mut chain = self.entries().to_vec();
        let mut count = stores::count(&self.store);
        for entry in adds.iter().map(Add::entry) {
            let known = chain.iter().position(|placed| placed.entry.key() == entry.key());
            let slot = match known {
                Some(at) => chain.remove(at).slot,
                None if chain.len() == stores::room(&self.store) => continue,
                None => chain.len() + 1,
            };
            chain.push(Placed { slot, entry });
            count += 1;
        }
        stores::with_count(&stores::write(&self.store, &chain), count)
    }
}

impl Shrink for Rc<Scene> {
    fn smaller(&self) -> Vec<Rc<Scene>> {
        let lexicons = self.lexicon.smaller().into_iter();
        let lexicons = lexicons.map(|lexicon| self.with_lexicon(&lexicon));
        let stores = store_shapes::smaller(&self.store).into_iter();
        let stores = stores.map(|store| self.with_store(store));
        lexicons.chain(stores).collect()
    }
}

/// The original with these runtime entries, and a digit in the place of each phone's last "2".
pub fn with_digit(lexicon: &Lexicon, entries: &[&Entry], digit: u8) -> Held<lexicon::Lexicon> {
    let digits = |phone: &Vec<u8>| stresses::with_digit(phone, digit);
    let with_digits = |entry: &&Entry| Entry {
        phones: entry.phones.iter().map(digits).collect(),
        ..(*entry).clone()
    };
    let entries: Vec<Entry> = entries.iter().map(with_digits).collect();
    with_entries(lexicon.with_digit(digit), &entries.iter().collect::<Vec<_>>())
}

/// The original with these runtime entries, their words folded.
fn with_entries(lexicon: &Lexicon, entries: &[&Entry]) -> Held<lexicon::Lexicon> {
    let texts = entries.iter().flat_map(|entry| entry.phones.concat());
    hold_bytes(texts.collect(), |texts| {
        let mut rest = ascii(texts);
        let mut held = |phone: &Vec<u8>| {
            let (front, behind) = rest.split_at(phone.len());
            rest = behind;
            front
        };
        let added = |entry: &&Entry| {
            let phones = entry.phones.iter().map(&mut held).collect();
            (char::from(entry.tag), ascii(&entry.word).to_ascii_lowercase(), phones)
        };
        probe::with_added(lexicon.original(), entries.iter().map(added).collect())
    })
}
