//! The sections of the lexicon: their form by 01, what the search reads, and the original's reading.

use crate::forever::{hold, Held};
use crate::prelude::*;
use crate::stresses::{twin, with_digit, Twins};
use crate::tables::{phone_names, phone_table};

sections!("lex": data);

/// The parts of a compiled entry.
#[derive(Clone, Copy)]
pub struct Parts<T> {
    pub tag: u8,
    pub word: T,
    pub numbers: T,
}

/// A compiled entry before it is written.
pub type Row = Parts<Vec<u8>>;
/// A compiled entry that is not damaged.
pub type Compiled<'a> = Parts<&'a [u8]>;

smaller!(Row: numbers, word);

/// Why an entry is damaged: the rows of the table that count it.
pub const DAMAGE: &[&str] = &[
    "entry: its offset is outside",
    "entry: its word's length is outside",
    "entry: its word reaches outside",
    "entry: its phone count is outside",
    "entry: its numbers reach outside",
    "entry: its word has a high byte",
    "entry: a number without a phone",
];

/// How 01's search ends.
pub enum Search {
    /// At a place where no entry of the word is.
    Nothing(usize),
    /// At an entry that is damaged, which the halving reads, or the run from the place on.
    Damaged { why: &'static str, in_run: bool },
    /// At an entry; the run of the word's entries starts at `first`.
    Entry { first: usize, chosen: usize, exact: bool },
}

/// Sections, and what 01 says of them.
pub struct Lexicon {
    pub sections: Sections,
    /// The phones of the table; none if lex.phones breaks its form.
    pub names: Option<Vec<Vec<u8>>>,
    /// The offsets of lex.index; none if it breaks its form.
    pub offsets: Option<Vec<usize>>,
    /// Whether some entry is damaged, or has a number without a phone.
    pub has_damage: bool,
    original: Option<Held<lexicon::Lexicon>>,
    twins: Twins<Rc<Lexicon>>,
}

impl Lexicon {
    pub fn new(sections: Sections) -> Lexicon {
        let names = phone_names(&sections.phones);
        let offsets = offsets(&sections.index);
        let original = names.is_some() && offsets.is_some();
        let original = original.then(|| hold(&sections.parts(), lexicon::Lexicon::parse));
        let twins = Twins::default();
        let mut made = Lexicon { sections, names, offsets, has_damage: false, original, twins };
        made.has_damage = made.has_form() && (0..made.count()).any(|i| made.whole(i).is_err());
        made
    }

    /// A lexicon of these phones and entries, one entry behind the other.
    pub fn of<T: AsRef<[u8]>>(names: &[T], rows: &[Row]) -> Lexicon {
        Lexicon::new(sections(names, rows))
    }

    /// A phone table beside no entries, which is all that adding takes.
    pub fn of_table(phones: Vec<u8>) -> Rc<Lexicon> {
        Rc::new(Lexicon::new(Sections { phones, index: index(&[]), data: vec![] }))
    }

    /// The same with a digit in the place of each phone's last "2".
    pub fn with_digit(&self, digit: u8) -> &Rc<Lexicon> {
        twin(&self.twins, digit, || {
            let names = self.names.iter().flatten().map(|name| with_digit(name, digit));
            let phones = phone_table(&names.collect::<Vec<_>>());
            Rc::new(Lexicon::new(Sections { phones, ..self.sections.clone() }))
        })
    }

    /// Whether all three sections have 01's form.
    pub fn has_form(&self) -> bool {
        self.original.is_some()
    }

    /// The original's reading of sections that have their form.
    pub fn original(&self) -> &lexicon::Lexicon {
        let held = self.original.as_ref();
        &held.expect("only sections of 01's form are read").reader
    }

    /// The number of entries.
    pub fn count(&self) -> usize {
        self.offsets.as_ref().map_or(0, Vec::len)
    }

    /// Entry i, or why it is damaged.
    pub fn entry(&self, i: usize) -> Result<Compiled<'_>, &'static str> {
        let offset = self.offsets.as_ref().and_then(|all| all.get(i));
        let rest = offset.and_then(|offset| self.sections.data.get(*offset..)).unwrap_or_default();
        let tag = *rest.first().ok_or(DAMAGE[0])?;
        let len = usize::from(*rest.get(1).ok_or(DAMAGE[1])?);
        let word = rest.get(2..2 + len).ok_or(DAMAGE[2])?;
        let count = usize::from(*rest.get(2 + len).ok_or(DAMAGE[3])?);
        let numbers = rest.get(3 + len..3 + len + count).ok_or(DAMAGE[4])?;
        word.is_ascii().then_some(Compiled { tag, word, numbers }).ok_or(DAMAGE[5])
    }

    /// Entry i with a phone for each of its numbers, or what is amiss.
    pub fn whole(&self, i: usize) -> Result<Compiled<'_>, &'static str> {
        let entry = self.entry(i)?;
        let names = self.names.as_ref().map_or(0, Vec::len);
        let has_phones = entry.numbers.iter().all(|n| usize::from(*n) < names);
        has_phones.then_some(entry).ok_or(DAMAGE[6])
    }

    /// The phones of entry i, which is whole.
    pub fn phones(&self, i: usize) -> Vec<Vec<u8>> {
        let names = self.names.as_ref().expect("the table has its form");
        let entry = self.whole(i).expect("the entry is whole");
        entry.numbers.iter().map(|n| names[usize::from(*n)].clone()).collect()
    }

    /// Whether a phone may be added: it is in lex.phones, or one of the 50.
    pub fn knows(&self, phone: &[u8]) -> bool {
        self.names.iter().flatten().any(|name| name == phone) || is_of_the_50(phone)
    }

    /// 01's search for a word and a wanted tag.
    pub fn search(&self, word: &[u8], tag: u8) -> Search {
        let (mut lo, mut hi) = (0, self.count());
        while lo < hi {
            let mid = (lo + hi) / 2;
            match self.entry(mid) {
                Err(why) => return Search::Damaged { why, in_run: false },
                Ok(entry) if entry.word < word => lo = mid + 1,
                Ok(_) => hi = mid,
            }
        }
        let equals = |i: usize| Ok(i < self.count() && self.entry(i)?.word == word);
        let chosen = || -> Result<Search, &'static str> {
            if !equals(lo)? {
                return Ok(Search::Nothing(lo));
            }
            let mut at = lo;
            while equals(at)? && self.entry(at)?.tag != tag {
                at += 1;
            }
            let exact = equals(at)?;
            let chosen = if exact { at } else { lo };
            self.whole(chosen)?;
            Ok(Search::Entry { first: lo, chosen, exact })
        };
        chosen().unwrap_or_else(|why| Search::Damaged { why, in_run: true })
    }

    /// What check lexicon says: yes, or why not.
    pub fn check(&self) -> Result<(), &'static str> {
        let mut before: &[u8] = b"";
        for i in 0..self.count() {
            let entry = self.whole(i)?;
            if entry.word < before {
                return Err("words that fall");
            }
            before = entry.word;
        }
        Ok(())
    }

    /// Where 01 says that a checked lexicon answers from: the first equal word with the exact tag, else
    /// the first equal word.
    pub fn direct(&self, word: &[u8], tag: u8) -> Option<usize> {
        let entries = (0..self.count()).filter_map(|i| Some((i, self.entry(i).ok()?)));
        let equal: Vec<_> = entries.filter(|(_, entry)| entry.word == word).collect();
        let exact = equal.iter().find(|(_, entry)| entry.tag == tag);
        exact.or(equal.first()).map(|(i, _)| *i)
    }
}

/// Whether a phone is one of the 50.
pub fn is_of_the_50(phone: &[u8]) -> bool {
    std::str::from_utf8(phone).is_ok_and(|phone| phoneset::phone_id(phone).is_some())
}

/// The offsets of an index that has 01's form.
fn offsets(index: &[u8]) -> Option<Vec<usize>> {
    let mut numbers =
        index.chunks_exact(4).map(|b| u32::from_le_bytes([b[0], b[1], b[2], b[3]]) as usize);
    let count = numbers.next()?;
    let offsets: Vec<usize> = numbers.take(count).collect();
    (offsets.len() == count).then_some(offsets)
}

/// An index of these offsets.
pub fn index(offsets: &[usize]) -> Vec<u8> {
    let numbers = std::iter::once(offsets.len()).chain(offsets.iter().copied());
    numbers.flat_map(|n| (n as u32).to_le_bytes()).collect()
}

/// The bytes of an entry.
pub fn entry_bytes(row: &Row) -> Vec<u8> {
    let (len, count) = (row.word.len() as u8, row.numbers.len() as u8);
    [&[row.tag, len], &row.word[..], &[count], &row.numbers].concat()
}

/// Sections of these phones and entries, one entry behind the other.
pub fn sections<T: AsRef<[u8]>>(names: &[T], rows: &[Row]) -> Sections {
    let mut data = vec![];
    let mut offsets = vec![];
    for row in rows {
        offsets.push(data.len());
        data.extend(entry_bytes(row));
    }
    Sections { phones: phone_table(names), index: index(&offsets), data }
}
