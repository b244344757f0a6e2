//! What the original says: words with their tags go in, words with their source, syllables, stress and phones come out.

use crate::call::ask;
use crate::scene::ascii;
use crate::sources;
use crate::words::Wanted;
use original::cart::Cart;
use original::data::Container;
use original::language::{Language, Sayable};
use original::lexicon::{Lexicon, Lts};
use original::pipeline::{self, probe};
use original::utterance::{ItemId, Utterance};

/// A word of an utterance: its text as given, its source, which is 1 to 4 (02, S-6), and its syllables.
#[derive(Clone, PartialEq, Eq)]
pub struct Word {
    pub text: Vec<u8>,
    pub source: u8,
    pub syllables: Vec<Syllable>,
}

/// A syllable: its stress, which is byte 48 or 49, and its bare phones.
#[derive(Clone, PartialEq, Eq)]
pub struct Syllable {
    pub stress: u8,
    pub phones: Vec<Vec<u8>>,
}

smaller!(Word: syllables, text, source by |source: &u8| (1..*source).collect::<Vec<u8>>());
smaller!(Syllable: phones);

impl Word {
    pub fn phones(&self) -> impl Iterator<Item = &Vec<u8>> {
        self.syllables.iter().flat_map(|syllable| &syllable.phones)
    }

    /// The items that it needs on a sheet: itself, its syllables and its phones.
    pub fn items(&self) -> usize {
        1 + self.syllables.len() + self.phones().count()
    }
}

/// What the original makes of some words in a row.
pub struct Said {
    pub words: Vec<Word>,
    pub phone_string: String,
}

/// Says words in one utterance; an error if the original panics, or if its chains are at odds with each other.
pub fn say(lexicon: &Lexicon, lts: &Lts, wanted: &[Wanted]) -> Result<Said, String> {
    let language = language(lexicon, lts, wanted);
    let utterance = ask(|| {
        let mut utterance = Utterance::new();
        let words = utterance.create_relation("Word");
        for Wanted { word, tag } in wanted {
            let item = utterance.append(words, None);
            utterance.set_str(item, "name", ascii(word));
            utterance.set_str(item, TAG, ascii(tag));
        }
        probe::say(&language, &mut utterance);
        utterance
    })?;
    let mut words = read(&utterance)?;
    for (word, wanted) in words.iter_mut().zip(wanted) {
        word.source = sources::shown(lexicon, wanted)?;
    }
    Ok(Said { words, phone_string: ask(|| pipeline::phone_string(&utterance))? })
}

/// The original's phone string of any phones in a row.
pub fn phone_string(phones: &[&[u8]]) -> Result<String, String> {
    ask(|| {
        let mut utterance = Utterance::new();
        let segments = utterance.create_relation("Segment");
        for phone in phones {
            let item = utterance.append(segments, None);
            utterance.set_str(item, "name", ascii(phone));
        }
        pipeline::phone_string(&utterance)
    })
}

/// The words with what hangs below them, before they get their sources. The chains of words, syllables and segments,
/// forwards and backwards, must go the same way.
fn read(utterance: &Utterance) -> Result<Vec<Word>, String> {
    let chain = |name: &str| -> Vec<ItemId> { utterance.iter_relation(name).collect() };
    let (mut syllables, mut segments) = (vec![], vec![]);
    let mut words = vec![];
    for word in chain("Word") {
        let tree = utterance.item_as(word, "SylStructure");
        let tree = tree.ok_or("the original leaves a word out of its tree")?;
        let mut read = Word { text: utterance.name(word).into(), source: 0, syllables: vec![] };
        for syllable in utterance.iter_from(utterance.daughter(tree)) {
            let phones: Vec<ItemId> = utterance.iter_from(utterance.daughter(syllable)).collect();
            let stress = match utterance.feature_str(syllable, "stress") {
                "0" => b'0',
                "1" => b'1',
                other => return Err(format!("the original has a stress {other:?}")),
            };
            let names = phones.iter().map(|phone| utterance.name(*phone).into());
            read.syllables.push(Syllable { stress, phones: names.collect() });
            syllables.push(syllable);
            segments.extend(phones);
        }
        words.push(read);
    }
    let roots: Vec<ItemId> = chain("SylStructure");
    for (name, found) in [("Word", &roots), ("Syllable", &syllables), ("Segment", &segments)] {
        let forwards = chain(name);
        let last = utterance.relation(name).and_then(|relation| utterance.tail(relation));
        let backwards = std::iter::successors(last, |item| utterance.prev(*item));
        let same = forwards.len() == found.len()
            && (forwards.iter().zip(found)).all(|(a, b)| utterance.same_item(*a, *b));
        if !same || !backwards.eq(forwards.iter().rev().copied()) {
            return Err(format!("the original's chain {name} is not its tree's"));
        }
    }
    Ok(words)
}

/// The feature in which a word waits for the original to give it its tag.
const TAG: &str = "tag";

/// The original's language with this lexicon and these letter trees. Its tree of tags gives each word the tag
/// that it waits for; the other trees are single leaves.
fn language(lexicon: &Lexicon, lts: &Lts, wanted: &[Wanted]) -> Language {
    const MACHINES: &[u8] = b"FLRSDAT\x01\x06aswd.p\x04\0\0\0\0\0\0\0\x06aswd.s\x04\0\0\0\0\0\0\0";
    let machines = Container::parse(MACHINES).expect("the original reads our container");
    let mut tags: Vec<&[u8]> = wanted.iter().map(|wanted| &wanted.tag[..]).collect();
    tags.sort();
    tags.dedup();
    let leaf = tree(&[]);
    Language {
        lexicon: lexicon.clone(),
        lts: lts.clone(),
        phrasing: leaf.clone(),
        pos: tree(&tags),
        numbers: leaf.clone(),
        accent: leaf.clone(),
        tone: leaf.clone(),
        duration: leaf,
        sayable: Sayable::parse(&machines).expect("the original takes our machines"),
    }
}

/// A decision tree that answers with the tag a word waits for: one question for each, one behind the other.
fn tree(tags: &[&[u8]]) -> Cart {
    const IS: u8 = 0;
    const LEAF: u8 = 255;
    let number = |n: usize| (n as u32).to_le_bytes();
    let node = |op: u8, no_branch: usize, value: usize| {
        [[0, op], (no_branch as u16).to_le_bytes(), (value as u16).to_le_bytes()].concat()
    };
    let text = |text: &[u8]| [&[text.len() as u8], text].concat();
    let mut bytes = [&number(1)[..], &text(TAG.as_bytes())].concat();
    // the last value is for a word that waits for none of them
    let values: Vec<&[u8]> = tags.iter().copied().chain([&b"?"[..]]).collect();
    bytes.extend(number(values.len()));
    bytes.extend(values.iter().flat_map(|value| [vec![0], text(value)].concat()));
    bytes.extend(number(2 * tags.len() + 1));
    let question = |i: usize| [node(IS, 2 * i + 2, i), node(LEAF, 0, i)].concat();
    bytes.extend((0..tags.len()).flat_map(question));
    bytes.extend(node(LEAF, 0, tags.len()));
    Cart::parse(&bytes).expect("the original reads our tree")
}
