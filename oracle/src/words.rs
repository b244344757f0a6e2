//! Words: over an alphabet, of every length; and their tags.

use crate::prelude::*;

/// The longest word that 01 accepts.
pub const LONGEST: usize = 47;

const LETTERS: &[u8] = b"abcdefghijklmnopqrstuvwxyz";
/// Alphabets, parted by commas.
const ALPHABETS: &str = "ab,abc#,aeinst,abcdefghijklmnopqrstuvwxyz,\
    abcdefghijklmnopqrstuvwxyzABCDEFGHIJKLMNOPQRSTUVWXYZ,\
    abcdeinstABCDEINST0123456789'-#,zaeiouynmNM#'- 09AZ@[`{";

/// A word and its tag, as a call is given them.
#[derive(Clone, PartialEq, Eq)]
pub struct Wanted {
    pub word: Vec<u8>,
    pub tag: Vec<u8>,
}

impl Wanted {
    pub fn new(word: impl Into<Vec<u8>>, tag: impl Into<Vec<u8>>) -> Wanted {
        Wanted { word: word.into(), tag: tag.into() }
    }

    /// Whether it is refused by 3.
    pub fn is_refused(&self) -> bool {
        is_refused(&self.word) || is_refused(&self.tag)
    }

    pub fn parts(&self) -> [Part<'_>; 2] {
        [word_part(&self.word), Part::read("the tag", Form::Text, &self.tag)]
    }

    /// What it has, for the table.
    pub fn met(&self) -> Vec<&'static str> {
        [of_word(&self.word), of_tag(&self.tag)].concat()
    }
}

smaller!(Wanted: word, tag);

pub fn word_part(word: &[u8]) -> Part<'_> {
    Part::read("the word", Form::Text, word)
}

/// Letters that a set of tables and its words share, so that questions match; now and then all of ASCII.
pub fn alphabet(random: &mut Random) -> Vec<u8> {
    let alphabets: Vec<&str> = ALPHABETS.split(',').collect();
    let chosen = alphabets.get(random.below(alphabets.len() + 1));
    chosen.map_or_else(|| (0..128).collect(), |letters| Vec::from(*letters))
}

/// Whether a word is refused by 3.
pub fn is_refused(word: &[u8]) -> bool {
    word.len() > LONGEST || !word.is_ascii()
}

/// A word that 01 accepts; most are short.
pub fn accepted(random: &mut Random, alphabet: &[u8]) -> Vec<u8> {
    let len = random.ranged(&[(24, 1, 10), (6, 1, LONGEST), (1, LONGEST, LONGEST), (1, 0, 0)]);
    // now and then a letter that the tables do not ask for
    let wild = random.once_in(4);
    let mut letter = |_| match wild && random.once_in(5) {
        true => random.pick_byte(LETTERS),
        false => random.pick_byte(alphabet),
    };
    (0..len).map(&mut letter).collect()
}

/// A word for the list: the edge of this number, if there is one, or any.
pub fn to_record(random: &mut Random, alphabet: &[u8], edge: Option<usize>) -> Vec<u8> {
    let mut edges = edges().into_iter().filter(|word| !is_refused(word));
    let edge = edge.and_then(|i| edges.nth(i));
    edge.unwrap_or_else(|| accepted(random, alphabet))
}

/// A word; one in forty is refused.
pub fn random(random: &mut Random, alphabet: &[u8]) -> Vec<u8> {
    let mut word = accepted(random, alphabet);
    match random.below(80) {
        0 => word.resize(random.between(LONGEST + 1, 70), random.pick_byte(alphabet)),
        1 => {
            let at = random.between(0, word.len());
            word.insert(at, 128 + random.below(128) as u8);
        }
        _ => {}
    }
    word
}

/// A tag; one in forty is refused.
pub fn tag(random: &mut Random) -> Vec<u8> {
    match random.weighted(&[20, 12, 40, 12, 4, 1, 1, 1]) {
        0 => vec![],
        1 => b"nil".to_vec(),
        2 => vec![random.pick_byte(b"nnvvj0pNs")],
        3 => random.pick(&["nn", "noun", "vb", "v2", "NIL", "nill", "ni", "0n", "00"]).into(),
        4 => vec![random.byte() & 127],
        5 => vec![b'n'; LONGEST],
        6 => vec![b'v'; random.between(LONGEST + 1, 60)],
        _ => vec![b'n', 128 + random.below(128) as u8],
    }
}

/// Tags that the rules tell apart, and tags at 01's limits.
pub fn tags() -> Vec<Vec<u8>> {
    let plain = ["", "nil", "n", "v", "0", "N", "NIL", "nill", "nn", "0n", "\0"];
    let mut tags: Vec<Vec<u8>> = plain.map(Vec::from).to_vec();
    tags.extend([46, 47, 48, 256].map(|len| vec![b'n'; len]));
    tags.extend([127, 128, 255].map(|b| vec![b]));
    tags.push(vec![b'n', 128]);
    tags
}

/// A word with some of its letters in the other case.
pub fn recased(random: &mut Random, word: &[u8]) -> Vec<u8> {
    if random.once_in(2) {
        return word.to_vec();
    }
    let recased = |b: &u8| b ^ (u8::from(random.once_in(3) && b.is_ascii_alphabetic()) << 5);
    word.iter().map(recased).collect()
}

/// A word as it is, without capitals, with one in front, or in some of its letters.
pub fn cased(random: &mut Random, word: &[u8]) -> Vec<u8> {
    let mut cased = word.to_ascii_lowercase();
    match random.below(4) {
        0 => word.to_vec(),
        1 => cased,
        2 => {
            cased.iter_mut().take(1).for_each(u8::make_ascii_uppercase);
            cased
        }
        _ => recased(random, word),
    }
}

/// A word near one of some others, or one of them; one in forty is refused.
pub fn near(random: &mut Random, words: &[Vec<u8>]) -> Vec<u8> {
    let word = &words[random.below(words.len())];
    let mut word = recased(random, word);
    let at = random.below(word.len() + 1);
    let letter = random.pick_byte(b"aabzAMN'_0~");
    match random.below(80) {
        0 => word.resize(random.between(LONGEST + 1, 70), letter),
        1 => word.insert(at, 128 + random.below(128) as u8),
        2..=7 => word.insert(at, letter),
        8..=13 => word.truncate(at),
        14..=19 if at < word.len() => word[at] = letter,
        _ => {}
    }
    word
}

/// Every word up to a length over an alphabet, or every list of phones over some.
pub fn every<T: Clone>(alphabet: &[T], longest: usize) -> Vec<Vec<T>> {
    let mut words = vec![vec![]];
    let mut at = 0;
    while at < words.len() && words[at].len() < longest {
        for letter in alphabet {
            words.push([&words[at][..], &[letter.clone()]].concat());
        }
        at += 1;
    }
    words
}

/// Words at 01's limits.
pub fn edges() -> Vec<Vec<u8>> {
    // the first is the empty one
    let plain = " a A z Z a# #a a#b # ## ab ba tempo#two two a%a a#7 don't _a in , Email @ [ ` {";
    let mut words: Vec<Vec<u8>> = plain.split(' ').map(Vec::from).collect();
    for len in [46, 47, 48, 49, 255, 256] {
        words.push(vec![b'a'; len]);
        words.push(LETTERS.iter().cycle().take(len).copied().collect());
    }
    words.extend([127, 128, 255].map(|b| vec![b'a', b]));
    words.push(vec![0]);
    words.push([&[b'a'; 47][..], &[200]].concat());
    words
}

/// Words of the most bytes with one "#" or two, at every place.
pub fn marked() -> Vec<Vec<u8>> {
    let letters: Vec<u8> = b"aB".iter().cycle().take(LONGEST).copied().collect();
    each! {
        for last in 0..LONGEST;
        let word = records::with_byte(&letters, last, b'#');
        (0..=last).map(|first| records::with_byte(&word, first, b'#'))
    }
}

/// Words at 01's limits without a tag, and some words with tags at them.
pub fn limits(words: &[&str]) -> Vec<Wanted> {
    let without = edges().into_iter().map(|word| Wanted::new(word, ""));
    let with = each! {
        for tag in tags();
        words.iter().map(|word| Wanted::new(*word, &tag[..]))
    };
    without.chain(with).collect()
}

rows! { pub WORD:
    /// What a word has.
    of_word(word: &[u8]) [
        "empty word" => word.is_empty(),
        "word of 47 bytes" => word.len() == LONGEST,
        "capital letter" => word.to_ascii_lowercase() != word,
    ]
}

rows! { pub TAG:
    /// What a tag has.
    of_tag(tag: &[u8]) [
        "tag empty" => tag.is_empty(),
        "tag 'nil'" => tag == b"nil",
        "tag '0'" => tag == b"0",
        "tag of one byte" => tag.len() == 1,
        "tag of more bytes" => tag.len() > 1 && tag != b"nil",
        "tag of 47 bytes" => tag.len() == LONGEST,
    ]
}
