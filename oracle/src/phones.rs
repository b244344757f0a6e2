//! Phones and phone lists, made from the original's own tables.

use crate::prelude::*;
use std::sync::OnceLock;

pub struct Phones {
    pub names: &'static [&'static str],
    pub vowels: &'static [&'static str],
    pub consonants: &'static [&'static str],
    pub onsets: &'static [&'static str],
}

/// Phones that are in no table, or nearly in one; the first is the empty one.
const ODD: &str =
    " zz ae1 ax0 ae2 t0 pau0 pau1 ng1 AE Ax PAU NG st sk a e au pa n hh0 axrr abcdefghijklmno a-b \
    2 t2 pau2 ng2 ae22 ae12 ae21 ax02 ax20 st2";

/// The lists that 01 rehearses, parted by commas; the first is the empty one.
pub const REHEARSED: &str = ",k ae t,eh k s t r ax,s ih ng er,s t,t pau aa,ae t h r ax,ae t l ax";

fn odd() -> Vec<&'static str> {
    ODD.split(' ').collect()
}

impl Default for Phones {
    /// The tables are read once for all calls.
    fn default() -> Phones {
        static READ: OnceLock<[Vec<&str>; 3]> = OnceLock::new();
        let [names, vowels, consonants] = READ.get_or_init(|| {
            let names = phoneset::probe::names();
            let (vowels, consonants) = names.iter().partition(|name| phoneset::is_vowel(name));
            [names, vowels, consonants]
        });
        Phones { names, vowels, consonants, onsets: lexicon::probe::onsets() }
    }
}

impl Phones {
    /// One phone, now and then an odd one.
    pub fn phone(&self, random: &mut Random) -> Vec<u8> {
        let digits = ["0", "1", "2", "00", "11", "22", "12", "21"];
        match random.weighted(&[6, 3, 2, 2, 1]) {
            0 => random.pick(self.names).into(),
            1 => (random.pick(self.names).to_string() + random.pick(&digits)).into(),
            2 => (random.pick(self.vowels).to_string() + "2").into(),
            3 => random.pick(&odd()).into(),
            _ => (0..random.between(0, 15)).map(|_| random.below(128) as u8).collect(),
        }
    }

    /// Every string of up to two bytes, every name with what may stand behind it, and near misses.
    pub fn short(&self) -> Vec<Vec<u8>> {
        let ascii: Vec<u8> = (0..128).collect();
        let mut phones = words::every(&ascii, 2);
        for name in self.names {
            let ends = "0,1,2,3,4,5,6,7,8,9,,00,01,10,11,12,20,21,22,x,-, ,\0".split(',');
            phones.extend(ends.map(|end| [name, end].concat().into()));
            let near = [name.to_uppercase(), name[1..].to_string(), format!("x{name}")];
            phones.extend(near.map(Vec::from));
        }
        phones.extend(odd().into_iter().map(Vec::from));
        phones.extend((0..=15).flat_map(|len| b"01a".map(|byte| vec![byte; len])));
        phones
    }

    /// Phones for the list: the names, with and without a stress, then others.
    pub fn to_record(&self, random: &mut Random, cases: usize) -> Vec<Vec<u8>> {
        let plain = [self.names, &odd(), &["ax11", "0", "1", "00", "ax10"]].concat();
        let mut phones: Vec<Vec<u8>> = plain.into_iter().map(Vec::from).collect();
        let stressed = self.names.iter().zip(["0", "1", "1", "2"].iter().cycle());
        phones.extend(stressed.map(|(name, stress)| [*name, stress].concat().into()));
        while phones.len() < cases {
            phones.push(self.phone(random));
        }
        phones
    }

    /// A list with many clusters between vowels.
    pub fn list(&self, random: &mut Random, len: usize) -> Vec<Vec<u8>> {
        let mut list: Vec<Vec<u8>> = vec![];
        // some lists have no vowel, some nothing else
        let kind = random.below(24);
        while list.len() < len {
            match random.weighted(&[6, 5, 8, 4, 1, 1, 2, 1]) {
                _ if kind == 0 => list.push(random.pick(self.consonants).into()),
                _ if kind == 1 => list.push(random.pick(self.vowels).into()),
                0 => list.push(random.pick(self.vowels).into()),
                1 => list.push(random.pick(self.consonants).into()),
                way @ (2 | 3) => {
                    let mut onset = Vec::from(random.pick(self.onsets));
                    if way == 3 {
                        near_miss(random, &mut onset);
                    }
                    list.extend(cut(random, &onset));
                    list.push(random.pick(self.vowels).into());
                }
                4 => list.push(b"ng".to_vec()),
                5 => list.push(b"pau".to_vec()),
                6 => list.push(self.phone(random)),
                _ => {
                    for _ in 0..random.between(2, 6) {
                        list.push(random.pick(self.consonants).into());
                    }
                }
            }
        }
        list.truncate(len);
        list
    }
}

/// A text as one to three phones; a part may be empty.
fn cut(random: &mut Random, text: &[u8]) -> Vec<Vec<u8>> {
    let first = random.between(0, text.len());
    let second = random.between(first, text.len());
    let (left, middle, right) = (&text[..first], &text[first..second], &text[second..]);
    match random.weighted(&[4, 6, 1]) {
        0 => vec![left.to_vec(), [middle, right].concat()],
        1 => vec![left.to_vec(), middle.to_vec(), right.to_vec()],
        _ => vec![text.to_vec()],
    }
}

/// Makes a text one with a letter more, less, another one or two swapped.
fn near_miss(random: &mut Random, text: &mut Vec<u8>) {
    let at = random.below(text.len());
    let letter = random.pick_byte(b"sptkrlwyhfnmgbdvz0");
    match random.below(4) {
        0 => text.insert(at, letter),
        1 => text[at] = letter,
        2 => drop(text.remove(at)),
        _ => text.swap(at, 0),
    }
}
