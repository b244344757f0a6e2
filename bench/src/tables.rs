//! The section files, and the words that both sides are asked about.

use std::collections::BTreeSet;
use std::fs;
use std::path::Path;

/// How many words there are.
const WORDS: usize = 240;

pub struct Tables {
    /// lex.phones, lex.index, lex.data
    pub lex: [Vec<u8>; 3],
    /// lts.phones, lts.index, lts.model
    pub lts: [Vec<u8>; 3],
    /// aswd.p, aswd.s
    pub aswd: [Vec<u8>; 2],
    pub words: Vec<Word>,
}

/// A word to ask about, and its tag.
pub struct Word {
    pub text: String,
    pub tag: &'static str,
}

impl Tables {
    /// The sections in a folder, and words for them.
    pub fn read(folder: &Path) -> Result<Tables, String> {
        let section = |name: &str| {
            let path = folder.join(name);
            fs::read(&path).map_err(|e| format!("{} is not read: {e}", path.display()))
        };
        let mut tables = Tables {
            lex: [section("lex.phones")?, section("lex.index")?, section("lex.data")?],
            lts: [section("lts.phones")?, section("lts.index")?, section("lts.model")?],
            aswd: [section("aswd.p")?, section("aswd.s")?],
            words: vec![],
        };
        tables.words = tables.choose();
        Ok(tables)
    }

    pub fn lex(&self) -> [&[u8]; 3] {
        [&self.lex[0], &self.lex[1], &self.lex[2]]
    }

    pub fn lts(&self) -> [&[u8]; 3] {
        [&self.lts[0], &self.lts[1], &self.lts[2]]
    }

    /// The first so many words, over again where they are too few.
    pub fn round(&self, count: usize) -> impl Iterator<Item = &Word> {
        self.words.iter().cycle().take(count)
    }

    /// How many compiled entries there are.
    pub fn entries(&self) -> usize {
        let count = self.lex[1][..4].try_into();
        u32::from_le_bytes(count.expect("four bytes")) as usize
    }

    /// The words of the compiled entries that consist of letters, in order.
    fn compiled(&self) -> Vec<String> {
        let [_, index, data] = &self.lex;
        let offsets = index[4..].chunks_exact(4);
        let offsets = offsets.map(|b| u32::from_le_bytes([b[0], b[1], b[2], b[3]]) as usize);
        let word = |at: usize| {
            let len = usize::from(*data.get(at + 1)?);
            let text = std::str::from_utf8(data.get(at + 2..at + 2 + len)?).ok()?;
            let letters = text.bytes().all(|b| b.is_ascii_lowercase());
            (letters && (2..=40).contains(&len)).then(|| text.to_string())
        };
        let words: BTreeSet<String> = offsets.filter_map(word).collect();
        words.into_iter().collect()
    }

    /// Of fifteen words eight are compiled, from all over the lexicon, one is of the addenda, and six, in no source, are
    /// the front of one compiled word and the back of another.
    fn choose(&self) -> Vec<Word> {
        const ADDENDA: [&str; 4] = ["in", "email", "@", "doesnt"];
        let compiled = self.compiled();
        let known: BTreeSet<&String> = compiled.iter().collect();
        let mut texts: Vec<String> = vec![];
        let mut step = 0;
        while texts.len() < WORDS {
            let word = &compiled[(step * 7_919 + 13) % compiled.len()];
            let other = &compiled[(step * 104_729 + 5) % compiled.len()];
            let (front, back) = (&word[..word.len().div_ceil(2)], &other[other.len() / 2..]);
            let joined = [front, back].concat();
            match texts.len() % 15 {
                7 => texts.push(ADDENDA[step % ADDENDA.len()].to_string()),
                n if n % 2 == 0 => texts.push(word.clone()),
                _ if !known.contains(&joined) => texts.push(joined),
                _ => {}
            }
            step += 1;
        }
        let tags = ["", "n", "v"].iter().cycle();
        let words = texts.into_iter().zip(tags);
        words.map(|(text, tag)| Word { text, tag }).collect()
    }
}
