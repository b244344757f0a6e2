//! Texts of entries.

use crate::calls::adding::Pool;
use crate::prelude::*;

/// Lines that are no entries, parted by bars; a text stops there.
const FAULTY: &str = ":| : k|::|a|a # : k|a #: k|\"a\"|\"a # b\" : k|\x1c|a\x1cn\x0bk";

impl Pool {
    /// Some lines, not all of them entries; one in so many is faulty.
    pub fn text(&self, random: &mut Random, faulty: usize) -> Vec<u8> {
        let faults: Vec<&str> = FAULTY.split('|').collect();
        let comments = ["#", "# a : k", "#a:zz#:", "##"];
        let mut text = vec![];
        for _ in 0..random.weighted(&[1, 4, 4, 3, 2, 1, 1]) {
            let line = match random.weighted(&[20, 1, 2]) {
                _ if random.once_in(4 * faulty) => random.pick(&faults).into(),
                0 => self.entry(random, faulty),
                1 => blanks(random, 0),
                _ => [blanks(random, 0), random.pick(&comments).into()].concat(),
            };
            text.extend(line);
            text.push(b'\n');
        }
        if random.once_in(2) {
            text.pop();
        }
        if random.once_in(3 * faulty) {
            text.insert(random.below(text.len() + 1), random.byte() | 128);
        }
        text
    }

    /// A line that adds an entry, or nearly.
    fn entry(&self, random: &mut Random, faulty: usize) -> Vec<u8> {
        let fault = if random.once_in(faulty) { random.between(1, 9) } else { 0 };
        let count = random.ranged(&[(1, 0, 0), (12, 1, 4), (1, 5, 24), (1, 24, 24)]);
        let (word, tag) = self.key(random);
        let mut fields: Vec<_> = [quoted(random, word)].into_iter().chain(tag).collect();
        if random.once_in(8) {
            fields.push(random.pick(&["x", "nil", "\x1c"]).into());
        }
        let mut phones = store_shapes::known(random, &self.scene, &self.phones, count);
        match fault {
            1 => fields[0] = vec![b'w'; random.between(48, 52)],
            2 => fields.insert(1, vec![b't'; random.between(48, 52)]),
            3 => fields.clear(),
            4 => phones.push(self.phones.phone(random)),
            5 => phones.push(vec![b'p'; random.between(16, 20)]),
            6 | 7 => phones.resize(random.between(25, 30), b"t".to_vec()),
            _ => {}
        }
        let mut line = blanks(random, 0);
        line.extend(fields.into_iter().flat_map(|field| [field, blanks(random, 1)].concat()));
        line.extend((fault < 8).then_some(b':'));
        line.extend(phones.into_iter().flat_map(|phone| [blanks(random, 1), phone].concat()));
        line.extend(blanks(random, 0));
        if random.once_in(8) {
            line.extend_from_slice(b"# : zz");
        }
        if random.once_in(9) {
            line.insert(random.below(line.len() + 1), random.pick_byte(b"::\"\"\x1c\x1c\x0b\r\t#"));
        }
        // the words and names may hold an end of a line, or a high byte in a tag
        line.retain(|b| *b != b'\n' && *b < 128);
        line
    }

    /// A word and its tag, if it has one; often an entry's of the store, most often if that is full.
    fn key(&self, random: &mut Random) -> (Vec<u8>, Option<Vec<u8>>) {
        let entries = self.scene.entries();
        let known = match entries.len() {
            0 => 0,
            count if count == stores::room(&self.scene.store) => 3,
            _ => 1,
        };
        if random.weighted(&[known, 2]) == 0 {
            let entry = &entries[random.below(entries.len())].entry;
            return (words::recased(random, &entry.word), Some(vec![entry.tag]));
        }
        let word = &self.words[random.below(self.words.len())];
        (words::recased(random, word), random.once_in(2).then(|| words::tag(random)))
    }
}

/// A word as a field, now and then with quote marks.
fn quoted(random: &mut Random, mut word: Vec<u8>) -> Vec<u8> {
    match random.below(12) {
        0 | 1 => word = [b"\"", &word[..], b"\""].concat(),
        2 => word = [b"\"\"", &word[..]].concat(),
        3 => word = vec![b'"'; random.between(1, 4)],
        4 => word.insert(random.below(word.len() + 1), b'"'),
        _ => {}
    }
    if word.is_empty() {
        word.push(b'"');
    }
    word
}

/// Some blanks, at least so many.
fn blanks(random: &mut Random, least: usize) -> Vec<u8> {
    let count = least + random.weighted(&[6, 2, 1]);
    (0..count).map(|_| random.pick_byte(b"      \t\x0b\x0c\r")).collect()
}
