//! lexicon.txt and the sections lex.phones, lex.index and lex.data.

use std::collections::{BTreeSet, HashMap};

use crate::fault::{Fault, Faults};
use crate::lines::{self, Line};
use crate::phones;

pub const FILE: &str = "lexicon.txt";

/// The longest word or tag, and the most phones of an entry.
pub const LONGEST_WORD: usize = 47;
pub const MOST_OF_ENTRY: usize = 96;

/// One entry: a folded word, the first byte of its tag, its phones.
#[derive(Debug, PartialEq, Eq)]
pub struct Entry {
    pub word: String,
    pub tag: u8,
    pub phones: Vec<String>,
}

/// The three sections of a lexicon.
pub struct Sections {
    pub phones: Vec<u8>,
    pub index: Vec<u8>,
    pub data: Vec<u8>,
}

/// The entries of a text, sorted by word; those of one word stay in the text's order.
pub fn read(bytes: &[u8]) -> Result<Vec<Entry>, Vec<Fault>> {
    let mut faults = Faults::of(FILE);
    let mut seen = HashMap::new();
    let mut entries = Vec::new();
    for line in lines::read(bytes, &mut faults) {
        match entry(&line) {
            Ok(entry) => {
                let key = (entry.word.clone(), entry.tag);
                let first = *seen.entry(key).or_insert(line.number);
                if first != line.number {
                    faults.add(line.number, twice(&entry, first));
                }
                entries.push(entry);
            }
            Err(sentence) => faults.add(line.number, sentence),
        }
    }
    entries.sort_by(|a, b| a.word.as_bytes().cmp(b.word.as_bytes()));
    faults.unless_any(entries)
}

fn twice(entry: &Entry, first: usize) -> String {
    format!(
        "\"{}\" with tag \"{}\" stands at line {first} too; keep one of the two, or give them different tags",
        entry.word, entry.tag as char
    )
}

/// The entry of a line, `WORD [TAG] [ignored ...] : PHONE PHONE ...`.
fn entry(line: &Line) -> Result<Entry, String> {
    let Some((head, tail)) = line.text.split_once(':') else {
        return Err("there is no colon; write WORD TAG : PHONES".to_string());
    };
    let head = lines::fields(head);
    let Some(first) = head.first() else {
        return Err("there is no word before the colon; write WORD TAG : PHONES".to_string());
    };
    let word = first.trim_matches('"').to_ascii_lowercase();
    let tag = head.get(1).copied().unwrap_or("");
    for (name, text) in [("word", word.as_str()), ("tag", tag)] {
        if text.len() > LONGEST_WORD {
            let length = text.len();
            return Err(format!("the {name} has {length} bytes; write at most {LONGEST_WORD}"));
        }
    }
    let phones = phones_of(tail)?;
    let tag = match tag {
        "" | "nil" => b'0',
        other => other.as_bytes()[0],
    };
    Ok(Entry { word, tag, phones })
}

fn phones_of(text: &str) -> Result<Vec<String>, String> {
    let phones = lines::fields(text);
    phones.iter().try_for_each(|phone| phones::check(phone))?;
    if phones.len() > MOST_OF_ENTRY {
        let count = phones.len();
        return Err(format!("the entry has {count} phones; write at most {MOST_OF_ENTRY}"));
    }
    Ok(phones.into_iter().map(str::to_string).collect())
}

/// The phones of entries, in order; then every vowel with 0, 1 and 2 that is not among them, so that `add_entries` knows
/// it. A phone is searched for from the front: those in use are found first.
pub fn phones(entries: &[Entry]) -> Vec<String> {
    let mut used = BTreeSet::new();
    for phone in entries.iter().flat_map(|entry| &entry.phones) {
        if !used.contains(phone) {
            used.insert(phone.clone());
        }
    }
    let unused: BTreeSet<String> =
        phones::stressed_vowels().filter(|vowel| !used.contains(vowel)).collect();
    used.into_iter().chain(unused).collect()
}

fn number(table: &[String], phone: &String) -> u8 {
    let place = table.iter().position(|known| known == phone);
    place.expect("each phone is in the table") as u8
}

/// The sections of sorted entries, whose phones are in the table.
pub fn sections(table: &[String], entries: &[Entry]) -> Sections {
    let mut index = (entries.len() as u32).to_le_bytes().to_vec();
    let mut data = Vec::new();
    for entry in entries {
        index.extend((data.len() as u32).to_le_bytes());
        data.extend([entry.tag, entry.word.len() as u8]);
        data.extend(entry.word.as_bytes());
        data.push(entry.phones.len() as u8);
        data.extend(entry.phones.iter().map(|phone| number(table, phone)));
    }
    let phones = phones::table(table);
    Sections { phones, index, data }
}

#[cfg(test)]
mod tests {
    use super::*;

    /// The only fault of a text.
    fn fault(text: &str) -> String {
        let faults = read(text.as_bytes()).expect_err("the text is faulty");
        assert_eq!(faults.len(), 1, "{faults:?}");
        faults[0].to_string()
    }

    #[test]
    fn entries_are_sorted_by_word_and_keep_their_order_within_one() {
        let text =
            "lead v : l iy1 d  # default\nLEAD noun more : l eh1 d\n\n\"a\" : ax0\nb nil :\n";
        let entries = read(text.as_bytes()).expect("the text is right");
        let keys: Vec<(&str, u8)> = entries.iter().map(|e| (e.word.as_str(), e.tag)).collect();
        assert_eq!(keys, [("a", b'0'), ("b", b'0'), ("lead", b'v'), ("lead", b'n')]);
        assert_eq!(entries[2].phones, ["l", "iy1", "d"]);
        assert!(entries[1].phones.is_empty());
    }

    #[test]
    fn an_entry_is_tag_word_and_phone_numbers_behind_their_lengths() {
        let entries = read(b"go v : g ow1").expect("the text is right");
        let table = ["g".to_string(), "ow1".to_string()];
        let made = sections(&table, &entries);
        assert_eq!(made.index, b"\x01\0\0\0\0\0\0\0");
        assert_eq!(made.data, b"v\x02go\x02\0\x01");
    }

    #[test]
    fn phones_hold_every_vowel_with_each_digit() {
        let table = phones(&read(b"go : g ow1").expect("the text is right"));
        assert_eq!(table.len(), 61);
        assert!(["oy0", "oy1", "oy2", "g"].iter().all(|p| table.contains(&p.to_string())));
    }

    #[test]
    fn an_entry_may_have_a_secondary_stress() {
        let entries = read(b"up : ah2 p").expect("the text is right");
        assert_eq!(entries[0].phones, ["ah2", "p"]);
    }

    #[test]
    fn each_fault_names_its_line_and_a_next_step() {
        let long = "w".repeat(48);
        let many = " k".repeat(97);
        #[rustfmt::skip]
        let cases = [
            ("\ngo g ow1".to_string(), "line 2: there is no colon; write WORD TAG : PHONES"),
            (" : g".to_string(), "line 1: there is no word before the colon; write WORD TAG : PHONES"),
            (format!("{long} : g"), "line 1: the word has 48 bytes; write at most 47"),
            (format!("a {long} : g"), "line 1: the tag has 48 bytes; write at most 47"),
            (format!("a :{many}"), "line 1: the entry has 97 phones; write at most 96"),
            ("# é\na : k".to_string(), "line 1: has a byte of 128 or more; write plain letters"),
            ("a : k q".to_string(), "line 1: \"q\" is no phone; write one of the 50"),
            ("a : ae3".to_string(), "line 1: \"ae3\" is no phone; write one of the 50"),
            ("a : k1 ae".to_string(), "line 1: \"k1\" has a stress behind a consonant; write k, and 0, 1 or 2"),
            ("a n : k\n\"A\" noun : t".to_string(), "line 2: \"a\" with tag \"n\" stands at line 1 too; keep one"),
        ];
        for (text, said) in cases {
            let told = fault(&text);
            assert!(told.starts_with(&format!("lexicon.txt, {said}")), "{told}");
        }
    }

    #[test]
    fn all_faults_are_told() {
        let faults = read(b"a\nb : k\n: t\n").expect_err("the text is faulty");
        let lines: Vec<usize> = faults.iter().map(|fault| fault.line).collect();
        assert_eq!(lines, [1, 3]);
    }

    #[test]
    fn the_limits_themselves_are_taken() {
        let text = format!("{} : {}", "w".repeat(47), "k ".repeat(96));
        assert_eq!(read(text.as_bytes()).expect("the text is right").len(), 1);
    }
}
