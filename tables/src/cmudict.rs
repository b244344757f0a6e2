//! A file in CMUdict's form, turned into a lexicon.txt. `tables/README.md` tells what becomes of words and phones.

use std::collections::HashMap;
use std::fs;
use std::path::Path;

use crate::fault::{Fault, Faults};
use crate::lexicon::{self, Entry, LONGEST_WORD, MOST_OF_ENTRY};
use crate::{lines, phones, sections};

/// The 39 phones of CMUdict. Behind a vowel stands its stress.
const VOWELS: [&str; 15] =
    ["AA", "AE", "AH", "AO", "AW", "AY", "EH", "ER", "EY", "IH", "IY", "OW", "OY", "UH", "UW"];
#[rustfmt::skip]
const CONSONANTS: [&str; 24] = [
    "B", "CH", "D", "DH", "F", "G", "HH", "JH", "K", "L", "M", "N", "NG", "P", "R", "S", "SH", "T", "TH", "V", "W",
    "Y", "Z", "ZH",
];

/// The reduced vowel, and what the English tables write for it.
const REDUCED: (&str, &str) = ("AH0", "ax0");

/// What a comment line begins with, and a comment at a line's end.
const COMMENT: &str = ";;;";
const REMARK: char = '#';

/// The tag of a first pronunciation.
const FIRST: u8 = b'0';

/// The first line of a lexicon.txt that was made here.
const HEAD: &str =
    "# Made by tables/from_cmudict. This is CMUdict's data, under CMUdict's licence.\n";

/// What a file comes to.
#[derive(Debug)]
pub struct Read {
    /// By word; of one word the first pronunciation, then the alternates by their numbers.
    pub entries: Vec<Entry>,
    /// The lines with words that lexicon.txt cannot hold, and why.
    pub left_out: Vec<Fault>,
}

impl Read {
    pub fn alternates(&self) -> usize {
        self.entries.iter().filter(|entry| entry.tag != FIRST).count()
    }
}

/// Makes the lexicon.txt of a folder from a file, and the folder where it is missing.
pub fn make(file: &Path, folder: &Path) -> Result<Read, Vec<Fault>> {
    let missing = "there is no such file; name a file in CMUdict's form";
    let bytes = sections::bytes(file, missing)?;
    let read = read(&bytes, &file.display().to_string())?;
    write(&read.entries, folder).map_err(|fault| vec![fault])?;
    Ok(read)
}

/// Writes lexicon.txt, but over none that was not made here.
fn write(entries: &[Entry], folder: &Path) -> Result<(), Fault> {
    let path = folder.join(lexicon::FILE);
    if fs::read(&path).is_ok_and(|old| !old.starts_with(HEAD.as_bytes())) {
        let sentence = "is there already, and tables/from_cmudict did not make it; name another folder, or move it away";
        return Err(sections::whole_file(&path, sentence.to_string()));
    }
    sections::make_folder(folder)?;
    sections::write_file(&path, text(entries).as_bytes())
}

/// The text of lexicon.txt.
fn text(entries: &[Entry]) -> String {
    let mut text = HEAD.to_string();
    for entry in entries {
        text += &entry.word;
        if entry.tag != FIRST {
            text.extend([' ', char::from(entry.tag)]);
        }
        text += " :";
        for phone in &entry.phones {
            text += " ";
            text += phone;
        }
        text += "\n";
    }
    text
}

/// The entries of a file, whose name is for the faults.
fn read(bytes: &[u8], file: &str) -> Result<Read, Vec<Fault>> {
    let (mut faults, mut left_out) = (Faults::of(file), Faults::of(file));
    let mut seen = HashMap::new();
    let mut entries = Vec::new();
    for (number, raw) in (1..).zip(bytes.split(|&byte| byte == b'\n')) {
        let whole = String::from_utf8_lossy(raw);
        let Some((head, tail)) = parts(&whole) else {
            continue;
        };
        match entry(head, &tail) {
            Err(sentence) => faults.add(number, sentence),
            Ok(entry) => match why_left_out(&entry.word) {
                Some(why) => left_out.add(number, format!("\"{head}\" is left out: {why}")),
                None => {
                    let key = (entry.word.clone(), entry.tag);
                    let first = *seen.entry(key).or_insert(number);
                    if first != number {
                        faults.add(number, twice(head, first));
                    }
                    entries.push(entry);
                }
            },
        }
    }
    if faults.list.is_empty() && entries.is_empty() && left_out.list.is_empty() {
        faults
            .add(0, "has no word; name a file in CMUdict's form, as ABANDON  AH0 B AE1 N D AH0 N");
    }
    entries.sort_by(|a, b| (a.word.as_bytes(), a.tag).cmp(&(b.word.as_bytes(), b.tag)));
    faults.unless_any(Read { entries, left_out: left_out.list })
}

fn twice(head: &str, first: usize) -> String {
    format!("\"{head}\" stands at line {first} too; keep one of the two, or number them as alternates, WORD(2)")
}

/// The word of a line with its number, and the fields of its phones; none in a line without words.
fn parts(text: &str) -> Option<(&str, Vec<&str>)> {
    let mut fields = lines::fields(text).into_iter();
    let head = fields.next().filter(|head| !head.starts_with(COMMENT))?;
    Some((head, fields.take_while(|field| !field.starts_with(REMARK)).collect()))
}

/// The entry of a line, in small letters.
fn entry(head: &str, tail: &[&str]) -> Result<Entry, String> {
    let (word, tag) = word_and_tag(head)?;
    match tail.len() {
        0 => return Err(format!("\"{head}\" has no phones; write WORD  PHONE PHONE ...")),
        1..=MOST_OF_ENTRY => {}
        many => return Err(format!("\"{head}\" has {many} phones; write at most {MOST_OF_ENTRY}")),
    }
    let phones = tail.iter().map(|given| phone(given)).collect::<Result<Vec<String>, String>>()?;
    Ok(Entry { word: word.to_ascii_lowercase(), tag, phones })
}

/// A word and its tag: an alternate, WORD(2), has its digit.
fn word_and_tag(head: &str) -> Result<(&str, u8), String> {
    let numbered = head.strip_suffix(')').and_then(|front| front.rsplit_once('('));
    match numbered {
        Some((word, number)) if !word.is_empty() && is_number(number) => match number.as_bytes() {
            [digit @ b'1'..=b'9'] => Ok((word, *digit)),
            _ => Err(format!("\"{head}\" has the number {number}; number alternates from 1 to 9")),
        },
        _ => Ok((head, FIRST)),
    }
}

fn is_number(text: &str) -> bool {
    !text.is_empty() && text.bytes().all(|byte| byte.is_ascii_digit())
}

/// The phone of the 50 for one of CMUdict's; else it is told what to write.
fn phone(given: &str) -> Result<String, String> {
    let upper = given.to_ascii_uppercase();
    let name = phones::bare(&upper);
    let has_digit = name != upper;
    match (VOWELS.contains(&name), CONSONANTS.contains(&name)) {
        (true, _) if upper == REDUCED.0 => Ok(REDUCED.1.to_string()),
        (true, _) if !has_digit => {
            Err(format!("\"{given}\" has no stress; write {name}0, {name}1 or {name}2"))
        }
        (_, true) if has_digit => Err(format!(
            "\"{given}\" has a stress behind a consonant; write {name}, and 0, 1 or 2 behind a vowel only"
        )),
        (false, false) => Err(format!(
            "\"{given}\" is no phone of CMUdict; write one of the 39, and 0, 1 or 2 behind a vowel: {}",
            [&VOWELS[..], &CONSONANTS].concat().join(" ")
        )),
        _ => Ok(upper.to_ascii_lowercase()),
    }
}

/// Why lexicon.txt cannot hold a word, if so.
fn why_left_out(word: &str) -> Option<String> {
    if !word.is_ascii() {
        return Some("it has a byte of 128 or more".to_string());
    }
    if word.contains('#') {
        return Some("\"#\" begins a remark in lexicon.txt".to_string());
    }
    if word.contains(':') {
        return Some("\":\" ends the word in lexicon.txt".to_string());
    }
    if word.starts_with('"') || word.ends_with('"') {
        return Some("lexicon.txt takes outer quote marks off a word".to_string());
    }
    let length = word.len();
    (length > LONGEST_WORD)
        .then(|| format!("it has {length} bytes, and a word has at most {LONGEST_WORD}"))
}

#[cfg(test)]
mod tests {
    use super::*;
    use std::collections::BTreeMap;

    const README: &str = include_str!("../README.md");

    /// The text of the lexicon.txt of lines.
    fn made(lines: &str) -> String {
        let read = read(lines.as_bytes(), "file").unwrap_or_else(|faults| panic!("{}", faults[0]));
        assert!(read.left_out.is_empty(), "{}", read.left_out[0]);
        text(&read.entries)
    }

    /// The only fault of lines.
    fn fault(lines: &str) -> String {
        let faults = read(lines.as_bytes(), "file").expect_err("the lines are faulty");
        assert_eq!(faults.len(), 1, "{faults:?}");
        faults[0].to_string()
    }

    /// Each phone of CMUdict with its stress, by the table in README.md.
    fn readme_table() -> BTreeMap<String, String> {
        let rows = README.lines().skip_while(|row| !row.starts_with("| CMUdict | here |")).skip(2);
        let rows = rows.take_while(|row| row.starts_with('|'));
        let cells: Vec<&str> = rows.flat_map(|row| row.split('`').skip(1).step_by(2)).collect();
        let (mut all, mut stressed) = (BTreeMap::new(), BTreeMap::new());
        for pair in cells.chunks(2) {
            if phones::is_vowel(pair[1]) {
                let digits =
                    phones::DIGITS.map(|d| (format!("{}{d}", pair[0]), format!("{}{d}", pair[1])));
                all.extend(digits);
            } else {
                stressed.insert(pair[0].to_string(), pair[1].to_string());
            }
        }
        all.extend(stressed);
        all
    }

    #[test]
    fn phones_are_those_of_the_table_in_the_readme() {
        let vowels = VOWELS.iter().flat_map(|name| phones::DIGITS.map(|d| format!("{name}{d}")));
        let all = vowels.chain(CONSONANTS.map(str::to_string));
        let known = all.map(|given| (given.clone(), phone(&given).expect("it is one of CMUdict")));
        let known: BTreeMap<String, String> = known.collect();
        assert_eq!(known.len(), 69);
        assert_eq!(known, readme_table());
        assert!(known.values().all(|ours| phones::check(ours).is_ok()));
    }

    #[test]
    fn a_first_pronunciation_stands_before_its_alternates() {
        let lines = "LIVE(2)  L AY1 V\nLIVE(1)  L IH0 V\nLIVED  L IH1 V D\nLIVE  L IH1 V\n";
        let wanted = "live : l ih1 v\nlive 1 : l ih0 v\nlive 2 : l ay1 v\nlived : l ih1 v d\n";
        assert_eq!(made(lines), format!("{HEAD}{wanted}"));
    }

    #[test]
    fn an_alternate_may_stand_alone() {
        assert_eq!(made("LIVE(3)  L AY1 V"), format!("{HEAD}live 3 : l ay1 v\n"));
    }

    #[test]
    fn only_a_number_in_brackets_behind_a_word_makes_an_alternate() {
        for word in ["(paren", ")close-paren", "(2)", "a(b)", "a()", "a(2", "a2)"] {
            assert_eq!(made(&format!("{word}  P")), format!("{HEAD}{word} : p\n"));
        }
    }

    #[test]
    fn the_newer_form_and_line_ends_of_windows_are_read() {
        let lines = ";;; d\u{e9}j\u{e0}\r\n\r\naalborg AO1 L B # place, danish \u{e9}\r\naalborg(2) aa1 l b\r\n";
        assert_eq!(made(lines), format!("{HEAD}aalborg : ao1 l b\naalborg 2 : aa1 l b\n"));
    }

    #[test]
    fn what_is_written_is_read_back() {
        let bytes = (b'!'..=b'~').filter(|byte| !b"\"#:".contains(byte));
        let words = bytes
            .map(|byte| format!("{0}a\"{0}{0}(4)  AE2\n", char::from(byte.to_ascii_lowercase())));
        let mut lines: Vec<String> = words.collect();
        lines.sort();
        lines.dedup();
        let read = read(lines.concat().as_bytes(), "file").expect("the lines are right");
        assert_eq!((read.entries.len(), read.left_out.len()), (65, 0));
        let back = lexicon::read(text(&read.entries).as_bytes());
        assert_eq!(back.expect("the text is right"), read.entries);
    }

    #[test]
    fn each_word_that_lexicon_txt_cannot_hold_is_told() {
        let long = "W".repeat(48);
        #[rustfmt::skip]
        let cases = [
            ("#HASH".as_bytes(), "\"#HASH\" is left out: \"#\" begins a remark in lexicon.txt".to_string()),
            (b"A#(1)", "\"A#(1)\" is left out: \"#\" begins a remark in lexicon.txt".to_string()),
            (b":COLON", "\":COLON\" is left out: \":\" ends the word in lexicon.txt".to_string()),
            (b"D\xc9J\xc0", "\"D\u{fffd}J\u{fffd}\" is left out: it has a byte of 128 or more".to_string()),
            ("D\u{c9}J\u{c0}".as_bytes(), "\"D\u{c9}J\u{c0}\" is left out: it has a byte of 128 or more".to_string()),
            (b"\"QUOTE", "\"\"QUOTE\" is left out: lexicon.txt takes outer quote marks off a word".to_string()),
            (b"INCH\"(2)", "\"INCH\"(2)\" is left out: lexicon.txt takes outer quote marks off a word".to_string()),
            (long.as_bytes(), format!("\"{long}\" is left out: it has 48 bytes, and a word has at most 47")),
        ];
        for (word, said) in cases {
            let lines = [b"GO  G OW1\n", word, b"  G"].concat();
            let read = read(&lines, "file").expect("the lines are right");
            let told: Vec<String> = read.left_out.iter().map(Fault::to_string).collect();
            assert_eq!(told, [format!("file, line 2: {said}")]);
            assert_eq!(read.entries.len(), 1);
        }
    }

    #[test]
    fn each_fault_names_its_line_and_a_next_step() {
        let many = " K".repeat(97);
        #[rustfmt::skip]
        let cases = [
            ("A".to_string(), ", line 1: \"A\" has no phones; write WORD  PHONE PHONE ..."),
            ("A # remark".to_string(), ", line 1: \"A\" has no phones; write WORD  PHONE PHONE ..."),
            (";;; x\nA  K Q".to_string(), ", line 2: \"Q\" is no phone of CMUdict; write one of the 39, and 0, 1 or 2 behind a vowel: AA AE"),
            ("A  AE3".to_string(), ", line 1: \"AE3\" is no phone of CMUdict; write one of the 39"),
            ("A  AX0".to_string(), ", line 1: \"AX0\" is no phone of CMUdict; write one of the 39"),
            ("A  \u{c9}1".to_string(), ", line 1: \"\u{c9}1\" is no phone of CMUdict; write one of the 39"),
            ("A  AE".to_string(), ", line 1: \"AE\" has no stress; write AE0, AE1 or AE2"),
            ("A  K2".to_string(), ", line 1: \"K2\" has a stress behind a consonant; write K, and 0, 1 or 2 behind a vowel only"),
            (format!("A {many}"), ", line 1: \"A\" has 97 phones; write at most 96"),
            ("A(0)  K".to_string(), ", line 1: \"A(0)\" has the number 0; number alternates from 1 to 9"),
            ("A(10)  K".to_string(), ", line 1: \"A(10)\" has the number 10; number alternates from 1 to 9"),
            ("A  K\na  T".to_string(), ", line 2: \"a\" stands at line 1 too; keep one of the two, or number them as alternates"),
            ("A(2)  K\nB  K\nA(2)  K".to_string(), ", line 3: \"A(2)\" stands at line 1 too; keep one"),
            (";;; nothing\n\n".to_string(), ": has no word; name a file in CMUdict's form"),
        ];
        for (lines, said) in cases {
            let told = fault(&lines);
            assert!(told.starts_with(&format!("file{said}")), "{told}");
        }
    }

    #[test]
    fn all_faults_are_told() {
        let faults = read(b"A\nB  K\nC  Q\n#D  Q\nE  K", "file").expect_err("the lines are faulty");
        let lines: Vec<usize> = faults.iter().map(|fault| fault.line).collect();
        assert_eq!(lines, [1, 3, 4]);
    }

    #[test]
    fn the_limits_themselves_are_taken() {
        let word = "w".repeat(47);
        let lines = format!("{word}(9) {}", " K".repeat(96));
        assert_eq!(made(&lines), format!("{HEAD}{word} 9 :{}\n", " k".repeat(96)));
    }
}
