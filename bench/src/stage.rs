//! Stores and sheets that are empty, half-full and full, written by the library itself; and settings.

use crate::measure::AGAIN;
use crate::ours;
use crate::tables::{Tables, Word};

/// The largest store that 01 accepts, and the largest sheet.
const LARGEST: usize = 65_536;
const SLOT: usize = 512;
const ITEM: usize = 64;
/// Bytes of a record of settings.
const RECORD: usize = 32;
/// Bytes of a phone in a list: its length, its text, zeros.
const CELL: usize = 16;
/// Room for the longest phone list.
pub const LIST: usize = 96 * CELL;

/// How full a store or a sheet is.
#[derive(Clone, Copy, PartialEq)]
pub enum Fill {
    Empty,
    Half,
    Full,
}

/// An entry of the store.
#[derive(Clone)]
pub struct Entry {
    pub word: String,
    pub tag: &'static str,
    pub phones: Vec<String>,
    pub exact: bool,
}

/// A phone list in cells.
pub fn cells(phones: &[String]) -> Vec<u8> {
    phones.iter().flat_map(|p| cell(p.as_bytes())).collect()
}

fn cell(text: &[u8]) -> [u8; CELL] {
    let mut cell = [0; CELL];
    cell[0] = text.len() as u8;
    cell[1..=text.len()].copy_from_slice(text);
    cell
}

/// The phones of a word: looked up with an empty store, else predicted.
pub fn pronounced(tables: &Tables, word: &Word) -> Vec<String> {
    let mut out = [0; LIST];
    let store = empty_store();
    let (text, tag) = (word.text.as_bytes(), word.tag.as_bytes());
    let mut answer = ours::lookup(tables.lex(), &store, text, tag, &mut out);
    if answer.refusal == 0 && answer.kind == 0 {
        let [phones, index, model] = tables.lts();
        answer = ours::predict(phones, index, model, text, &mut out);
    }
    assert!(answer.refusal == 0, "{:?} is refused", word.text);
    phones_of(&out[..CELL * answer.value as usize])
}

/// The phones of a list of cells.
pub fn phones_of(list: &[u8]) -> Vec<String> {
    let phone = |cell: &[u8]| {
        let text = &cell[1..=usize::from(cell[0])];
        String::from_utf8(text.to_vec()).expect("phones are ASCII")
    };
    list.chunks_exact(CELL).map(phone).collect()
}

/// A phone without its stress.
pub fn bare(phone: &str) -> String {
    phone.strip_suffix(['0', '1']).unwrap_or(phone).to_string()
}

fn empty_store() -> Vec<u8> {
    let mut store = vec![0; LARGEST];
    ours::new_store(&mut store);
    store
}

/// The entries of a store that is so full, ordinary ones: every fourth of the words asked about, then these with letters
/// behind them. Their phones are those of the word, twice, up to 24.
pub fn entries(tables: &Tables, fill: Fill) -> Vec<Entry> {
    let count = match fill {
        Fill::Empty => 0,
        Fill::Half => 64,
        Fill::Full => LARGEST / SLOT - 1,
    };
    let asked = tables.words.iter().step_by(4);
    let known = |phone: &String| is_known(tables, phone);
    let entry = |(i, word): (usize, &Word)| {
        let mut phones = pronounced(tables, word);
        phones.retain(known);
        phones.extend(phones.clone());
        phones.truncate(24);
        let behind = ["", "x", "zed"][i * 4 / tables.words.len() % 3];
        Entry {
            word: format!("{}{behind}", word.text),
            tag: ["0", "n", "v"][i * 4 / tables.words.len() / 3 % 3],
            phones,
            exact: false,
        }
    };
    let mut all: Vec<Entry> = asked.cycle().enumerate().map(entry).take(240).collect();
    let mut keys = std::collections::BTreeSet::new();
    all.retain(|entry| keys.insert((entry.word.clone(), entry.tag)));
    all.truncate(count);
    assert!(all.len() == count, "the words are too few for {count} entries");
    all
}

/// The same entries, exact.
pub fn exact(mut entries: Vec<Entry>) -> Vec<Entry> {
    entries.iter_mut().for_each(|entry| entry.exact = true);
    entries
}

/// The same entries, none of whose words is asked about: a capital stands behind each.
pub fn others(mut entries: Vec<Entry>) -> Vec<Entry> {
    entries.iter_mut().for_each(|entry| entry.word.push('Z'));
    entries
}

/// Whether a phone may be added.
fn is_known(tables: &Tables, phone: &str) -> bool {
    let mut store = vec![0; 2 * SLOT];
    let list = cell(phone.as_bytes());
    ours::add_entry(&tables.lex[0], &mut store, b"a", b"", &list, false).refusal == 0
}

/// A store with these entries.
pub fn store(tables: &Tables, entries: &[Entry]) -> Vec<u8> {
    let mut store = empty_store();
    for entry in entries {
        let (word, tag) = (entry.word.as_bytes(), entry.tag.as_bytes());
        let (phones, exact) = (cells(&entry.phones), entry.exact);
        let answer = ours::add_entry(&tables.lex[0], &mut store, word, tag, &phones, exact);
        assert!(answer.refusal == 0, "{:?} is not added", entry.word);
    }
    store
}

/// Texts of so many lines, which go round the entries.
pub fn texts(entries: &[Entry], lines: usize) -> Vec<String> {
    let line =
        |entry: &Entry| format!("{} {} : {}\n", entry.word, entry.tag, entry.phones.join(" "));
    let mut lines_of_all = entries.iter().cycle().map(line);
    (0..AGAIN).map(|_| lines_of_all.by_ref().take(lines).collect()).collect()
}

/// How many of the words, one behind the other and over again, fill a sheet so far. A full one has room for any of the
/// words, and not for the longest twice.
pub fn words_on_sheet(tables: &Tables, fill: Fill) -> usize {
    let most = LARGEST / ITEM - 1;
    let need = |word: &Word| {
        let mut sheet = empty_sheet();
        say(tables, &mut sheet, word);
        used(&sheet)
    };
    let needs: Vec<usize> = tables.words.iter().map(need).collect();
    let longest = needs.iter().max().expect("there are words");
    let wanted = match fill {
        Fill::Empty => 0,
        Fill::Half => most / 2,
        Fill::Full => most + 1 - 2 * longest,
    };
    let mut used = 0;
    let mut needs = needs.iter().cycle();
    let mut said = 0;
    while used < wanted {
        used += needs.next().expect("the words go round");
        said += 1;
    }
    said
}

/// A sheet of the first so many words.
pub fn sheet(tables: &Tables, count: usize) -> Vec<u8> {
    let mut sheet = empty_sheet();
    for word in tables.round(count) {
        say(tables, &mut sheet, word);
    }
    sheet
}

/// Of version 1, whose stresses are the original's.
fn empty_sheet() -> Vec<u8> {
    let mut sheet = vec![0; LARGEST];
    ours::new_sheet(&mut sheet, 1);
    sheet
}

fn say(tables: &Tables, sheet: &mut [u8], word: &Word) {
    let (text, tag) = (word.text.as_bytes(), word.tag.as_bytes());
    let store = &empty_store()[..SLOT];
    let answer = ours::say_word(tables.lex(), tables.lts(), store, sheet, text, tag);
    assert!(answer.refusal == 0, "{:?} is not said", word.text);
}

/// How many items a sheet uses.
pub fn used(sheet: &[u8]) -> usize {
    number(sheet, 8)
}

/// The parts of a sheet that saying a word alters, but for the items it takes: item 0, the last word and the last phone.
pub fn patched(sheet: &[u8]) -> [usize; 3] {
    [0, ITEM * number(sheet, 6), ITEM * number(sheet, 10)]
}

fn number(bytes: &[u8], at: usize) -> usize {
    usize::from(u16::from_le_bytes([bytes[at], bytes[at + 1]]))
}

/// Settings of version 2 with so many records: names of 15 bytes, and last pitch, stretch and level.
pub fn settings(records: usize) -> Vec<u8> {
    let known = [
        ("pitch".to_string(), 1, 100),
        ("stretch".to_string(), 2, 1.25_f32.to_bits()),
        ("level".to_string(), 1, 75),
    ];
    let others = (0..records - known.len()).map(|i| (format!("setting-{i:06}x"), 1, i as u32));
    let mut settings = vec![2, 0, 1, 0];
    settings.resize(RECORD, 0);
    for (i, (name, kind, value)) in others.chain(known).enumerate() {
        let next = if i + 1 < records { i + 2 } else { 0 };
        let mut record = [0; RECORD];
        record[..2].copy_from_slice(&(next as u16).to_le_bytes());
        record[2] = name.len() as u8;
        record[3..3 + name.len()].copy_from_slice(name.as_bytes());
        record[18] = kind;
        record[19..23].copy_from_slice(&value.to_le_bytes());
        settings.extend(record);
    }
    let shown = ours::read_settings(&settings, 2, 1.0);
    assert!((shown.refusal, shown.pitch, shown.level) == (0, 100, 75), "they are refused");
    settings
}
