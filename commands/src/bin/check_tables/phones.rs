//! The phones of both tables: which of them are none of the 50, which nobody uses, and who uses a secondary stress.

use commands::numbers::u32_at;
use pronouncer::{Lexicon, PhoneList, Refusal, Store, CELL_BYTES, SLOT_BYTES};

use crate::entries::{self, Entry};
use crate::report::{Detail, Place, Report, User, Warning};
use crate::stress;
use crate::trees::Leaf;

/// The leaf of a letter that is not said. Any other has one phone, or two with a "-" between them.
const SILENT: &str = "epsilon";
/// How an entry is tagged that has no tag.
const NO_TAG: u8 = b'0';

/// Who uses the phones of a table.
#[derive(Clone, Copy)]
pub enum Uses<'a> {
    Entries(Lexicon<'a>),
    Leaves(&'a [Leaf]),
}

impl Uses<'_> {
    /// Which numbers are used.
    fn used(&self) -> [bool; 256] {
        let mut used = [false; 256];
        match self {
            Uses::Entries(lexicon) => entries::all(lexicon)
                .flat_map(|entry| entry.numbers)
                .for_each(|&number| used[usize::from(number)] = true),
            Uses::Leaves(leaves) => leaves.iter().for_each(|leaf| used[leaf.phone] = true),
        }
        used
    }

    /// How many use a number that is marked.
    fn count(&self, marked: &[bool; 256]) -> usize {
        let has = |entry: &Entry| entry.numbers.iter().any(|&number| marked[usize::from(number)]);
        match self {
            Uses::Entries(lexicon) => entries::all(lexicon).filter(has).count(),
            Uses::Leaves(leaves) => leaves.iter().filter(|leaf| marked[leaf.phone]).count(),
        }
    }

    /// Who uses a number.
    fn users(&self, number: usize) -> Vec<User> {
        let has = |entry: &Entry| entry.numbers.iter().any(|&n| usize::from(n) == number);
        match self {
            Uses::Entries(lexicon) => {
                let all = entries::all(lexicon).enumerate();
                all.filter(|(_, entry)| has(entry)).map(entry_user).collect()
            }
            Uses::Leaves(leaves) => {
                let all = leaves.iter().filter(|leaf| leaf.phone == number);
                all.map(leaf_user).collect()
            }
        }
    }
}

fn entry_user((i, entry): (usize, Entry)) -> User {
    let name = match entry.tag {
        NO_TAG => entry.shown(),
        tag => format!("{}/{}", entry.shown(), char::from(tag)),
    };
    let place = Place { entry: Some(i), ..Place::at("lex.data", entry.at) };
    User { name, place }
}

fn leaf_user(leaf: &Leaf) -> User {
    let name = format!("node {} of \"{}\"", leaf.node, leaf.letter);
    let place = leaf.place();
    User { name, place }
}

/// A phone of a table: its text, and the byte at which that begins.
struct Phone<'a> {
    text: &'a str,
    byte: usize,
}

/// The phones of a table that has its form.
fn table(section: &[u8]) -> Vec<Phone<'_>> {
    let mut at = 4;
    let count = u32_at(section, 0).unwrap_or(0);
    let phones = (0..count).map_while(|_| {
        let byte = at + 1;
        at = byte + usize::from(*section.get(at)?);
        let text = std::str::from_utf8(section.get(byte..at)?).ok()?;
        Some(Phone { text, byte })
    });
    phones.collect()
}

/// Whether a phone without its stress is one of the 50: the library takes an entry that has it, though lex.phones lists
/// nothing.
fn is_known(phone: &str) -> bool {
    let bare = stress::bare(phone);
    let (mut slots, mut cell) = ([0; 2 * SLOT_BYTES], [0; CELL_BYTES]);
    cell[0] = bare.len() as u8;
    cell[1..=bare.len()].copy_from_slice(bare.as_bytes());
    let nothing = Lexicon { phones: &[0; 4], index: &[0; 4], data: &[] };
    let added = Store::new_store(&mut slots).and_then(|mut store| {
        store.add_entry(&nothing, "a", "", PhoneList::from_cells(&cell), false)
    });
    !added.is_err_and(|refused| refused.refusal == Refusal::UnknownPhone)
}

/// The phones that a text of a table gives.
fn parts<'a>(name: &str, text: &'a str) -> Vec<&'a str> {
    match name {
        "lts.phones" if text == SILENT => Vec::new(),
        "lts.phones" => text.splitn(2, '-').collect(),
        _ => vec![text],
    }
}

/// Tells which phones of a table that has its form are none of the 50. Keeps those that nobody uses, and how many use a
/// secondary stress. `uses` is none where a fault is in the way.
pub fn check(name: &'static str, section: &[u8], uses: Option<Uses>, report: &mut Report) {
    let phones = table(section);
    for (number, phone) in phones.iter().enumerate() {
        for part in parts(name, phone.text) {
            if !is_known(part) {
                let users = uses.map(|uses| uses.users(number));
                report.details.push(warning(name, number, phone, part, users));
            }
        }
    }
    let mut secondary = [false; 256];
    for (mark, phone) in secondary.iter_mut().zip(&phones) {
        *mark = parts(name, phone.text).into_iter().any(stress::is_secondary);
    }
    let place = usize::from(name != "lex.phones");
    report.summary.secondary[place] = uses.map(|uses| uses.count(&secondary));
    report.summary.unused[place] = uses.map(|uses| {
        let unused = phones.iter().zip(uses.used()).filter(|(_, used)| !used);
        unused.map(|(phone, _)| phone.text.to_string()).collect()
    });
}

fn warning(
    name: &'static str,
    number: usize,
    phone: &Phone,
    part: &str,
    users: Option<Vec<User>>,
) -> Detail {
    let whole = phone.text.escape_default();
    let sentence = if part == phone.text {
        format!("phone {number}, \"{whole}\", is none of the 50")
    } else {
        let part = part.escape_default();
        format!("\"{part}\" in phone {number}, \"{whole}\", is none of the 50")
    };
    Detail::Warning(Warning {
        place: Place::at(name, phone.byte),
        phone: part.to_string(),
        sentence,
        users,
    })
}
