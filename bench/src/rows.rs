//! The rows: what is asked, and both sides of it.

use crate::library::{self, Taking};
use crate::measure::Side;
#[cfg(feature = "original")]
use crate::original_side as rust;
use crate::stage::{self, Entry, Fill, LIST};
use crate::tables::Tables;

/// A question.
pub struct Row {
    pub name: String,
    /// What is counted, and how many of them a call has.
    pub unit: &'static str,
    pub units: usize,
    /// Ours, then the original's where there is one.
    pub sides: Vec<Box<dyn Side>>,
}

/// A row before its sides are made, which only some runs need.
pub struct Plan {
    pub name: String,
    make: Box<dyn Fn(&'static Tables) -> Row>,
}

impl Plan {
    pub fn row(&self, tables: &'static Tables) -> Row {
        (self.make)(tables)
    }
}

const FILLS: [(Fill, &str); 3] =
    [(Fill::Empty, "empty"), (Fill::Half, "half-full"), (Fill::Full, "full")];

/// Texts of entries: how many lines, and how full the store is. To an empty one they add, else they replace.
const TEXTS: [(usize, (Fill, &str)); 4] =
    [(100, FILLS[0]), (3, FILLS[1]), (3, FILLS[2]), (100, FILLS[2])];

const TAKINGS: [(Taking, &str); 4] = [
    (Taking::Add, "add_entries"),
    (Taking::Preview, "preview_entries"),
    (Taking::Accept, "accept_entries"),
    (Taking::PreviewAndAccept, "preview and accept"),
];

/// A row that is made of its sides.
fn plan(
    name: impl Into<String>,
    unit: &'static str,
    sides: impl Fn(&'static Tables) -> Sides + 'static,
) -> Plan {
    let name = name.into();
    let row_name = name.clone();
    let make = Box::new(move |tables: &'static Tables| {
        let Sides { units, sides } = sides(tables);
        Row { name: row_name.clone(), unit, units, sides }
    });
    Plan { name, make }
}

/// All rows.
pub fn all() -> Vec<Plan> {
    let mut plans = vec![
        plan("predict", "words", predict),
        plan("syllabify", "words", syllabify),
        plan("is_sayable", "words", is_sayable),
    ];
    plans.extend(of_entries());
    plans.extend(of_texts());
    plans.extend(of_sheets());
    plans.push(plan("check_lexicon", "entries", check_lexicon));
    plans.extend(of_settings());
    plans.extend(of_soundness());
    plans
}

fn of_entries() -> Vec<Plan> {
    let mut plans = vec![];
    for (fill, full) in FILLS {
        let name = format!("lookup, {full} store");
        plans.push(plan(name, "words", move |t| lookup(t, fill)));
    }
    plans.push(plan("lookup, ordinary entry, full store", "entries", |t| lookup_entry(t, false)));
    plans.push(plan("lookup, exact entry, full store", "entries", |t| lookup_entry(t, true)));
    plans.push(plan("lookup, other exact entries, full store", "words", lookup_others));
    for (fill, full) in FILLS {
        let name = format!("add_entry, {full} store");
        plans.push(plan(name, "entries", move |t| add_entry(t, fill)));
    }
    plans.push(plan("add_entry, exact entry, full store", "entries", add_exact));
    plans
}

fn of_texts() -> Vec<Plan> {
    let mut plans = vec![];
    for (taking, call) in TAKINGS {
        for (lines, (fill, full)) in TEXTS {
            let name = format!("{call}, {lines} lines, {full} store");
            plans.push(plan(name, "texts", move |t| take_text(t, taking, lines, fill)));
        }
    }
    plans
}

fn of_sheets() -> Vec<Plan> {
    let mut plans = vec![];
    for (store, store_full) in [FILLS[0], FILLS[2]] {
        for (sheet, full) in FILLS {
            let name = format!("say_word, {full} sheet, {store_full} store");
            plans.push(plan(name, "words", move |t| say_word(t, sheet, store)));
        }
    }
    for (sheet, full) in FILLS {
        let name = format!("phone_string, {full} sheet");
        plans.push(plan(name, "strings", move |t| phone_string(t, sheet)));
    }
    plans
}

fn of_settings() -> Vec<Plan> {
    vec![
        plan("read_settings, three records", "calls", |_| read_settings(3)),
        plan("read_settings, 2,047 records", "calls", |_| read_settings(2047)),
        plan("write_setting, three records", "calls", |_| write_setting(3)),
    ]
}

fn of_soundness() -> Vec<Plan> {
    let mut plans = vec![];
    for (fill, full) in FILLS {
        let name = format!("soundness alone, {full} store");
        plans.push(plan(name, "calls", move |t| decide(t, fill, None)));
    }
    for (fill, full) in [FILLS[0], FILLS[2]] {
        let name = format!("soundness alone, {full} sheet and empty store");
        plans.push(plan(name, "calls", move |t| decide(t, Fill::Empty, Some(fill))));
    }
    plans
}

/// The sides of a row, and how many units a call has.
struct Sides {
    units: usize,
    sides: Vec<Box<dyn Side>>,
}

impl Sides {
    fn ours(side: impl Side + 'static) -> Sides {
        Sides { units: 1, sides: vec![Box::new(side)] }
    }

    #[cfg(feature = "original")]
    fn beside(mut self, side: impl Side + 'static) -> Sides {
        self.sides.push(Box::new(side));
        self
    }
}

fn predict(tables: &'static Tables) -> Sides {
    let sides = Sides::ours(library::Predict { tables, out: [0; LIST] });
    #[cfg(feature = "original")]
    let sides = sides.beside(rust::Predict { tables, language: rust::language(tables) });
    sides
}

/// The bare phones of each word.
fn syllabify(tables: &'static Tables) -> Sides {
    let bare = |word| -> Vec<String> {
        let phones = stage::pronounced(tables, word);
        phones.iter().map(|phone| stage::bare(phone)).collect()
    };
    let lists: Vec<Vec<String>> = tables.words.iter().map(bare).collect();
    let sides = Sides::ours(library::Syllabify {
        lists: lists.iter().map(|list| stage::cells(list)).collect(),
        marks: [0; 96],
    });
    #[cfg(feature = "original")]
    let sides = sides
        .beside(rust::Syllabify { lists: lists.iter().map(|list| rust::texts(list)).collect() });
    sides
}

fn is_sayable(tables: &'static Tables) -> Sides {
    let sides = Sides::ours(library::IsSayable { tables });
    #[cfg(feature = "original")]
    let sides = sides.beside(rust::IsSayable { tables, language: rust::language(tables) });
    sides
}

fn lookup(tables: &'static Tables, fill: Fill) -> Sides {
    let entries = stage::entries(tables, fill);
    let sides = Sides::ours(library::Lookup {
        tables,
        store: stage::store(tables, &entries),
        out: [0; LIST],
    });
    #[cfg(feature = "original")]
    let sides = sides.beside(rust::Lookup {
        tables,
        language: rust::with_entries(&rust::language(tables), &entries),
    });
    sides
}

/// Entries, exact or ordinary, that are found. The original has no exact ones, and is not asked about these.
fn lookup_entry(tables: &'static Tables, exact: bool) -> Sides {
    let entries = stage::entries(tables, Fill::Full);
    let entries = if exact { stage::exact(entries) } else { entries };
    let store = stage::store(tables, &entries);
    Sides::ours(library::LookupEntry { tables, store, entries, out: [0; LIST] })
}

/// The words asked about, where every entry is exact and none matches.
fn lookup_others(tables: &'static Tables) -> Sides {
    let entries = stage::exact(stage::others(stage::entries(tables, Fill::Full)));
    let store = stage::store(tables, &entries);
    Sides::ours(library::Lookup { tables, store, out: [0; LIST] })
}

/// To an empty store the first entry, else an entry of a known key.
fn add_entry(tables: &'static Tables, fill: Fill) -> Sides {
    let entries = stage::entries(tables, fill);
    let adds: Vec<Entry> = match fill {
        Fill::Empty => stage::entries(tables, Fill::Half),
        _ => entries.clone(),
    };
    let with_cells = |entry: &Entry| (entry.clone(), stage::cells(&entry.phones));
    let sides = Sides::ours(library::AddEntry {
        tables,
        store: stage::store(tables, &entries),
        empty: fill == Fill::Empty,
        entries: adds.iter().map(with_cells).collect(),
    });
    #[cfg(feature = "original")]
    let sides = {
        let with_texts = |entry: &Entry| (entry.clone(), rust::texts(&entry.phones));
        let language = rust::with_entries(&rust::language(tables), &entries);
        let entries = adds.iter().map(with_texts).collect();
        match fill {
            Fill::Empty => sides.beside(rust::AddFirst { language, entries, lexicons: vec![] }),
            _ => sides.beside(rust::Replace { language, entries }),
        }
    };
    sides
}

/// Exact entries of known keys.
fn add_exact(tables: &'static Tables) -> Sides {
    let entries = stage::exact(stage::entries(tables, Fill::Full));
    let with_cells = |entry: &Entry| (entry.clone(), stage::cells(&entry.phones));
    Sides::ours(library::AddEntry {
        tables,
        store: stage::store(tables, &entries),
        empty: false,
        entries: entries.iter().map(with_cells).collect(),
    })
}

/// The original has the one call that takes a text at once.
fn take_text(tables: &'static Tables, taking: Taking, lines: usize, fill: Fill) -> Sides {
    let entries = stage::entries(tables, fill);
    let texts = match fill {
        Fill::Empty => stage::texts(&stage::entries(tables, Fill::Full), lines),
        _ => stage::texts(&entries, lines),
    };
    let store = stage::store(tables, &entries);
    let sides = Sides::ours(library::Texts {
        tables,
        taking,
        spare: store.clone(),
        store,
        empty: fill == Fill::Empty,
        texts: texts.clone(),
    });
    #[cfg(feature = "original")]
    if taking == Taking::Add {
        let language = rust::with_entries(&rust::language(tables), &entries);
        return match fill {
            Fill::Empty => sides.beside(rust::AddFirstText { language, texts, lexicons: vec![] }),
            _ => sides.beside(rust::ReplaceByText { language, texts }),
        };
    }
    sides
}

fn say_word(tables: &'static Tables, sheet: Fill, store: Fill) -> Sides {
    let entries = stage::entries(tables, store);
    let before = stage::words_on_sheet(tables, sheet);
    let sides = Sides::ours(library::SayWord::new(
        tables,
        stage::store(tables, &entries),
        stage::sheet(tables, before),
    ));
    #[cfg(feature = "original")]
    let sides = sides.beside(rust::SayWord {
        tables,
        language: rust::with_entries(&rust::language(tables), &entries),
        before,
        first: 0,
        utterances: vec![],
    });
    sides
}

fn phone_string(tables: &'static Tables, sheet: Fill) -> Sides {
    let words = stage::words_on_sheet(tables, sheet);
    let sides = Sides::ours(library::PhoneString {
        sheet: stage::sheet(tables, words),
        out: vec![0; 65_536],
    });
    #[cfg(feature = "original")]
    let sides = sides.beside(rust::PhoneString {
        utterance: rust::said(&rust::language(tables), tables.round(words)),
    });
    sides
}

/// The original has no such call.
fn check_lexicon(tables: &'static Tables) -> Sides {
    let mut sides = Sides::ours(library::CheckLexicon { tables });
    sides.units = tables.entries();
    sides
}

/// The original has no such calls.
fn read_settings(records: usize) -> Sides {
    Sides::ours(library::ReadSettings { settings: stage::settings(records) })
}

fn write_setting(records: usize) -> Sides {
    Sides::ours(library::WriteSetting { settings: stage::settings(records) })
}

fn decide(tables: &'static Tables, store: Fill, sheet: Option<Fill>) -> Sides {
    Sides::ours(library::Decide {
        tables,
        store: stage::store(tables, &stage::entries(tables, store)),
        sheet: sheet.map(|fill| stage::sheet(tables, stage::words_on_sheet(tables, fill))),
        out: [0; LIST],
    })
}
