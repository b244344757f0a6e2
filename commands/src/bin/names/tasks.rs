//! What is done with a store in its file.

use std::ffi::OsStr;
use std::io::Write;
use std::path::Path;

use commands::program::{quoted, tell, Fault};
use commands::{entries, file, refusals, stores, tables};
use pronouncer::{read_section, Lexicon, Refusal, Refused, Store};

use crate::changes;
use crate::entry::Entry;
use crate::PROGRAM;

/// Makes the file, which must not be there.
pub fn new(store: &Path) -> Result<(), Fault> {
    let _held = file::hold(store);
    if file::is_taken(store) {
        let name = store.display();
        return Err(Fault::Told(format!(
            "{name} is there already, and stays as it is: name another file for a new store"
        )));
    }
    file::replace(PROGRAM.name, store, &stores::new()?)
}

/// Tells each entry.
pub fn list(store: &Path, out: &mut dyn Write) -> Result<(), Fault> {
    let mut bytes = stores::read(store)?;
    let store = Store::over(&mut bytes);
    let lines: String = store.iter().map(|entry| changes::entry(&entry)).collect();
    Ok(out.write_all(lines.as_bytes())?)
}

/// Tells what the text of a file changes, and keeps that where it is accepted, and could be told.
pub fn take(
    store: &Path,
    phones: &Phones,
    file: &Path,
    is_accepted: bool,
    out: &mut dyn Write,
) -> Result<(), Fault> {
    let (lexicon, text) = (phones.lexicon(), entries::read(file)?);
    let _held = is_accepted.then(|| file::hold(store));
    let mut bytes = stores::read(store)?;
    let (mut spare, mut taking) = (vec![0; bytes.len()], Store::over(&mut bytes));
    let told = |refused| {
        let why = entries::refused(&lexicon, file, &text, refused);
        Fault::Told(if is_accepted { format!("nothing is accepted: {why}") } else { why })
    };
    let preview = match taking.preview_entries(&lexicon, &mut spare, &text) {
        Ok(preview) => preview,
        Err(refused) => {
            let front = entries::before(&text, refused.line);
            let lines = changes::of_text(&lexicon, &taking, front).map_err(told)?;
            out.write_all(lines.as_bytes())?;
            return Err(told(refused));
        }
    };
    let lines = changes::of_text(&lexicon, preview.store(), &text).map_err(told)?;
    let (count, new, replaced) = (preview.lines(), preview.newly_used(), preview.replaced());
    writeln!(out, "{lines}lines: {count}, new: {new}, replaced: {replaced}")?;
    if is_accepted {
        preview.accept().map_err(|refused| Fault::Told(unchanged(store, refused.refusal)))?;
        out.flush()?;
        file::replace(PROGRAM.name, store, &bytes)?;
    } else if preview.store().count() == u64::MAX {
        tell(format_args!("warning: if it were accepted, {}", unchanged(store, Refusal::Count)));
    }
    Ok(())
}

/// That a store cannot be changed.
fn unchanged(store: &Path, refusal: Refusal) -> String {
    format!("{} is refused: {}", store.display(), refusals::words(refusal))
}

/// Adds one entry, tells what that changes, and keeps it if it could be told.
pub fn add(store: &Path, phones: &Phones, entry: &Entry, out: &mut dyn Write) -> Result<(), Fault> {
    let lexicon = phones.lexicon();
    let _held = file::hold(store);
    let mut old = stores::read(store)?;
    let mut bytes = old.clone();
    let mut new = Store::over(&mut bytes);
    entry.add(&lexicon, &mut new).map_err(|Refused { refusal, .. }| {
        let why = entries::entry_refused(&lexicon, &entry.word, &entry.phones, refusal);
        Fault::Told(format!("{} is refused: {why}", quoted(&entry.word.field())))
    })?;
    if let Some(added) = new.iter().last() {
        out.write_all(changes::of_entry(&Store::over(&mut old), &added).as_bytes())?;
    }
    out.flush()?;
    file::replace(PROGRAM.name, store, &bytes)
}

/// The phones that entries may have beside the 50: the bytes of lex.phones.
pub struct Phones(Vec<u8>);

impl Phones {
    pub fn read(tables: Option<&OsStr>) -> Result<Phones, Fault> {
        let read = read_section(tables::folder(tables), "lex.phones");
        Ok(Phones(read.map_err(|error| Fault::Told(error.to_string()))?))
    }

    fn lexicon(&self) -> Lexicon<'_> {
        Lexicon { phones: &self.0, index: b"", data: b"" }
    }
}
