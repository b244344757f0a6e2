//! A folder: its sections are read, and each part is looked at in turn.

use std::error::Error;
use std::fs;
use std::path::Path;

use pronouncer::{read_section, Letters, Lexicon, TablesError};

use crate::phones::Uses;
use crate::report::{Kind, Place, Report};
use crate::{checksums, entries, forms, machines, phones, trees};

/// Why a file of a folder cannot be read.
pub enum Unread {
    NoFile,
    Failed(TablesError),
}

impl Unread {
    pub fn is_missing(&self) -> bool {
        matches!(self, Unread::Failed(error) if error.is_missing())
    }

    pub fn sentence(&self) -> String {
        match self {
            Unread::NoFile => {
                "cannot be read: it is no file. Put the file in its place.".to_string()
            }
            Unread::Failed(error) => {
                let reason = error.source().map(|reason| reason.to_string()).unwrap_or_default();
                format!("cannot be read: {reason}. See that the file is there and may be read.")
            }
        }
    }
}

/// Reads a file of a folder. What is there but no file, such as a folder or a pipe, is not opened.
pub fn read(folder: &Path, name: &str) -> Result<Vec<u8>, Unread> {
    if fs::metadata(folder.join(name)).is_ok_and(|found| !found.is_file()) {
        return Err(Unread::NoFile);
    }
    read_section(folder, name).map_err(Unread::Failed)
}

/// A folder while it is looked at.
struct Reading<'a> {
    folder: &'a Path,
    report: Report,
    /// The checksums of the sections that could be read.
    sums: Vec<(&'static str, u32)>,
}

impl Reading<'_> {
    /// A section, if it can be read and has its form.
    fn section(&mut self, name: &'static str) -> Option<Vec<u8>> {
        match read(self.folder, name) {
            Ok(bytes) => {
                self.sums.push((name, checksums::crc32(&bytes)));
                forms::check(name, &bytes, &mut self.report).then_some(bytes)
            }
            Err(error) => {
                self.report.fault(Kind::Missing, Place::of(name), error.sentence());
                None
            }
        }
    }
}

/// Looks at a folder.
pub fn check(folder: &Path) -> Report {
    let mut reading = Reading { folder, report: Report::of(folder), sums: Vec::new() };
    let lex = ["lex.phones", "lex.index", "lex.data"].map(|name| reading.section(name));
    let lexicon = check_lexicon(&lex, &mut reading.report);
    let lts = ["lts.phones", "lts.index", "lts.model"].map(|name| reading.section(name));
    check_letters(&lts, lexicon, &mut reading.report);
    let aswd = ["aswd.p", "aswd.s"].map(|name| reading.section(name));
    if let [Some(prefix), Some(suffix)] = &aswd {
        machines::check(prefix, suffix, &mut reading.report);
    }
    checksums::check(folder, &reading.sums, &mut reading.report);
    reading.report
}

/// Looks at the entries; the lexicon, if none is at fault.
fn check_lexicon<'a>(lex: &'a [Option<Vec<u8>>; 3], report: &mut Report) -> Option<Lexicon<'a>> {
    let [Some(phones), index, data] = lex else {
        return None;
    };
    let lexicon =
        index.as_ref().zip(data.as_ref()).map(|(index, data)| Lexicon { phones, index, data });
    let lexicon = lexicon.filter(|lexicon| entries::check(lexicon, report));
    phones::check("lex.phones", phones, lexicon.map(Uses::Entries), report);
    lexicon
}

/// Looks at the letter trees, by the words of the lexicon too.
fn check_letters(lts: &[Option<Vec<u8>>; 3], lexicon: Option<Lexicon>, report: &mut Report) {
    let [Some(phones), index, model] = lts else {
        return;
    };
    let letters =
        index.as_ref().zip(model.as_ref()).map(|(index, model)| Letters { phones, index, model });
    let entries = lexicon.iter().flat_map(entries::all);
    let words = entries.map(|entry| entry.word);
    let trees = letters.and_then(|letters| trees::check(&letters, words, report));
    let uses = trees.as_ref().map(|trees| Uses::Leaves(trees.leaves()));
    phones::check("lts.phones", phones, uses, report);
}
