//! Says words: for each its source, its syllables with their stress, and its phones.

#![forbid(unsafe_code)]

mod desk;
mod plain;
mod tally;
mod warnings;
mod words;

use std::env;
use std::ffi::{OsStr, OsString};
use std::io::Write;
use std::os::unix::ffi::OsStrExt;
use std::path::Path;
use std::process::ExitCode;

use commands::options::{once, Argument, Known, WrongUse};
use commands::program::{quoted, tell, Fault, Program, Status};
use commands::{entries, stores, tables};
use pronouncer::{Lexicon, SheetVersion, Store, Tables};

use desk::Desk;

const PROGRAM: Program = Program {
    name: "say",
    help: "\
say [--tables FOLDER] [--store STORE_FILE] [--entries FILE] .. [--plain] [--guessed] [--sheet-version VERSION] [--]
    [WORD ..]

Tells each WORD's source, its syllables, each behind its stress, and their phones. A stress is 1, 2 if it is a secondary
one, or 0 for none. A WORD may have a tag behind a slash, as lead/v. With no WORD, words are read from standard input,
and each line is answered as it comes.

  --tables FOLDER   the sections: lex.phones, lex.index, lex.data, lts.phones, lts.index and lts.model, and aswd.p and
                    aswd.s for warnings; usually the folder that PRONOUNCER_TABLES names, or tables/english/sections
  --store STORE_FILE
                    a store of names, which names keeps; it is not written
  --entries FILE    lines `word tag : phones`, which are added first, behind the store's; of several files the later
                    ones come behind
  --plain           a word that is not found is asked in small letters, then without outer punctuation, then without
                    a last 's, 've, 'll or 'd, which is asked behind it; the last two with its capitals first; what was
                    asked stands behind ->
  --guessed         lists only the words that came from the letters, for the check before the show; standard output has
                    nothing else, and standard error ends with how many words were asked, guessed and refused
  --sheet-version VERSION
                    the version of the sheets that words are said on, 1 or 2: in version 1 a last 0 or 1 of a phone is
                    its stress, in version 2 also a last 2, the secondary stress; usually 2
  --help            this text
  --version         the version of this program

Answers go to standard output, refusals and warnings to standard error. Ends with 0 if every WORD was said, with 1 if
something was refused or a word from its letters has no phones, with 2 if the command line cannot be understood.
",
    options: &[
        Known {
            name: "--tables",
            has_value: true,
        },
        Known {
            name: "--store",
            has_value: true,
        },
        Known {
            name: "--entries",
            has_value: true,
        },
        Known {
            name: "--plain",
            has_value: false,
        },
        Known {
            name: "--guessed",
            has_value: false,
        },
        Known {
            name: "--sheet-version",
            has_value: true,
        },
    ],
};

fn main() -> ExitCode {
    PROGRAM.run(env::args_os().skip(1), |arguments, out| run(&Asked::of(arguments)?, out))
}

/// What the command line asks for.
#[derive(Default)]
struct Asked {
    tables: Option<OsString>,
    store: Option<OsString>,
    entries: Vec<OsString>,
    plain: bool,
    guessed: bool,
    version: Option<SheetVersion>,
    /// Texts of words; standard input if there are none.
    texts: Vec<OsString>,
}

impl Asked {
    fn of(arguments: Vec<Argument>) -> Result<Asked, WrongUse> {
        let mut asked = Asked::default();
        for argument in arguments {
            match argument {
                Argument::Value(name @ "--tables", folder) => {
                    once(name, &mut asked.tables, folder)?;
                }
                Argument::Value(name @ "--store", file) => once(name, &mut asked.store, file)?,
                Argument::Value(name @ "--sheet-version", text) => {
                    once(name, &mut asked.version, version(&text)?)?;
                }
                Argument::Value(_, file) => asked.entries.push(file),
                Argument::Option("--plain") => asked.plain = true,
                Argument::Option(_) => asked.guessed = true,
                Argument::Operand(text) => asked.texts.push(text),
            }
        }
        Ok(asked)
    }
}

fn version(text: &OsStr) -> Result<SheetVersion, WrongUse> {
    match text.to_str() {
        Some("1") => Ok(SheetVersion::V1),
        Some("2") => Ok(SheetVersion::V2),
        _ => {
            let text = quoted(text.as_bytes());
            Err(WrongUse(format!("--sheet-version takes 1 or 2, and not {text}")))
        }
    }
}

/// The store and the entries first, then the words.
fn run(asked: &Asked, out: &mut dyn Write) -> Result<Status, Fault> {
    let folder = tables::folder(asked.tables.as_deref());
    let tables = Tables::read(folder).map_err(|error| Fault::Told(error.to_string()))?;
    let mut slots = match &asked.store {
        Some(file) => stores::read(file.as_ref())?,
        None => stores::new()?,
    };
    let mut store = Store::over(&mut slots);
    for file in &asked.entries {
        let taken = add(&tables.lexicon(), &mut store, file.as_ref())?;
        if asked.guessed {
            tell(format_args!("entries: {taken} taken"));
        } else {
            writeln!(out, "entries: {taken} taken")?;
        }
    }
    let desk = Desk {
        lexicon: tables.lexicon(),
        letters: tables.letters(),
        sayable: tables.sayable(),
        store,
        plain: asked.plain,
        guessed: asked.guessed,
        version: asked.version.unwrap_or(SheetVersion::V2),
    };
    let tally = if asked.texts.is_empty() {
        words::from_input(&desk, out)?
    } else {
        words::from_texts(&desk, &asked.texts, out)?
    };
    if asked.guessed {
        tell(&tally);
    }
    Ok(tally.status())
}

/// Adds the entries of a file, and tells how many there were.
fn add(lexicon: &Lexicon, store: &mut Store, file: &Path) -> Result<usize, Fault> {
    let text = entries::read(file)?;
    let mut spare = vec![0; store.bytes().len()];
    let taken = store.add_entries(lexicon, &mut spare, &text);
    taken.map_err(|refused| Fault::Told(entries::refused(lexicon, file, &text, refused)))
}
