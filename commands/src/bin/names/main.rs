//! Keeps a store of names in a file, and shows what a text would change there before it is accepted.

#![forbid(unsafe_code)]

mod changes;
mod entry;
mod tasks;

use std::env;
use std::ffi::{OsStr, OsString};
use std::io::Write;
use std::path::Path;
use std::process::ExitCode;

use commands::options::{once, Argument, Known, WrongUse};
use commands::program::{quoted, Fault, Program, Status};

use entry::Entry;
use tasks::Phones;

const PROGRAM: Program = Program {
    name: "names",
    help: "\
names [--tables FOLDER] [--] STORE_FILE new | list | preview FILE | accept FILE | add [--exact] WORD/TAG PHONE ..

Keeps names and their phones in STORE_FILE from night to night; say --store says words with them.

  new               makes STORE_FILE, which must not be there: a store without entries and with room for 127
  list              each entry, the oldest first; \"# exact\" stands behind an exact one
  preview FILE      what the lines `word tag : phones` of FILE would change: each entry that would be new or replace
                    another; then how many lines there are, how many entries there would be more, and how many lines
                    replace an entry, that of an earlier line included; no line makes or replaces an exact one
  accept FILE       the same, and then STORE_FILE gets these lines, all or none
  add WORD/TAG PHONE ..
                    adds one entry, or replaces the one of that word and tag; the tag may be missing

  --exact           with add: the entry keeps its capitals, and is found only by a word with the same, before any
                    ordinary one; an exact and an ordinary entry do not replace one another
  --tables FOLDER   the folder with lex.phones, which has the phones; usually the one that PRONOUNCER_TABLES names, or
                    tables/english/sections
  --help            this text
  --version         the version

STORE_FILE is replaced whole or not at all, and only once all was told. Ends with 0 if all was done, with 1 if something
was refused or a file or the output failed, with 2 if the command line cannot be understood.
",
    options: &[
        Known {
            name: "--tables",
            has_value: true,
        },
        Known {
            name: "--exact",
            has_value: false,
        },
    ],
};

fn main() -> ExitCode {
    PROGRAM.run(env::args_os().skip(1), |arguments, out| run(&Asked::of(arguments)?, out))
}

/// What the command line asks for.
struct Asked {
    tables: Option<OsString>,
    store: OsString,
    task: Task,
}

/// What is to be done with a store.
enum Task {
    New,
    List,
    Preview(OsString),
    Accept(OsString),
    Add(Entry),
}

impl Asked {
    fn of(arguments: Vec<Argument>) -> Result<Asked, WrongUse> {
        let (mut tables, mut exact, mut operands) = (None, false, Vec::new());
        for argument in arguments {
            match argument {
                Argument::Operand(operand) => operands.push(operand),
                Argument::Value(name, folder) => once(name, &mut tables, folder)?,
                Argument::Option(_) => exact = true,
            }
        }
        let [store, task, behind @ ..] = &operands[..] else {
            let lacks = if operands.is_empty() { "no STORE_FILE is named" } else { NO_TASK };
            return Err(WrongUse(lacks.into()));
        };
        let task = Task::of(task, behind, exact)?;
        if exact && !matches!(task, Task::Add(_)) {
            return Err(WrongUse("--exact goes with add".into()));
        }
        Ok(Asked { tables, store: store.clone(), task })
    }
}

const NO_TASK: &str = "behind STORE_FILE stands new, list, preview, accept or add";

impl Task {
    fn of(name: &OsStr, behind: &[OsString], exact: bool) -> Result<Task, WrongUse> {
        match (name.to_str(), behind) {
            (Some("new"), []) => Ok(Task::New),
            (Some("list"), []) => Ok(Task::List),
            (Some("preview"), [file]) => Ok(Task::Preview(file.clone())),
            (Some("accept"), [file]) => Ok(Task::Accept(file.clone())),
            (Some("add"), [word, phones @ ..]) if !phones.is_empty() => {
                Ok(Task::Add(Entry::typed(word, phones, exact)?))
            }
            (Some(name @ ("new" | "list")), _) => {
                Err(WrongUse(format!("{name} takes nothing behind it")))
            }
            (Some(name @ ("preview" | "accept")), _) => {
                Err(WrongUse(format!("{name} takes one FILE of lines: word tag : phones")))
            }
            (Some("add"), _) => Err(WrongUse(entry::FORM.into())),
            _ => {
                let name = quoted(name.as_encoded_bytes());
                Err(WrongUse(format!("{NO_TASK}, and not {name}")))
            }
        }
    }
}

fn run(asked: &Asked, out: &mut dyn Write) -> Result<Status, Fault> {
    let store = Path::new(&asked.store);
    let phones = || Phones::read(asked.tables.as_deref());
    match &asked.task {
        Task::New => tasks::new(store),
        Task::List => tasks::list(store, out),
        Task::Preview(file) => tasks::take(store, &phones()?, file.as_ref(), false, out),
        Task::Accept(file) => tasks::take(store, &phones()?, file.as_ref(), true, out),
        Task::Add(entry) => tasks::add(store, &phones()?, entry, out),
    }?;
    Ok(Status::Done)
}
