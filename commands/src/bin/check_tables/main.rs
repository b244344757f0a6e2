//! Says whether folders of tables are fit for the show, and if not, where they break.

#![forbid(unsafe_code)]

mod checksums;
mod entries;
mod folder;
mod forms;
mod json;
mod machines;
mod phones;
mod report;
mod stress;
mod text;
mod trees;

use std::env;
use std::ffi::OsString;
use std::io::Write;
use std::path::Path;
use std::process::ExitCode;

use commands::options::{Argument, Known, WrongUse};
use commands::program::{Fault, Program, Status};

use json::Json;

const JSON: &str = "--json";

const PROGRAM: Program = Program {
    name: "check_tables",
    help: "\
check_tables [--json] FOLDER ..

Says of each FOLDER whether its tables are fit for the show, what they hold, and where they break. A FOLDER has the
eight sections lex.phones, lex.index, lex.data, lts.phones, lts.index, lts.model, aswd.p and aswd.s, and may have the
file of their checksums that tables/make writes: then a section with a changed bit is told, too.

A warning tells of a phone that is none of the 50, and of what uses it; the tables are still fit.

Tables without secondary stress, a 2 behind a vowel, suit sheets of versions 1 and 2, others those of version 2 only.

  --json      an array with an object for each FOLDER, for scripts
  --help      this text
  --version   the version

Ends with 0 if every FOLDER is fit, with 1 if one is not, with 2 if the command line cannot be understood.
",
    options: &[Known {
        name: JSON,
        has_value: false,
    }],
};

fn main() -> ExitCode {
    PROGRAM.run(env::args_os().skip(1), |arguments, out| {
        let as_json = arguments.contains(&Argument::Option(JSON));
        let folders: Vec<OsString> = arguments
            .into_iter()
            .filter_map(|argument| match argument {
                Argument::Operand(folder) => Some(folder),
                _ => None,
            })
            .collect();
        if folders.is_empty() {
            return Err(WrongUse("no folder is named".into()).into());
        }
        check(&folders, as_json, out)
    })
}

/// Writes the report of each folder as soon as it is looked at.
fn check(folders: &[OsString], as_json: bool, out: &mut dyn Write) -> Result<Status, Fault> {
    let mut status = Status::Done;
    for (i, folder) in folders.iter().enumerate() {
        let report = folder::check(Path::new(folder));
        if !report.is_fit() {
            status = Status::Refused;
        }
        if as_json {
            let front = if i == 0 { "[" } else { ",\n " };
            write!(out, "{front}{}", Json::from(&report))?;
        } else {
            out.write_all(if i == 0 { b"" } else { b"\n" })?;
            text::write(&report, out)?;
        }
    }
    if as_json {
        writeln!(out, "]")?;
    }
    Ok(status)
}
