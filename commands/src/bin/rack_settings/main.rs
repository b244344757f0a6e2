//! Shows the voice settings that a rack keeps in a file, writes one of them, or writes a new file.

#![forbid(unsafe_code)]

mod faults;
mod known;
mod store;
mod text;
mod typed;

use std::env;
use std::ffi::{OsStr, OsString};
use std::io::Write;
use std::os::unix::ffi::OsStrExt;
use std::path::Path;
use std::process::ExitCode;

use commands::file;
use commands::options::{once, Argument, Known, WrongUse};
use commands::program::{quoted, Fault, Program, Status};
use pronouncer::{read_settings, write_setting, Refused, Setting, LARGEST_BYTES};

use faults::{Asks, Call};

const PROGRAM: Program = Program {
    name: "rack_settings",
    help: "\
rack_settings [--new VERSION [--replace]] [--set NAME=VALUE] [--reader VERSION] [--show STRETCH] [--] FILE

Shows the voice settings that a rack keeps in FILE: the value of each, with the record that holds it, and the rack's
stretch. Behind a float stand its bits.

  --new VERSION      first writes FILE: a store of version 1 or 2 with all its settings, pitch 100, stretch 1.0, and in
                     version 2 level 80
  --replace          with --new: FILE may be there already
  --set NAME=VALUE   first writes a setting that has a record: pitch, a whole number from 50 to 400, stretch, a float
                     from 0.25 to 4.0, or level, a whole number from 0 to 100
  --reader VERSION   the version of who reads: 1 knows pitch and stretch, 2 also level; usually the store's
  --show STRETCH     the show's stretch; the rack's is the store's times this; usually 1.0
  --help             this text
  --version          the version

FILE is replaced whole or not at all, and only if nothing is refused. Ends with 0 if the settings were shown, with 1 if
something was refused or FILE or the output failed, with 2 if the command line cannot be understood.
",
    options: &[
        Known {
            name: "--set",
            has_value: true,
        },
        Known {
            name: "--new",
            has_value: true,
        },
        Known {
            name: "--replace",
            has_value: false,
        },
        Known {
            name: "--reader",
            has_value: true,
        },
        Known {
            name: "--show",
            has_value: true,
        },
    ],
};

fn main() -> ExitCode {
    PROGRAM.run(env::args_os().skip(1), |arguments, out| run(&Asked::of(arguments)?, out))
}

/// What the command line asks for.
#[derive(Default)]
struct Asked {
    file: Option<OsString>,
    /// The version of a store to make.
    new: Option<u16>,
    replace: bool,
    reader: Option<u32>,
    show: Option<f32>,
    set: Option<Set>,
}

/// A value to write, as it was typed and as it was understood.
struct Set {
    name: Vec<u8>,
    typed: String,
    value: Setting,
}

impl Asked {
    fn of(arguments: Vec<Argument>) -> Result<Asked, WrongUse> {
        let mut asked = Asked::default();
        for argument in arguments {
            match argument {
                Argument::Operand(file) => once("FILE", &mut asked.file, file)?,
                Argument::Option(_) => asked.replace = true,
                Argument::Value(name @ "--new", text) => once(name, &mut asked.new, new(&text)?)?,
                Argument::Value(name @ "--reader", text) => {
                    once(name, &mut asked.reader, reader(&text)?)?;
                }
                Argument::Value(name @ "--show", text) => {
                    let show = text.to_str().and_then(typed::real);
                    once(name, &mut asked.show, show.ok_or_else(|| no_number(&text))?)?;
                }
                Argument::Value(name, text) => once(name, &mut asked.set, Set::of(&text)?)?,
            }
        }
        if asked.replace && asked.new.is_none() {
            return Err(WrongUse("--replace goes with --new".into()));
        }
        Ok(asked)
    }
}

impl Set {
    fn of(text: &OsStr) -> Result<Set, WrongUse> {
        let mut parts = text.as_bytes().splitn(2, |byte| *byte == b'=');
        let (Some(name), Some(typed)) = (parts.next(), parts.next()) else {
            let text = quoted(text.as_bytes());
            return Err(WrongUse(format!("--set takes NAME=VALUE, as pitch=120, and not {text}")));
        };
        let (name, typed) = (name.to_vec(), OsStr::from_bytes(typed));
        let known = known::named(known::LATEST, &name);
        let value = typed.to_str().and_then(|typed| typed::value(typed, known));
        let value = value.ok_or_else(|| no_number(typed))?;
        Ok(Set { name, typed: typed.to_string_lossy().into(), value })
    }
}

fn new(text: &OsStr) -> Result<u16, WrongUse> {
    match text.to_str() {
        Some("1") => Ok(1),
        Some("2") => Ok(2),
        _ => Err(WrongUse(format!("--new takes 1 or 2, and not {}", quoted(text.as_bytes())))),
    }
}

/// Any number: which are versions, the library says.
fn reader(text: &OsStr) -> Result<u32, WrongUse> {
    let version = text.to_str().and_then(|text| text.parse().ok());
    let text = quoted(text.as_bytes());
    version.ok_or_else(|| WrongUse(format!("--reader takes a version, and not {text}")))
}

fn no_number(text: &OsStr) -> WrongUse {
    let text = quoted(text.as_bytes());
    WrongUse(format!("{text} is no number: write it as 120 or 1.5"))
}

/// A new store, or that of the file; the write; and the read, which must not be refused if the file is to be written.
fn run(asked: &Asked, out: &mut dyn Write) -> Result<Status, Fault> {
    let Some(file) = asked.file.as_ref().map(Path::new) else {
        return Err(WrongUse("no file is named".into()).into());
    };
    if asked.new.is_some() && !asked.replace && file::is_taken(file) {
        let name = file.display();
        return Err(Fault::Told(format!("{name} is there already: --replace replaces it")));
    }
    let (mut store, length) = match asked.new {
        Some(version) => store::new(version),
        None => read(file)?,
    };
    let reader = asked.reader.or(store::version(&store)).unwrap_or(known::LATEST);
    let show = asked.show.unwrap_or(1.0);
    let refused = |why: Refused, store: &[u8], asks: Asks| {
        let why = faults::words(why.refusal, &Call { store, length, reader, asks });
        Fault::Told(format!("{} is refused: {why}", file.display()))
    };
    if let Some(Set { name, typed, value }) = &asked.set {
        let asks = Asks::Write { name, typed, value: *value };
        let wrote = write_setting(&mut store, reader, name, *value);
        wrote.map_err(|why| refused(why, &store, asks))?;
    }
    let settings = read_settings(&store, reader, show);
    let settings = settings.map_err(|why| refused(why, &store, Asks::Read(show)))?;
    if asked.new.is_some() || asked.set.is_some() {
        file::replace(PROGRAM.name, file, &store)?;
    }
    text::write(&store, reader, show, &settings, out)?;
    Ok(Status::Done)
}

/// The bytes of a file, and how many it has.
fn read(file: &Path) -> Result<(Vec<u8>, u64), Fault> {
    file::read(file, LARGEST_BYTES)
        .map_err(|error| Fault::Told(format!("cannot read {}: {error}", file.display())))
}
