//! The command line: options anywhere, and operands.

use std::ffi::{OsStr, OsString};
use std::fmt;
use std::os::unix::ffi::OsStrExt;

/// An option that a program has.
#[derive(Debug, Clone, Copy)]
pub struct Known {
    /// Its name, with both dashes.
    pub name: &'static str,
    /// Whether a value stands behind it: as the next argument, or behind "=".
    pub has_value: bool,
}

/// What an argument was.
#[derive(Debug, PartialEq, Eq)]
pub enum Argument {
    /// A known option.
    Option(&'static str),
    /// A known option with its value.
    Value(&'static str, OsString),
    /// Any other argument: one without a dash in front, a dash alone, and all behind "--".
    Operand(OsString),
}

/// A command line that cannot be understood, and why.
#[derive(Debug, PartialEq, Eq)]
pub struct WrongUse(pub String);

impl fmt::Display for WrongUse {
    fn fmt(&self, f: &mut fmt::Formatter<'_>) -> fmt::Result {
        f.write_str(&self.0)
    }
}

/// Reads the arguments behind the program's name, in order.
///
/// # Errors
///
/// An option is unknown, lacks its value, or has one that it does not take.
pub fn read(
    arguments: impl IntoIterator<Item = OsString>,
    known: &[Known],
) -> Result<Vec<Argument>, WrongUse> {
    let mut arguments = arguments.into_iter();
    let mut told = Vec::new();
    while let Some(argument) = arguments.next() {
        if argument == "--" {
            told.extend(arguments.by_ref().map(Argument::Operand));
        } else if argument == "-" || !argument.as_bytes().starts_with(b"-") {
            told.push(Argument::Operand(argument));
        } else {
            told.push(option(&argument, &mut arguments, known)?);
        }
    }
    Ok(told)
}

/// An option, with its value where it has one.
fn option(
    argument: &OsStr,
    behind: &mut impl Iterator<Item = OsString>,
    known: &[Known],
) -> Result<Argument, WrongUse> {
    let mut parts = argument.as_bytes().splitn(2, |byte| *byte == b'=');
    let name = OsStr::from_bytes(parts.next().unwrap_or_default());
    let Some(option) = known.iter().find(|option| name == option.name) else {
        let name = name.display();
        return Err(WrongUse(format!("there is no option {name}")));
    };
    let (name, has_value) = (option.name, option.has_value);
    let value = match parts.next() {
        Some(value) => Some(OsStr::from_bytes(value).to_owned()),
        None if has_value => behind.next(),
        None => None,
    };
    match (has_value, value) {
        (false, None) => Ok(Argument::Option(name)),
        (true, Some(value)) => Ok(Argument::Value(name, value)),
        (true, None) => Err(WrongUse(format!("{name} needs a value behind it"))),
        (false, Some(_)) => Err(WrongUse(format!("{name} takes no value"))),
    }
}

/// Keeps what an argument says that may stand once.
///
/// # Errors
///
/// Something is kept already.
pub fn once<T>(name: &str, place: &mut Option<T>, told: T) -> Result<(), WrongUse> {
    match place.replace(told) {
        None => Ok(()),
        Some(_) => Err(WrongUse(format!("{name} stands twice"))),
    }
}
