//! A report as JSON, for scripts.

use std::fmt;

use crate::report::{Fault, Place, Report, Summary, User, Warning};

/// A value of JSON.
pub enum Json {
    Null,
    Bool(bool),
    Number(usize),
    Text(String),
    List(Vec<Json>),
    Object(Vec<(&'static str, Json)>),
}

impl fmt::Display for Json {
    fn fmt(&self, f: &mut fmt::Formatter<'_>) -> fmt::Result {
        match self {
            Json::Null => f.write_str("null"),
            Json::Bool(value) => write!(f, "{value}"),
            Json::Number(value) => write!(f, "{value}"),
            Json::Text(text) => quoted(text, f),
            Json::List(values) => {
                f.write_str("[")?;
                for (i, value) in values.iter().enumerate() {
                    write!(f, "{}{value}", comma(i))?;
                }
                f.write_str("]")
            }
            Json::Object(fields) => {
                f.write_str("{")?;
                for (i, (name, value)) in fields.iter().enumerate() {
                    write!(f, "{}\"{name}\": {value}", comma(i))?;
                }
                f.write_str("}")
            }
        }
    }
}

fn comma(i: usize) -> &'static str {
    if i == 0 {
        ""
    } else {
        ", "
    }
}

fn quoted(text: &str, f: &mut fmt::Formatter<'_>) -> fmt::Result {
    f.write_str("\"")?;
    for c in text.chars() {
        match c {
            '"' | '\\' => write!(f, "\\{c}")?,
            c if c.is_control() => write!(f, "\\u{:04x}", c as u32)?,
            c => write!(f, "{c}")?,
        }
    }
    f.write_str("\"")
}

impl From<&str> for Json {
    fn from(text: &str) -> Json {
        Json::Text(text.to_string())
    }
}

impl From<usize> for Json {
    fn from(number: usize) -> Json {
        Json::Number(number)
    }
}

impl From<char> for Json {
    fn from(letter: char) -> Json {
        Json::Text(letter.to_string())
    }
}

impl<T: Into<Json>> From<Option<T>> for Json {
    fn from(value: Option<T>) -> Json {
        value.map_or(Json::Null, Into::into)
    }
}

impl<T: Into<Json>> FromIterator<T> for Json {
    fn from_iter<I: IntoIterator<Item = T>>(values: I) -> Json {
        Json::List(values.into_iter().map(Into::into).collect())
    }
}

impl From<&Report> for Json {
    fn from(report: &Report) -> Json {
        Json::Object(vec![
            ("folder", Json::from(&*report.folder.to_string_lossy())),
            ("fit", Json::Bool(report.is_fit())),
            ("reasons", report.reasons().into_iter().collect()),
            ("summary", Json::from(&report.summary)),
            ("faults", report.faults().collect()),
            ("warnings", report.warnings().collect()),
        ])
    }
}

impl From<&Summary> for Json {
    fn from(summary: &Summary) -> Json {
        let unused = |place: usize| {
            let phones = summary.unused[place].as_ref();
            phones.map_or(Json::Null, |phones| phones.iter().map(String::as_str).collect())
        };
        let deepest = summary.deepest.map(|(nodes, letter)| {
            Json::Object(vec![("nodes", nodes.into()), ("letter", letter.into())])
        });
        let sheets = summary.sheets().map(|sheets| {
            Json::Object(vec![
                ("suits", sheets.versions().iter().copied().collect()),
                ("entries", sheets.entries.into()),
                ("leaves", sheets.leaves.into()),
            ])
        });
        Json::Object(vec![
            ("entries", summary.entries.into()),
            ("words", summary.words.into()),
            ("homographs", summary.homographs.into()),
            ("nodes", summary.nodes.into()),
            ("deepest_tree", deepest.into()),
            ("lex_phones_never_used", unused(0)),
            ("lts_phones_never_used", unused(1)),
            ("sheet_versions", sheets.into()),
        ])
    }
}

/// The fields of a place that are known.
fn place(place: &Place) -> Vec<(&'static str, Json)> {
    let mut fields = vec![("section", Json::from(place.section))];
    let numbers = [("byte", place.byte), ("entry", place.entry), ("node", place.node)];
    fields.extend(numbers.into_iter().filter_map(|(name, number)| Some((name, number?.into()))));
    fields.extend(place.letter.map(|letter| ("letter", letter.into())));
    fields
}

impl From<&Fault> for Json {
    fn from(fault: &Fault) -> Json {
        let mut fields = vec![("kind", Json::from(fault.kind.name()))];
        fields.extend(place(&fault.place));
        fields.push(("message", Json::from(&*fault.sentence)));
        Json::Object(fields)
    }
}

impl From<&Warning> for Json {
    fn from(warning: &Warning) -> Json {
        let users = warning.users.as_ref();
        let mut fields = place(&warning.place);
        fields.push(("phone", Json::from(&*warning.phone)));
        fields.push(("message", Json::from(&*warning.sentence)));
        fields.push(("used_by", users.map_or(Json::Null, |users| users.iter().collect())));
        Json::Object(fields)
    }
}

impl From<&User> for Json {
    fn from(user: &User) -> Json {
        let mut fields = vec![("name", Json::from(&*user.name))];
        fields.extend(place(&user.place));
        Json::Object(fields)
    }
}
