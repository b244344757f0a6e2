//! A report in lines, for people: the summary first, the details below it.

use std::io::{self, Write};

use commands::program::one_line;

use crate::report::{Detail, Place, Report, Sheets, Warning};
use crate::stress;

/// The most users of a phone that are named.
const MOST_NAMED: usize = 5;

/// Writes a report.
pub fn write(report: &Report, out: &mut dyn Write) -> io::Result<()> {
    let folder = one_line(&report.folder.to_string_lossy());
    writeln!(out, "{folder}: {}", verdict(report))?;
    for line in counts(report) {
        writeln!(out, "  {line}")?;
    }
    report.details.iter().try_for_each(|detail| writeln!(out, "{}", line(detail)))
}

fn verdict(report: &Report) -> String {
    let warnings = match report.warnings().count() {
        0 => String::new(),
        1 => ", with 1 warning".to_string(),
        many => format!(", with {many} warnings"),
    };
    match &report.reasons()[..] {
        [] => format!("fit for the show{warnings}"),
        reasons => format!("not fit for the show: {}", reasons.join("; ")),
    }
}

/// What was counted, as far as it is known.
fn counts(report: &Report) -> Vec<String> {
    let summary = &report.summary;
    let numbers = [
        (summary.entries, "entries"),
        (summary.words, "words"),
        (summary.homographs, "homographs"),
        (summary.nodes, "nodes"),
    ];
    let known =
        numbers.into_iter().filter_map(|(number, things)| Some(format!("{} {things}", number?)));
    let mut lines = vec![known.collect::<Vec<String>>().join(", ")];
    if let Some((depth, letter)) = summary.deepest {
        lines.push(format!("deepest tree: {depth} nodes, of \"{letter}\""));
    }
    let [lex, lts] = &summary.unused;
    let lex = lex.as_ref().map(|phones| (but_stressed_vowels(phones), "lex.phones"));
    let lts = lts.as_ref().map(|phones| (names(phones), "lts.phones"));
    for (unused, name) in lex.into_iter().chain(lts) {
        lines.push(format!("phones of {name} never used: {unused}"));
    }
    lines.extend(summary.sheets().map(suited));
    lines.retain(|line| !line.is_empty());
    lines
}

fn names(phones: &[String]) -> String {
    match phones {
        [] => "none".to_string(),
        _ => one_line(&phones.join(" ")),
    }
}

/// The phones by their names, but for vowels with their stress, which are counted: `tables/make` lists them all, so that
/// names may have them.
fn but_stressed_vowels(phones: &[String]) -> String {
    let (vowels, others): (Vec<String>, Vec<String>) =
        phones.iter().cloned().partition(|phone| stress::is_stressed_vowel(phone));
    let counted = match vowels.len() {
        0 => return names(&others),
        1 => "1 vowel with its stress".to_string(),
        many => format!("{many} vowels with their stress"),
    };
    if others.is_empty() {
        counted
    } else {
        format!("{}, and {counted}", names(&others))
    }
}

fn suited(sheets: Sheets) -> String {
    let number = |count: usize, one: &str, many: &str| match count {
        1 => format!("1 {one}"),
        _ => format!("{count} {many}"),
    };
    match sheets.versions() {
        [one] => format!(
            "suits sheets of version {one} only: {} and {} have a secondary stress",
            number(sheets.entries, "entry", "entries"),
            number(sheets.leaves, "leaf", "leaves")
        ),
        _ => "suits sheets of versions 1 and 2".to_string(),
    }
}

fn line(detail: &Detail) -> String {
    match detail {
        Detail::Held(section, count, things) => {
            format!("{section}: its form holds, {count} {things}")
        }
        Detail::Note(name, sentence) => format!("{name}: {sentence}"),
        Detail::Fault(fault) => format!("{}: {}", shown(&fault.place), one_line(&fault.sentence)),
        Detail::Warning(warning) => format!(
            "warning: {}: {}{}",
            shown(&warning.place),
            one_line(&warning.sentence),
            users(warning)
        ),
    }
}

fn shown(place: &Place) -> String {
    match place.byte {
        Some(byte) => format!("{}, byte {byte}", place.section),
        None => place.section.to_string(),
    }
}

/// Who uses the phone of a warning, the first few by name.
fn users(warning: &Warning) -> String {
    let Some(users) = &warning.users else {
        return String::new();
    };
    let named: Vec<String> =
        users.iter().take(MOST_NAMED).map(|user| one_line(&user.name)).collect();
    match users.len().saturating_sub(MOST_NAMED) {
        _ if users.is_empty() => "; nothing uses it".to_string(),
        0 => format!("; used by {}", named.join(", ")),
        more => format!("; used by {} and {more} more", named.join(", ")),
    }
}
