//! The recorded list: cases with the original's answers, for a program that has no Rust at hand.

use crate::prelude::*;
use crate::run::Compared;
use crate::tally::Tally;
use std::collections::BTreeMap;
use std::io;

const HEAD: &str = "\
# What the original Rust answers, for programs that have no Rust at hand. Written by the driver in
# oracle/, which builds the original sources unchanged; no answer here comes from our library. Of
# exact entries (02, S-8) and of sheets of version 2 (S-9), which it has not, the driver's own rule
# answers beside it. docs/CASES.md tells the format.";

/// A file of cases stays below this, so that its reader needs no larger buffer.
const FILE_BYTES: usize = 60_000;

/// Writes about so many cases, dealt among the calls, into files of a folder.
pub fn write(calls: &[Box<dyn Compared>], folder: &str, seed: u64, count: usize) -> io::Result<()> {
    let shares: usize = calls.iter().map(|call| call.tally().share_recorded).sum();
    let command = format!("# Made by: oracle/run --record FOLDER --count {count} --seed {seed}");
    let head = format!("{HEAD}\n{command}\n\n");
    std::fs::create_dir_all(folder)?;
    for call in calls.iter().filter(|call| call.tally().share_recorded > 0) {
        let Tally { name, share_recorded, .. } = call.tally();
        let lines = call.record(seed, (count * share_recorded).div_ceil(shares));
        for (number, text) in (1..).zip(parts(&head, &lines)) {
            std::fs::write(format!("{folder}/{name}-{number}.txt"), text)?;
        }
    }
    Ok(())
}

/// Cases dealt among files, each with the head and the registers that its first case needs.
fn parts(head: &str, lines: &[String]) -> Vec<String> {
    let mut files = vec![head.to_string()];
    let mut registers = BTreeMap::new();
    for line in lines.iter().map(|line| format!("{line}\n")) {
        if files[files.len() - 1].len() + line.len() > FILE_BYTES {
            let registers: String = registers.values().map(String::as_str).collect();
            files.push(format!("{head}{registers}"));
        }
        *files.last_mut().expect("there is a file") += &line;
        if line.starts_with('$') {
            registers.insert(line[..2].to_string(), line);
        }
    }
    files
}

/// A line that fills a register.
pub fn register(number: usize, form: Form, bytes: &[u8]) -> String {
    format!("${number} {}", form.shown(bytes))
}

/// The lines that fill registers with what calls are lent.
pub fn registers(first: usize, parts: &[Part]) -> Vec<String> {
    let filled = (first..).zip(parts);
    filled.map(|(number, part)| register(number, part.form, &part.bytes)).collect()
}

/// The names of these registers.
pub fn named(registers: impl IntoIterator<Item = usize>) -> Vec<String> {
    registers.into_iter().map(|number| format!("${number}")).collect()
}

/// A case up to what the call wrote: the call, whose first parts stand in `front`, and what the original answers.
pub fn case<C: Call>(call: &C, input: &C::Input, front: &[String]) -> (String, Expected) {
    let expected = call.expected(input);
    let shown = notation::line(C::NAME, &call.lent(input), &expected.handed, front);
    let outcome = expected.outcome.as_ref().expect("the original answers");
    let Answer { refusal, kind, .. } = outcome.answer;
    let value = notation::value(outcome.answer);
    let asked = expected.asked != Asked::No;
    let answered = asked && (refusal == 0 || C::ERRORS.contains(&refusal));
    assert!(answered, "only what the original answers is recorded, or has a part in");
    (format!("{shown} -> {refusal} {kind} {value}"), expected)
}

/// A whole case; an output is written out if the call altered it.
pub fn whole_case<C: Call>(call: &C, input: &C::Input, front: &[String]) -> String {
    let (case, expected) = case(call, input, front);
    let outcome = expected.outcome.as_ref().expect("the original answers");
    match (expected.handed.is_empty(), outcome.written == expected.handed) {
        (true, _) => case,
        (false, true) => format!("{case} ="),
        (false, false) => format!("{case} {}", call.show_written(input, outcome)),
    }
}

/// Lines of so many sets, each below a title.
pub fn sets(title: &str, sets: usize, set: impl FnMut(usize) -> Vec<String>) -> Vec<String> {
    let titles = (1..=sets).map(|number| vec![format!("# {title} {number} of {sets}")]);
    titles.zip((0..sets).map(set)).flat_map(|(title, lines)| [title, lines].concat()).collect()
}

/// Cases below a title, each with all that it is lent.
pub fn cases<C: Call>(call: &C, title: &str, inputs: &[C::Input]) -> Vec<String> {
    let cases = inputs.iter().map(|input| whole_case(call, input, &[]));
    std::iter::once(format!("# {title}")).chain(cases).collect()
}
