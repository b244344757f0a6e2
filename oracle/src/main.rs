//! Compares the proved library with the original Rust, call by call; see README.md.

#[macro_use]
mod rows;
#[macro_use]
mod shrink;
#[macro_use]
mod tables;

mod call;
mod calls;
mod cells;
mod forever;
mod lent;
mod lexicon_edges;
mod lexicon_shapes;
mod lexicons;
mod lines;
mod log;
mod machines;
mod notation;
mod ours;
mod phones;
mod places;
mod prelude;
mod random;
mod record;
mod records;
mod run;
mod scene;
mod settings;
mod settings_edges;
mod settings_met;
mod settings_shapes;
mod sheet_edges;
mod sheet_shapes;
mod sheets;
mod sources;
mod spoken;
mod store_edges;
mod store_shapes;
mod stores;
mod stresses;
mod tally;
mod tree_edges;
mod tree_shapes;
mod trees;
mod words;

use run::Limit;
use std::process::ExitCode;

const USAGE: &str =
    "usage: oracle [--calls N | --seconds N | --lists N] [--seed N] [--record FOLDER --count N]";
const DIFFERENT: u8 = 1;
const MISUSED: u8 = 2;
const NOT_MET: u8 = 3;

fn main() -> ExitCode {
    let Some((limit, seed, record, count)) = arguments() else {
        eprintln!("{USAGE}");
        return ExitCode::from(MISUSED);
    };
    let mut calls = calls::all(seed);
    if let Limit::Lists(_) = limit {
        // nothing else then
        calls.drain(..calls.len() - 1);
    }
    if let Some(folder) = record {
        let written = record::write(&calls, &folder, seed, count);
        let Err(error) = written else { return ExitCode::SUCCESS };
        eprintln!("{folder}: {error}");
        return ExitCode::from(MISUSED);
    }
    println!("seed {seed}");
    if let Err(difference) = run::run(&mut calls, limit) {
        println!("{difference}");
        return ExitCode::from(DIFFERENT);
    }
    match run::report(&calls) {
        true => ExitCode::SUCCESS,
        false => ExitCode::from(NOT_MET),
    }
}

/// What the command line says; none if it says anything else.
fn arguments() -> Option<(Limit, u64, Option<String>, usize)> {
    let (mut limit, mut seed, mut record, mut count) = (Limit::Calls(1_000_000), 1, None, 2_500);
    let mut words = std::env::args().skip(1);
    while let Some(word) = words.next() {
        let value = words.next()?;
        match word.as_str() {
            "--calls" => limit = Limit::Calls(value.parse().ok()?),
            "--seconds" => limit = Limit::Seconds(value.parse().ok()?),
            "--lists" => limit = Limit::Lists(value.parse().ok()?),
            "--seed" => seed = value.parse().ok()?,
            "--record" => record = Some(value),
            "--count" => count = value.parse().ok()?,
            _ => return None,
        }
    }
    Some((limit, seed, record, count))
}
