//! Times the library beside the original, in one process, on the same words.

#[cfg(feature = "original")]
mod agreement;
mod count;
mod library;
mod measure;
#[cfg(feature = "original")]
mod original_side;
#[allow(dead_code)]
mod ours;
mod rows;
mod stage;
mod tables;

use rows::Row;
use std::env;
use std::path::PathBuf;
use std::process::ExitCode;
use tables::Tables;

/// What the command line asks for.
struct Asked {
    tables: PathBuf,
    seconds: f64,
    markdown: bool,
    instructions: bool,
    list: bool,
    /// A side and how many passes of it, for valgrind.
    passes: Option<(usize, usize)>,
    /// The beginnings of rows' names; all rows if there are none.
    rows: Vec<String>,
}

fn asked() -> Result<Asked, String> {
    let usual = env::var_os("BENCH_TABLES").unwrap_or("tables/english/sections".into());
    let mut asked = Asked {
        tables: usual.into(),
        seconds: 1.0,
        markdown: false,
        instructions: false,
        list: false,
        passes: None,
        rows: vec![],
    };
    let mut words = env::args().skip(1);
    while let Some(word) = words.next() {
        let mut value = || words.next().ok_or(format!("{word} needs a value"));
        let number = |text: String| text.parse::<usize>().map_err(|_| format!("{text}: a number"));
        match word.as_str() {
            "--tables" => asked.tables = value()?.into(),
            "--seconds" => {
                let text = value()?;
                let seconds = text.parse().ok().filter(|s| *s > 0.0);
                asked.seconds = seconds.ok_or(format!("{text} is no number of seconds"))?;
            }
            "--markdown" => asked.markdown = true,
            "--instructions" => asked.instructions = true,
            "--list" => asked.list = true,
            count::PASSES => asked.passes = Some((number(value()?)?, number(value()?)?)),
            other if other.starts_with('-') => return Err(format!("{other} is no option")),
            other => asked.rows.push(other.into()),
        }
    }
    Ok(asked)
}

fn main() -> ExitCode {
    match asked().and_then(|asked| run(&asked)) {
        Ok(()) => ExitCode::SUCCESS,
        Err(why) => {
            eprintln!("{why}");
            ExitCode::FAILURE
        }
    }
}

fn run(asked: &Asked) -> Result<(), String> {
    let mut plans = rows::all();
    let wanted = |name: &str| asked.rows.iter().any(|row| name.starts_with(row.as_str()));
    plans.retain(|plan| asked.rows.is_empty() || wanted(&plan.name));
    if plans.is_empty() {
        return Err("no row has such a name: --list names them".into());
    }
    if asked.list {
        plans.iter().for_each(|plan| println!("{}", plan.name));
        return Ok(());
    }
    let tables: &'static Tables = Box::leak(Box::new(Tables::read(&asked.tables)?));
    if let Some((side, passes)) = asked.passes {
        return make_passes(plans[0].row(tables), side, passes);
    }
    #[cfg(feature = "original")]
    if let Some(difference) = agreement::difference(tables) {
        return Err(difference);
    }
    let table = Table { markdown: asked.markdown, instructions: asked.instructions };
    table.head();
    for plan in &plans {
        let mut row = plan.row(tables);
        let values: Vec<f64> = if asked.instructions {
            let side = |i| count::instructions(&asked.tables, &row.name, i);
            (0..row.sides.len()).map(side).collect::<Result<_, _>>()?
        } else {
            let rates = measure::rates(&mut row.sides, asked.seconds);
            rates.iter().map(|rate| rate * row.units as f64).collect()
        };
        table.line(&row, &values);
    }
    Ok(())
}

/// Passes of one side, and how many calls these were.
fn make_passes(mut row: Row, side: usize, passes: usize) -> Result<(), String> {
    let side = row.sides.get_mut(side).ok_or("the row has no such side")?;
    for _ in 0..passes {
        side.prepare();
        measure::measured_pass(side.as_mut());
    }
    println!("{}", passes * side.calls());
    Ok(())
}

/// How results are printed.
struct Table {
    markdown: bool,
    instructions: bool,
}

impl Table {
    fn head(&self) {
        let what = match self.instructions {
            true => "instructions a call",
            false => "a second",
        };
        let head = ["row", &format!("ours, {what}"), "Rust", "ours to Rust"];
        self.cells(&head.map(String::from));
        if self.markdown {
            println!("|---|---:|---:|---:|");
        }
    }

    /// The ratio tells how many times as fast ours is.
    fn line(&self, row: &Row, values: &[f64]) {
        let shown = |value: &f64| match self.instructions {
            true => grouped(*value),
            false => format!("{} {}", grouped(*value), row.unit),
        };
        let ratio = match (values, self.instructions) {
            ([ours, rust], false) => two_digits(ours / rust),
            ([ours, rust], true) => two_digits(rust / ours),
            _ => "".into(),
        };
        let rust = values.get(1).map(shown).unwrap_or_default();
        self.cells(&[row.name.clone(), shown(&values[0]), rust, ratio]);
    }

    fn cells(&self, cells: &[String; 4]) {
        let [name, ours, rust, ratio] = cells;
        match self.markdown {
            true => println!("| {name} | {ours} | {rust} | {ratio} |"),
            false => println!("{name:44} {ours:>26} {rust:>20} {ratio:>13}"),
        }
    }
}

/// A ratio to two digits.
fn two_digits(ratio: f64) -> String {
    match ratio {
        r if r < 0.01 => format!("{r:.4}"),
        r if r < 0.1 => format!("{r:.3}"),
        r => format!("{r:.2}"),
    }
}

/// A whole number with a comma between each three digits.
fn grouped(value: f64) -> String {
    let digits = format!("{value:.0}");
    let mut text = String::new();
    for (i, digit) in digits.chars().enumerate() {
        if i > 0 && (digits.len() - i) % 3 == 0 {
            text.push(',');
        }
        text.push(digit);
    }
    text
}
