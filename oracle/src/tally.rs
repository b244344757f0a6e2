//! How many calls were compared, by answer and by what they met.

use crate::call::{row, Asked, Call, Expected};
use std::collections::BTreeSet;

/// The width of the rows' names.
const WIDTH: usize = 54;

/// Names of rows, each with its count.
type Rows = Vec<(String, usize)>;

/// The counts of one call's rows.
pub struct Tally {
    pub name: &'static str,
    /// The call's shares of the random calls and of the recorded cases.
    pub share: usize,
    pub share_recorded: usize,
    answers: Rows,
    met: Rows,
    /// How often the original was not asked, asked for a part, and asked as a whole.
    asked: [usize; 3],
}

impl Tally {
    /// The counts of a call, none of them begun.
    pub fn of<C: Call>() -> Tally {
        let answers = C::ANSWERS.iter().map(|answer| answer.to_string());
        let refusals = C::REFUSALS.iter().map(|refusal| row(*refusal, ""));
        let met = C::MET.concat().concat().into_iter().map(String::from);
        let (answers, met): (Vec<_>, Vec<_>) = (answers.chain(refusals).collect(), met.collect());
        let mut seen = BTreeSet::new();
        let twice = answers.iter().chain(&met).find(|name| !seen.insert(*name));
        assert!(twice.is_none(), "{} has two rows of one name: {twice:?}", C::NAME);
        Tally {
            name: C::NAME,
            share: C::SHARE,
            share_recorded: C::SHARE_RECORDED,
            answers: answers.into_iter().map(|name| (name, 0)).collect(),
            met: met.into_iter().map(|name| (name, 0)).collect(),
            asked: [0; 3],
        }
    }

    pub fn add(&mut self, expected: &Expected) {
        self.asked[expected.asked as usize] += 1;
        count(&mut self.answers, &expected.row);
        for name in &expected.met {
            count(&mut self.met, name);
        }
    }

    pub fn calls(&self) -> usize {
        self.answers.iter().map(|row| row.1).sum()
    }

    /// How often the original was asked so far.
    pub fn asked(&self, how: Asked) -> usize {
        self.asked[how as usize]
    }

    pub fn print(&self) {
        let by = match self.asked {
            [_, 0, 0] => "by the papers".into(),
            [_, 0, whole] => format!("{} beside the Rust", grouped(whole)),
            [_, part, whole] => {
                format!("{} beside the Rust, {} in part", grouped(whole), grouped(part))
            }
        };
        let calls = grouped(self.calls());
        println!("{:<WIDTH$}{calls:>12}   {by}", self.name);
        print("  ", &self.answers);
        if !self.met.is_empty() {
            println!("  of these, or in these, met:");
            print("    ", &self.met);
        }
    }

    /// The rows that nothing was counted in.
    pub fn empty(&self) -> Vec<String> {
        let empty = self.answers.iter().chain(&self.met).filter(|row| row.1 == 0);
        empty.map(|(name, _)| format!("{}: {name}", self.name)).collect()
    }
}

fn count(rows: &mut Rows, name: &str) {
    let row = rows.iter_mut().find(|row| row.0 == name);
    row.unwrap_or_else(|| panic!("the table has no row {name}")).1 += 1;
}

fn print(indent: &str, rows: &Rows) {
    for (name, count) in rows {
        let name = format!("{indent}{name}");
        println!("{name:<WIDTH$}{:>12}", grouped(*count));
    }
}

/// A number with a comma between its thousands.
pub fn grouped(number: usize) -> String {
    match number {
        0..=999 => number.to_string(),
        _ => format!("{},{:03}", grouped(number / 1_000), number % 1_000),
    }
}
