//! A run: the short inputs of every call, then random ones up to the limit, then the table.

use crate::prelude::*;
use crate::shrink::{agree, both, shrink, Both};
use crate::tally::{grouped, Tally};
use std::time::{Duration, Instant};

/// How many random calls a round has before the limit is looked at.
const ROUND: usize = 10_000;
/// How many random calls there are at least where the limit is a time, so that every row is met on a slow machine too.
const LEAST: usize = 6 * ROUND;

pub enum Limit {
    Calls(usize),
    Seconds(u64),
    /// Random lists of calls, behind the short ones.
    Lists(usize),
}

/// One call of the interface and its counts.
pub struct Runner<C: Call> {
    call: C,
    random: Random,
    tally: Tally,
}

impl<C: Call + 'static> Runner<C> {
    pub fn boxed(seed: u64) -> Box<dyn Compared> {
        let (call, random) = (C::default(), Random::new(seed, C::NAME));
        Box::new(Runner { call, random, tally: Tally::of::<C>() })
    }

    fn one(&mut self, input: C::Input) -> Result<(), String> {
        let found = both(&self.call, &input);
        if !agree(&found) {
            return Err(self.told(&input, &found));
        }
        self.tally.add(&found.0);
        Ok(())
    }

    /// A difference, in its smallest form and as it was found.
    fn told(&self, input: &C::Input, found: &Both) -> String {
        let (name, calls) = (C::NAME, grouped(self.tally.calls()));
        let small = shrink(&self.call, input);
        let smallest = self.shown(&small, &both(&self.call, &small));
        let found = self.shown(input, found);
        format!(
            "DIFFERENCE in {name}, after {calls} calls that agree.\n\
            In its smallest form:\n{smallest}\nAs it was found:\n{found}"
        )
    }

    fn shown(&self, input: &C::Input, (expected, ours): &Both) -> String {
        let by = if expected.asked == Asked::Whole { "the Rust" } else { "papers" };
        let (wanted, first) = match &expected.outcome {
            Ok(outcome) => (self.outcome(input, outcome), first_difference(outcome, ours)),
            Err(why) => (why.clone(), String::new()),
        };
        let shown = clipped(self.call.show(input, &expected.handed));
        let ours = self.outcome(input, ours);
        format!("  {shown}\n  {by:<9} {wanted}\n  ours      {ours}{first}")
    }

    fn outcome(&self, input: &C::Input, outcome: &Outcome) -> String {
        let altered = outcome.altered.as_ref();
        let altered = altered.map_or(String::new(), |what| format!(", altered {what}"));
        let written = clipped(self.call.show_written(input, outcome));
        format!("{}, output {written}{altered}", outcome.answer)
    }
}

/// Where two outputs differ first, if they do.
fn first_difference(wanted: &Outcome, ours: &Outcome) -> String {
    let (wanted, ours) = (wanted.written.concat(), ours.written.concat());
    let first = wanted.iter().zip(&ours).enumerate().find(|(_, (wanted, ours))| wanted != ours);
    first.map_or(String::new(), |(at, (wanted, ours))| {
        format!("\n  first at  byte {at} of the output: {wanted:02x}, ours {ours:02x}")
    })
}

/// The front of a line that is too long to read.
fn clipped(line: String) -> String {
    const MOST: usize = 4_000;
    match line.get(..MOST) {
        Some(front) => format!("{front}... ({} characters in all)", line.len()),
        None => line,
    }
}

/// A call of the interface, whatever its inputs are.
pub trait Compared {
    fn short(&mut self) -> Result<(), String>;
    fn random(&mut self, calls: usize) -> Result<(), String>;
    fn tally(&self) -> &Tally;
    fn record(&self, seed: u64, cases: usize) -> Vec<String>;
}

impl<C: Call + 'static> Compared for Runner<C> {
    fn short(&mut self) -> Result<(), String> {
        self.call.short().into_iter().try_for_each(|i| self.one(i))
    }

    fn random(&mut self, calls: usize) -> Result<(), String> {
        (0..calls).try_for_each(|_| {
            let input = self.call.random(&mut self.random);
            self.one(input)
        })
    }

    fn tally(&self) -> &Tally {
        &self.tally
    }

    fn record(&self, seed: u64, cases: usize) -> Vec<String> {
        let stream = format!("record {}", C::NAME);
        self.call.record(&mut Random::new(seed, &stream), cases)
    }
}

/// Compares until the limit; a difference ends it.
pub fn run(calls: &mut [Box<dyn Compared>], limit: Limit) -> Result<(), String> {
    let started = Instant::now();
    let all_shares: usize = calls.iter().map(|call| call.tally().share).sum();
    calls.iter_mut().try_for_each(|call| call.short())?;
    let short = total(calls);
    println!("{} short inputs, then random ones", grouped(short));
    let left = |done: usize| match limit {
        Limit::Calls(all) => all.saturating_sub(done),
        Limit::Lists(all) => (all + short).saturating_sub(done),
        Limit::Seconds(_) if done < short + LEAST => ROUND,
        Limit::Seconds(all) if started.elapsed() < Duration::from_secs(all) => ROUND,
        Limit::Seconds(_) => 0,
    };
    while let round @ 1.. = left(total(calls)).min(ROUND) {
        let mut shares = 0;
        for call in calls.iter_mut() {
            let dealt = round * shares / all_shares;
            shares += call.tally().share;
            call.random(round * shares / all_shares - dealt)?;
        }
    }
    let (all, seconds) = (total(calls), started.elapsed().as_secs_f64());
    let [asked, part] = [Asked::Whole, Asked::Part].map(|how| {
        let asked = calls.iter().map(|call| call.tally().asked(how));
        grouped(asked.sum())
    });
    let a_second = grouped((all as f64 / seconds) as usize);
    let all = grouped(all);
    println!(
        "{all} calls, {asked} of them beside the Rust, {part} in part, the others refused or answered as the \
        papers say: no difference\n{seconds:.1} s, {a_second} calls a second\n"
    );
    Ok(())
}

fn total(calls: &[Box<dyn Compared>]) -> usize {
    calls.iter().map(|call| call.tally().calls()).sum()
}

/// Prints the table; false if a row stayed empty.
pub fn report(calls: &[Box<dyn Compared>]) -> bool {
    calls.iter().for_each(|call| call.tally().print());
    let empty: Vec<String> = calls.iter().flat_map(|call| call.tally().empty()).collect();
    for row in &empty {
        println!("NOT MET: {row}");
    }
    empty.is_empty()
}
