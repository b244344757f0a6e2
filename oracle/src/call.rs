//! What every call of the comparison has: its inputs, its rule, what the library is lent, and smaller inputs.

use crate::lent::Lent;
use crate::prelude::*;
use std::panic::{catch_unwind, set_hook, take_hook, AssertUnwindSafe};

/// Names of rows of the table.
pub type Rows = &'static [&'static str];

/// Groups of rows of a table, as `rows!` makes them.
pub type Table = &'static [&'static [Rows]];

/// What a call gives back.
#[derive(Clone, PartialEq, Eq)]
pub struct Outcome {
    pub answer: Answer,
    /// What the call may write, at exit: an output, a store, or a store and a spare.
    pub written: Vec<Vec<u8>>,
    /// Lent bytes that were altered though nothing may alter them.
    pub altered: Option<String>,
}

/// What 01 and the original answer.
pub struct Told {
    pub answer: Answer,
    /// The row of the table that counts this answer; a refusal's is its own.
    pub row: &'static str,
    /// What stands at the front of each thing that the call writes.
    pub written: Vec<Vec<u8>>,
    /// The bytes that an output needs, or would need.
    pub need: usize,
    /// Whether the original was asked.
    pub asked: bool,
    /// Rows that count where the output is too short.
    pub short: Vec<&'static str>,
}

impl Told {
    pub fn new(answer: Answer, row: &'static str, written: Vec<Vec<u8>>) -> Told {
        let need = written.first().map_or(0, Vec::len);
        Told { answer, row, written, need, asked: true, short: vec![] }
    }

    fn refused(refusal: u32, need: usize) -> Told {
        Told { need, ..Told::new(Answer::refused(refusal, 0), "", vec![]) }
    }

    /// The same of an answer that the original has no part in.
    pub fn by_papers(self) -> Told {
        Told { asked: false, ..self }
    }
}

/// Why there is no answer; every byte is to stay.
pub enum Stop {
    /// A refusal that is 01's alone, and the bytes that an output would need.
    Refused(u32, usize),
    /// The same of what the original was asked too.
    RefusedBeside(u32, usize),
    /// The original panicked, or it does not do what 01, as the driver reads it, says of it.
    AtOdds(String),
}

impl From<u32> for Stop {
    fn from(refusal: u32) -> Stop {
        Stop::Refused(refusal, CELL)
    }
}

impl From<String> for Stop {
    fn from(why: String) -> Stop {
        Stop::AtOdds(why)
    }
}

pub type Ruling = Result<Told, Stop>;

/// How far the original was asked.
#[derive(Clone, Copy, PartialEq, Eq)]
pub enum Asked {
    /// Not at all; most refusals are 01's alone.
    No,
    /// For a part, because of exact entries or of a sheet of version 2, which it does not have.
    Part,
    Whole,
}

/// What 01 and the original ask of an input.
pub struct Expected {
    /// What the call may write, as it is handed in.
    pub handed: Vec<Vec<u8>>,
    /// The outcome, or why there is none.
    pub outcome: Result<Outcome, String>,
    pub asked: Asked,
    /// The row of the table that counts this answer.
    pub row: String,
    /// Rows that count what the input met on its way.
    pub met: Vec<&'static str>,
}

/// What a call with an output has in its table, beside its own rows.
pub const OUTPUT: Rows = &["output exact", "output longer"];
/// The same where an output that needs no bytes is told apart.
pub const OUTPUT_OR_NONE: Rows = &["nothing needed, no output", OUTPUT[0], OUTPUT[1]];
/// What an output that is too short has in some tables.
pub const TOO_SHORT: Rows = &["9: one byte too few", "9: no output"];

pub trait Call: Default {
    type Input: Shrink;
    const NAME: &'static str;
    /// How many random calls are this one, beside the shares of the others.
    const SHARE: usize;
    /// How many recorded cases are this one, beside the shares of the others.
    const SHARE_RECORDED: usize = 0;
    /// The rows that count answers, and the refusals; each input counts in one of them.
    const ANSWERS: Rows;
    const REFUSALS: &'static [u32] = &[];
    /// Refusals that are errors of the original, which may be recorded.
    const ERRORS: &'static [u32] = &[];
    /// The rows that count what inputs met.
    const MET: Table = &[];
    const LIBRARY: Function;

    /// Edge cases, and every short input.
    fn short(&self) -> Vec<Self::Input>;

    fn random(&mut self, random: &mut Random) -> Self::Input;

    /// What 01 and the original say, whatever output there is. Tells what was met on the way.
    fn rule(&self, input: &Self::Input, met: &mut Met) -> Ruling;

    /// Whether an input has exact entries or a sheet of version 2, so that the original can be asked for a part alone.
    fn is_beyond(&self, _input: &Self::Input) -> bool {
        false
    }

    /// What the library is lent, in the order of its parameters.
    fn lent<'a>(&self, input: &'a Self::Input) -> Vec<Part<'a>>;

    /// Lines of the recorded list, at least so many of them cases; none of what the original does not answer.
    fn record(&self, _random: &mut Random, _cases: usize) -> Vec<String> {
        vec![]
    }

    /// What is expected by the rule and the size of the output.
    fn expected(&self, input: &Self::Input) -> Expected {
        let parts = self.lent(input);
        let mut met = Met::default();
        let told = match self.rule(input, &mut met) {
            Ok(told) => fitting::<Self>(told, &parts, &mut met),
            Err(Stop::Refused(refusal, need)) => Told::refused(refusal, need).by_papers(),
            Err(Stop::RefusedBeside(refusal, need)) => Told::refused(refusal, need),
            Err(Stop::AtOdds(why)) => {
                let (handed, outcome) = (handed(&parts, CELL), Err(why));
                let asked = Asked::Whole;
                return Expected { handed, outcome, asked, row: String::new(), met: vec![] };
            }
        };
        let handed = handed(&parts, told.need);
        let mut written = handed.clone();
        for (written, front) in written.iter_mut().zip(&told.written) {
            written[..front.len()].copy_from_slice(front);
        }
        Expected {
            handed,
            outcome: Ok(Outcome { answer: told.answer, written, altered: None }),
            asked: match told.asked {
                false => Asked::No,
                true if self.is_beyond(input) => Asked::Part,
                true => Asked::Whole,
            },
            row: row(told.answer.refusal, told.row),
            met: met.counted(Self::MET),
        }
    }

    /// What the library does, lent everything between guards, given what it may write.
    fn ours(&self, input: &Self::Input, handed: &[Vec<u8>]) -> Outcome {
        let parts = self.lent(input);
        let mut lent: Vec<Lent> = all_bytes(&parts, handed).into_iter().map(Lent::new).collect();
        let answer = Self::LIBRARY(&mut lent);
        let both = || parts.iter().zip(&lent);
        let written = both().filter(|(part, _)| part.is_written());
        Outcome {
            answer,
            written: written.map(|(_, lent)| lent.bytes().to_vec()).collect(),
            altered: both().find_map(|(part, lent)| part.altered(lent)),
        }
    }

    /// The input as a line of the recorded list, up to its arrow.
    fn show(&self, input: &Self::Input, handed: &[Vec<u8>]) -> String {
        notation::line(Self::NAME, &self.lent(input), handed, &[])
    }

    /// What the call wrote, as a difference tells it.
    fn show_written(&self, input: &Self::Input, outcome: &Outcome) -> String {
        let parts = self.lent(input);
        let forms = parts.iter().filter(|part| part.is_written());
        let shown = |(part, bytes): (&Part, &Vec<u8>)| part.form.at_exit(bytes, outcome.answer);
        let shown: Vec<String> = forms.zip(&outcome.written).map(shown).collect();
        shown.join(" ")
    }
}

/// An answer, or refusal 9 where there is an output that is too short for it. Tells what the output met.
fn fitting<C: Call>(mut told: Told, parts: &[Part], met: &mut Met) -> Told {
    if !parts.iter().any(Part::is_output) {
        return told;
    }
    let (need, len) = (told.need, handed(parts, told.need)[0].len());
    let row = match len {
        0 if need > 0 => Some(TOO_SHORT[1]),
        0 if C::MET.concat().contains(&OUTPUT_OR_NONE) => Some(OUTPUT_OR_NONE[0]),
        _ if len == need => Some(OUTPUT[0]),
        _ if len > need => Some(OUTPUT[1]),
        _ => (len + 1 == need).then_some(TOO_SHORT[0]),
    };
    if len < need {
        *met = Met::default();
        met.all(told.short);
        told = Told { asked: told.asked, ..Told::refused(9, need) };
    }
    met.shared(row);
    told
}

/// The row of a number, of rows of which each but the first starts at one of these.
pub fn row_of(rows: Rows, starts: &[usize], number: usize) -> &'static str {
    rows[starts.partition_point(|start| *start <= number)]
}

/// The row that counts an answer.
pub fn row(refusal: u32, accepted: &str) -> String {
    match refusal {
        0 => accepted.into(),
        refusal => format!("refusal {refusal}"),
    }
}

/// Asks the original; a panic there is an answer here, and is not printed where it happens.
pub fn ask<T>(question: impl FnOnce() -> T) -> Result<T, String> {
    let usual = take_hook();
    set_hook(Box::new(|_| ()));
    let answer = catch_unwind(AssertUnwindSafe(question));
    set_hook(usual);
    answer.map_err(|said| {
        let text = said.downcast_ref::<String>().map(String::as_str);
        let text = text.or(said.downcast_ref::<&str>().copied());
        format!("the original panics: {}", text.unwrap_or("?"))
    })
}
