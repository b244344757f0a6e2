//! The machines of aswd.p and aswd.s: each cell leads to a state that its section has.

use commands::numbers::u16_at;

use crate::forms::{CELL, FRONT};
use crate::report::{Kind, Place, Report};

/// The symbol in front of a word, and the one behind which no state is looked at.
const EDGE: usize = b'#' as usize;
const VOWEL: usize = b'V' as usize;
/// How many symbols a cell can have.
const SYMBOLS: usize = 128;

/// The cells of a section: where each stands, its symbol and the state that it leads to. A cell of 0 is an end.
fn cells(section: &[u8]) -> impl Iterator<Item = (usize, usize, usize)> + '_ {
    let places = (FRONT..section.len()).step_by(CELL);
    let cells = places.map_while(|at| Some((at, u16_at(section, at)?)));
    cells.map(|(at, cell)| (at, cell % SYMBOLS, cell / SYMBOLS))
}

fn count(section: &[u8]) -> usize {
    section.len().saturating_sub(FRONT) / CELL
}

/// Tells the first cell that leads outside its section, and how many others do.
fn check_cells(name: &'static str, section: &[u8], report: &mut Report) {
    let states = count(section);
    let mut outside =
        cells(section).filter(|&(_, symbol, state)| symbol != VOWEL && state >= states);
    if let Some((at, symbol, state)) = outside.next() {
        let letter = (symbol as u8).escape_ascii();
        let others = match outside.count() {
            0 => String::new(),
            others => format!("; so do {others} more"),
        };
        let sentence = format!(
            "a cell leads by \"{letter}\" to state {state}: expected one below {states}, its count of cells{others}"
        );
        report.fault(Kind::Machine, Place::at(name, at), sentence);
    }
}

/// The state in which both machines start: the one that aswd.p's first cells lead to by "#".
fn start(prefix: &[u8]) -> Option<usize> {
    let mut first = cells(prefix).take_while(|&(_, symbol, state)| (symbol, state) != (0, 0));
    first.find(|&(_, symbol, _)| symbol == EDGE).map(|(_, _, state)| state)
}

/// Tells of both machines, whose sections have their form.
pub fn check(prefix: &[u8], suffix: &[u8], report: &mut Report) {
    check_cells("aswd.p", prefix, report);
    check_cells("aswd.s", suffix, report);
    let start = start(prefix).filter(|&start| start < count(prefix) && start >= count(suffix));
    if let Some(start) = start {
        let sentence = format!(
            "has {} cells, and aswd.p leads by \"#\" to state {start} of both: expected at least {} cells",
            count(suffix),
            start + 1
        );
        report.fault(Kind::Machine, Place::of("aswd.s"), sentence);
    }
}
