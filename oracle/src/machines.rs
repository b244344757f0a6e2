//! The two tables of the sayable machines, and the original's reading of them.

use crate::forever::{hold, Held};
use crate::prelude::*;
use original::language::Sayable;

/// Bytes that stand before the cells and are skipped.
const HEAD: usize = 4;

/// Two sections, what words to try on them, and the original's reading.
pub struct Machines {
    /// aswd.p and aswd.s
    pub sections: [Vec<u8>; 2],
    pub alphabet: Vec<u8>,
    /// None if a section breaks 01's form.
    pub original: Option<Held<Sayable>>,
}

impl Machines {
    pub fn new(sections: [Vec<u8>; 2], alphabet: Vec<u8>) -> Machines {
        let has_form = sections.iter().all(|s| s.len() >= HEAD);
        let original = has_form.then(|| hold(&parts(&sections), Sayable::parse));
        Machines { sections, alphabet, original }
    }

    /// The cells of both sections.
    pub fn cells(&self) -> [Vec<u16>; 2] {
        let cells = self.sections.each_ref().map(|section| section[HEAD..].chunks_exact(2));
        cells.map(|cells| cells.map(|c| u16::from_le_bytes([c[0], c[1]])).collect())
    }
}

pub fn parts([prefix, suffix]: &[Vec<u8>; 2]) -> [Part<'_>; 2] {
    [Part::read("aswd.p", Form::Bytes, prefix), Part::read("aswd.s", Form::Bytes, suffix)]
}

impl Shrink for Rc<Machines> {
    fn smaller(&self) -> Vec<Rc<Machines>> {
        let given = &self.sections;
        let smaller = |side: usize| with(given, given[side].smaller(), |s, less| s[side] = less);
        let made = |sections| Rc::new(Machines::new(sections, vec![]));
        [0, 1].map(smaller).concat().into_iter().map(made).collect()
    }
}

/// A section of these cells.
pub fn section(head: &[u8], cells: &[u16]) -> Vec<u8> {
    let cells = cells.iter().flat_map(|cell| cell.to_le_bytes());
    head.iter().copied().chain(cells).collect()
}

/// A cell: a symbol, and the state that it leads to.
pub fn cell(symbol: u8, state: usize) -> u16 {
    (state * 128) as u16 + u16::from(symbol)
}

/// What a byte of a word, folded, is to the machines.
fn symbol(byte: u8) -> u8 {
    match byte.to_ascii_lowercase() {
        b'n' | b'm' => b'N',
        b'a' | b'e' | b'i' | b'o' | b'u' | b'y' => b'V',
        other => other,
    }
}

/// What ends a list of steps in which none is on a symbol.
#[derive(PartialEq)]
pub enum End {
    Zero,
    Section,
}

/// The state to which 01's step leads, to tell which way an input goes; the original alone tells the answer.
pub fn step(cells: &[u16], state: usize, symbol: u8) -> Result<usize, End> {
    let ends = |cell: &&u16| **cell == 0 || **cell % 128 == u16::from(symbol);
    match cells.iter().skip(state).find(ends) {
        Some(0) => Err(End::Zero),
        Some(cell) => Ok(usize::from(cell / 128)),
        None => Err(End::Section),
    }
}

/// Goes along letters up to a vowel: how many stand before it, none if there is no vowel, or what ended the steps.
pub fn walk(cells: &[u16], start: usize, letters: &[u8]) -> Result<Option<usize>, End> {
    let mut state = start;
    for (i, letter) in letters.iter().enumerate() {
        state = step(cells, state, symbol(*letter))?;
        if symbol(*letter) == b'V' {
            return Ok(Some(i));
        }
    }
    Ok(None)
}

/// Any machines; a few break their form, or have an odd byte at the end.
pub fn random(random: &mut Random) -> Machines {
    let (mut sections, alphabet) = plan(random);
    for section in &mut sections {
        match random.below(30) {
            0 => section.truncate(random.below(HEAD)),
            1 => section.truncate(HEAD),
            2 => section.truncate(HEAD + 1),
            3 => section.truncate(random.between(HEAD.min(section.len()), section.len())),
            4..=7 => section.push(random.byte()),
            _ => {}
        }
    }
    Machines::new(sections, alphabet)
}

/// Machines of a size that a list can hold.
pub fn to_record(random: &mut Random) -> Machines {
    let (mut sections, alphabet) = plan(random);
    if random.once_in(3) {
        sections[0].push(random.byte());
    }
    Machines::new(sections, alphabet)
}

fn plan(random: &mut Random) -> ([Vec<u8>; 2], Vec<u8>) {
    let alphabet = words::alphabet(random);
    let pair = match random.below(4) {
        0 => [(); 2].map(|()| noise(random, &alphabet)),
        _ => pair(random, &alphabet),
    };
    (pair.map(|cells| section(&random.bytes(HEAD), &cells)), alphabet)
}

/// Cells without a plan: symbols of the alphabet, states inside and past the end, zeros between.
fn noise(random: &mut Random, alphabet: &[u8]) -> Vec<u16> {
    let count = random.between(0, 60);
    let any = |_| match random.weighted(&[8, 2, 1]) {
        0 => cell(symbol(random.pick_byte(alphabet)), random.below(count + 4).min(511)),
        1 => 0,
        _ => random.below(65_536) as u16,
    };
    let mut cells: Vec<u16> = (0..count).map(any).collect();
    if count > 0 && random.once_in(2) {
        cells[0] = cell(b'#', random.below(count));
    }
    cells
}

/// Two machines with lists of steps, ended by zeros, that both start from one state.
fn pair(random: &mut Random, alphabet: &[u8]) -> [Vec<u16>; 2] {
    // the first list holds the step on "#", behind others
    let others = random.below(3);
    let start = others + 2;
    let prefix = [vec![cell(b'q', 0); others], vec![cell(b'#', start), 0]].concat();
    [prefix, vec![0; start]].map(|front| lists(random, alphabet, front))
}

/// Lists of steps behind what is there; most have a vowel, and their states are the lists' starts.
fn lists(random: &mut Random, alphabet: &[u8], mut cells: Vec<u16>) -> Vec<u16> {
    let count = random.between(1, 6);
    let width = random.between(1, 24);
    let first = cells.len();
    for _ in 0..count {
        for i in 0..width {
            let vowel = i == 0 && !random.once_in(6);
            let symbol = symbol(random.pick_byte(alphabet));
            let symbol = if vowel { b'V' } else { symbol };
            let to = first + (width + 1) * random.below(count);
            // one in thirty leads past the end
            let to = if random.once_in(30) { 511 } else { to };
            cells.push(cell(symbol, to));
        }
        cells.push(0);
    }
    cells
}
