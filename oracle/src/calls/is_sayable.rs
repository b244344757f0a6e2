//! is_sayable: whether two machines accept the letters of a word.

use crate::calls::lookup::WORDS;
use crate::machines::{self, cell, parts, section, step, walk, End, Machines};
use crate::prelude::*;

input!(word: Vec<u8>, machines: Rc<Machines>);

#[derive(Default)]
pub struct IsSayable {
    machines: Served<Rc<Machines>>,
}

impl Call for IsSayable {
    type Input = Input;
    const NAME: &'static str = "is_sayable";
    const SHARE: usize = 7;
    const SHARE_RECORDED: usize = 17;
    const ANSWERS: Rows = &["yes", "no"];
    const REFUSALS: &'static [u32] = &[1, 3];
    const MET: Table = &[words::WORD, ROWS];
    const LIBRARY: Function = ours::is_sayable;

    fn short(&self) -> Vec<Input> {
        let random = &mut Random::new(7, "short is_sayable");
        let sets = (0..10).map(|_| machines::to_record(random));
        each! {
            for machines in sets.chain(edges()).map(Rc::new);
            for word in words::every(b"anstA#'7", 3).into_iter().chain(words::edges());
            [Input::new(word, machines.clone())]
        }
    }

    fn random(&mut self, random: &mut Random) -> Input {
        let machines = self.machines.next(|| (Rc::new(machines::random(random)), WORDS)).clone();
        Input::new(words::random(random, &machines.alphabet), machines)
    }

    fn rule(&self, input: &Input, met: &mut Met) -> Ruling {
        let held = input.machines.original.as_ref();
        met.refuse(1, held.is_none(), || None)?;
        met.refuse(3, words::is_refused(&input.word), || None)?;
        let original = &held.expect("only sections of 01's form are read").reader;
        let sayable = ask(|| original.is_sayable(ascii(&input.word)))?;
        walks(input, met);
        let row = if sayable { "yes" } else { "no" };
        Ok(Told::new(Answer::accepted(u32::from(sayable), 0), row, vec![]))
    }

    fn lent<'a>(&self, input: &'a Input) -> Vec<Part<'a>> {
        let sections = parts(&input.machines.sections).into_iter();
        sections.chain([words::word_part(&input.word)]).collect()
    }

    fn record(&self, random: &mut Random, cases: usize) -> Vec<String> {
        let sets = 8;
        record::sets("sayable machines", sets, |set| {
            let machines = Rc::new(machines::to_record(random));
            let mut lines = registers(3, &parts(&machines.sections));
            for i in 0..cases.div_ceil(sets) {
                // the edges on a few sets only
                let edge = (set % 4 == 0).then_some(i);
                let word = words::to_record(random, &machines.alphabet, edge);
                let input = Input::new(word, machines.clone());
                lines.push(whole_case(self, &input, &named([3, 4])));
            }
            lines
        })
    }
}

/// Machines at the limits of what 01 says of the cells.
fn edges() -> Vec<Machines> {
    let head = [9, 9, 9, 9];
    let section = |cells: &[u16]| section(&head, cells);
    let to_1 = |symbol: u8| cell(symbol, 1);
    let start = [cell(b'#', 2), 0];
    let accepting = [cell(b'V', 0), cell(b'N', 2), cell(b't', 2), 0];
    let both = [&start[..], &accepting[..]].concat();
    let good = section(&both);
    let odd = [&good[..], b"#"].concat();
    let pairs = [
        (good.clone(), good.clone()),
        (good.clone(), odd.clone()),
        (odd, good.clone()),
        // no cells, one byte of a cell, too short for the head
        (good.clone(), head.to_vec()),
        (head.to_vec(), good.clone()),
        (good.clone(), [&head[..], b"V"].concat()),
        (good.clone(), head[..3].to_vec()),
        (head[..3].to_vec(), good.clone()),
        (vec![], vec![]),
        // no step on "#" from 0: a zero before it; then none at all
        (section(&[0, cell(b'#', 2)]), good.clone()),
        (section(&accepting), good.clone()),
        // a start past the end of either section; the largest state
        (section(&[cell(b'#', 9), 0]), good.clone()),
        (good.clone(), section(&start)),
        (section(&[cell(b'#', 511)]), good.clone()),
        // lists that the end of the section ends
        (section(&both[..5]), section(&both[..3])),
        // aswd.s has another start of its own
        (good.clone(), section(&[cell(b'#', 1), cell(b'V', 0), 0, cell(b'V', 0)])),
        // symbols 0 and 127, and letters that folding or the symbols leave without a use
        (section(&b"#\0\x7fAaV".map(to_1)), section(&[&[0], &b"\0\x7fAnV".map(to_1)[..]].concat())),
    ];
    pairs.map(|(p, s)| Machines::new([p, s], vec![])).into()
}

/// What the machines met, as the original goes through them.
fn walks(input: &Input, met: &mut Met) {
    let mut word = input.word.to_ascii_lowercase();
    let cells = input.machines.cells();
    let start = step(&cells[0], 0, b'#');
    met.all(words::of_word(&input.word));
    met.all(of_sections(&input.machines, &cells, &start));
    let Ok(start) = start else { return };
    let walked = walk(&cells[0], start, &word);
    met.all(forwards(&walked));
    if let Ok(Some(from)) = walked {
        word.reverse();
        met.all(backwards(&walk(&cells[1], start, &word), word.len(), from));
    }
}

rows! { ROWS:
    /// What the sections and their cells have, and what the step on '#' leads to.
    of_sections(machines: &Machines, cells: &[Vec<u16>; 2], start: &Result<usize, End>) {
        let past = |side: usize| matches!(start, Ok(start) if *start >= cells[side].len());
    } [
        "section without cells" => cells.iter().any(Vec::is_empty),
        "section with an odd last byte" => machines.sections.iter().any(|s| s.len() % 2 == 1),
        "no step on '#'" => start.is_err(),
        "start past the end of aswd.p" => past(0),
        "start past the end of aswd.s" => past(1),
    ]

    /// How the letters lead on from the front.
    forwards(walked: &Result<Option<usize>, End>) [
        "aswd.p: no step, a zero ends the list" => *walked == Err(End::Zero),
        "aswd.p: no step, the section ends the list" => *walked == Err(End::Section),
        "aswd.p: no vowel in the word" => *walked == Ok(None),
    ]

    /// How they lead on from the end, if a vowel was met from the front.
    backwards(walked: &Result<Option<usize>, End>, len: usize, from: usize) [
        "aswd.s: no step, a zero ends the list" => *walked == Err(End::Zero),
        "aswd.s: no step, the section ends the list" => *walked == Err(End::Section),
        "yes, with bytes that are never read" =>
            matches!(walked, Ok(Some(to)) if from + to + 2 < len),
    ]
}
