//! preview_entries: the first step of add_entries, which fills the spare and tells what a text would change. The store is
//! only read; the original has the entries of the spare, the counts are the driver's.

use super::adding::STORE_ORDER;
use super::filling::rule::{self, filled, refusal, TAKEN};
use super::filling::{short, Input, Texts};
use crate::prelude::*;
use crate::stores::UNSOUND;

#[derive(Default)]
pub struct PreviewEntries {
    texts: Texts,
}

impl Call for PreviewEntries {
    type Input = Input;
    const NAME: &'static str = "preview_entries";
    const SHARE: usize = 54;
    const SHARE_RECORDED: usize = 8;
    const ANSWERS: Rows = TAKEN;
    const REFUSALS: &'static [u32] = &[1, 2, 3, 4, 5, 7, 8];
    /// A malformed line, an unknown phone.
    const ERRORS: &'static [u32] = &[4, 5];
    const MET: Table = &[
        rule::ROWS,
        &[&["spare of another length", "7: 25 phones"]],
        &[&["1: and an unsound store", "1: and a spare of another length"]],
        &[&["2: and a high byte in the text", "2: and the largest count"]],
        rule::NUMBERS,
        STORE_ORDER,
        store_edges::EXACT,
        UNSOUND,
    ];
    const LIBRARY: Function = ours::preview_entries;

    fn short(&self) -> Vec<Input> {
        short::inputs()
    }

    fn random(&mut self, random: &mut Random) -> Input {
        self.texts.spoiled(random)
    }

    fn rule(&self, input: &Input, met: &mut Met) -> Ruling {
        refusal(input, false, met)?;
        let filled = filled(input, met)?;
        let answer = filled.answer(filled.numbers());
        Ok(Told::new(answer, filled.row(), vec![filled.spare()]))
    }

    fn is_beyond(&self, input: &Input) -> bool {
        input.scene.has_exact()
    }

    fn lent<'a>(&self, input: &'a Input) -> Vec<Part<'a>> {
        input.parts(Part::read("the store", Form::Store, &input.scene.store))
    }

    fn record(&self, random: &mut Random, cases: usize) -> Vec<String> {
        self.texts.record(self, random, cases)
    }
}
