//! add_entries: runtime entries from lines of text, by way of a spare store; both steps together.

use super::adding::STORE_ORDER;
use super::filling::rule::{self, filled, refusal, TAKEN};
use super::filling::{short, Input, Texts};
use crate::prelude::*;
use crate::stores::UNSOUND;

#[derive(Default)]
pub struct AddEntries {
    texts: Texts,
}

impl Call for AddEntries {
    type Input = Input;
    const NAME: &'static str = "add_entries";
    const SHARE: usize = 11;
    const SHARE_RECORDED: usize = 20;
    const ANSWERS: Rows = TAKEN;
    const REFUSALS: &'static [u32] = &[1, 2, 12, 3, 4, 5, 7, 8];
    /// A malformed line, an unknown phone.
    const ERRORS: &'static [u32] = &[4, 5];
    const MET: Table = &[
        rule::ROWS,
        &[&["spare of another length", "7: 25 phones"]],
        rule::RANKS,
        store_edges::RAISED,
        STORE_ORDER,
        store_edges::EXACT,
        UNSOUND,
    ];
    const LIBRARY: Function = ours::add_entries;

    fn short(&self) -> Vec<Input> {
        short::inputs()
    }

    fn random(&mut self, random: &mut Random) -> Input {
        self.texts.spoiled(random)
    }

    fn rule(&self, input: &Input, met: &mut Met) -> Ruling {
        refusal(input, true, met)?;
        let filled = filled(input, met)?;
        let answer = filled.answer(Answer::accepted(0, filled.taken.keys.len()));
        let store = match answer.refusal {
            0 => store_edges::raised(&filled.store, met),
            _ => input.scene.store.clone(),
        };
        Ok(Told::new(answer, filled.row(), vec![store, filled.spare()]))
    }

    fn is_beyond(&self, input: &Input) -> bool {
        input.scene.has_exact()
    }

    fn lent<'a>(&self, input: &'a Input) -> Vec<Part<'a>> {
        input.parts(Part::written("the store", Form::Store, &input.scene.store))
    }

    fn record(&self, random: &mut Random, cases: usize) -> Vec<String> {
        self.texts.record(self, random, cases)
    }
}
