//! Both steps one after the other, beside the original's `add_entries` on the same text.

use super::filling::rule::{self, filled, refusal, TAKEN};
use super::filling::{short, Input, Texts};
use crate::prelude::*;

#[derive(Default)]
pub struct TwoSteps {
    texts: Texts,
}

impl Call for TwoSteps {
    type Input = Input;
    const NAME: &'static str = "the two steps";
    const SHARE: usize = 5;
    const ANSWERS: Rows = TAKEN;
    const REFUSALS: &'static [u32] = &[1, 2, 3, 4, 5, 7, 8, 12];
    const MET: Table = &[rule::NUMBERS, store_edges::RAISED, store_edges::EXACT];
    const LIBRARY: Function = ours::two_steps;

    fn short(&self) -> Vec<Input> {
        short::edges()
    }

    fn random(&mut self, random: &mut Random) -> Input {
        self.texts.spoiled(random)
    }

    fn rule(&self, input: &Input, met: &mut Met) -> Ruling {
        // what the text has counts in the first step's own table
        let text = &mut Met::default();
        refusal(input, false, text)?;
        let filled = filled(input, text)?;
        met.all(rule::of_numbers(&filled, &input.scene));
        met.all(store_edges::of_exact(input.scene.entries()));
        let before = &input.scene.store;
        let (answer, store) = match filled.answer(filled.numbers()) {
            // the second step refuses what the first has filled
            told if told.refusal == 0 && stores::is_spent(before) => {
                (Answer::refused(12, 0), before.clone())
            }
            told if told.refusal == 0 => (told, store_edges::raised(&filled.store, met)),
            told => (told, before.clone()),
        };
        Ok(Told::new(answer, filled.row(), vec![store, filled.spare()]))
    }

    fn is_beyond(&self, input: &Input) -> bool {
        input.scene.has_exact()
    }

    fn lent<'a>(&self, input: &'a Input) -> Vec<Part<'a>> {
        input.parts(Part::written("the store", Form::Store, &input.scene.store))
    }
}
