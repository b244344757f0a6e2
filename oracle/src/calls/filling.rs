//! What add_entries and its two steps share: lines of text that add entries to a store, by way of a spare.

pub mod rule;
pub mod short;
mod texts;

use super::add_entries::AddEntries;
use super::adding::{self, Pool};
use crate::prelude::*;
use crate::tables::first_fit;

#[derive(Clone)]
pub struct Input {
    pub scene: Rc<Scene>,
    pub spare: Vec<u8>,
    pub text: Vec<u8>,
}

impl Shrink for Input {
    fn smaller(&self) -> Vec<Input> {
        let texts = with(self, lines::shorter(&self.text), |input, text| input.text = text);
        let scenes = with(self, self.scene.smaller(), |input, scene| {
            if input.spare.len() == input.scene.store.len() {
                input.spare.resize(scene.store.len(), 0);
            }
            input.scene = scene;
        });
        let spares = with(self, records::zeroed(&self.spare), |input, spare| input.spare = spare);
        [texts, scenes, spares].concat()
    }
}

impl Input {
    /// What the calls are lent, given the store.
    pub fn parts<'a>(&'a self, store: Part<'a>) -> Vec<Part<'a>> {
        vec![
            self.scene.table_part(),
            store,
            Part::written("the spare", Form::Spare, &self.spare),
            Part::read("the text", Form::Bytes, &self.text),
        ]
    }
}

/// What texts are made of.
#[derive(Default)]
pub struct Texts {
    phones: Rc<Phones>,
    pub pool: Served<Pool>,
}

impl Texts {
    /// A text on a store that grew by those before, one line in so many faulty, and a spare of anything.
    pub fn next(&mut self, random: &mut Random, faulty: usize) -> Input {
        let pool = self.pool.next(|| {
            let alphabet = |_: &mut Random| b"abcdAB'\"-_0".to_vec();
            Pool::begin(random, &self.phones, alphabet, [(30, 30), (40, 30), (1, 30)], |_| 180)
        });
        let (scene, text) = (pool.scene.clone(), pool.text(random, faulty));
        let input = Input { spare: random.bytes(scene.store.len()), scene, text };
        adding::go_on(AddEntries::default().expected(&input).outcome, &mut self.pool, 2);
        input
    }

    /// The same, of which some are refused before a line is looked at.
    pub fn spoiled(&mut self, random: &mut Random) -> Input {
        let faulty = [24, 96][random.below(2)];
        let mut input = self.next(random, faulty);
        let store = &input.scene.store;
        match random.below(24) {
            way @ 0..=3 => input.scene = adding::damaged(random, &input.scene, way),
            4 => {
                let lengths = [0, SLOT, store.len() - 1, store.len() + SLOT];
                input.spare.resize(lengths[random.below(4)], 0);
            }
            5..=9 => input.spare = store.clone(),
            _ => {}
        }
        input
    }

    /// Recorded cases of texts; where a call is the first step, the second one's stand behind its accepted ones.
    pub fn record<C: Call<Input = Input>>(
        &self,
        call: &C,
        random: &mut Random,
        cases: usize,
    ) -> Vec<String> {
        let head = stores::HEAD_END;
        adding::record(call, random, cases, "lines of text", head, to_record, |random, set| {
            let names: Vec<Vec<u8>> = (0..4).map(|_| self.phones.phone(random)).collect();
            let slots = [2, 3, 4, 5, 6, 9][set % 6];
            let scene = Scene::of(Lexicon::of(&names, &[]), stores::new(slots, random.byte()));
            // every other store has exact entries, which stay, and room for others
            let exact = [store_edges::exact("a", "", "k"), store_edges::exact("Lead", "", "t")];
            let exact = &exact[..(set % 2) * (slots / 2).min(2)];
            let scene = scene.with_store(scene.grown(exact));
            let words = ["a", "lead", "it's", "Z"].map(Vec::from).into();
            Pool { scene, words, phones: self.phones.clone(), exact: false }
        })
    }
}

/// A text that is accepted, or stops at an error of the original; few take no line.
fn to_record(random: &mut Random, pool: &Pool) -> Input {
    let wanted = random.weighted(&[14, 5, 1]);
    let made = || {
        let scene = pool.scene.clone();
        let spare = vec![random.byte(); scene.store.len()];
        Input { scene, spare, text: pool.text(random, 12) }
    };
    first_fit(made, |input| {
        if input.text.len() >= 200 {
            return false;
        }
        let expected = AddEntries::default().expected(input);
        let answer = expected.outcome.expect("the original answers").answer;
        match answer.refusal {
            0 if answer.value == 0 => wanted == 2,
            0 => wanted == 0,
            refusal => wanted == 1 && AddEntries::ERRORS.contains(&refusal),
        }
    })
}
