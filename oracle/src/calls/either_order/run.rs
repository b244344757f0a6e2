//! Both orders on one of the two sides: the papers beside the original, or the library.

use super::{Input, Query};
use crate::calls::add_entry::{self, AddEntry};
use crate::calls::lookup::{self, Lookup};
use crate::calls::say_word::{self, SayWord};
use crate::prelude::*;

/// The items of the sheet that words are said on; where they are used up, words are refused.
const ITEMS: usize = 64;

/// The calls that an order is made of.
#[derive(Default)]
pub struct Calls {
    add_entry: AddEntry,
    lookup: Lookup,
    say_word: SayWord,
}

/// An answer, and what the call may write, at exit.
type Left = (Answer, Vec<u8>);

/// What one order of the adds gives back.
pub struct Half {
    /// The answers of its adds, in its order.
    pub added: Vec<Answer>,
    /// The lexicon beside the store that they leave.
    pub scene: Rc<Scene>,
    pub found: Vec<Left>,
    pub said: Vec<Left>,
}

impl Half {
    /// Whether it refuses neither add.
    pub fn is_accepted(&self) -> bool {
        self.added.iter().all(|answer| answer.refusal == 0)
    }

    /// Whether another order finds and says the same.
    pub fn tells_the_same(&self, other: &Half) -> bool {
        (&self.found, &self.said) == (&other.found, &other.said)
    }

    pub fn put(&self, log: &mut Vec<u8>) {
        for answer in &self.added {
            log::put(log, "add_entry", answer.to_string().as_bytes());
        }
        log::put(log, "the store", &self.scene.store);
        for (call, written, left) in
            [("lookup", "the output", &self.found), ("say_word", "the sheet", &self.said)]
        {
            for (answer, bytes) in left {
                log::put(log, call, answer.to_string().as_bytes());
                log::put(log, written, bytes);
            }
        }
    }
}

/// Whether neither order refuses an add.
pub fn are_accepted(halves: &[Half; 2]) -> bool {
    halves.iter().all(Half::is_accepted)
}

/// Who makes the calls.
pub trait Side {
    /// A store beside a lexicon, as far as this side needs it.
    const SCENE: fn(&Rc<Lexicon>, Vec<u8>) -> Scene;

    /// What a call gives back, or what is at odds.
    fn outcome<C: Call>(&mut self, call: &C, input: &C::Input) -> Result<Outcome, String>;

    /// The same of a call that may write one thing.
    fn left<C: Call>(&mut self, call: &C, input: &C::Input) -> Result<Left, String> {
        let Outcome { answer, written, .. } = self.outcome(call, input)?;
        Ok((answer, written.concat()))
    }
}

/// Both orders.
pub fn both(input: &Input, calls: &Calls, side: &mut impl Side) -> Result<[Half; 2], String> {
    let [one_first, two_first] = input.orders();
    Ok([half(input, one_first, calls, side)?, half(input, two_first, calls, side)?])
}

/// One order: each add on the store that the one before has left, then the lookups, then the words on one new sheet.
fn half<S: Side>(
    input: &Input,
    adds: [&Add; 2],
    calls: &Calls,
    side: &mut S,
) -> Result<Half, String> {
    let (mut scene, mut added) = (input.scene.clone(), vec![]);
    for add in adds {
        let add = add_entry::Input::new(scene.clone(), add.clone());
        let (answer, store) = side.left(&calls.add_entry, &add)?;
        added.push(answer);
        scene = Rc::new(S::SCENE(&scene.lexicon, store));
    }
    let mut lookup = |Query { wanted, room }: &Query| {
        side.left(&calls.lookup, &lookup::Input::new(scene.clone(), wanted.clone(), *room))
    };
    let found = input.lookups.iter().map(&mut lookup).collect::<Result<_, _>>()?;
    let mut sheet = sheets::new(&[0; ITEM * (ITEMS + 1)], 1);
    let mut say = |wanted: &Wanted| {
        let (scene, trees) = (scene.clone(), input.trees.clone());
        let word = say_word::Input::new(sheet.clone(), scene, trees, wanted.clone());
        let left = side.left(&calls.say_word, &word)?;
        sheet.clone_from(&left.1);
        Ok(left)
    };
    let said = input.said.iter().map(&mut say).collect::<Result<_, String>>()?;
    Ok(Half { added, scene, found, said })
}

/// What the papers and the original say.
#[derive(Default)]
pub struct Papers {
    /// Whether the original had a part in any call.
    pub asked: bool,
}

impl Side for Papers {
    const SCENE: fn(&Rc<Lexicon>, Vec<u8>) -> Scene = Scene::new;

    fn outcome<C: Call>(&mut self, call: &C, input: &C::Input) -> Result<Outcome, String> {
        let expected = call.expected(input);
        self.asked |= expected.asked != Asked::No;
        expected.outcome
    }
}

/// The library.
#[derive(Default)]
pub struct Library {
    /// What it altered that it may not.
    pub altered: Option<String>,
}

impl Side for Library {
    const SCENE: fn(&Rc<Lexicon>, Vec<u8>) -> Scene = Scene::alone;

    fn outcome<C: Call>(&mut self, call: &C, input: &C::Input) -> Result<Outcome, String> {
        // the outputs have their lengths, whatever the answers need
        let outcome = call.ours(input, &handed(&call.lent(input), 0));
        self.altered = self.altered.take().or(outcome.altered.clone());
        Ok(outcome)
    }
}
