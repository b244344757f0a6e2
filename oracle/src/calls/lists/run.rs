//! A list of calls on one of its two sides: the library, or the book.

use super::state::State;
use super::{Act, Input, Step};
use crate::calls::{accept_entries, add_entries, add_entry, filling, new_store};
use crate::calls::{phone_string, preview_entries, say_word};
use crate::prelude::*;

/// More bytes than the phones of any sheet have, in a row.
const PHONES: usize = 20_000;

/// Who runs a list.
pub trait Side {
    /// A store beside a lexicon, as far as this side needs it.
    const SCENE: fn(&Rc<Lexicon>, Vec<u8>) -> Scene;

    /// What a call gives back, or what is at odds; the table counts it if it is one of the list.
    fn outcome<C: Call>(&mut self, act: Option<&Act>, input: &C::Input) -> Result<Outcome, String>;

    /// The end of a sheet's words, which are read out: what phone_string gives.
    fn close(&mut self, state: &State) -> Result<(Answer, Vec<u8>), String>;
}

/// What a side makes of a list, as a log.
pub fn run<S: Side>(input: &Input, side: &mut S) -> Result<Vec<u8>, String> {
    let mut state = State::default();
    state.call::<new_store::NewStore>(side, None, &new_store::Input::new(input.store.clone()))?;
    state.spare = state.store.clone();
    state.sheet = input.sheet.clone();
    state.new_sheet(side, None, input.version.into())?;
    for step in &input.steps {
        make(input, step, &mut state, side)?;
    }
    state.close(side)?;
    Ok(state.log)
}

/// Makes one call, on what the one before has left.
fn make<S: Side>(input: &Input, step: &Step, on: &mut State, side: &mut S) -> Result<(), String> {
    let act = Some(&step.act);
    // broken sections only where the call takes what is broken
    let breaks = step.broken && input.broken.are_refused(&step.act);
    let lent = if breaks { &input.broken } else { &input.sections };
    let scene = |lexicon: &Rc<Lexicon>| Rc::new(S::SCENE(lexicon, on.store.clone()));
    match &step.act {
        Act::NewSheet(version) => on.renew(side, act, *version),
        Act::AddEntry(given) => {
            let input = add_entry::Input::new(scene(&lent.table), given.clone());
            on.call::<add_entry::AddEntry>(side, act, &input)
        }
        Act::AddText { text, fill, spare } => {
            let spare = match input.keeps_spare() {
                true => on.spare.clone(),
                false => vec![*fill; spare.unwrap_or(on.store.len())],
            };
            let input = filling::Input { scene: scene(&lent.table), spare, text: text.clone() };
            on.call::<add_entries::AddEntries>(side, act, &input)
        }
        Act::Preview(text) => {
            let (scene, spare) = (scene(&lent.table), on.spare.clone());
            let input = filling::Input { scene, spare, text: text.clone() };
            on.call::<preview_entries::PreviewEntries>(side, act, &input)
        }
        Act::Accept => {
            let input = accept_entries::Input { store: on.store.clone(), spare: on.spare.clone() };
            on.call::<accept_entries::AcceptEntries>(side, act, &input)
        }
        Act::SayWord(wanted) => {
            let (scene, trees) = (scene(&lent.lexicon), lent.trees.clone());
            let input = say_word::Input::new(on.sheet.clone(), scene, trees, wanted.clone());
            on.call::<say_word::SayWord>(side, act, &input)
        }
    }
}

/// The library.
#[derive(Default)]
pub struct Library {
    /// What it altered that it may not.
    pub altered: Option<String>,
}

impl Side for Library {
    const SCENE: fn(&Rc<Lexicon>, Vec<u8>) -> Scene = Scene::alone;

    fn outcome<C: Call>(&mut self, _: Option<&Act>, input: &C::Input) -> Result<Outcome, String> {
        let call = C::default();
        let outcome = call.ours(input, &handed(&call.lent(input), PHONES));
        if self.altered.is_none() {
            self.altered = outcome.altered.clone();
        }
        Ok(outcome)
    }

    fn close(&mut self, state: &State) -> Result<(Answer, Vec<u8>), String> {
        let input = phone_string::Input::new(state.sheet.clone(), Room::PLAIN);
        let outcome = self.outcome::<phone_string::PhoneString>(None, &input)?;
        let mut phones = outcome.written.concat();
        let behind = phones.split_off((outcome.answer.value as usize).min(PHONES));
        if !input.room.bytes(PHONES).ends_with(&behind) {
            self.altered = Some("the output behind the phone string".into());
        }
        Ok((outcome.answer, phones))
    }
}
