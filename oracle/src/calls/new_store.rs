//! new_store: the first record of a store, written whole. The original has no such call; 01 says what is
//! expected.

use crate::prelude::*;

input!(store: Vec<u8> => store_shapes::smaller);

#[derive(Default)]
pub struct NewStore;

impl Call for NewStore {
    type Input = Input;
    const NAME: &'static str = "new_store";
    const SHARE: usize = 1;
    const ANSWERS: Rows = &["new"];
    const REFUSALS: &'static [u32] = &[2];
    const MET: Table = &[ROWS];
    const LIBRARY: Function = ours::new_store;

    fn short(&self) -> Vec<Input> {
        let slots = 1..=stores::LARGEST / SLOT + 2;
        let lengths = slots.flat_map(|slots| [0, 1, SLOT - 1].map(|more| SLOT * slots + more));
        let stores = (0..3 * SLOT).chain(lengths).map(records::filled);
        stores.chain(store_edges::limits()).map(Input::new).collect()
    }

    fn random(&mut self, random: &mut Random) -> Input {
        let slots = random.ranged(&[(12, 0, 8), (2, 9, 128), (1, 126, 131)]);
        let more = random.below(SLOT) * usize::from(random.once_in(6));
        Input::new(records::random(random, SLOT * slots + more))
    }

    fn rule(&self, Input { store }: &Input, met: &mut Met) -> Ruling {
        met.refuse(2, !stores::has_length(store.len()), || length(store.len()))?;
        met.all(before(store));
        Ok(Told::new(Answer::accepted(0, 0), "new", vec![vec![0; SLOT]]).by_papers())
    }

    fn lent<'a>(&self, Input { store }: &'a Input) -> Vec<Part<'a>> {
        vec![Part::written("the store", Form::Store, store)]
    }
}

rows! { ROWS:
    /// What there is before.
    before(store: &[u8]) [
        "store that is sound" => stores::read(store).is_ok(),
        "store that is not" => stores::read(store).is_err(),
        "store of one slot" => store.len() == SLOT,
        "store of 65,536 bytes" => store.len() == stores::LARGEST,
        "later slots that stay as they are" => !zeros(&store[SLOT..]),
    ]

    /// Why a length is refused.
    length(len: usize) [
        "refusal 2: over 65,536 bytes" => len % SLOT == 0 && len > stores::LARGEST,
        "refusal 2: no multiple of 512" => len % SLOT != 0,
        "refusal 2: no bytes" => len == 0,
    ]
}
