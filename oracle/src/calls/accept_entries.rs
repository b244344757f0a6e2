//! accept_entries: the second step of add_entries, which gives the store the spare's bytes. The original has no such
//! call; 02 says what is expected.

use super::adding::STORE_ORDER;
use super::filling::Texts;
use super::preview_entries::PreviewEntries;
use crate::prelude::*;
use crate::stores::{Placed, UNSOUND_BYTES};

#[derive(Clone)]
pub struct Input {
    pub store: Vec<u8>,
    pub spare: Vec<u8>,
}

impl Shrink for Input {
    fn smaller(&self) -> Vec<Input> {
        let Input { store, spare } = self;
        // a shorter one takes the other with it
        let fitted = |other: &[u8], len: usize| match store.len() == spare.len() {
            true => records::resized(other, len),
            false => other.to_vec(),
        };
        let stores = store_shapes::smaller(store).into_iter();
        let stores = stores.map(|store| Input { spare: fitted(spare, store.len()), store });
        let spares = store_shapes::smaller(spare).into_iter();
        let spares = spares.map(|spare| Input { store: fitted(store, spare.len()), spare });
        let same = Input { store: spare.clone(), spare: spare.clone() };
        stores.chain(spares).chain((store != spare).then_some(same)).collect()
    }
}

#[derive(Default)]
pub struct AcceptEntries {
    texts: Texts,
}

impl Call for AcceptEntries {
    type Input = Input;
    const NAME: &'static str = "accept_entries";
    const SHARE: usize = 34;
    const ANSWERS: Rows = &["accepted"];
    const REFUSALS: &'static [u32] = &[2, 12];
    const MET: Table =
        &[ROWS, store_edges::RAISED, STORE_ORDER, store_edges::EXACT, UNSOUND_BYTES];
    const LIBRARY: Function = ours::accept_entries;

    fn short(&self) -> Vec<Input> {
        [pairs(), counts(), altered_bytes()].concat()
    }

    fn random(&mut self, random: &mut Random) -> Input {
        let mut given = self.texts.next(random, 64);
        given.spare = given.scene.store.clone();
        let filled = PreviewEntries::default().expected(&given).outcome;
        let mut spare = filled.map_or(given.spare, |mut filled| filled.written.remove(0));
        let (store, count) = (&given.scene.store, stores::count(&given.scene.store));
        let add = self.texts.pool.now().add(random);
        let grown = |count: u64| {
            let uncounted = given.scene.with_store(stores::with_count(store, 0));
            stores::with_count(&uncounted.grown(std::slice::from_ref(&add)), count)
        };
        // of most stops the lines before, as if they were all
        if !random.once_in(6) {
            spare = stores::with_count(&spare, count);
        }
        // mostly an entry where the text has none
        if spare == *store && !random.once_in(4) {
            spare = grown(count);
        }
        let store = match random.below(24) {
            0 => grown(count.wrapping_add(1)),
            1 => stores::with_count(&spare, count.wrapping_add(1)),
            _ => store.clone(),
        };
        spoiled(random, Input { store, spare })
    }

    fn rule(&self, Input { store, spare }: &Input, met: &mut Met) -> Ruling {
        let amiss = stores::read(store).is_err() || spare.len() != store.len();
        met.refuse(2, amiss, || by_2(store, spare))?;
        let read = stores::read(spare);
        met.sound(&read).inspect_err(|_| met.all(by_2(store, spare)))?;
        let differ = stores::count(store) != stores::count(spare);
        met.refuse(12, differ || stores::is_spent(store), || by_12(store, spare))?;
        met.all(accepted(store, spare));
        let entries = read.expect("the spare is sound");
        met.shared(store_edges::features(spare, &entries));
        met.all(store_edges::of_exact(&entries));
        met.all(exactness(store, &entries));
        let after = store_edges::raised(spare, met);
        Ok(Told::new(Answer::accepted(0, 0), "accepted", vec![after]).by_papers())
    }

    fn lent<'a>(&self, Input { store, spare }: &'a Input) -> Vec<Part<'a>> {
        let store = Part::written("the store", Form::Store, store);
        vec![store, Part::read("the spare", Form::Store, spare)]
    }
}

/// The same, or with something amiss in one of the two.
fn spoiled(random: &mut Random, Input { mut store, mut spare }: Input) -> Input {
    match random.below(30) {
        0 => spare = store_shapes::damaged(random, &spare),
        1 => store = store_shapes::damaged(random, &store),
        2 => {
            let at = random.below(spare.len());
            spare[at] ^= 1 << random.below(8);
        }
        3 => spare = stores::with_count(&spare, stores::count(&store) ^ 1 << random.below(64)),
        4 => store = stores::with_count(&store, u64::MAX),
        5 => {
            store = stores::with_count(&store, u64::MAX);
            spare = stores::with_count(&spare, u64::MAX);
        }
        6 => spare.resize([0, SLOT, spare.len() - 1, spare.len() + SLOT][random.below(4)], 0),
        7 => spare = store.clone(),
        8 => {
            let empty = stores::new(store.len() / SLOT, random.byte());
            spare = stores::with_count(&empty, stores::count(&store));
        }
        9 => {
            spare = stores::with_count(&spare, store_shapes::count(random));
            store = stores::with_count(&store, stores::count(&spare));
        }
        10 | 11 => spare = store_shapes::of_other_kind(random, &spare),
        _ => {}
    }
    Input { store, spare }
}

/// Every two stores that up to two adds leave, with one count and with two; and every two at the papers' limits.
fn pairs() -> Vec<Input> {
    let small = each! {
        for small in [store_edges::small(2), store_edges::small_exact(2)];
        for store in &small;
        for spare in &small;
        let spares = [0, 1].map(|more| stores::with_count(spare, stores::count(store) + more));
        spares.map(|spare| Input { store: store.clone(), spare })
    };
    let limits = store_edges::limits();
    let limits = each! {
        for store in &limits;
        for spare in &limits;
        // the largest ones beside those of their length
        let few = store.len().max(spare.len()) < 20_000 || store.len() == spare.len();
        few.then(|| Input { store: store.clone(), spare: spare.clone() })
    };
    [small, limits].concat()
}

/// Every two counts of some, and counts that differ in one bit.
fn counts() -> Vec<Input> {
    let around = [0, 1 << 8, 1 << 16, 1 << 32, 1 << 63, u64::MAX - 1];
    let around = around.map(|n: u64| [n.wrapping_sub(1), n, n + 1]).concat();
    let every = around.iter().flat_map(|store| around.iter().map(|spare| (*store, *spare)));
    let bits = (0..64).flat_map(|bit| [(3, 3 ^ 1 << bit), (u64::MAX, u64::MAX ^ 1 << bit)]);
    let good = store_edges::good();
    let made = |(store, spare)| {
        let [store, spare] = [store, spare].map(|count| stores::with_count(&good, count));
        Input { store, spare }
    };
    every.chain(bits).map(made).collect()
}

/// A store beside itself, with each byte altered of the one or of the other.
fn altered_bytes() -> Vec<Input> {
    each! {
        for altered in store_edges::altered_bytes();
        let good = store_edges::good();
        let [store, spare] = [altered.clone(), altered];
        [Input { store, spare: good.clone() }, Input { store: good, spare }]
    }
}

/// Whether two byte strings of one length differ in one byte alone.
fn but_for_one(store: &[u8], spare: &[u8]) -> bool {
    let differ = store.iter().zip(spare).filter(|(a, b)| a != b);
    store.len() == spare.len() && differ.take(2).count() == 1
}

rows! { ROWS:
    /// What two have that are refused by 2.
    by_2(store: &[u8], spare: &[u8]) {
        let [is_store, is_spare] = [store, spare].map(|one| stores::read(one).is_ok());
        let alike = store.len() == spare.len();
    } [
        "2: the store alone" => !is_store && is_spare && alike,
        "2: the spare alone" => is_store && !is_spare && alike,
        "2: the spare's length alone" => is_store && is_spare,
        "2: both" => !is_store && !is_spare,
        "2: and counts that differ" => store.get(8..16) != spare.get(8..16),
        "2: and the largest count" => stores::is_spent(store),
        "2: the same but for a byte" => but_for_one(store, spare),
    ]

    /// What two sound stores have that are refused by 12.
    by_12(store: &[u8], spare: &[u8]) {
        let [ours, theirs] = [store, spare].map(stores::count);
        let behind = ours.checked_sub(theirs);
        let same = stores::with_count(spare, ours) == store;
        let spent = [store, spare].map(stores::is_spent);
    } [
        "12: spare one behind, as after an accept" => behind == Some(1) && same,
        "12: spare one behind, with other entries" => behind == Some(1) && !same,
        "12: spare further behind" => behind > Some(1),
        "12: spare ahead" => behind.is_none() && !spent[1],
        "12: spare of a stop" => spent == [false, true],
        "12: the store's is the largest alone" => spent == [true, false],
        "12: both are the largest" => spent == [true, true],
        "12: the highest byte differs alone" => ours << 8 == theirs << 8 && ours != theirs,
        "12: the same but for a byte" => but_for_one(store, spare),
    ]

    /// What an accepted spare has.
    accepted(store: &[u8], spare: &[u8]) {
        let [before, after] = [store, spare].map(|one| stores::unused(one) / SLOT - 1);
        let unused = stores::unused(spare);
    } [
        "nothing but the count changes" => store == spare,
        "the same but for a byte" => but_for_one(store, spare),
        "more entries" => after > before,
        "as many entries" => after == before && store != spare,
        "fewer entries" => after < before,
        "no entry is left" => after == 0 && before > 0,
        "other bytes in unused slots" => store[unused..] != spare[unused..],
        "store of one slot" => store.len() == SLOT,
        "store of 65,536 bytes" => store.len() == stores::LARGEST,
    ]

    /// What an accepted spare's entries have whose twins the store has.
    exactness(store: &[u8], spare: &[Placed]) {
        let keys = |entries: &[Placed]| -> Vec<Key> {
            entries.iter().map(|placed| placed.entry.key()).collect()
        };
        let before = keys(&stores::read(store).unwrap_or_default());
        let mut turned = keys(spare);
        turned.retain(|key| !before.contains(key) && before.contains(&key.twin()));
    } [
        "entry that becomes exact" => turned.iter().any(|key| key.exact),
        "entry that becomes ordinary" => turned.iter().any(|key| !key.exact),
    ]
}
