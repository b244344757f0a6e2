//! What the adds share: a store beside its phone table, which grows call by call.

use crate::prelude::*;

/// What a store has that every add counts.
pub const STORE_ORDER: &[Rows] =
    &[&["store in another order than its slots", "anything in unused slots"]];

/// What adds are made of: a store beside its phone table, words to add, and phones; and whether some are exact.
pub struct Pool {
    pub scene: Rc<Scene>,
    pub words: Vec<Vec<u8>>,
    pub phones: Rc<Phones>,
    pub exact: bool,
}

impl Pool {
    /// A phone table with a store, and words to add over an alphabet; and how many calls they serve. The store is
    /// new, grown before, or the largest after so many adds: each as often as its weight says.
    pub fn begin(
        random: &mut Random,
        phones: &Rc<Phones>,
        alphabet: fn(&mut Random) -> Vec<u8>,
        weights_and_calls: [(usize, usize); 3],
        adds: fn(&mut Random) -> usize,
    ) -> (Pool, usize) {
        let lexicon = lexicon_shapes::of_phones(random, phones);
        let alphabet = alphabet(random);
        let words = (0..random.between(1, 12)).map(|_| words::accepted(random, &alphabet));
        let mut words: Vec<Vec<u8>> = words.collect();
        let empty = Scene::of(lexicon, stores::new(1, 0));
        let exact = !random.once_in(5);
        let kind = random.weighted(&weights_and_calls.map(|(weight, _)| weight));
        let store = match kind {
            0 => {
                let mut store = stores::new(random.between(1, 12), 0);
                store_shapes::spoil_unused(random, &mut store);
                store
            }
            1 => store_shapes::random(random, &empty, &words, phones, exact),
            _ => {
                let size = [stores::LARGEST / SLOT, adds(random)];
                words.extend((0..200).map(|i| format!("w{i}").into()));
                store_shapes::of_size(random, &empty, &words, phones, size, exact)
            }
        };
        let pool = Pool { scene: empty.with_store(store), words, phones: phones.clone(), exact };
        (pool, weights_and_calls[kind].1)
    }

    /// An entry that can be added, if there is room for it.
    pub fn add(&self, random: &mut Random) -> Add {
        store_shapes::add(random, &self.scene, &self.words, &self.phones, self.exact)
    }

    /// Puts another store in the place of its own.
    pub fn put(&mut self, store: Vec<u8>) {
        self.scene = self.scene.with_store(store);
    }
}

/// Lets the next calls see what a call has left; a store that takes no more serves only a few of them.
pub fn go_on(outcome: Result<Outcome, String>, pool: &mut Served<Pool>, when_full: usize) {
    match outcome {
        Ok(mut outcome) if outcome.answer.refusal == 0 => pool.now().put(outcome.written.remove(0)),
        Ok(outcome) if [8, 12].contains(&outcome.answer.refusal) => pool.serve_at_most(when_full),
        _ => {}
    }
}

/// A scene that is damaged in some of 24 ways: its store, or its phone table; in one its count is the largest.
pub fn damaged(random: &mut Random, scene: &Rc<Scene>, way: usize) -> Rc<Scene> {
    match way {
        0 | 1 => scene.with_store(store_shapes::damaged(random, &scene.store)),
        2 => scene.with_lexicon(&lexicon_shapes::broken_table(random, &scene.lexicon)),
        3 => scene.with_store(stores::with_count(&scene.store, u64::MAX)),
        _ => scene.clone(),
    }
}

/// The phone table of a lexicon, beside a store.
pub fn table(lexicon: &Lexicon, store: Vec<u8>) -> Rc<Scene> {
    Rc::new(Scene::new(&Lexicon::of_table(lexicon.sections.phones.clone()), store))
}

/// Recorded cases in sets, each on a store that grows: the store at exit stands in a register, and is the next case's;
/// its first bytes are written out, as many as are told. Behind a first step that was accepted stands the second one.
pub fn record<C: Call>(
    call: &C,
    random: &mut Random,
    cases: usize,
    title: &str,
    written_out: usize,
    made: fn(&mut Random, &Pool) -> C::Input,
    begin: impl Fn(&mut Random, usize) -> Pool,
) -> Vec<String> {
    let sets = 30;
    let parted = |store: &[u8]| notation::parted(store, written_out);
    let rest = |at: usize, store: &[u8]| format!("${at} {}", parted(store).1);
    let named = |at: usize, store: &[u8]| format!("{}${at}", parted(store).0);
    record::sets(title, sets, |set| {
        let mut pool = begin(random, set);
        let mut at = 1;
        let mut lines = registers(0, &[pool.scene.table_part()]);
        lines.push(rest(at, &pool.scene.store));
        for _ in 0..cases.div_ceil(sets) {
            let before = named(at, &pool.scene.store);
            let (case, expected) = case(call, &made(random, &pool), &["$0".into(), before.clone()]);
            let Outcome { answer, written, .. } = expected.outcome.expect("the original answers");
            if answer.refusal > 0 {
                let left = written.iter().zip(&expected.handed).map(|(left, handed)| {
                    match left == handed {
                        true => "=".into(),
                        false => Form::Store.shown(left),
                    }
                });
                lines.push(format!("{case} {}", left.collect::<Vec<_>>().join(" ")));
                continue;
            }
            at = 3 - at;
            lines.push(rest(at, &written[0]));
            let left: Vec<String> = written.iter().map(|store| named(at, store)).collect();
            lines.push(format!("{case} {}", left.join(" ")));
            let mut store = written[0].clone();
            // a first step has not raised the count
            if stores::count(&store) == stores::count(&pool.scene.store) {
                store = store_edges::raised(&store, &mut Met::default());
                let after = named(at, &store);
                lines.push(format!("accept_entries {before} {} -> 0 0 0 {after}", left[0]));
            }
            pool.put(store);
        }
        lines
    })
}
