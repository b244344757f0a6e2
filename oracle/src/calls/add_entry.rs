//! add_entry: a runtime entry, ordinary or exact, that becomes the last of its store. The store at exit is written by
//! the driver from the original's own list, by 01's layout and numbering; of exact entries (02, S-8), too, the original
//! has a list, of one word each.

mod rule;
mod short;

use super::adding::{self, Pool, STORE_ORDER};
use crate::prelude::*;
use crate::stores::UNSOUND;
use crate::tables::first_fit;
use rule::{added, refusal};

input!(scene: Rc<Scene>, given: Add);

#[derive(Default)]
pub struct AddEntry {
    phones: Rc<Phones>,
    pool: Served<Pool>,
}

impl Call for AddEntry {
    type Input = Input;
    const NAME: &'static str = "add_entry";
    const SHARE: usize = 97;
    const SHARE_RECORDED: usize = 24;
    const ANSWERS: Rows = &["new key", "known key", "exact: new key", "exact: known key"];
    const REFUSALS: &'static [u32] = &[1, 2, 12, 3, 5, 7, 8];
    const MET: Table = &[
        rule::ROWS,
        words::TAG,
        words::WORD,
        cells::PHONES,
        cells::UNREAD,
        store_edges::RAISED,
        STORE_ORDER,
        store_edges::EXACT,
        UNSOUND,
    ];
    const LIBRARY: Function = ours::add_entry;

    fn short(&self) -> Vec<Input> {
        short::inputs(&self.phones)
    }

    fn random(&mut self, random: &mut Random) -> Input {
        let pool = self.pool.next(|| {
            let weights_and_calls = [(8, 60), (24, 60), (1, 20)];
            let adds = |random: &mut Random| random.between(124, 256);
            Pool::begin(random, &self.phones, words::alphabet, weights_and_calls, adds)
        });
        let (scene, mut given) = (pool.scene.clone(), pool.add(random));
        let entries = scene.entries();
        // often a known key, more often in a full store
        let known = if entries.len() == stores::room(&scene.store) { 3 } else { 1 };
        if random.weighted(&[known, 2]) == 0 && !entries.is_empty() {
            let Entry { word, tag, exact, .. } = &entries[random.below(entries.len())].entry;
            let as_it_is = *exact && !random.once_in(4);
            let word = if as_it_is { word.clone() } else { words::recased(random, word) };
            given.wanted = Wanted::new(word, [*tag]);
            // of its own kind, or not
            given.exact = pool.exact && *exact != random.once_in(4);
        }
        spoil(random, &mut given, &self.phones);
        let mut input = Input::new(scene, given);
        adding::go_on(self.expected(&input).outcome, &mut self.pool, 2);
        let way = random.below(24);
        input.scene = adding::damaged(random, &input.scene, way);
        input
    }

    fn rule(&self, input: &Input, met: &mut Met) -> Ruling {
        let Input { scene, given } = input;
        let store = added(input, met)?;
        let key = given.key();
        let known = scene.keys().iter().position(|known| *known == key);
        met.all(match known {
            None => rule::of_new(scene, &key),
            Some(at) => rule::of_known(scene, at, given, &store),
        });
        met.all(rule::of_kind(scene, given));
        met.all(given.wanted.met());
        met.all(rule::of_list(&scene.lexicon, &given.phones));
        met.all(cells::of_phones(&given.phones.texts()));
        met.all(cells::unread(&given.phones));
        met.shared(store_edges::features(&scene.store, scene.entries()));
        met.all(store_edges::of_exact(scene.entries()));
        let row = Self::ANSWERS[usize::from(known.is_some()) + 2 * usize::from(given.exact)];
        let store = store_edges::raised(&store, met);
        Ok(Told::new(Answer::accepted(0, 0), row, vec![store]))
    }

    fn is_beyond(&self, input: &Input) -> bool {
        input.given.exact || input.scene.has_exact()
    }

    fn lent<'a>(&self, input: &'a Input) -> Vec<Part<'a>> {
        let store = Part::written("the store", Form::Store, &input.scene.store);
        [input.scene.table_part(), store].into_iter().chain(input.given.parts()).collect()
    }

    fn record(&self, random: &mut Random, cases: usize) -> Vec<String> {
        adding::record(self, random, cases, "runtime entries", 0, to_record, |random, set| {
            let names = (0..random.between(1, 9)).map(|_| self.phones.phone(random));
            let lexicon = Lexicon::of(&names.collect::<Vec<_>>(), &[]);
            let words = (0..4).map(|_| short_word(random)).collect();
            // a store that fills at once, some that fill soon, and one that has room for all
            let slots = [2, 3, 4, 5, 5, 6, 6, 7, 8, 15][set % 10];
            let store = stores::new(slots, random.byte());
            let (scene, phones) = (Scene::of(lexicon, store), self.phones.clone());
            Pool { scene, words, phones, exact: set % 3 > 0 }
        })
    }
}

/// An accepted add with few phones; now and then the last one again, which changes nothing.
fn to_record(random: &mut Random, pool: &Pool) -> Input {
    let scene = &pool.scene;
    if let (Some(last), true) = (scene.entries().last(), random.once_in(30)) {
        let Entry { tag, word, phones, exact } = &last.entry;
        let word = if *exact { word.clone() } else { words::recased(random, word) };
        let mut input = short::input(scene, word, [*tag], phones);
        input.given.exact = *exact;
        return input;
    }
    let made = || {
        let mut given = pool.add(random);
        if !random.once_in(30) {
            given.phones.cells.truncate(4);
        }
        if random.once_in(30) {
            given.phones.spoil_padding(random);
        }
        let rest = random.between(1, CELL - 1) * usize::from(random.once_in(12));
        given.phones.rest = vec![random.byte(); rest];
        Input::new(scene.clone(), given)
    };
    first_fit(made, |input| refusal(input, &mut Met::default()).is_ok())
}

/// A word of a few letters, now and then of the most.
fn short_word(random: &mut Random) -> Vec<u8> {
    let len = random.ranged(&[(20, 1, 5), (1, 0, 0), (1, words::LONGEST, words::LONGEST)]);
    (0..len).map(|_| random.pick_byte(b"aelnst'#0")).collect()
}

/// Makes some adds refusable: one in three of them.
pub fn spoil(random: &mut Random, given: &mut Add, phones: &Phones) {
    let Add { wanted, phones: list, .. } = given;
    if random.once_in(6) {
        list.spoil_padding(random);
    }
    if random.once_in(6) {
        let rest = random.between(0, CELL - 1);
        list.rest = random.bytes(rest);
    }
    if random.once_in(16) {
        let more = random.ranged(&[(4, 25, 25), (2, 24, 40), (1, 90, 130)]);
        list.cells.resize(more, cell(b"t"));
    }
    if let Some(last) = list.cells.len().checked_sub(1) {
        let at = if random.once_in(2) { last } else { random.between(0, last) };
        let spoiled = &mut list.cells[at];
        match random.below(100) {
            0..=4 => *spoiled = cell(&phones.phone(random)),
            5 => spoiled[0] = random.between(16, 255) as u8,
            6 => spoiled[random.between(1, CELL - 1)] |= 128,
            7 => {
                spoiled[0] = 16;
                spoiled[random.between(1, CELL - 1)] = 200;
            }
            _ => {}
        }
    }
    match random.below(80) {
        0 => wanted.word.resize(random.between(48, 60), b'a'),
        1 => wanted.word.insert(random.below(wanted.word.len() + 1), random.byte() | 128),
        2 => wanted.tag.resize(random.between(48, 60), b'a'),
        3 => wanted.tag.push(random.byte() | 128),
        _ => {}
    }
}
