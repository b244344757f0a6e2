//! How two adds are made, and what is looked up and said behind them.

use super::{Input, Query};
use crate::calls::add_entry::spoil;
use crate::calls::lookup::LONGEST;
use crate::lexicon_shapes::Shape;
use crate::prelude::*;
use crate::stores::LARGEST;
use crate::tables::first_fit;

/// Sections beside an empty store, and a few words, which come again.
pub struct Sources {
    empty: Rc<Scene>,
    trees: Rc<Trees>,
    words: Vec<Vec<u8>>,
}

/// Sections that have their form, and words around them; and how many inputs they serve.
pub fn begin(random: &mut Random, phones: &Phones) -> (Sources, usize) {
    let Shape { mut lexicon, mut words } = lexicon_shapes::few(random, phones);
    if random.once_in(6) {
        let broken = || lexicon_shapes::broken(random, &lexicon);
        lexicon = first_fit(broken, Lexicon::has_form);
    }
    random.shuffle(&mut words);
    words.truncate(random.between(1, 5));
    for _ in 0..random.between(1, 4) {
        let len = random.between(1, 2);
        words.push((0..len).map(|_| random.pick_byte(b"aAbB")).collect());
    }
    let empty = Scene::of(lexicon, stores::new(1, 0));
    (Sources { empty, trees: Rc::new(tree_shapes::random(random)), words }, 8)
}

/// Two adds on a store, and what is looked up and said behind them.
pub fn input(random: &mut Random, sources: &Sources, phones: &Phones) -> Input {
    let Sources { empty, trees, words } = sources;
    let exact = !random.once_in(3);
    let mut scene = empty.with_store(store(random, sources, phones, exact));
    let add = |random: &mut Random| add(random, &scene, words, phones, exact);
    let (mut one, mut two) = (add(random), add(random));
    if random.once_in(6) {
        two = of_the_word(random, &one, &two, exact);
    } else if one.wanted.word.eq_ignore_ascii_case(&two.wanted.word) {
        // more often of another word
        two = add(random);
    }
    for add in [&mut one, &mut two] {
        if random.once_in(16) {
            spoil(random, add, phones);
        }
    }
    let tags = tags(random, [&one, &two]);
    let wanted = wanted(random, &scene, [&one, &two], words);
    let lookups = each! {
        for word in &wanted;
        for tag in &tags;
        [Query { wanted: Wanted::new(&word[..], &tag[..]), room: room(random) }]
    };
    let word = |word| Wanted::new(word, &tags[random.below(tags.len())][..]);
    let said = wanted.into_iter().map(word).collect();
    if random.once_in(40) {
        scene = scene.with_store(store_shapes::damaged(random, &scene.store));
    }
    Input::new(said, lookups, one, two, scene, trees.clone())
}

/// A sound store with few unused slots, and exact entries if there may be such; now and then near the largest count.
fn store(random: &mut Random, sources: &Sources, phones: &Phones, exact: bool) -> Vec<u8> {
    let Sources { empty, words, .. } = sources;
    let all = LARGEST / SLOT;
    let slots = random.ranged(&[(300, 1, 6), (60, 7, 16), (1, all, all)]);
    let size = [slots, random.below(2 * slots)];
    let store = store_shapes::of_size(random, empty, words, phones, size, exact);
    let unused = random.ranged(&[(2, 0, 0), (3, 1, 1), (9, 2, 2), (6, 3, 6)]);
    let store = records::resized(&store, LARGEST.min(stores::unused(&store) + SLOT * unused));
    match random.once_in(10) {
        true => stores::with_count(&store, u64::MAX - random.below(4) as u64),
        false => store,
    }
}

/// An add of one of the words, or, as often as not, of a key that the store has.
fn add(random: &mut Random, scene: &Scene, words: &[Vec<u8>], phones: &Phones, exact: bool) -> Add {
    let mut add = store_shapes::add(random, scene, words, phones, exact);
    let entries = scene.entries();
    if !entries.is_empty() && random.once_in(2) {
        let Entry { word, tag, exact, .. } = &entries[random.below(entries.len())].entry;
        let word = if *exact { word.clone() } else { words::recased(random, word) };
        add = Add { wanted: Wanted::new(word, [*tag]), exact: *exact, ..add };
    }
    add
}

/// An add of another one's folded word: as it is or in other capitals, with its tag or not, of its kind or, where entries
/// may be exact, not.
fn of_the_word(random: &mut Random, other: &Add, add: &Add, exact: bool) -> Add {
    let mut wanted = other.wanted.clone();
    if random.once_in(2) {
        wanted.word = words::cased(random, &wanted.word);
    }
    if random.once_in(2) {
        wanted.tag.clone_from(&add.wanted.tag);
    }
    let other_kind = exact && random.once_in(3);
    Add { wanted, exact: other.exact != other_kind, ..add.clone() }
}

/// The words of both adds in some capitals, some words of the store's entries, and others.
fn wanted(random: &mut Random, scene: &Scene, adds: [&Add; 2], words: &[Vec<u8>]) -> Vec<Vec<u8>> {
    let mut wanted = each! {
        for word in adds.map(|add| &add.wanted.word);
        let folded = word.to_ascii_lowercase();
        [word.clone(), folded, word.to_ascii_uppercase(), words::recased(random, word)]
    };
    let entries = scene.entries();
    for _ in 0..entries.len().min(2) {
        let Entry { word, .. } = &entries[random.below(entries.len())].entry;
        wanted.push(words::recased(random, word));
    }
    wanted.extend([words::near(random, words), words::accepted(random, b"abAB")]);
    once_each(wanted)
}

/// The tags of both adds, none, and others.
fn tags(random: &mut Random, adds: [&Add; 2]) -> Vec<Vec<u8>> {
    let own = adds.map(|add| add.wanted.tag.clone());
    once_each([&own[..], &[vec![], b"0".to_vec(), words::tag(random)]].concat())
}

/// The same, of which each stands there once.
fn once_each(all: Vec<Vec<u8>>) -> Vec<Vec<u8>> {
    let mut once: Vec<Vec<u8>> = vec![];
    for one in all {
        if !once.contains(&one) {
            once.push(one);
        }
    }
    once
}

/// An output that has room for any entry; now and then one that is too short for some.
fn room(random: &mut Random) -> Room {
    let len = random.ranged(&[(20, CELL * LONGEST, CELL * LONGEST), (1, 0, 4 * CELL)]);
    Room { size: Size::Bytes(len), fill: random.byte(), step: random.byte() }
}
