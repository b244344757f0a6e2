//! The short inputs of either order.

use super::{Input, Query};
use crate::calls::lookup::LONGEST;
use crate::lexicon_edges::row;
use crate::prelude::*;
use crate::store_edges::{add, exact, grown};
use crate::tree_edges::one_leaf;

pub fn inputs() -> Vec<Input> {
    [small_stores(), counts(), limits(), lexicons(), stores()].concat()
}

/// Two adds, with lookups of some words with some tags, and the words said.
fn input(scene: &Rc<Scene>, [one, two]: [&Add; 2], words: &[&[u8]]) -> Input {
    // now and then an output that is too short
    let mut lengths = [CELL * LONGEST, 2 * CELL, CELL * LONGEST, CELL - 1].into_iter().cycle();
    let mut room = || Room::of(Size::Bytes(lengths.next().unwrap_or(0)));
    let lookups = each! {
        for word in words;
        for tag in ["", "n", "v"];
        [Query { wanted: Wanted::new(*word, tag), room: room() }]
    };
    let said = words.iter().map(|word| Wanted::new(*word, "n")).collect();
    let trees = Rc::new(one_leaf(b"ey1-t"));
    Input::new(said, lookups, one.clone(), two.clone(), scene.clone(), trees)
}

/// Words that the small lexicon has, or the adds, or neither.
const WORDS: [&[u8]; 6] = [b"a", b"A", b"b", b"B", b"c", b"in"];

fn small_lexicon() -> Rc<Lexicon> {
    let rows = [row("a", b'n', &[0]), row("b", b'v', &[1, 0]), row("c", b'v', &[1])];
    Rc::new(Lexicon::of(&["p0", "p1"], &rows))
}

/// Stores of up to three entries, without room behind them.
fn full_stores() -> [Vec<u8>; 6] {
    let adds: [&[Add]; 6] = [
        &[],
        &[add("a", "", "s")],
        &[add("c", "", "s"), add("d", "", "r")],
        &[add("a", "n", "s"), add("b", "", "r")],
        &[add("b", "n", "s"), exact("A", "", "r")],
        &[exact("a", "n", "s"), add("a", "", "r"), exact("b", "n", "z")],
    ];
    adds.map(|adds| grown(adds.len() + 1, 0, adds))
}

/// Every two adds over two letters, with and without capitals, exact or not, on some stores with room for none, one and
/// both of them.
fn small_stores() -> Vec<Input> {
    let lexicon = small_lexicon();
    let all = each! {
        for word in ["a", "A", "b"];
        for tag in ["", "n"];
        [add(word, tag, "k"), exact(word, tag, "k")]
    };
    each! {
        for store in full_stores();
        for room in 0..=2;
        let store = records::resized(&store, store.len() + SLOT * room);
        let scene = Rc::new(Scene::new(&lexicon, store));
        for (i, one) in all.iter().enumerate();
        for two in &all[i..];
        let two = Add { phones: List::of(&["t", "ae"]), ..two.clone() };
        [input(&scene, [one, &two], &WORDS)]
    }
}

/// Some pairs: of two words, of one key, of one word with two tags, of two kinds.
fn pairs() -> [[Add; 2]; 4] {
    [
        [add("a", "", "k"), add("B", "n", "t")],
        [add("a", "n", "k"), add("A", "n", "t")],
        [exact("a", "", "k"), exact("a", "n", "t")],
        [exact("A", "", "k"), add("b", "", "t")],
    ]
}

/// Counts at the end of their range, and where they carry.
fn counts() -> Vec<Input> {
    let lexicon = small_lexicon();
    each! {
        for store in full_stores();
        let store = records::resized(&store, store.len() + 2 * SLOT);
        for count in [0, 254, 255, u64::MAX - 3, u64::MAX - 2, u64::MAX - 1, u64::MAX];
        let scene = Rc::new(Scene::new(&lexicon, stores::with_count(&store, count)));
        pairs().map(|[one, two]| input(&scene, [&one, &two], &WORDS))
    }
}

/// Words, tags and lists at 01's limits, and just past them, beside a plain add.
fn limits() -> Vec<Input> {
    let scene = Rc::new(Scene::new(&small_lexicon(), stores::new(3, 0x5e)));
    let plain = exact("Lead", "v", "l eh d");
    let texts = words::limits(&["a"]).into_iter().map(|wanted| Add { wanted, ..plain.clone() });
    let lists = ["", "zz", &"k ".repeat(24), &"k ".repeat(25)].map(|list| add("a", "n", list));
    each! {
        for other in texts.chain(lists);
        let words = [&other.wanted.word[..], b"lead", b"Lead", b"a"];
        [[&other, &plain], [&plain, &other]].map(|adds| input(&scene, adds, &words))
    }
}

/// Lexicons at 01's limits, damaged ones too, that have their form.
fn lexicons() -> Vec<Input> {
    each! {
        for lexicon in lexicon_edges::limits().iter().filter(|lexicon| lexicon.has_form());
        let scene = Rc::new(Scene::new(lexicon, stores::new(3, 0)));
        let [two_words, one_key, ..] = pairs();
        [two_words, one_key].map(|[one, two]| input(&scene, [&one, &two], &[b"a", b"ab", b"b"]))
    }
}

/// Stores at 01's limits, and unsound ones.
fn stores() -> Vec<Input> {
    let lexicon = small_lexicon();
    each! {
        for store in store_edges::limits();
        let scene = Rc::new(Scene::new(&lexicon, store));
        let pairs = [["lead", "w0"], ["a", "new"], ["new", "other"]];
        pairs.map(|[one, two]| {
            let words = [one, two, "w1", "W0"].map(str::as_bytes);
            input(&scene, [&add(one, "v", "k"), &exact(two, "", "t")], &words)
        })
    }
}
