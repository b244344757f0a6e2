//! The short inputs of lookup, and those that are always recorded.

use super::Input;
use crate::lexicon_edges::row;
use crate::prelude::*;

pub fn inputs() -> Vec<Input> {
    let stores = [small_stores(), exact_stores(), altered_bytes()].concat();
    [edges(), addenda_with_all_tags(), lexicons(), stores].concat()
}

/// A small lexicon in good order beside a store.
pub fn good(store: Vec<u8>) -> Rc<Scene> {
    Scene::of(Lexicon::new(lexicon_edges::good()), store)
}

/// The addenda with some tags, and the words at 01's limits, beside a small lexicon and a small store.
pub fn fixed() -> Vec<Input> {
    let scene = good(store_edges::good());
    let room = Room { step: 0, ..Room::of(Size::Exact) };
    let tags = ["", "n", "p", "0", "v"].into_iter().cycle();
    let addenda = lexicon_shapes::addenda().into_iter().zip(tags);
    let addenda = addenda.map(|(word, tag)| Wanted::new(word, tag));
    let limits = words::limits(&["Lead", "b"]).into_iter().filter(|wanted| !wanted.is_refused());
    addenda.chain(limits).map(|wanted| Input::new(scene.clone(), wanted, room)).collect()
}

fn input(scene: &Rc<Scene>, word: impl AsRef<[u8]>, tag: impl AsRef<[u8]>, size: Size) -> Input {
    let wanted = Wanted::new(word.as_ref(), tag.as_ref());
    Input::new(scene.clone(), wanted, Room::of(size))
}

/// Each of the addenda with every tag of one byte and some others: without other entries, beside compiled
/// entries of the same words, and beside runtime ones.
fn addenda_with_all_tags() -> Vec<Input> {
    let mut words: Vec<&str> = lexicon_shapes::addenda();
    words.sort();
    let rows: Vec<_> = words.iter().map(|word| row(word, b'q', &[0])).collect();
    let adds = words.iter().zip(["n", "p", "nil"].iter().cycle());
    let adds: Vec<Add> = adds.map(|(word, tag)| store_edges::add(word, tag, "k ae t")).collect();
    let alone = Scene::of(Lexicon::of::<&str>(&[], &[]), stores::new(1, 0));
    let runtime = alone.with_store(store_edges::grown(60, 0, &adds));
    let compiled = Scene::of(Lexicon::of(&["qq"], &rows), stores::new(2, 0xee));
    let scenes = [runtime, alone, compiled];
    let tags = [(0..128).map(|tag| vec![tag]).collect(), words::tags()].concat();
    let all_tags = each! {
        for scene in &scenes;
        for word in &words;
        tags.iter().map(|tag| input(scene, word, tag, Size::Exact))
    };
    let near = each! {
        for scene in &scenes;
        for word in &words;
        for other in [word.to_uppercase(), format!("{word} "), word[1..].into()];
        [input(scene, &other, "n", Size::More(1)), input(scene, &other, "", Size::More(2))]
    };
    let single_bytes = each! {
        for scene in &scenes;
        for byte in 0..128;
        ["", "n", "p", "v", "0", "nil"].map(|tag| input(scene, [byte], tag, Size::More(3)))
    };
    [all_tags, near, single_bytes].concat()
}

/// Every small lexicon, sorted or not, with and without damage; and some words of large ones, their first and last
/// ones among them, and words beside them.
fn lexicons() -> Vec<Input> {
    let small = each! {
        for lexicon in lexicon_edges::small(4);
        let scene = Rc::new(Scene::new(&lexicon, stores::new(1, 0)));
        let few = lexicon.count() < 4;
        for word in &["a", "b", "", "ab", "A"][..if few { 5 } else { 2 }];
        for tag in &["", "n", "q", "nil"][..if few { 4 } else { 3 }];
        [input(&scene, word, tag, Size::Exact)]
    };
    let large = each! {
        for lexicon in lexicon_edges::large();
        let scene = Rc::new(Scene::new(&lexicon, stores::new(2, 0x44)));
        for i in (0..3_000).step_by(23).chain([1, 2, 2_998, 2_999, 3_000]);
        let word = format!("W{i:04}");
        [(&word[..], "v"), (&word, ""), (&word[..4], "n"), (&word[1..], "n")]
            .map(|(word, tag)| input(&scene, word, tag, Size::Exact))
    };
    [small, large].concat()
}

/// Every store that up to three adds over two words and three tags leave.
fn small_stores() -> Vec<Input> {
    let rows = [row("a", b'n', &[0]), row("b", b'v', &[1])];
    let lexicon = Rc::new(Lexicon::of(&["p0", "p1"], &rows));
    each! {
        for store in store_edges::small(3);
        let scene = Rc::new(Scene::new(&lexicon, store));
        for word in ["a", "A", "b"];
        ["", "n", "v", "q", "0", "nil"].map(|tag| input(&scene, word, tag, Size::Exact))
    }
}

/// Every store that up to three adds of one letter leave, exact and ordinary ones; and the addenda in exact entries.
fn exact_stores() -> Vec<Input> {
    let rows = [row("A", b'n', &[0]), row("a", b'v', &[1])];
    let lexicon = Rc::new(Lexicon::of(&["p0", "p1"], &rows));
    let small = each! {
        for store in store_edges::small_exact(3);
        let scene = Rc::new(Scene::new(&lexicon, store));
        for word in ["a", "A"];
        ["", "n", "v", "0", "nil"].map(|tag| input(&scene, word, tag, Size::Exact))
    };
    let adds = lexicon_shapes::addenda().into_iter().zip(["n", "nil"].iter().cycle());
    let adds: Vec<Add> = adds.map(|(word, tag)| store_edges::exact(word, tag, "k ae t")).collect();
    let scene = Rc::new(Scene::new(&lexicon, store_edges::grown(60, 0, &adds)));
    let addenda = each! {
        for word in lexicon_shapes::addenda();
        for word in [word.to_string(), word.to_uppercase()];
        ["", "n", "v"].map(|tag| input(&scene, &word, tag, Size::More(1)))
    };
    [small, addenda].concat()
}

/// A store with each of its bytes altered, and a lexicon with each of its bytes altered.
fn altered_bytes() -> Vec<Input> {
    let good = good(store_edges::good());
    let stores = store_edges::altered_bytes().into_iter().zip(["lead", "a"].iter().cycle());
    let stores = stores.map(|(store, word)| input(&good.with_store(store), word, "", Size::Exact));
    let lexicons = each! {
        for lexicon in lexicon_edges::altered_bytes();
        let scene = good.with_lexicon(&lexicon);
        [("a", "v"), ("b", "q"), ("ab", ""), ("c", "n"), ("lead", "")]
            .map(|(word, tag)| input(&scene, word, tag, Size::Exact))
    };
    stores.chain(lexicons).collect()
}

/// Sections, stores, words, tags and outputs at 01's limits, and just past them.
fn edges() -> Vec<Input> {
    let good = good(stores::new(1, 0));
    let lexicons = each! {
        for lexicon in lexicon_edges::limits();
        let scene = good.with_lexicon(&lexicon);
        let sizes = each! {
            for size in [Size::Exact, Size::More(1), Size::Short(1), Size::Short(16)];
            for word in ["a", "b", "ab", "", "in"];
            ["", "n", "q"].map(|tag| input(&scene, word, tag, size))
        };
        let long = [46, 47, 48, 255].map(|len| vec![b'a'; len]);
        let words = long.into_iter().chain([vec![127], vec![128]]);
        let words = words.map(|word| input(&scene, word, "n", Size::Exact));
        // a lower refusal goes before a higher one
        let unsound = scene.with_store(vec![1; 512]);
        let ranks = [
            input(&scene, "a", "n", Size::Short(usize::MAX)),
            input(&unsound, "a", "", Size::Exact),
            input(&unsound, [b'a'; 48], "", Size::Exact),
        ];
        words.chain(ranks).chain(sizes)
    };
    let stores = each! {
        for store in store_edges::limits();
        let scene = good.with_store(store);
        let words = words::edges().into_iter().map(|word| input(&scene, word, "", Size::Exact));
        let tags = each! {
            for tag in words::tags();
            let last = ("W0", Size::More(2));
            [("a", Size::More(1)), ("lead", Size::Exact), ("Lead", Size::Short(1)), last]
                .map(|(word, size)| input(&scene, word, &tag, size))
        };
        words.chain(tags)
    };
    [lexicons, stores].concat()
}
