//! The short inputs of add_entry.

use super::Input;
use crate::calls::adding::table;
use crate::prelude::*;

pub fn inputs(phones: &Phones) -> Vec<Input> {
    let stores = [small_stores(), exact_stores(), exact_edges()].concat();
    [edges(), stores, single_phones(phones), altered_bytes()].concat()
}

pub fn input(
    scene: &Rc<Scene>,
    word: impl AsRef<[u8]>,
    tag: impl AsRef<[u8]>,
    phones: &[impl AsRef<[u8]>],
) -> Input {
    let wanted = Wanted::new(word.as_ref(), tag.as_ref());
    Input::new(scene.clone(), Add { wanted, phones: List::of(phones), exact: false })
}

/// An add, and the same exact one.
fn both(input: Input) -> [Input; 2] {
    let exact = Add { exact: true, ..input.given.clone() };
    [Input::new(input.scene.clone(), exact), input]
}

/// Every add over two words and some tags, on every store that up to three adds leave, with room and
/// without.
fn small_stores() -> Vec<Input> {
    let lexicon = Rc::new(Lexicon::of(&["k", "zz"], &[]));
    each! {
        for store in store_edges::small(3);
        // the store as it is, and without its unused slots
        for len in [store.len(), stores::unused(&store)];
        let scene = Rc::new(Scene::new(&lexicon, store[..len].to_vec()));
        for word in ["a", "A", "b", "c"];
        ["", "n", "v", "nil", "0"].map(|tag| input(&scene, word, tag, &["zz"]))
    }
}

/// The same over one letter, exact and ordinary, on every store that up to three such adds leave.
fn exact_stores() -> Vec<Input> {
    let lexicon = Rc::new(Lexicon::of(&["k", "zz"], &[]));
    each! {
        for store in store_edges::small_exact(3);
        for len in [store.len(), stores::unused(&store)];
        let scene = Rc::new(Scene::new(&lexicon, store[..len].to_vec()));
        for word in ["a", "A"];
        for tag in ["", "n", "nil"];
        both(input(&scene, word, tag, &["zz"]))
    }
}

/// Words and tags at 01's limits, exact, on stores at the papers' limits; and what goes before 8.
fn exact_edges() -> Vec<Input> {
    let good = Scene::of(Lexicon::of(&["", "q"], &[]), store_edges::good());
    each! {
        for store in store_edges::limits();
        let scene = good.with_store(store);
        for Wanted { word, tag } in words::limits(&["Lead", "lead", "W0", "a"]);
        let lists = [vec!["k"; 25], vec!["zz"], vec!["q", ""]];
        let list = &lists[if word == b"W0" { tag.len() % 3 } else { 2 }];
        let [exact, _] = both(input(&scene, word, tag, list));
        [exact]
    }
}

/// Phones one by one: every short one, beside a table that has some of them and beside one that has none.
fn single_phones(phones: &Phones) -> Vec<Input> {
    let names = ["", "zz", "ae1", "t", "abcdefghijklmno", "\x7f"];
    let tables = [Lexicon::of(&names, &[]), Lexicon::of::<&str>(&[], &[])];
    let scenes = tables.map(|table| Scene::of(table, stores::new(2, 0x11)));
    // of the strings of two bytes, those of letters
    let two = |phone: &Vec<u8>| phone.len() == 2 && !phone.iter().all(u8::is_ascii_lowercase);
    let short = each! {
        for scene in &scenes;
        for phone in phones.short().iter().filter(|phone| !two(phone));
        [input(scene, "a", "n", &[phone])]
    };
    // every length byte, over a known text, over zeros and over a high byte
    let lengths = each! {
        for scene in &scenes;
        for len in 0..=255;
        let cells = [(&b"t"[..], 0), (b"abcdefghijklmno", b'o'), (b"", 0), (b"t", 200)]
            .map(|(text, last)| odd_cell(len, text, last));
        with(&input(scene, "a", "n", &[""]), cells, |input, cell| {
            input.given.phones.cells[0] = cell;
        })
    };
    [short, lengths].concat()
}

/// A cell of this text with another length byte and another last byte.
fn odd_cell(len: u8, text: &[u8], last: u8) -> Cell {
    let mut cell = cell(text);
    (cell[0], cell[15]) = (len, last);
    cell
}

/// A store with each of its bytes altered, and a phone table with each of its bytes altered.
fn altered_bytes() -> Vec<Input> {
    let lexicon = Rc::new(Lexicon::of(&["k"], &[]));
    let stores = each! {
        for (i, store) in store_edges::altered_bytes().into_iter().enumerate();
        let (word, tag) = [("Lead", "v"), ("b", ""), ("a", "n")][i % 3];
        let scene = Rc::new(Scene::new(&lexicon, store));
        let [exact, ordinary] = both(input(&scene, word, tag, &["k", "ae"]));
        [if i / 3 % 2 == 0 { ordinary } else { exact }]
    };
    let tables = each! {
        for lexicon in lexicon_edges::altered_bytes();
        [input(&table(&lexicon, store_edges::good()), "a", "n", &["zz", "k"])]
    };
    [stores, tables].concat()
}

/// Tables, stores, words, tags and lists at 01's limits, and just past them.
fn edges() -> Vec<Input> {
    let phones: [&[&str]; 5] = [&[], &["k"], &["p"], &[""], &["ppppppppppppppp"]];
    let tables = each! {
        for lexicon in lexicon_edges::limits();
        for store in [store_edges::good(), stores::new(1, 0), vec![1; 512]];
        let scene = table(&lexicon, store);
        let both = |phones| [input(&scene, "lead", "v", phones), input(&scene, "new", "", phones)];
        phones.map(both).into_iter().flatten().chain([input(&scene, [b'a'; 48], "", &["q"])])
    };
    let good = Scene::of(Lexicon::of(&["", "q"], &[]), store_edges::good());
    let last_again = input(&good, "LEAD", "vb", &["l", "iy"]);
    let stores = each! {
        for store in store_edges::limits();
        let scene = good.with_store(store);
        let words = words::edges().into_iter().map(|word| input(&scene, word, "", &["k"]));
        let tags = each! {
            for tag in words::tags();
            ["lead", "a", "A", "w0", "w126"].map(|word| input(&scene, word, &tag, &["k", "q", ""]))
        };
        words.chain(tags).chain(lists(&scene))
    };
    [tables, vec![last_again], stores].concat()
}

/// Lists at 01's limits: 3 and 5 look at every cell, also past the 24th and the 96th.
fn lists(scene: &Rc<Scene>) -> Vec<Input> {
    let (high, long) = (cell(&[200]), odd_cell(16, b"t", 0));
    let (past, both) = (odd_cell(1, b"t\xc8", 0), odd_cell(16, b"t", 128));
    each! {
        for count in [0, 1, 23, 24, 25, 26, 96, 97];
        for word in ["lead", "new"];
        let plain = input(scene, word, "v", &vec!["t"; count]);
        let list = &plain.given.phones;
        let rests = [0, 1, 15].map(|rest| List { rest: vec![255; rest], ..list.clone() });
        let others = each! {
            for at in [0, 23, 24, 95, 96].into_iter().filter(|at| *at < count);
            let cells = [cell(b"zz"), cell(b""), cell(b"q"), high, long, past, both];
            cells.map(|other| list.with(at, other))
        };
        with(&plain, rests.into_iter().chain(others), |input, list| input.given.phones = list)
    }
}
