//! The short inputs of say_word.

use super::{on_any_sheet, without_word, Input};
use crate::calls::lookup::short::good;
use crate::lexicon_edges::row;
use crate::phones::REHEARSED;
use crate::prelude::*;
use crate::sheet_edges::in_order;
use crate::sheets::VERSIONS;
use crate::tree_edges::one_leaf;

pub fn inputs() -> Vec<Input> {
    let words = each! {
        for version in VERSIONS;
        [short_lists(version), exact_lengths(version), addenda(version), marked(version)].concat()
    };
    [sheets(), words, secondary(), other_sections(), edges()].concat()
}

/// A word on a sheet, said with the sections of another.
fn input(other: &Input, sheet: &[u8], word: impl AsRef<[u8]>, tag: impl AsRef<[u8]>) -> Input {
    let wanted = Wanted::new(word.as_ref(), tag.as_ref());
    Input { sheet: sheet.to_vec(), wanted, ..other.clone() }
}

/// A new sheet of so many bytes, of version 1 or of any.
fn new_sheet(len: usize) -> Vec<u8> {
    new_in(1, len)
}

fn new_in(version: u8, len: usize) -> Vec<u8> {
    crate::sheets::new(&vec![0x6b; len], version)
}

/// Words with and without phones on every small sheet, and on sheets with one byte altered.
fn sheets() -> Vec<Input> {
    let sections = without_word(good(store_edges::good()), one_leaf(b"ey1-t"));
    let sound = each! {
        for sheet in [sheet_edges::limits(), sheet_edges::small()].concat();
        [(",", ""), ("a", "v"), ("Lead", "v"), ("xx", ""), ("ab", "")]
            .map(|(word, tag)| input(&sections, &sheet, word, tag))
    };
    let altered = [sheet_edges::altered_bytes(), sheet_edges::flipped()].concat();
    let altered = altered.iter().zip([",", "b"].iter().cycle());
    altered.map(|(sheet, word)| input(&sections, sheet, word, "")).chain(sound).collect()
}

/// Every list of up to three phones that the rules tell apart, each as a compiled entry, and 01's rehearsed ones.
fn short_lists(version: u8) -> Vec<Input> {
    let names = "ae1,ae0,ae,t,t0,t1,s,pau,pau1,ng,,0,ax11,ae2,h,2,t2,ae22,ae12,ae21";
    let names: Vec<&str> = names.split(',').collect();
    let numbers: Vec<u8> = (0..names.len() as u8).collect();
    let lists = words::every(&numbers, 3).into_iter().enumerate();
    let rows: Vec<_> = lists.map(|(i, list)| row(format!("w{i:05}"), b'n', &list)).collect();
    let add = |(i, phones): (usize, &str)| store_edges::add(&format!("m{i}"), "", phones);
    let adds: Vec<Add> = REHEARSED.split(',').enumerate().map(add).collect();
    let empty = Scene::of(Lexicon::of(&names, &rows), stores::new(adds.len() + 1, 0));
    let sections = without_word(empty.with_store(empty.grown(&adds)), one_leaf(b"x"));
    let before = sheet_edges::word("z", 4, &["1 z iy"]);
    let other = sheet_edges::sheet(version, &in_order(&[before]), 20 * ITEM, 0);
    let sheets = [new_in(version, 9 * ITEM), other];
    let compiled = rows.iter().zip(sheets.iter().cycle());
    let compiled = compiled.map(|(row, sheet)| input(&sections, sheet, &row.word, "v"));
    let rehearsed = each! {
        for add in &adds;
        sheets.iter().map(|sheet| input(&sections, sheet, &add.wanted.word, "nil"))
    };
    compiled.chain(rehearsed).collect()
}

/// Sheets about as long as a word needs them, behind other words and without.
fn exact_lengths(version: u8) -> Vec<Input> {
    // words with the items that they need
    let compiled = [("a", 3), ("b", 9), ("c", 1), ("d", 193), ("e", 195), ("f", 257)];
    let words = [&compiled[..], &[(",", 1), ("xyz", 10), ("", 1)]].concat();
    let lists: [&[u8]; 6] = [&[0], &[0, 1, 0, 1, 0], &[], &[0; 96], &[0; 97], &[1; 255]];
    let rows = compiled.iter().zip(lists).map(|((word, _), list)| row(word, b'n', list));
    let scene = Scene::of(Lexicon::of(&["ae1", "t"], &rows.collect::<Vec<_>>()), stores::new(1, 0));
    let sections = without_word(scene, one_leaf(b"ey1-t"));
    let filled = |items: usize| in_order(&vec![sheet_edges::word("w", 2, &[]); items]);
    let about = each! {
        for &(word, need) in &words;
        for used in [0, 1, 7];
        for unused in (0..=need + 1).filter(|n| n + 3 > need || *n < 2);
        for more in [0, 1, ITEM - 1];
        let sheet = sheet_edges::sheet(version, &filled(used), ITEM * unused + more, 0x2e);
        [input(&sections, &sheet, word, "")]
    };
    // the last items of the largest sheet
    let last = each! {
        for &(word, need) in &words;
        for unused in [0, need - 1, need, need + 1];
        let sheet = sheet_edges::sheet(version, &filled(1_023 - unused), ITEM * unused, 0);
        [&sheet[..], &sheet[..sheet.len() - 1]].map(|sheet| input(&sections, sheet, word, "n"))
    };
    // 94 phones by letters
    let long = [(47, 142), (47, 143), (46, 139)].map(|(len, unused)| {
        input(&sections, &new_in(version, ITEM * unused), vec![b'a'; len], "")
    });
    [about, last, long.into()].concat()
}

/// Each of the addenda with some tags.
fn addenda(version: u8) -> Vec<Input> {
    let sections = without_word(good(stores::new(2, 0xee)), one_leaf(b"zz"));
    each! {
        for word in lexicon_shapes::addenda();
        for tag in ["", "n", "p", "v", "s", "0", "nil", "x"];
        [word.to_string(), word.to_uppercase()]
            .map(|word| input(&sections, &new_in(version, 16 * ITEM), word, tag))
    }
}

/// Words by letters, by a runtime entry, by an exact one and by a compiled one, whose phones end in "2", in each version;
/// on sheets with room, with an item too few and with none.
fn secondary() -> Vec<Input> {
    let names = ["ae2", "t2", "2", "ax12", "ax21", "pau2"];
    let rows = [row("a", b'n', &[0, 1, 0, 3]), row("b", b'n', &[2, 0, 5, 4])];
    let empty = Scene::of(Lexicon::of(&names, &rows), stores::new(3, 0));
    let exact = store_edges::exact("C", "", "t2 ae2 s ax12");
    let adds = [store_edges::add("c", "", "ae2 t2 ae0 ax21"), exact];
    let scene = empty.with_store(empty.grown(&adds));
    each! {
        for leaf in ["ey2-t2", "t-ey2", "2", "2-", "-2", "2-2", "ae12-ae21", "ae2-t2-ax2", "epsilon2"];
        let sections = without_word(scene.clone(), one_leaf(leaf.as_bytes()));
        for word in ["a", "b", "c", "C", "x", "xy", "x#yz", "A"];
        for version in VERSIONS;
        let need = on_any_sheet(&input(&sections, &[], word, ""), version).map_or(1, |w| w.items());
        [ITEM, ITEM * need, ITEM * (need + 1), 40 * ITEM]
            .map(|len| input(&sections, &new_in(version, len), word, ""))
    }
}

/// Stores with one byte altered, and every section at 01's limits; lower refusals before higher ones.
fn other_sections() -> Vec<Input> {
    let sections = without_word(good(store_edges::good()), one_leaf(b"x"));
    let scene = &sections.scene;
    let beside = |scene: Rc<Scene>| Input { scene, ..sections.clone() };
    let altered = each! {
        for (i, store) in store_edges::altered_bytes().into_iter().enumerate();
        let sections = beside(scene.with_store(store));
        [input(&sections, &new_sheet(8 * ITEM), ["lead", "zz"][i % 2], "")]
    };
    let stores = each! {
        for store in store_edges::limits();
        let sections = beside(scene.with_store(store));
        ["lead", "a", "w0", "in"].map(|word| input(&sections, &new_sheet(60 * ITEM), word, ""))
    };
    let small = each! {
        for lexicon in lexicon_edges::small(3);
        let sections = beside(scene.with_lexicon(&lexicon));
        [("a", ""), ("b", "n"), ("b", "q")]
            .map(|(word, tag)| input(&sections, &new_sheet(5 * ITEM), word, tag))
    };
    let lexicons = each! {
        for lexicon in lexicon_edges::limits();
        let words = ["a", "b", "ab", "", "in", "zz", "lead"];
        on_some_sheets(&beside(scene.with_lexicon(&lexicon)), 300, &words, "n")
    };
    let trees = each! {
        for trees in tree_edges::limits();
        let words = ["", "a#", "7", "a", "xy", "yx", "lead", ","];
        on_some_sheets(&Input { trees, ..sections.clone() }, 12, &words, "")
    };
    [altered, stores, small, lexicons, trees].concat()
}

/// Words on a sheet of so many items, on one that is full and on one that is not sound; then a word that is refused.
fn on_some_sheets(sections: &Input, items: usize, words: &[&str], tag: &str) -> Vec<Input> {
    let sheets = [new_sheet(items * ITEM), new_sheet(ITEM), vec![1; 128]];
    let mut inputs = each! {
        for word in words;
        sheets.iter().map(|sheet| input(sections, sheet, word, tag))
    };
    inputs.push(input(sections, &new_sheet(999), [b'a'; 48], tag));
    inputs
}

/// Words and tags at 01's limits, on stores and sheets that are sound and that are not.
fn edges() -> Vec<Input> {
    let [first, second] = VERSIONS.map(sheet_edges::good);
    let sheets = [new_sheet(200 * ITEM), new_in(2, ITEM), first, second, vec![7; 64], vec![]];
    each! {
        for store in [store_edges::good(), vec![1; 512]];
        let sections = without_word(good(store), one_leaf(b"x1-t"));
        for sheet in &sheets;
        for Wanted { word, tag } in words::limits(&["Lead", "b", "a", "in", "qq"]);
        [input(&sections, sheet, word, tag)]
    }
}

/// Words with "#": of the most bytes by letters; short ones by letters and in every source, with and without room.
fn marked(version: u8) -> Vec<Input> {
    let rows = [row("#a", b'n', &[0]), row("B#", b'v', &[0, 0])];
    let empty = Scene::of(Lexicon::of(&["ey1"], &rows), stores::new(3, 0));
    let adds = [store_edges::add("a#B", "n", "s"), store_edges::add("#", "v", "t")];
    let sections = without_word(empty.with_store(empty.grown(&adds)), one_leaf(b"x-y"));
    let short = each! {
        for word in words::every(b"aB#", 3);
        for tag in ["", "n", "v"];
        [40, 1].map(|items| input(&sections, &new_in(version, items * ITEM), &word, tag))
    };
    let sheet = new_in(version, 100 * ITEM);
    let long = words::marked().into_iter().map(|word| input(&sections, &sheet, word, ""));
    short.into_iter().chain(long).collect()
}
