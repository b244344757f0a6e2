//! The short inputs of add_entries and its first step.

use super::Input;
use crate::calls::adding::table;
use crate::prelude::*;

pub fn inputs() -> Vec<Input> {
    [edges(), short_texts(), altered_bytes()].concat()
}

fn input(scene: &Rc<Scene>, text: impl Into<Vec<u8>>) -> Input {
    Input { scene: scene.clone(), spare: vec![0x99; scene.store.len()], text: text.into() }
}

/// Every text of up to five bytes over those that the rule tells apart.
fn short_texts() -> Vec<Input> {
    let scene = Scene::of(Lexicon::of(&["a"], &[]), stores::new(2, 0x22));
    let every = each! {
        for text in words::every(b"a:\"\n #b", 5);
        [input(&scene, text)]
    };
    let with_any_byte = each! {
        for byte in 0..128_u8;
        [("a", "b:a"), ("a:a", "a"), ("", "a:a"), ("a:a", ""), ("a n:a\n", "")]
            .map(|(before, behind)| input(&scene, [before.as_bytes(), &[byte], behind.as_bytes()].concat()))
    };
    [every, with_any_byte].concat()
}

/// A store with each of its bytes altered.
fn altered_bytes() -> Vec<Input> {
    let scene = Scene::of(Lexicon::of(&["k"], &[]), vec![]);
    each! {
        for store in store_edges::altered_bytes();
        [input(&scene.with_store(store), b"lead v:k\nnew:k\na n:ae")]
    }
}

/// Texts at 01's limits, and just past them, parted by bars: faults and their ranks, long fields, odd bytes, quote
/// marks, comments and colons, phones, known keys, ends of lines.
fn limits() -> String {
    let [w47, w48, w300] = [47, 48, 300].map(|n| "w".repeat(n));
    let [k24, k25] = [24, 25].map(|n| " k".repeat(n));
    format!(
        "|b:zzz\nnocolon|{w48} : k\n# \u{80}|nocolon\n\u{e9}|# \u{e9}|{w48}\
         |\"{w47}\" : k|\"{w48}\" : k|\"\"{w47}\"\"\" n : k|a {w47} : k|a {w48} : k|a n {w48} : k\
         |{w48} : zz|: {w48}|a:\nA:k|a:k\nb:k\nc:k\nd:k\
         |a\rb:k|a b:k\r\nB:k\r\n|a\x0bn\x0c: k\x0bt|a\x1cn: k|a: k\x1ct\
         |\"a b\" n : k|\":\" : k|\":k|\"\"\"\" \"nil\" : k|a\"b : k|a nil : k\na NIL: k\na nill:k\
         |a # : k|a#n : k|\"a#b\" : k|\x1c|a:b:c|a::k|::k|a: : k|a: h#|a: \"k\"\
         |a:\tk\tt\n\tb\tn\t:|a: k # t|\n\n \t\n#x\na:zz\
         |a:{k24}|a:{k25}|a:{k25} zz|lead v:{k24}|a: abcdefghijklmno|a: abcdefghijklmnop|a: {w300}\
         |lead v: k\nlead v: t\nlead n: s\nLEAD v:|a:k\n:k| \n : k|\n|a:k\n\n"
    )
}

/// Tables, stores, spares and texts at 01's limits, and just past them.
pub fn edges() -> Vec<Input> {
    let limits = limits();
    let texts = limits.split('|');
    let plain = Scene::of(Lexicon::of(&["q"], &[]), vec![]);
    let stores = each! {
        for store in store_edges::limits();
        let scene = plain.with_store(store);
        // the largest stores take their time
        let step = if scene.store.len() > 20_000 { 5 } else { 1 };
        let texts = texts.clone().step_by(step).map(|text| input(&scene, text));
        let spares = [0, 511, 512, 2_048, 65_536].map(|len| vec![7; len]);
        texts.chain(with(&input(&scene, "a:k"), spares, |input, spare| input.spare = spare))
    };
    // phones that a line can name, and one that it cannot
    let odd = Lexicon::of(&["b:c", ":", "h", "h#", "\"k\"", "k\x1ct"], &[]);
    let odd = Scene::of(odd, store_edges::good());
    let odd = texts.map(|text| input(&odd, text)).collect();
    let tables = each! {
        for lexicon in lexicon_edges::limits();
        let scenes = [store_edges::good(), vec![1; 512]].map(|store| table(&lexicon, store));
        let other = Input { spare: vec![], ..input(&scenes[0], "a: k") };
        scenes.map(|scene| input(&scene, "a: k\nb: p")).into_iter().chain([other])
    };
    [stores, odd, tables].concat()
}
