//! The short lists: every list of up to four calls over a few of them, over a few with both steps, and over a few in both
//! versions.

use super::{Act, Input, Sections, Step};
use crate::lexicon_edges::row;
use crate::prelude::*;
use crate::sheets::LARGEST;
use crate::tree_edges::one_leaf;

fn say(word: &str, tag: &str) -> Act {
    Act::SayWord(Wanted::new(word, tag))
}

fn text(text: &str) -> Act {
    Act::AddText { text: text.into(), fill: 0x9e, spare: None }
}

fn add(word: &str, tag: &str, phones: &str) -> Act {
    Act::AddEntry(store_edges::add(word, tag, phones))
}

/// One call of each answer, and words that the others change.
fn calls() -> [Step; 10] {
    let acts = [
        Act::NewSheet(1),
        say("a", ""),
        say("B", "n"),
        say(",", ""),
        add("A", "", "k ae t"),
        add("b", "n", "s"),
        text("a:\nb n:ey1 ax0"),
        text("b v:t\n:"),
        say("c", ""),
        say(&"a".repeat(48), ""),
    ];
    acts.map(|act| Step { act, broken: false })
}

/// Words with "#" that tell a place, until they are added; one of the addenda.
fn marked() -> [Step; 5] {
    let new = Act::NewSheet(1);
    let acts = [new, say("a#B", ""), say("#", "n"), add("A#b", "", "s"), say("b##", "v")];
    acts.map(|act| Step { act, broken: false })
}

/// New sheets of versions that are known and of such that are not, and words that are said otherwise in another version.
fn versions() -> [Step; 7] {
    let acts = [
        Act::NewSheet(1),
        Act::NewSheet(2),
        Act::NewSheet(257),
        say("d", ""),
        say("e", ""),
        add("e", "", "ax2 s ax2"),
        text("D:ax2 t ax0"),
    ];
    acts.map(|act| Step { act, broken: false })
}

/// A word of each source but the runtime entries, and entries by which they are said alike.
fn alike() -> [Step; 7] {
    let acts = [
        Act::NewSheet(1),
        say("a", ""),
        say(",", ""),
        say("#", ""),
        add("a", "", "ey1"),
        add(",", "", ""),
        add("#", "", ""),
    ];
    acts.map(|act| Step { act, broken: false })
}

/// Exact entries and ordinary ones of one letter, by entry and by text, and words that they change.
fn exact() -> [Step; 8] {
    let exact = |word, tag, phones| Act::AddEntry(store_edges::exact(word, tag, phones));
    let acts = [
        exact("A", "", "s"),
        exact("a", "n", "t"),
        add("A", "", "k"),
        say("A", ""),
        say("a", "v"),
        text("A n:ey1\na:"),
        Act::Preview(b"A:b".into()),
        Act::Accept,
    ];
    acts.map(|act| Step { act, broken: false })
}

/// Both steps, with what comes between them: another first step, one that stops, one that is refused as a whole, adds.
fn halves() -> [Step; 8] {
    let preview = |text: &[u8]| Act::Preview(text.into());
    let acts = [
        preview(b"a:k\nb n:ey1 ax0"),
        Act::Accept,
        say("a", ""),
        add("A", "", "s"),
        preview(b"A:t\na:"),
        preview(b"a:ey1\n:"),
        preview(b"a:\x80"),
        text("b v:t"),
    ];
    acts.map(|act| Step { act, broken: false })
}

/// What makes lists of calls, on a store of so many slots and a sheet of so many bytes.
fn maker() -> impl Fn(Vec<Step>, usize, usize) -> Input {
    let rows = [row("a", b'n', &[0]), row("c", b'n', &[1, 2, 1, 9]), row("d", b'n', &[3, 1, 3, 0])];
    let lexicon = Rc::new(Lexicon::of(&["ey1", "t", "ax0", "ax2"], &rows));
    let trees = one_leaf(b"b-iy1");
    let mut cut = trees.sections.clone();
    cut.index.truncate(51);
    let sections = Sections::new(lexicon.clone(), Rc::new(trees));
    let broken = Sections::new(lexicon, Rc::new(Trees::new(cut, vec![])));
    move |steps: Vec<Step>, slots: usize, len: usize| Input {
        sections: sections.clone(),
        broken: broken.clone(),
        store: vec![0xd1; SLOT * slots],
        sheet: vec![0x4c; len],
        version: 1,
        steps,
    }
}

/// Lists of sheets of both versions, with letters whose phones end in "2".
fn in_versions(list: impl Fn(Vec<Step>, usize, usize) -> Input) -> Vec<Input> {
    let Sections { lexicon, .. } = list(vec![], 1, ITEM).sections;
    let sections = Sections::new(lexicon, Rc::new(one_leaf(b"iy2-b2")));
    each! {
        for (version, longest) in [(1, 4), (2, 3)];
        for steps in words::every(&versions(), longest);
        let sections = sections.clone();
        [Input { sections, version, ..list(steps, 3, 40 * ITEM) }]
    }
}

pub fn inputs() -> Vec<Input> {
    let list = maker();
    let calls = calls();
    let every = each! {
        for (i, steps) in words::every(&calls, 4).into_iter().enumerate();
        // a sheet that is soon full, and one with room; one slot, or two, that entries can have
        [list(steps, 2 + i / 2 % 2, [9 * ITEM + 5, 40 * ITEM][i % 2])]
    };
    let steps = |numbers: &[usize]| numbers.iter().map(|n| calls[*n].clone()).collect::<Vec<_>>();
    // sheets of the shortest and the longest length
    let lengths = each! {
        for len in [ITEM, 2 * ITEM - 1, 2 * ITEM, 4 * ITEM, LARGEST - 1, LARGEST];
        [1, 128].map(|slots| list(steps(&[4, 3, 1, 2, 1, 0, 3, 5, 2]), slots, len))
    };
    // words up to the end of the largest sheet, and then others
    let full = [vec![1; 340], vec![2, 1, 3, 3, 3, 3, 0, 1]].concat();
    // the broken sections in between
    let mut broken = steps(&[1, 4, 1, 6, 2]);
    broken[2].broken = true;
    broken[3].broken = true;
    let marked = words::every(&marked(), 4).into_iter().map(|steps| list(steps, 2, 40 * ITEM));
    let alike = words::every(&alike(), 4).into_iter().map(|steps| list(steps, 3, 40 * ITEM));
    let halves = words::every(&halves(), 4).into_iter().enumerate();
    let halves = halves.map(|(i, steps)| list(steps, [3, 2, 1][i % 3], 40 * ITEM));
    let exact = words::every(&exact(), 4).into_iter().enumerate();
    let exact = exact.map(|(i, steps)| list(steps, [4, 3, 2][i % 3], 40 * ITEM));
    let ends = [list(steps(&full), 1, LARGEST), list(broken, 4, 40 * ITEM)];
    let others = marked.chain(alike).chain(halves).chain(exact).chain(in_versions(&list));
    [every, lengths, ends.into(), others.collect()].concat()
}
