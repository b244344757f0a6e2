//! What the original itself makes of both orders, and what they met.

use super::run::{are_accepted, Half};
use super::{verdict, Input, DIFFER, ONE_ALONE};
use crate::calls::lookup::runtime_entries;
use crate::prelude::*;

/// By how many of the two keys are known; then those that may be told otherwise in the other order.
pub const ANSWERS: Rows = &[
    "accepted either way: both keys new",
    "accepted either way: one key known",
    "accepted either way: both keys known",
    "accepted either way: of one folded word",
    "refused in some order",
];

/// The row of two adds.
pub fn row(input: &Input, halves: &[Half; 2]) -> &'static str {
    let known = input.scene.entries.iter().flatten().map(|placed| placed.entry.key());
    ANSWERS[match are_accepted(halves) {
        false => 4,
        true if input.is_of_one_word() => 3,
        true => known.filter(|key| keys(input).contains(key)).count(),
    }]
}

fn keys(input: &Input) -> [Key; 2] {
    [input.one.key(), input.two.key()]
}

/// The original that gets both ordinary adds itself must then have the store's ordinary entries. Where the folded words
/// differ, its answers must not depend on the order either. And by the papers both orders are accepted, or neither.
pub fn agree_by_the_original(input: &Input, halves: &[Half; 2]) -> Result<(), String> {
    for (adds, half) in input.orders().into_iter().zip(halves) {
        let both_ordinary = !adds.iter().any(|add| add.exact);
        let takes_both = both_ordinary && half.is_accepted();
        if takes_both && !half.scene.peers(Peers::Ordinary).eq(&own_list(input, adds)?) {
            return Err("the original has other entries by both adds than by each".into());
        }
    }
    match verdict(input, halves) {
        DIFFER => Err("the original tells one order from the other".into()),
        ONE_ALONE => Err("by the papers one order alone is accepted".into()),
        _ => Ok(()),
    }
}

/// The original's own list of entries when it gets both adds one after the other.
fn own_list(input: &Input, adds: [&Add; 2]) -> Result<Vec<Entry>, String> {
    let add = |lexicon: &mut lexicon::Lexicon, Add { wanted, phones, .. }: &Add| {
        let phones: Vec<&str> = phones.texts().into_iter().map(ascii).collect();
        lexicon.add_entry(ascii(&wanted.word), ways(&wanted.tag)[0], &phones)
    };
    let both = |lexicon: &mut lexicon::Lexicon| adds.map(|given| add(lexicon, given));
    let (told, list) = ask(|| input.scene.changed(Peers::Ordinary, both))?;
    let refused = told.into_iter().find_map(Result::err);
    refused.map_or(Ok(list), |error| Err(format!("the original refuses: {error}")))
}

/// The rows that an input met, and each of its lookups and words.
pub fn met(input: &Input, halves: &[Half; 2]) -> Vec<&'static str> {
    let [one_first, two_first] = halves;
    let found = one_first.found.iter().zip(&two_first.found);
    let same = found.map(|(one_first, two_first)| one_first == two_first);
    match (are_accepted(halves), input.is_of_one_word()) {
        (false, _) => of_refused(halves).into_iter().chain(same.flat_map(behind_refused)).collect(),
        (true, true) => {
            of_one_word(input, halves).into_iter().chain(same.flat_map(behind_one_word)).collect()
        }
        (true, false) => [of_two_words(input, halves), told(input, one_first)].concat(),
    }
}

/// The rows of what is looked up and said in both orders alike.
fn told(input: &Input, half: &Half) -> Vec<&'static str> {
    let by_the_two = |wanted: &Wanted| {
        let (entries, at) = runtime_entries(&half.scene, wanted);
        at.is_some_and(|at| keys(input).contains(&entries[at].key()))
    };
    let found = input.lookups.iter().zip(&half.found);
    let found = found.flat_map(|(query, left)| of_lookup(&left.0, by_the_two(&query.wanted)));
    let said = input.said.iter().zip(&half.said);
    let said = said.flat_map(|(wanted, left)| of_word(&left.0, by_the_two(wanted)));
    found.chain(said).collect()
}

rows! { pub ROWS:
    /// What two accepted adds have whose folded words differ.
    of_two_words(input: &Input, halves: &[Half; 2]) {
        let (scene, [one, two]) = (&input.scene, keys(input));
        let exact = usize::from(one.exact) + usize::from(two.exact);
        let slots = |half: &Half| [&one, &two].map(|key| half.scene.slot_for(key));
        let [one_first, two_first] = halves.each_ref().map(slots);
        let [before, after] = [scene, &halves[0].scene].map(|scene| scene.entries().len());
        let is_full = after == stores::room(&scene.store);
    } [
        "two words: neither exact" => exact == 0,
        "two words: one exact" => exact == 1,
        "two words: both exact" => exact == 2,
        "two words: tags agree" => one.tag == two.tag,
        "two words: tags differ" => one.tag != two.tag,
        "two words: in other slots in the other order" => one_first != two_first,
        "two words: in the same slots in both orders" => one_first == two_first,
        "two words: without other entries" => before == 0,
        "two words: beside exact entries" => scene.has_exact(),
        "two words: the last unused slot is taken" => is_full && after > before,
        "two words: no slot was unused" => is_full && after == before,
        "two words: the count becomes the largest" => stores::is_spent(&halves[0].scene.store),
    ]

    /// What two accepted adds of one folded word have.
    of_one_word(input: &Input, halves: &[Half; 2]) {
        let [one, two] = keys(input);
        let differ = !halves[0].tells_the_same(&halves[1]);
        let is_one_key = one == two;
        let retagged = (&one.word, one.exact) == (&two.word, two.exact) && one.tag != two.tag;
        let recased = one.exact && two.exact && one.word != two.word;
    } [
        "one word: one key" => is_one_key,
        "one word: one key, the later is told" => is_one_key && differ,
        "one word: tags differ" => retagged,
        "one word: tags differ, the earlier is told" => retagged && differ,
        "one word: exact and ordinary" => one.exact != two.exact,
        "one word: exact in other capitals" => recased,
        "one word: both orders tell the same" => !differ,
    ]

    /// What two adds have of which one is refused.
    of_refused(halves: &[Half; 2]) {
        let [one_first, two_first] = halves;
        let refusals = |half: &Half| [0, 1].map(|at| half.added[at].refusal);
        let either = |refused: [u32; 2]| halves.iter().all(|half| refusals(half) == refused);
        let mut swapped = refusals(two_first);
        swapped.reverse();
        let others = refusals(one_first).into_iter().any(|refusal| [2, 3, 5, 7].contains(&refusal));
    } [
        "refused: the second by 8, either way" => either([0, 8]),
        "refused: both by 8" => either([8, 8]),
        "refused: one of them by 8, the same either way" =>
            [[0, 8], [8, 0]].contains(&swapped) && swapped == refusals(one_first),
        "refused: the second by 12, either way" => either([0, 12]),
        "refused: both by 12" => either([12, 12]),
        "refused: by 2, 3, 5 or 7" => others,
        "refused: both orders tell the same" => one_first.tells_the_same(two_first),
    ]

    /// What a lookup is answered by behind adds of two words, and whether that is an entry of theirs.
    of_lookup(answer: &Answer, by_the_two: bool) {
        let is = |kind: u32| answer.refusal == 0 && answer.kind == kind;
    } [
        "two words: lookups" => true,
        "two words: lookup by an entry of theirs" => is(1) && by_the_two,
        "two words: lookup by another entry" => is(1) && !by_the_two,
        "two words: lookup by the addenda" => is(2),
        "two words: lookup by a compiled entry" => is(3),
        "two words: lookup without an answer" => is(0),
        "two words: lookup refused by 6" => answer.refusal == 6,
        "two words: lookup refused by 9" => answer.refusal == 9,
    ]

    /// What becomes of a word behind adds of two words, and whether an entry of theirs says it.
    of_word(answer: &Answer, by_the_two: bool) {
        let is_said = answer.refusal == 0;
    } [
        "two words: words said" => is_said,
        "two words: said by an entry of theirs" => is_said && by_the_two,
        "two words: say_word refused" => !is_said,
    ]

    /// What a lookup is in both orders of adds of one word.
    behind_one_word(same: bool) [
        "one word: lookup, the same in both orders" => same,
        "one word: lookup, another in the other order" => !same,
    ]

    /// The same of adds of which one is refused.
    behind_refused(same: bool) [
        "refused: lookup, the same in both orders" => same,
        "refused: lookup, another in the other order" => !same,
    ]
}
