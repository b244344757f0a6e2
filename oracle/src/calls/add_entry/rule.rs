//! What the papers and the original make of an add.

use super::Input;
use crate::lexicons::is_of_the_50;
use crate::prelude::*;

/// The refusal that the papers give, if they give one. Tells what made it.
pub fn refusal(input: &Input, met: &mut Met) -> Result<(), u32> {
    let Input { scene, given } = input;
    let Add { wanted, phones: List { cells, .. }, .. } = given;
    met.refuse(1, scene.lexicon.names.is_none(), || None)?;
    let spent = stores::is_spent(&scene.store);
    let high = wanted.is_refused() || cells.iter().any(is_high);
    met.sound(&scene.entries).inspect_err(|_| met.all(by_2(spent)))?;
    met.refuse(12, spent, || by_12(given, high))?;
    met.refuse(3, high, || by_3(given))?;
    let unknown = |cell: &Cell| is_over(cell) || !scene.lexicon.knows(text(cell));
    let first = cells.iter().position(unknown);
    met.refuse(5, first.is_some(), || by_5(cells, first >= Some(MOST_PHONES)))?;
    let (known, key) = (scene.keys(), given.key());
    let is_full = known.len() == stores::room(&scene.store);
    let lacks_room = is_full && !known.contains(&key);
    let count = cells.len();
    met.refuse(7, count > MOST_PHONES, || by_7(count, lacks_room))?;
    met.refuse(8, lacks_room, || by_8(&known, &key))
}

/// Whether one of some keys has the word in other capitals, and is else the same.
fn in_other_capitals(known: &[Key], key: &Key) -> bool {
    let other = |one: &Key| {
        let agree = (one.tag, one.exact) == (key.tag, key.exact);
        agree && one.word != key.word && one.word.eq_ignore_ascii_case(&key.word)
    };
    known.iter().any(other)
}

/// Whether two keys differ in the tag alone.
fn is_retagged(one: &Key, key: &Key) -> bool {
    one.tag != key.tag && (&one.word, one.exact) == (&key.word, key.exact)
}

/// What the original answers to an add, and its list of the peers after it; the same for each way to hand it the tag.
fn asked(input: &Input) -> Result<(Result<(), LexiconError>, Vec<Entry>), String> {
    let Add { wanted, phones, .. } = &input.given;
    let phones: Vec<&str> = phones.texts().into_iter().map(ascii).collect();
    let (scene, word) = (&input.scene, ascii(&wanted.word));
    let key = input.given.key();
    let add = |pos| {
        ask(|| scene.changed(Peers::of(&key), |lexicon| lexicon.add_entry(word, pos, &phones)))
    };
    let mut told = ways(&wanted.tag).into_iter().map(add).collect::<Result<Vec<_>, _>>()?;
    told.dedup();
    let one = told.pop().filter(|_| told.is_empty());
    one.ok_or("the original takes no tag and an empty one for two things".into())
}

/// The store that 01 makes of the original's list after an add, its count as it was, or its refusal. The original too
/// must refuse a phone that it does not know, and leave its list as it was.
pub fn added(input: &Input, met: &mut Met) -> Result<Vec<u8>, Stop> {
    let Input { scene, given } = input;
    let refused = refusal(input, met);
    if refused != Err(5) || given.phones.cells.iter().any(is_over) {
        refused?;
    }
    let (told, list) = asked(input)?;
    let key = given.key();
    let peers = Peers::of(&key);
    match (refused, told) {
        (Ok(()), Ok(())) => {}
        (Err(5), Err(LexiconError::UnknownPhone { .. })) if scene.peers(peers).eq(&list) => {
            return Err(Stop::RefusedBeside(5, 0));
        }
        (_, told) => Err(format!("the original says {told:?}, or alters its list"))?,
    }
    let slot = scene.slot_for(&key);
    let store = scene.store_of(peers, std::slice::from_ref(&key), &list)?;
    let stray = stores::stray(&scene.store, &store, slot);
    assert!(stray.is_none(), "the driver writes a byte that the add has no part in");
    Ok(store)
}

rows! { pub ROWS:
    /// What an unsound store has beside.
    by_2(spent: bool) [
        "2: and the largest count" => spent,
    ]

    /// What an add has that is refused by 12.
    by_12(given: &Add, high: bool) [
        "12: and refused by 3" => high,
        "12: and over 24 phones" => given.phones.cells.len() > MOST_PHONES,
    ]

    /// What a word, a tag or a phone has that is refused by 3.
    by_3(given: &Add) {
        let Add { wanted, phones: List { cells, .. }, .. } = given;
        let (front, behind) = cells.split_at(cells.len().min(MOST_PHONES));
    } [
        "3: long word" => wanted.word.len() > words::LONGEST,
        "3: word with a high byte" => !wanted.word.is_ascii(),
        "3: long tag" => wanted.tag.len() > words::LONGEST,
        "3: tag with a high byte" => !wanted.tag.is_ascii(),
        "3: phone with a high byte" => cells.iter().any(is_high),
        "3: cell over 15 with a high byte" => cells.iter().any(|cell| is_over(cell) && is_high(cell)),
        "3: in a cell past the 24th" => !front.iter().any(is_high) && behind.iter().any(is_high),
    ]

    /// What phones have that are refused by 5.
    by_5(cells: &[Cell], past_the_24th: bool) {
        let over = cells.iter().any(is_over);
    } [
        "5: phone in no table" => !over,
        "5: cell over 15" => over,
        "5: in a cell past the 24th" => past_the_24th,
    ]

    /// What an add has that is refused by 7.
    by_7(count: usize, lacks_room: bool) [
        "7: 25 phones" => count == MOST_PHONES + 1,
        "7: over 96 phones" => count > 96,
        "7: store without an unused slot" => lacks_room,
    ]

    /// What a full store has that lacks a key.
    by_8(known: &[Key], key: &Key) {
        let has_twin = known.contains(&key.twin());
    } [
        "8: store of one slot" => known.is_empty(),
        "8: 127 entries" => known.len() == 127,
        "8: an exact entry, whose ordinary twin is there" => key.exact && has_twin,
        "8: an ordinary entry, whose exact twin is there" => !key.exact && has_twin,
        "8: an exact entry, there in other capitals" => key.exact && in_other_capitals(known, key),
    ]

    /// What an add of a new key met.
    of_new(scene: &Scene, key: &Key) {
        let before = scene.entries();
        let entries = before.len() + 1;
        let slot = &scene.store[SLOT * entries..][..SLOT];
        let retagged = scene.keys().iter().any(|known| is_retagged(known, key));
    } [
        "new: the first entry" => before.is_empty(),
        "new: takes the last unused slot" => entries == stores::room(&scene.store),
        "new: entry 127" => entries == 127,
        "new: written over anything" => !zeros(slot),
        "new: word known with another tag" => retagged,
    ]

    /// What an add met whose key was known at this place of the list.
    of_known(scene: &Scene, at: usize, given: &Add, store: &[u8]) {
        let before = scene.entries();
        let last = before.len() - 1;
        let (count, was) = (given.phones.cells.len(), before[at].entry.phones.len());
    } [
        "known: the only entry" => last == 0,
        "known: was the first" => at == 0 && last > 0,
        "known: was in the middle" => at > 0 && at < last,
        "known: was the last, and stays" => at == last && last > 0,
        "known: fewer phones than before" => count < was,
        "known: more phones than before" => count > was,
        "known: nothing but the count changes" => store == &scene.store[..],
        "known: no unused slot" => before.len() == stores::room(&scene.store),
    ]

    /// What an accepted add met that is exact, or came to a store with exact entries.
    of_kind(scene: &Scene, given: &Add) {
        let (keys, key) = (scene.keys(), given.key());
        let (exact, is_known) = (given.exact, keys.contains(&key));
        let has_twin = keys.contains(&key.twin());
        // the entry that the same word and tag would have, were it exact
        let own = Key::new(&given.wanted.word, &given.wanted.tag, true);
        let is_folded = stores::is_folded(&own.word);
        let of_capitals = !exact && !is_folded && keys.contains(&own);
    } [
        "exact: word with capitals" => exact && !is_folded,
        "exact: word without capitals" => exact && is_folded,
        "exact: new, its ordinary twin stays" => exact && !is_known && has_twin,
        "exact: known, its ordinary twin stays" => exact && is_known && has_twin,
        "exact: known in other capitals" => exact && in_other_capitals(&keys, &key),
        "ordinary: new, its exact twin stays" => !exact && !is_known && has_twin,
        "ordinary: known, its exact twin stays" => !exact && is_known && has_twin,
        "ordinary: an exact one of the word's capitals stays" => of_capitals,
    ]

    /// What the phones of an accepted add have.
    of_list(lexicon: &Lexicon, phones: &List) {
        let names = lexicon.names.as_deref().unwrap_or_default();
        let of_table = |phone: &[u8]| names.iter().any(|name| name == phone);
        let of_table_alone = |phone: &[u8]| of_table(phone) && !is_of_the_50(phone);
    } [
        "no phones" => phones.cells.is_empty(),
        "24 phones" => phones.cells.len() == MOST_PHONES,
        "phone of lex.phones alone" => phones.cells.iter().map(text).any(of_table_alone),
        "phone of the 50 alone" => !phones.cells.iter().map(text).all(of_table),
    ]
}
