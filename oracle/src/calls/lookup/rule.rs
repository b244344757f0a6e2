//! What the papers say of a lookup: its refusal, or the source and the phones. The original is asked for the phones
//! too; it does not tell the source.

use super::LONGEST;
use crate::lexicons::Search;
use crate::prelude::*;

/// Where phones come from, which is the row of the table, and the phones with their digits.
pub struct Origin {
    pub row: &'static str,
    pub phones: Vec<Vec<u8>>,
}

impl Origin {
    /// The source's number, which lookup tells and a word's item keeps.
    pub fn source(&self) -> u8 {
        match self.row {
            "runtime" | "runtime, exact" => 1,
            "addenda" => 2,
            "compiled" => 3,
            _ => sources::LETTERS,
        }
    }
}

/// What is looked for, a word and a tag, "0" for any; and what the addenda and the compiled entries have of it.
pub struct Sought<'a> {
    lexicon: &'a Lexicon,
    word: &'a [u8],
    tag: u8,
    has_addendum: bool,
    search: Search,
}

/// How a runtime entry fits, how an addendum does, and where a damaged entry is met.
pub const WAYS: &[Rows] = &[
    &["runtime: tags agree", "runtime: wanted '0' takes any", "runtime: entry '0' fits any"],
    &["addenda: tags agree", "addenda: wanted '0' takes any", "addenda: row '0' fits any"],
    &["6: in the halving", "6: in the run or behind it"],
];

/// The rule of the runtime entries and of the addenda: the row of the way in which a tag fits, if it does.
fn fits(wanted: u8, tag: u8, ways: Rows) -> Option<&'static str> {
    match (wanted, tag) {
        _ if wanted == tag => Some(ways[0]),
        (b'0', _) => Some(ways[1]),
        (_, b'0') => Some(ways[2]),
        _ => None,
    }
}

/// The tag that is looked for.
fn sought_tag(wanted: &Wanted) -> u8 {
    wanted.tag.first().copied().unwrap_or(b'0')
}

/// The runtime entries of a word, on a sound store: the exact ones of the same bytes (02, S-8), then the ordinary ones. And
/// which of them answers, if one does: the first whose tag fits.
pub fn runtime_entries<'a>(
    scene: &'a Scene,
    wanted: &'a Wanted,
) -> (Vec<&'a Entry>, Option<usize>) {
    let (word, tag) = (&wanted.word, sought_tag(wanted));
    let folded = word.to_ascii_lowercase();
    let ordinary = scene.peers(Peers::Ordinary).filter(|entry| entry.word == folded);
    let same: Vec<&Entry> = scene.peers(Peers::Exact(word)).chain(ordinary).collect();
    let at = same.iter().position(|entry| fits(tag, entry.tag, WAYS[0]).is_some());
    (same, at)
}

/// What the papers say before an answer's length matters. Tells what was met on the way.
pub fn rule(scene: &Scene, wanted: &Wanted, met: &mut Met) -> Result<Option<Origin>, u32> {
    let (lexicon, word) = (&scene.lexicon, &wanted.word);
    met.refuse(1, !lexicon.has_form(), || None)?;
    met.sound(&scene.entries)?;
    met.refuse(3, wanted.is_refused(), || None)?;
    let tag = sought_tag(wanted);
    let mut addenda = lexicon::probe::addenda().iter().filter(|row| row.1 == ascii(word));
    let addendum = addenda.find_map(|row| Some((fits(tag, row.0 as u8, WAYS[1])?, row.2)));
    let (has_addendum, search) = (addendum.is_some(), lexicon.search(word, tag));
    let sought = Sought { lexicon, word, tag, has_addendum, search };
    let (same, at) = runtime_entries(scene, wanted);
    let found = if let Some(at) = at {
        met.all(fits(tag, same[at].tag, WAYS[0]));
        met.all(runtime(&sought, &same, at));
        if same[at].exact {
            met.all(by_exact(scene, &sought, &same[at..]));
        }
        let row = if same[at].exact { "runtime, exact" } else { "runtime" };
        Some(Origin { row, phones: same[at].phones.clone() })
    } else if let Some((way, phones)) = addendum {
        met.row(way);
        met.all(of_addendum(&sought, phones));
        let phones = phones.iter().map(|phone| (*phone).into()).collect();
        Some(Origin { row: "addenda", phones })
    } else {
        let found = compiled(&sought, met)?;
        met.all(passed_addenda(ascii(word)));
        found
    };
    let passed = at.is_none() && found.is_some() && !same.is_empty();
    met.all(beside(passed, lexicon));
    let passed = same.split_at(at.unwrap_or(same.len())).0;
    met.all(passed_exact(scene, &sought, passed, at.map(|at| same[at].exact)));
    Ok(found)
}

/// What the compiled entries answer, and what they met.
fn compiled(sought: &Sought, met: &mut Met) -> Result<Option<Origin>, u32> {
    match sought.search {
        Search::Damaged { why, in_run } => {
            met.refuse(6, true, || [why, WAYS[2][usize::from(in_run)]]).map(|()| None)
        }
        Search::Nothing(at) => {
            met.all(nothing(sought, at));
            Ok(None)
        }
        Search::Entry { first, chosen, exact } => {
            met.all(chosen_entry(sought, first, chosen, exact));
            Ok(Some(Origin { row: "compiled", phones: sought.lexicon.phones(chosen) }))
        }
    }
}

rows! { pub ROWS:
    /// What a runtime entry met that is found among those of its word.
    runtime(sought: &Sought, same: &[&Entry], at: usize) {
        let (entry, lexicon) = (same[at], sought.lexicon);
        let peer = |other: &&&Entry| other.exact == entry.exact;
        let agrees = |other: &&Entry| other.tag == sought.tag;
        let later = entry.tag != sought.tag && same[at + 1..].iter().filter(peer).any(agrees);
    } [
        "runtime: entry '0' before one whose tag agrees" => later,
        "runtime: an older entry's tag does not fit" => same[..at].iter().filter(peer).count() > 0,
        "runtime: found by folding" => entry.word != sought.word,
        "runtime: hides the addenda" => sought.has_addendum,
        "runtime: hides a compiled entry" => matches!(sought.search, Search::Entry { .. }),
        "runtime: phone in no table" => entry.phones.iter().any(|phone| !lexicon.knows(phone)),
        "runtime: 24 phones" => entry.phones.len() == MOST_PHONES,
    ]

    /// What a row of the addenda met that is found.
    of_addendum(sought: &Sought, phones: &[&str]) [
        "addenda: no phones" => phones.is_empty(),
        "addenda: hides a compiled entry" => matches!(sought.search, Search::Entry { .. }),
    ]

    /// What a word met that the addenda do not answer.
    passed_addenda(word: &str) {
        let words = lexicon_shapes::addenda();
        let other = |other: &&str| *other != word && other.eq_ignore_ascii_case(word);
    } [
        "addenda: tag does not fit" => words.contains(&word),
        "addenda: word in another case" => words.iter().any(other),
    ]

    /// What was passed or not read.
    beside(passed_runtime: bool, lexicon: &Lexicon) [
        "runtime: none fits, further on found" => passed_runtime,
        "damage that is not read" => lexicon.has_damage,
    ]

    /// What a word met that has no compiled entry at the place where the search ends.
    nothing(sought: &Sought, at: usize) {
        let count = sought.lexicon.count();
        let there = |i| sought.lexicon.entry(i).is_ok_and(|entry| entry.word == sought.word);
    } [
        "none: no compiled entries" => count == 0,
        "none: behind the last entry" => count > 0 && at == count,
        "none: another word stands there" => at < count,
        "none: word there, but not where the search ends" => (0..count.min(100)).any(there),
    ]

    /// What a compiled entry met that was chosen from the run of its word. In a checked lexicon it is that of 01's
    /// direct rule.
    chosen_entry(sought: &Sought, first: usize, chosen: usize, exact: bool) {
        let lexicon = sought.lexicon;
        let entries = (first..lexicon.count()).map_while(|i| lexicon.entry(i).ok());
        let run = entries.take_while(|entry| entry.word == sought.word);
        let run: Vec<u8> = run.map(|entry| entry.tag).collect();
        let passed = &run[..if exact { chosen - first } else { run.len() }];
        let behind = first + run.len() < lexicon.count();
        let numbers = lexicon.entry(chosen).map_or(&[][..], |entry| entry.numbers);
        // a lexicon of thousands would take its time here
        let check = (lexicon.count() <= 100).then(|| lexicon.check());
        let is_direct = || lexicon.direct(sought.word, sought.tag) == Some(chosen);
        assert!(check != Some(Ok(())) || is_direct(), "01's rule of a checked lexicon");
    } [
        "compiled: first of its word, exact tag" => exact && chosen == first,
        "compiled: later one with the exact tag" => exact && chosen != first,
        "compiled: no exact tag, the first" => !exact,
        "compiled: wanted '0' found exactly" => exact && sought.tag == b'0',
        "compiled: tag '0' passed for another" => exact && passed.contains(&b'0'),
        "compiled: tag of 128 or more passed" => passed.iter().any(|tag| *tag > 127),
        "compiled: entry behind the run read" => !exact && behind,
        "compiled: run ends with the lexicon" => !exact && !behind,
        "compiled: word with a capital" => sought.word.iter().any(u8::is_ascii_uppercase),
        "compiled: no phones" => numbers.is_empty(),
        "compiled: 96 phones" => numbers.len() == LONGEST,
        "compiled: number 255" => numbers.contains(&255),
        "compiled: words that fall elsewhere" => check == Some(Err("words that fall")),
        "compiled: checked lexicon, as 01 says directly" => check == Some(Ok(())),
    ]
}

rows! { pub EXACT:
    /// What an exact entry met that is found, the first of these; exact ones and ordinary ones follow.
    by_exact(scene: &Scene, sought: &Sought, found: &[&Entry]) {
        let entry = found[0];
        let fits = |other: &&&Entry| fits(sought.tag, other.tag, WAYS[0]).is_some();
        let others: Vec<&Entry> = found[1..].iter().filter(fits).copied().collect();
        let ordinary = others.iter().find(|other| !other.exact);
        let age = |one: &Entry| scene.keys().iter().position(|key| *key == one.key());
        let older = |other: &&Entry| age(other) < age(entry);
        let agrees = |exact: bool| {
            let mut others = others.iter().filter(|other| other.exact == exact);
            entry.tag != sought.tag && others.any(|other| other.tag == sought.tag)
        };
    } [
        "exact: answers, no ordinary one fits" => ordinary.is_none(),
        "exact: answers before an older ordinary one" => ordinary.is_some_and(older),
        "exact: answers before a younger ordinary one" => ordinary.is_some_and(|one| !older(one)),
        "exact: '0' before an ordinary one whose tag agrees" => agrees(false),
        "exact: '0' before a younger exact one that agrees" => agrees(true),
        "exact: answers before its twin" => ordinary.is_some_and(|o| o.key() == entry.key().twin()),
        "exact: oldest of several" => others.iter().any(|other| other.exact),
        "exact: word without capitals" => stores::is_folded(sought.word),
    ]

    /// What exact entries met that do not answer: those that were passed, and those in other capitals.
    passed_exact(scene: &Scene, sought: &Sought, passed: &[&Entry], found: Option<bool>) {
        let retagged = passed.iter().any(|entry| entry.exact);
        let folds = |entry: &Entry| entry.word.eq_ignore_ascii_case(sought.word);
        let fits = |entry: &Entry| fits(sought.tag, entry.tag, WAYS[0]).is_some();
        let entries = || scene.entries().iter().map(|placed| &placed.entry);
        let other = |entry: &Entry| entry.exact && entry.word != sought.word && fits(entry);
        let recased = entries().any(|entry| folds(entry) && other(entry));
    } [
        "exact: its tag does not fit, an ordinary one answers" => retagged && found == Some(false),
        "exact: its tag does not fit, a younger one answers" => retagged && found == Some(true),
        "exact: its tag does not fit, no other answers" => retagged && found.is_none(),
        "exact: in other capitals, an ordinary one answers" => recased && found == Some(false),
        "exact: in other capitals, an exact one answers" => recased && found == Some(true),
        "exact: in other capitals, no other answers" => recased && found.is_none(),
    ]
}
