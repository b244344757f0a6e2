//! What the papers and the original make of a text.

use super::Input;
use crate::lines::{Fields, Line};
use crate::prelude::*;

/// The refusal that the papers give before a line is looked at, if they give one; 12 of a call that raises the count.
/// Tells what made it, and what is amiss beside.
pub fn refusal(input: &Input, raises: bool, met: &mut Met) -> Result<(), u32> {
    barred(input, raises, met).inspect_err(|refusal| met.shared(beside(*refusal, input)))
}

fn barred(input: &Input, raises: bool, met: &mut Met) -> Result<(), u32> {
    let Input { scene, spare, text } = input;
    met.refuse(1, scene.lexicon.names.is_none(), || None)?;
    met.sound(&scene.entries)?;
    met.refuse(2, spare.len() != scene.store.len(), || ["spare of another length"])?;
    met.refuse(12, raises && stores::is_spent(&scene.store), || None)?;
    met.refuse(3, !text.is_ascii(), || of_high(text))
}

/// Whether a line names no entry, though it should.
fn is_malformed(line: &[u8]) -> bool {
    matches!(lines::read(line), Line::NoColon | Line::NoWord)
}

/// The rows that tell why a line is refused.
type Why = Vec<&'static str>;

/// What 01 takes of a text.
#[derive(Default)]
pub struct Taken {
    /// The keys of the lines taken.
    pub keys: Vec<Key>,
    /// How many of these lines replaced an entry, an earlier line's included.
    replaced: usize,
    /// Where these lines end.
    end: usize,
    /// The refusal of the first faulty line, and its number.
    pub fault: Option<(u32, usize)>,
}

/// Goes through the lines by 01's rule, up to the first faulty one. Tells what they met.
fn taken(input: &Input, met: &mut Met) -> Taken {
    let room = stores::room(&input.scene.store);
    let before = input.scene.keys();
    let mut known = before.clone();
    let mut taken = Taken::default();
    for (number, whole) in (1..).zip(input.text.split_inclusive(|b| *b == b'\n')) {
        let line = whole.strip_suffix(b"\n").unwrap_or(whole);
        let fault = match lines::read(line) {
            Line::Nothing => {
                met.once(of_line(line, false));
                None
            }
            Line::Entry(fields) => {
                let key = Key::new(fields.word, fields.tag, false);
                let is_new = !known.contains(&key);
                let is_full = is_new && known.len() == room;
                let full =
                    is_full.then(|| of_full(before.len() == room, before.contains(&key.twin())));
                let fault = faulty(&input.scene.lexicon, &fields, full);
                if fault.is_none() {
                    let takes_last = is_new && known.len() + 1 == room;
                    met.once(of_line(line, true));
                    met.once(of_fields(line, &fields));
                    met.once(of_key(&key, &taken.keys, &before, takes_last));
                    met.once(beside_exact(&before, &fields, is_new));
                    known.extend(is_new.then(|| key.clone()));
                    taken.replaced += usize::from(!is_new);
                    taken.keys.push(key);
                }
                fault
            }
            malformed => Some((4, by_4(line, matches!(malformed, Line::NoColon)))),
        };
        if let Some((refusal, why)) = fault {
            met.all(why);
            taken.fault = Some((refusal, number));
            break;
        }
        taken.end += whole.len();
    }
    taken
}

/// The refusal that 01 gives for a line's entry, if it gives one, and what made it; a full store does in the end.
fn faulty(lexicon: &Lexicon, fields: &Fields, full: Option<Why>) -> Option<(u32, Why)> {
    let Fields { word, tag, phones, .. } = fields;
    let unknown = phones.iter().find(|phone| phone.len() > 15 || !lexicon.knows(phone));
    match unknown {
        _ if words::is_refused(word) || words::is_refused(tag) => Some((3, by_3(fields))),
        Some(phone) => Some((5, by_5(phone))),
        None if phones.len() == MOST_PHONES + 1 => Some((7, vec!["7: 25 phones"])),
        None if phones.len() > MOST_PHONES => Some((7, vec![])),
        None => full.map(|why| (8, why)),
    }
}

/// What a text makes of its store.
pub struct Filled {
    pub taken: Taken,
    /// The store with the lines taken, its count as it was.
    pub store: Vec<u8>,
    /// How many slots are newly used.
    newly: usize,
}

impl Filled {
    /// This answer, or the refusal of a faulty line.
    pub fn answer(&self, accepted: Answer) -> Answer {
        let refused = |(refusal, line)| Answer::refused(refusal, line);
        self.taken.fault.map_or(accepted, refused)
    }

    /// The lines taken, the slots newly used, the lines that replaced an entry.
    pub fn numbers(&self) -> Answer {
        let Taken { keys, replaced, .. } = &self.taken;
        Answer::accepted(0, keys.len()).and(self.newly).and_third(*replaced)
    }

    /// The spare, which carries the count seen; where a line stopped the others, the largest.
    pub fn spare(&self) -> Vec<u8> {
        match self.taken.fault {
            None => self.store.clone(),
            Some(_) => stores::with_count(&self.store, u64::MAX),
        }
    }

    pub fn row(&self) -> &'static str {
        TAKEN[self.taken.keys.len().min(2)]
    }
}

/// Fills the spare by the papers and the original. Tells what the text met.
pub fn filled(input: &Input, met: &mut Met) -> Result<Filled, String> {
    let taken = taken(input, met);
    let (store, newly) = beside_the_original(input, &taken)?;
    let filled = Filled { taken, store, newly };
    met.all(of_text(&input.text, &filled.taken));
    met.shared(of_numbers(&filled, &input.scene));
    met.shared(store_edges::features(&input.scene.store, input.scene.entries()));
    met.shared(store_edges::of_exact(input.scene.entries()));
    Ok(filled)
}

/// The store after the lines that 01 takes, by the original's list, and how many slots are newly used. A text makes
/// ordinary entries alone (02, S-8), which are the original's; exact ones stay. The original
/// must count as many lines, or stop at the same one, where it has that refusal.
fn beside_the_original(input: &Input, taken: &Taken) -> Result<(Vec<u8>, usize), String> {
    let scene = &input.scene;
    let asked = |text: &[u8]| {
        ask(|| scene.changed(Peers::Ordinary, |lexicon| lexicon.add_entries(ascii(text))))
    };
    let (told, list) = asked(&input.text[..taken.end])?;
    if told != Ok(taken.keys.len()) {
        return Err(format!("of the lines before a faulty one the original says {told:?}"));
    }
    if let Some((4 | 5, _)) = taken.fault {
        let (told, kept) = asked(&input.text)?;
        let stop = match told {
            Err(LexiconError::Malformed { line }) => Some((4, line)),
            Err(LexiconError::UnknownPhone { line, .. }) => Some((5, line)),
            Ok(_) => None,
        };
        if stop != taken.fault || !scene.peers(Peers::Ordinary).eq(&kept) {
            return Err(format!("the original stops at {stop:?}, or alters its list"));
        }
    }
    let newly = list.len() - scene.peers(Peers::Ordinary).count();
    if newly + taken.replaced != taken.keys.len() {
        return Err(format!("the original has {newly} entries more"));
    }
    Ok((scene.store_of(Peers::Ordinary, &taken.keys, &list)?, newly))
}

/// The answers of a text that is accepted.
pub const TAKEN: Rows = &["lines taken 0", "lines taken 1", "lines taken 2 and more"];

rows! { pub RANKS:
    /// What a refusal before the lines goes before.
    beside(refusal: u32, input: &Input) {
        let Input { scene, spare, text } = input;
        let other = spare.len() != scene.store.len();
        let first = text.split(|b| *b == b'\n').next().unwrap_or_default();
    } [
        "1: and an unsound store" => refusal == 1 && scene.entries.is_err(),
        "1: and a spare of another length" => refusal == 1 && other,
        "2: and a high byte in the text" => refusal == 2 && !text.is_ascii(),
        "2: and the largest count" => refusal == 2 && stores::is_spent(&scene.store),
        "12: and a high byte in the text" => refusal == 12 && !text.is_ascii(),
        "12: and a faulty line" => refusal == 12 && is_malformed(first),
    ]
}

rows! { pub NUMBERS:
    /// What the numbers tell of a text that is accepted, and the count of its store.
    of_numbers(filled: &Filled, scene: &Scene) {
        let Filled { taken: Taken { keys, replaced, fault, .. }, newly, .. } = filled;
        let (new, old) = (*newly > 0 && fault.is_none(), *replaced > 0 && fault.is_none());
        let mut later = (1..).zip(keys);
        let again = old && later.any(|(i, key)| keys[i..].contains(key));
        let of_store = old && scene.keys().iter().any(|key| keys.contains(key));
        let spent = stores::is_spent(&scene.store);
    } [
        "new slots alone" => new && !old,
        "replaced entries alone" => old && !new,
        "new slots and replaced entries" => new && old,
        "replaced: the store's alone" => of_store && !again,
        "replaced: an earlier line's alone" => again && !of_store,
        "replaced: both" => again && of_store,
        "largest count: accepted" => spent && fault.is_none(),
        "largest count: stop" => spent && fault.is_some(),
    ]
}

rows! { pub ROWS:
    /// What a text with a high byte has.
    of_high(text: &[u8]) {
        let first = text.split(|b| *b == b'\n').next().unwrap_or_default();
    } [
        "3: high byte, line 0" => true,
        "3: high byte behind a faulty line" => first.is_ascii() && is_malformed(first),
    ]

    /// What a line has that is malformed.
    by_4(line: &[u8], no_colon: bool) [
        "4: no colon" => no_colon,
        "4: a colon behind '#' alone" => no_colon && line.contains(&b':'),
        "4: no word before the colon" => !no_colon,
        "4: byte 28 alone" => no_colon && line.trim_ascii() == b"\x1c",
    ]

    /// When a store became full.
    of_full(before: bool, has_twin: bool) [
        "8: full before the text" => before,
        "8: full by the lines before" => !before,
        "8: and the entry's exact twin is there" => has_twin,
    ]

    /// What the key of a line met that is taken.
    of_key(key: &Key, taken: &[Key], before: &[Key], takes_last: bool) [
        "key of an earlier line" => taken.contains(key),
        "key of the store" => before.contains(key),
        "new: takes the last unused slot" => takes_last,
    ]

    /// What a line's entry met among exact ones, which stay.
    beside_exact(before: &[Key], fields: &Fields, is_new: bool) {
        let own = Key::new(fields.word, fields.tag, true);
        let has_twin = before.contains(&Key::new(fields.word, fields.tag, false).twin());
        let of_capitals = !stores::is_folded(fields.word) && before.contains(&own);
    } [
        "new: its exact twin stays" => is_new && has_twin,
        "known: its exact twin stays" => !is_new && has_twin,
        "an exact one of the word's capitals stays" => of_capitals,
    ]

    /// What a line has that is refused by 3.
    by_3(fields: &Fields) [
        "3: long word" => words::is_refused(fields.word),
        "3: long tag" => words::is_refused(fields.tag),
    ]

    /// What an unknown phone has.
    by_5(phone: &[u8]) [
        "5: phone in no table" => phone.len() < 16,
        "5: phone over 15 bytes" => phone.len() > 15,
        "5: colon in a phone" => phone.contains(&b':'),
        "5: byte 28 in a phone" => phone.contains(&28),
    ]

    /// What a text has as a whole, and where it stops.
    of_text(text: &[u8], taken: &Taken) {
        let stop = taken.fault.map(|(_, line)| line);
        let mut later = text[taken.end..].split(|b| *b == b'\n').skip(1);
    } [
        "stop: at line 1" => stop == Some(1),
        "stop: earlier lines in the spare" => stop.is_some() && !taken.keys.is_empty(),
        "stop: a later line is faulty too" => later.any(is_malformed),
        "empty text" => text.is_empty(),
        "last line without its end" => stop.is_none() && !text.is_empty() && !text.ends_with(b"\n"),
    ]

    /// What a line has that is not faulty.
    of_line(line: &[u8], is_entry: bool) {
        let comment = line.contains(&b'#');
    } [
        "blank line" => !is_entry && !comment,
        "comment" => !is_entry && comment,
        "'#' behind an entry" => is_entry && comment,
        "CR at a line's end" => line.ends_with(b"\r"),
    ]

    /// What the line of an entry has.
    of_fields(line: &[u8], fields: &Fields) {
        let trimmed = line.trim_ascii();
        let Fields { word, tag, phones, .. } = fields;
        let quoted = fields.first.len() > word.len();
    } [
        "CR between fields" => trimmed.contains(&b'\r'),
        "tab between fields" => trimmed.contains(&b'\t'),
        "bytes 11 and 12" => line.contains(&11) && line.contains(&12),
        "byte 28 in a word" => word.contains(&28),
        "byte 28 in a tag" => tag.contains(&28),
        "no tag" => fields.count == 1,
        "tag 'nil'" => *tag == b"nil",
        "third field" => fields.count > 2,
        "quotes off a word" => quoted && !word.is_empty(),
        "word of quotes alone" => word.is_empty(),
        "quote inside a word" => word.contains(&b'"'),
        "quote in a tag" => tag.contains(&b'"'),
        "word of 47 bytes in quotes" => quoted && word.len() == words::LONGEST,
        "capital letter" => word.to_ascii_lowercase() != *word,
        "no phones" => phones.is_empty(),
        "24 phones" => phones.len() == MOST_PHONES,
        "colon in a phone" => phones.iter().any(|phone| phone.contains(&b':')),
    ]
}
