//! What a refusal is about: the record or the setting at fault, looked for once the library has refused.

use commands::program::quoted;
use commands::refusals;
use pronouncer::{Refusal, Setting, LARGEST_BYTES, NAME_BYTES, RECORD_BYTES};

use crate::known::{self, Known, STRETCH};
use crate::store::{self, Break, Record};
use crate::typed::shown;

/// A call that was refused.
pub struct Call<'a> {
    pub store: &'a [u8],
    /// How many bytes the file has.
    pub length: u64,
    pub reader: u32,
    pub asks: Asks<'a>,
}

/// What the call was to do.
pub enum Asks<'a> {
    /// To read, with the show's stretch.
    Read(f32),
    /// To write a value, which was typed so, to the setting of a name.
    Write { name: &'a [u8], value: Setting, typed: &'a str },
}

/// What to do about bytes that are not as calls leave them.
const ANEW: &str = "Take a whole copy of the file, or write a new store (--new with --replace).";

/// The words for a refusal, its number first.
pub fn words(refusal: Refusal, call: &Call) -> String {
    match found(refusal, call) {
        Some(found) => format!("{}, {found}", refusal.number()),
        None => refusals::words(refusal),
    }
}

/// What is at fault and what to do, if it is found.
fn found(refusal: Refusal, call: &Call) -> Option<String> {
    match refusal {
        Refusal::Unsound => length(call.length),
        Refusal::Version => version(call),
        Refusal::Records => records(call),
        Refusal::Range => range(call),
        _ => None,
    }
}

fn length(length: u64) -> Option<String> {
    let is_right = (RECORD_BYTES as u64..=LARGEST_BYTES as u64).contains(&length);
    (!is_right).then(|| format!("it has {length} bytes, and a store has 32 to 65,536. {ANEW}"))
}

fn version(call: &Call) -> Option<String> {
    let is_wrong = |version: &u32| *version != 1 && *version != 2;
    if let Some(version) = store::version(call.store).filter(is_wrong) {
        return Some(format!("the store's version is {version}, and there are 1 and 2. {ANEW}"));
    }
    let version = Some(call.reader).filter(is_wrong)?;
    Some(format!(
        "the reader's version is {version}, and there are 1 and 2. Name one of these (--reader)."
    ))
}

fn records(call: &Call) -> Option<String> {
    let chain = match store::chain(call.store) {
        Ok(chain) => chain,
        Err(broken) => return Some(format!("{}. {ANEW}", told(&broken))),
    };
    let Asks::Write { name, .. } = call.asks else {
        return None;
    };
    let Some(setting) = known::named(call.reader, name) else {
        let (version, name) = (call.reader, quoted(name));
        let names = listed(known::of_version(version));
        return Some(format!(
            "version {version} has no setting {name}: it has {names}. Name one of these (--set), or another reader (--reader)."
        ));
    };
    let has_record = |known: &&Known| store::find(&chain, known).is_some();
    if has_record(&setting) {
        return None;
    }
    let (name, others) = (setting.name, listed(known::of_version(call.reader).filter(has_record)));
    Some(format!("{name} has no record; settings with one: {others}. No write adds a record: write a new store (--new with --replace)."))
}

fn told(broken: &Break) -> String {
    match broken {
        Break::Outside { from, to, last } => {
            format!("record {from} leads to record {to}, and the last is {last}")
        }
        Break::Circle { from, to } => {
            format!("record {from} leads back to record {to}: the chain is a circle")
        }
        Break::Length { record, length } => {
            format!("record {record} has a name of {length} bytes, and {NAME_BYTES} are the most")
        }
        Break::Kind { record, name, kind } => {
            let name = quoted(name);
            format!(
                "record {record}, {name}, has kind {kind}, and there are 1 (whole) and 2 (float)"
            )
        }
        Break::Twice { first, second, name } => {
            format!("records {first} and {second} have one name, {}", quoted(name))
        }
    }
}

/// Names in a sentence.
fn listed(settings: impl Iterator<Item = &'static Known>) -> String {
    let names: Vec<&str> = settings.map(|known| known.name).collect();
    match &names[..] {
        [] => "none".into(),
        [front @ .., last] if !front.is_empty() => format!("{} and {last}", front.join(", ")),
        one => one.concat(),
    }
}

fn range(call: &Call) -> Option<String> {
    let chain = store::chain(call.store).ok()?;
    for known in known::of_version(call.reader) {
        let record = store::find(&chain, known).filter(|record| !known.range.has(record.value));
        if let Some(Record { number, value, .. }) = record {
            let (name, value, range) = (known.name, with_kind(*value), &known.range);
            return Some(format!(
                "record {number}: {name} is {value}, and must be {range}. No write mends a store: write a new one (--new with --replace)."
            ));
        }
    }
    match call.asks {
        Asks::Read(show) => {
            let value = Setting::Real(show);
            let told = format!(
                "the show's stretch is {}, and must be {STRETCH}. Give such a value (--show).",
                with_kind(value)
            );
            (!STRETCH.has(value)).then_some(told)
        }
        Asks::Write { name, value, typed } => {
            let Known { name, range, .. } = known::named(call.reader, name)?;
            let told =
                format!("{name} cannot be {typed}: it must be {range}. Give such a value (--set).");
            (!range.has(value)).then_some(told)
        }
    }
}

/// A value that is kept or was given.
fn with_kind(value: Setting) -> String {
    let kind = match value {
        Setting::Whole(_) => "the whole number",
        Setting::Real(_) => "the float",
    };
    format!("{kind} {}", shown(value))
}

#[cfg(test)]
mod tests {
    use super::*;
    use pronouncer::{read_settings, write_setting};
    use std::collections::BTreeMap;

    const RANKS: [Refusal; 4] =
        [Refusal::Unsound, Refusal::Version, Refusal::Records, Refusal::Range];

    /// Numbers without any sense, each below a bound.
    struct Noise(u64);

    impl Noise {
        fn below(&mut self, bound: usize) -> usize {
            self.0 = self.0.wrapping_mul(6_364_136_223_846_793_005).wrapping_add(1);
            (self.0 >> 33) as usize % bound
        }

        fn one_of<T: Copy>(&mut self, list: &[T]) -> T {
            list[self.below(list.len())]
        }

        /// A store of up to four records, with a few fields altered.
        fn store(&mut self) -> Vec<u8> {
            let mut store = store::new(2).0;
            store.extend([0; 40]);
            for _ in 0..self.below(4) {
                let at =
                    32 * self.below(4) + self.one_of(&[0, 0, 1, 2, 2, 3, 3, 18, 19, 20, 21, 22]);
                store[at] = self.one_of(&[0, 1, 2, 3, 4, 5, 15, 16, 63, 127, 128, 200, b'p', b'l']);
            }
            store.truncate(self.one_of(&[31, 64, 96, 127, 128, 130, 160, 168]));
            store
        }
    }

    /// What the library refuses is found, and nothing that comes before it in rank; of what it takes, nothing.
    fn compare(refusal: Option<Refusal>, call: &Call) {
        let at = RANKS.iter().position(|rank| refusal == Some(*rank));
        for rank in &RANKS[..at.unwrap_or(RANKS.len())] {
            assert_eq!(found(*rank, call), None, "{refusal:?}: {:?}", call.store);
        }
        if let Some(refusal) = refusal {
            assert!(found(refusal, call).is_some(), "{refusal:?}: {:?}", call.store);
        }
    }

    #[test]
    fn the_library_and_the_search_never_disagree() {
        let mut noise = Noise(7);
        let mut told = BTreeMap::new();
        for _ in 0..40_000 {
            let mut store = noise.store();
            let length = store.len() as u64;
            let reader = noise.one_of(&[0, 1, 1, 1, 2, 2, 2, 2, 3, 65_537]);
            let show = noise.one_of(&[1.0, 0.25, 4.0, 0.24, 4.1, f32::NAN]);
            let read = read_settings(&store, reader, show).err().map(|refused| refused.refusal);
            compare(read, &Call { store: &store, length, reader, asks: Asks::Read(show) });

            let name = noise.one_of(&[&b"pitch"[..], b"stretch", b"level", b"x", b""]);
            let numbers = [-1, 0, 49, 50, 100, 101, 400, 401].map(Setting::Whole);
            let floats = [0.24, 0.25, 1.0, 4.0, 4.1, f32::INFINITY].map(Setting::Real);
            let value = noise.one_of(&[&numbers[..], &floats].concat());
            let wrote = write_setting(&mut store, reader, name, value).err();
            let wrote = wrote.map(|refused| refused.refusal);
            let asks = Asks::Write { name, value, typed: "" };
            compare(wrote, &Call { store: &store, length, reader, asks });
            for (call, refusal) in [("read", read), ("write", wrote)] {
                *told.entry((call, refusal.map(Refusal::number))).or_insert(0) += 1;
            }
        }
        assert_eq!(told.len(), 10, "{told:?}");
        assert!(told.values().all(|count| *count > 200), "{told:?}");
    }
}
