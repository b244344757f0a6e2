//! write_setting: the value bytes of a setting's record. The original has no such call; the driver's own test,
//! written from 02 (S-12), says what is expected.

use crate::prelude::*;
use crate::settings::{known, Known, Record, KNOWN, LEVEL, LONGEST, REAL, WHOLE};
use crate::settings_edges::record;
use crate::settings_met::{edges, features, of_given_stretch, of_given_whole, FEATURES};
use crate::settings_shapes::{any_bits, NO_VERSIONS, UNKNOWN};

/// Kinds that are none: 0, 3, and some whose low half or low byte is right.
const NO_KINDS: [u32; 9] = [0, 3, 9, 256, 257, 258, 65_537, 65_538, u32::MAX];

input!(
    store: Vec<u8> => settings_shapes::smaller,
    version: u32,
    name: Vec<u8>,
    kind: u32,
    value: u32
);

#[derive(Default)]
pub struct WriteSetting;

impl Call for WriteSetting {
    type Input = Input;
    const NAME: &'static str = "write_setting";
    const SHARE: usize = 51;
    const ANSWERS: Rows = &["pitch", "stretch", "level"];
    const REFUSALS: &'static [u32] = &[2, 15, 16, 17];
    const MET: Table = &[
        FEATURES,
        ROWS,
        settings_met::ROWS,
        settings::UNSOUND,
        settings_met::RECORD_WHOLE,
        settings_met::RECORD_STRETCH,
        settings_met::GIVEN_WHOLE,
        settings_met::GIVEN_STRETCH,
    ];
    const LIBRARY: Function = ours::write_setting;

    fn short(&self) -> Vec<Input> {
        let mut all = each! {
            for store in settings_edges::all();
            for (version, name, kind, value) in
                [(1, "pitch", WHOLE, 200), (2, "level", WHOLE, 7), (2, "stretch", REAL, 0x4000_0000)];
            [Input::new(store.clone(), version, name.into(), kind, value)]
        };
        let good = settings_edges::good();
        let empty = settings::of(2, &[]);
        // every kind and every value at an edge, to each setting, with a record and without
        all.extend(each! {
            for known in &KNOWN;
            for (_, value) in settings_edges::values(known);
            for kind in [&[WHOLE, REAL], &NO_KINDS[..]].concat();
            for version in [1, 2];
            for store in [&good, &empty];
            [Input::new(store.clone(), version, known.name.into(), kind, value)]
        });
        // every version, and every name that is nearly known, its record there too or alone there
        let outside = records::with_byte(&empty, settings::FIRST, 1);
        all.extend(each! {
            for version in [&[1, 2], &NO_VERSIONS[..]].concat();
            for name in names();
            let own = settings::of(1, &[record(0, &name[..name.len().min(LONGEST)], WHOLE, 60)]);
            for store in [&good[..], &empty, &own, &outside, &good[..31], &[0; settings::RECORD]];
            for kind in [WHOLE, 9];
            [Input::new(store.to_vec(), version, name.clone(), kind, 100)]
        });
        all
    }

    fn random(&mut self, random: &mut Random) -> Input {
        let (store, version) = (settings_shapes::random(random), settings_shapes::version(random));
        let chain = settings::has_length(store.len()).then(|| settings::chain(&store).ok());
        let chain = chain.flatten().unwrap_or_default();
        let (name, known) = name(random, &chain, version);
        let (kind, value) = match random.below(16) {
            0 => (NO_KINDS[random.below(NO_KINDS.len())], settings_shapes::fitting(random, known)),
            1 | 2 => settings_shapes::misfit(random, known),
            3 => (random.between(1, 2) as u32, any_bits(random)),
            _ => (known.kind, settings_shapes::fitting(random, known)),
        };
        Input::new(store, version, name, kind, value)
    }

    fn rule(&self, input: &Input, met: &mut Met) -> Ruling {
        let Input { store, version, name, kind, value } = input;
        let chain = settings::read(store, *version, met)?;
        let known = known(*version, name);
        let named = known.and_then(|known| Some((known, known.record(&chain)?)));
        met.refuse(16, named.is_none(), || by_16(input, &chain))?;
        let (known, record) = named.ok_or(16)?;
        settings::fit(&chain, *version, met)
            .inspect_err(|_| met.all(of_present(&chain, input, known)))?;
        met.refuse(17, !known.takes(*kind, *value), || by_17(input, known))?;
        met.all(features(store, &chain, *version));
        met.all(edges(known, *value));
        met.all(of_written(store, record, &chain, *value));
        let written = vec![settings::with_value(store, record.at, *value)];
        Ok(Told::new(Answer::accepted(0, 0), known.name, written).by_papers())
    }

    fn lent<'a>(&self, input: &'a Input) -> Vec<Part<'a>> {
        vec![
            Part::written("the settings", Form::Settings, &input.store),
            Part::number("the version", Form::Number, input.version),
            Part::read("the name", Form::Text, &input.name),
            Part::number("the kind", Form::Number, input.kind),
            Part::number("the value", Form::Float, input.value),
        ]
    }
}

/// Names for the short inputs.
fn names() -> Vec<Vec<u8>> {
    let known = KNOWN.map(|known| known.name.as_bytes().to_vec());
    let long = [b"abcdefghijklmnop".to_vec(), vec![255; 16], b"pitch\0\0\0\0\0\0\0\0\0\0\0".into()];
    [&known[..], &UNKNOWN.map(<[u8]>::to_vec), &long, &[vec![b'a'; 300]]].concat()
}

/// A name to write to, most often that of a record that the reader knows; and the setting that a value is made for.
fn name(random: &mut Random, chain: &[Record], version: u32) -> (Vec<u8>, &'static Known) {
    let mut there: Vec<&Known> =
        KNOWN.iter().filter(|known| known.record(chain).is_some()).collect();
    there.retain(|known| known.since <= version || random.once_in(4));
    let any = &KNOWN[random.below(KNOWN.len())];
    match random.below(24) {
        0 => (settings_shapes::unknown(random), any),
        1 if !chain.is_empty() => (chain[random.below(chain.len())].name.clone(), any),
        2 => (any.name.into(), any),
        3 => (vec![random.byte(); random.between(14, 18)], any),
        _ if there.is_empty() => (any.name.into(), any),
        _ => {
            let known = there[random.below(there.len())];
            (known.name.into(), known)
        }
    }
}

/// Why a value to write is refused.
fn by_17(input: &Input, known: &Known) -> Vec<&'static str> {
    match (input.kind, known.kind) {
        (REAL, REAL) => of_given_stretch(input.value),
        (WHOLE, WHOLE) => of_given_whole(known, input.value as i32),
        _ => of_given_kind(input.kind, known),
    }
}

rows! { ROWS:
    /// Why a name is refused.
    by_16(input: &Input, chain: &[Record]) {
        let Input { version, name, kind, value, .. } = input;
        let is_known = known(*version, name).is_some();
        let has_record = chain.iter().any(|record| record.name == *name);
        let is_level = LEVEL.is(name);
        let misfit = chain.iter().any(|record| settings::is_misfit(record, *version));
        let taken = known(2, name).is_some_and(|known| known.takes(*kind, *value));
    } [
        "16: unknown name, no record" => !is_known && !has_record,
        "16: unknown name with a record" => !is_known && has_record,
        "16: level with a record, version 1" => is_level && has_record,
        "16: level without a record, version 1" => is_level && !is_known && !has_record,
        "16: pitch without a record" => is_known && name == b"pitch",
        "16: stretch without a record" => is_known && name == b"stretch",
        "16: level without a record, version 2" => is_level && is_known,
        "16: empty name" => name.is_empty(),
        "16: name of 15 bytes" => name.len() == LONGEST,
        "16: name of 16 bytes" => name.len() == LONGEST + 1,
        "16: longer name" => name.len() > LONGEST + 1,
        "16: name with a byte of 128 or more" => !name.is_ascii(),
        "16: value to write out of kind or range too" => known(2, name).is_some() && !taken,
        "16: for the name, with a known value out of range" => misfit,
    ]

    /// What a value that is there has to do with a write that it stops.
    of_present(chain: &[Record], input: &Input, named: &Known) {
        let misfits: Vec<&Record> =
            chain.iter().filter(|record| settings::is_misfit(record, input.version)).collect();
        let is_named = |record: &&Record| named.is(&record.name);
    } [
        "17: the named setting's value before" => misfits.iter().any(is_named),
        "17: another setting's value" => !misfits.iter().all(is_named),
    ]

    /// What a kind to write is that is not the setting's.
    of_given_kind(kind: u32, known: &Known) [
        "17: given pitch a float" => known.name == "pitch" && kind == REAL,
        "17: given stretch a whole number" => known.name == "stretch" && kind == WHOLE,
        "17: given level a float" => known.name == "level" && kind == REAL,
        "17: given kind 0" => kind == 0,
        "17: given kind 3" => kind == 3,
        "17: given kind, its low byte the setting's" => kind > 255 && kind % 256 == known.kind,
        "17: given kind, its low half the setting's" => kind > 65_535 && kind % 65_536 == known.kind,
        "17: given kind 4,294,967,295" => kind == u32::MAX,
    ]

    /// What an accepted write does.
    of_written(store: &[u8], record: &Record, chain: &[Record], value: u32) {
        let altered = (record.bits ^ value).to_le_bytes();
    } [
        "the value that is there" => zeros(&altered),
        "another value in every byte" => altered.iter().all(|byte| *byte > 0),
        "first record of the chain" => chain[0].at == record.at,
        "last record of the chain" => chain[chain.len() - 1].at == record.at,
        "record 1" => record.at == 1,
        "last record of the store" => record.at == store.len() / settings::RECORD - 1,
    ]
}
