//! read_settings: what a store's settings are to a reader, and the rack's stretch. The original has no such call; the
//! driver's own test, written from 02 (S-12), says what is expected.

use crate::prelude::*;
use crate::settings::{KNOWN, ONE, REAL, STRETCH};
use crate::settings_edges::record;
use crate::settings_met::{edges, features, of_show, FEATURES};
use crate::settings_shapes::{NO_STRETCHES, NO_VERSIONS, STRETCHES};

input!(
    store: Vec<u8> => settings_shapes::smaller,
    version: u32,
    show: u32 => settings_shapes::plainer_float
);

#[derive(Default)]
pub struct ReadSettings;

impl Call for ReadSettings {
    type Input = Input;
    const NAME: &'static str = "read_settings";
    const SHARE: usize = 35;
    const ANSWERS: Rows = &["two settings and the rack's", "three settings and the rack's"];
    const REFUSALS: &'static [u32] = &[2, 15, 16, 17];
    const MET: Table = &[
        FEATURES,
        ROWS,
        settings_met::ROWS,
        settings::UNSOUND,
        &[&["16: show out of range too"]],
        settings_met::RECORD_WHOLE,
        settings_met::RECORD_STRETCH,
        settings_met::SHOW,
    ];
    const LIBRARY: Function = ours::read_settings;

    fn short(&self) -> Vec<Input> {
        let mut all = each! {
            for store in settings_edges::all();
            [1, 2].map(|version| Input::new(store.clone(), version, ONE))
        };
        all.extend(each! {
            for version in NO_VERSIONS;
            for own in [0, 1, 2, 3, 65_535];
            let store = settings::write(&[0; settings::RECORD], own, &[]);
            // a length ranks before it, an index outside behind it
            let outside = records::with_byte(&store, settings::FIRST, 1);
            [store[..31].to_vec(), store, outside].map(|store| Input::new(store, version, ONE))
        });
        all.extend(each! {
            for stretch in [&STRETCHES[..], &NO_STRETCHES].concat();
            for show in [&STRETCHES[..], &NO_STRETCHES].concat();
            let store = settings::of(1, &[record(0, "stretch", REAL, stretch)]);
            // an index outside ranks before it
            let outside = records::with_byte(&store, settings::FIRST, 2);
            [store, outside].map(|store| Input::new(store, 1, show))
        });
        all
    }

    fn random(&mut self, random: &mut Random) -> Input {
        let (store, version) = (settings_shapes::random(random), settings_shapes::version(random));
        let show = match random.below(12) {
            0 => settings_shapes::misfit(random, &STRETCH).1,
            1 => settings_shapes::any_bits(random),
            _ => settings_shapes::fitting(random, &STRETCH),
        };
        Input::new(store, version, show)
    }

    fn rule(&self, Input { store, version, show }: &Input, met: &mut Met) -> Ruling {
        let is_stretch = STRETCH.takes(REAL, *show);
        let chain = settings::read(store, *version, met).inspect_err(|refusal| {
            met.add("16: show out of range too", *refusal == 16 && !is_stretch);
        })?;
        settings::fit(&chain, *version, met)?;
        met.refuse(17, !is_stretch, || of_show(*show))?;
        let shown = settings::shown(&chain, *version, *show);
        met.all(features(store, &chain, *version));
        let bits = KNOWN.iter().zip(&shown[1..]).filter(|(known, _)| known.since <= *version);
        met.all(bits.flat_map(|(known, bits)| edges(known, *bits)));
        met.all(of_rack(store, &shown, *show));
        let row = Self::ANSWERS[usize::from(*version == 2)];
        let written = vec![settings::in_bytes(shown)];
        Ok(Told::new(Answer::accepted(0, 0), row, written).by_papers())
    }

    /// Behind what the library is lent stands what it gives back, which is 0 where it refuses.
    fn lent<'a>(&self, Input { store, version, show }: &'a Input) -> Vec<Part<'a>> {
        vec![
            Part::read("the settings", Form::Settings, store),
            Part::number("the version", Form::Number, *version),
            Part::number("the show's stretch", Form::Float, *show),
            Part::written("what is shown", Form::Shown, &[0; 20]),
        ]
    }

    fn show(&self, input: &Input, _handed: &[Vec<u8>]) -> String {
        notation::line(Self::NAME, &self.lent(input)[..3], &[], &[])
    }
}

rows! { ROWS:
    /// What an accepted read has to do with its show.
    of_rack(store: &[u8], shown: &[u32; 5], show: u32) {
        let rack = f32::from_bits(shown[4]);
        let exact = f64::from(f32::from_bits(shown[2])) * f64::from(f32::from_bits(show));
    } [
        "no records" => store[settings::FIRST..settings::HEAD_END] == [0, 0],
        "store of 32 bytes" => store.len() == settings::RECORD,
        "show 0.25" => show == STRETCH.low,
        "show next above 0.25" => show == STRETCH.low + 1,
        "show next below 4.0" => show == STRETCH.high - 1,
        "show 4.0" => show == STRETCH.high,
        "rack's stretch is the product" => f64::from(rack) == exact,
        "rack's stretch is rounded down" => f64::from(rack) < exact,
        "rack's stretch is rounded up" => f64::from(rack) > exact,
        "rack's stretch 0.0625" => rack == 0.0625,
        "rack's stretch below 0.25" => rack < 0.25,
        "rack's stretch above 4.0" => rack > 4.0,
        "rack's stretch 16.0" => rack == 16.0,
    ]
}
