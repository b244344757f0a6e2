//! Writes of settings on one store, a read behind each, beside the original: there an item keeps them as its
//! features, and its stretch is multiplied by another one.

mod item;

use super::{read_settings, write_setting};
use crate::prelude::*;
use crate::settings::{times, Known, KNOWN, ONE, REAL, STRETCH, WHOLE};
use crate::settings_edges::{values, with_value};
use crate::settings_shapes::{any_bits, fitting, misfit, plainer_float, within};
use item::Item;

/// Writes of one input.
const WRITES: usize = 256;

/// A write, and the show's stretch of the read behind it, which is in range.
#[derive(Clone)]
pub struct Step {
    /// The setting's place among those that are known.
    setting: usize,
    kind: u32,
    bits: u32,
    show: u32,
}

smaller!(Step: show by plainer_float);

impl Step {
    fn known(&self) -> &'static Known {
        &KNOWN[self.setting]
    }

    /// Whether 02 accepts the write.
    fn is_taken(&self) -> bool {
        self.known().takes(self.kind, self.bits)
    }
}

#[derive(Default)]
pub struct SettingsKept;

impl Call for SettingsKept {
    type Input = Vec<Step>;
    const NAME: &'static str = "settings kept";
    const SHARE: usize = 5;
    const ANSWERS: Rows = &["lists of writes, each then read"];
    const MET: Table = &[ROWS];
    const LIBRARY: Function = |_| unreachable!("it is many calls of the library");

    /// Every product of stretches next to powers of two, with few bits or many; and every value at an edge or beside.
    fn short(&self) -> Vec<Vec<Step>> {
        let powers = (0..4).map(|power| STRETCH.low + (power << 23));
        let around = powers.flat_map(|power| {
            [0, 1, 2, 3, 1 << 22, 0x2a_aaab, 0x7f_fffe, 0x7f_ffff].map(|more| power + more)
        });
        let stretches: Vec<u32> = around.chain([STRETCH.high]).collect();
        let list = |bits: &u32| {
            let step = |show: &u32| Step { setting: 1, kind: REAL, bits: *bits, show: *show };
            stretches.iter().map(step).collect()
        };
        let values = (0..KNOWN.len()).map(|setting| {
            let step = |(kind, bits)| Step { setting, kind, bits, show: ONE };
            values(&KNOWN[setting]).into_iter().map(step).collect()
        });
        stretches.iter().map(list).chain(values).collect()
    }

    fn random(&mut self, random: &mut Random) -> Vec<Step> {
        (0..WRITES).map(|_| step(random)).collect()
    }

    fn rule(&self, steps: &Vec<Step>, met: &mut Met) -> Ruling {
        let mut store = new();
        let mut log = vec![];
        for (step, (given_back, shown)) in steps.iter().zip(ask(|| Item::new().kept(steps))?) {
            if given_back != step.bits || shown[4] != times(shown[2], step.show) {
                let [kept, rack] = [given_back, shown[4]].map(notation::float);
                Err(format!("the original keeps {kept}, and multiplies to {rack}"))?;
            }
            let refusal = if step.is_taken() { 0 } else { 17 };
            if refusal == 0 {
                store = settings::with_value(&store, step.setting + 1, step.bits);
            }
            met.all(of_step(step));
            met.all(of_product(shown[2], step.show, shown[4]));
            put(&mut log, refusal, &store, 0, &settings::in_bytes(shown));
        }
        Ok(Told::new(Answer::accepted(0, 0), Self::ANSWERS[0], vec![log]))
    }

    /// The log, which is all that is compared.
    fn lent<'a>(&self, _steps: &'a Vec<Step>) -> Vec<Part<'a>> {
        vec![Part::output(Form::Bytes, Room::PLAIN)]
    }

    fn ours(&self, steps: &Vec<Step>, _handed: &[Vec<u8>]) -> Outcome {
        let mut store = new();
        let (mut log, mut altered) = (vec![], None);
        for Step { setting, kind, bits, show } in steps {
            let handed = [store.clone()];
            let name = KNOWN[*setting].name.into();
            let write = write_setting::Input::new(store, 2, name, *kind, *bits);
            let mut write = write_setting::WriteSetting.ours(&write, &handed);
            store = write.written.remove(0);
            let read = read_settings::Input::new(store.clone(), 2, *show);
            let read = read_settings::ReadSettings.ours(&read, &[vec![0; 20]]);
            let [written, shown] = [write.answer, read.answer].map(|answer| answer.refusal);
            put(&mut log, written, &store, shown, &read.written[0]);
            altered = altered.or(write.altered).or(read.altered);
        }
        Outcome { answer: Answer::accepted(0, 0), written: vec![log], altered }
    }

    fn show(&self, steps: &Vec<Step>, _handed: &[Vec<u8>]) -> String {
        let shown = |step: &Step| {
            let (name, kind) = (step.known().name, step.kind);
            let [bits, show] = [step.bits, step.show].map(notation::float);
            format!("\n    write {name} kind {kind} {bits}, read with {show}")
        };
        steps.iter().map(shown).collect()
    }

    fn show_written(&self, _steps: &Vec<Step>, outcome: &Outcome) -> String {
        let shown = |log: &[u8]| {
            let (front, behind) = log.split_at(log.len() - 24);
            let (written, store) = front.split_at(4);
            let [written, read] = [written, &behind[..4]].map(|bytes| Form::Number.shown(bytes));
            let [store, told] = [Form::Settings.shown(store), Form::Shown.shown(&behind[4..])];
            format!("\n    {written} {store}, {read} {told}")
        };
        outcome.written[0].chunks(4 + new().len() + 24).map(shown).collect()
    }
}

/// A store of all settings, in the order in which they are known, each with the value that it would have without.
fn new() -> Vec<u8> {
    with_value(&STRETCH, REAL, ONE)
}

/// Logs what a write and the read behind it give back.
fn put(log: &mut Vec<u8>, written: u32, store: &[u8], read: u32, shown: &[u8]) {
    log.extend([&written.to_le_bytes(), store, &read.to_le_bytes(), shown].concat());
}

/// A write that is accepted as often as not; half of them are of floats.
fn step(random: &mut Random) -> Step {
    let setting = [0, 1, 1, 2][random.below(4)];
    let known = &KNOWN[setting];
    let (kind, mut bits) = match random.below(16) {
        0 => misfit(random, known),
        1..=7 => (known.kind, any_bits(random)),
        8 => (known.kind, fitting(random, known)),
        _ => (known.kind, within(random, known)),
    };
    let mut show = match random.once_in(8) {
        true => fitting(random, &STRETCH),
        false => within(random, &STRETCH),
    };
    if setting == 1 && kind == REAL && random.once_in(8) {
        [bits, show] = halfway(random);
    }
    Step { setting, kind, bits, show }
}

/// Two stretches whose product has, as often as not, one bit more than a float.
fn halfway(random: &mut Random) -> [u32; 2] {
    let zeros = random.below(23);
    let others = 22 + random.below(2) - zeros;
    // each fraction ends in a one and so many zeros; without a one it is 0
    [zeros, others].map(|zeros| {
        let ones = random.below(1 << (23 - zeros)) | usize::from(zeros < 23);
        STRETCH.low + (random.below(4) << 23 | ones << zeros) as u32
    })
}

rows! { ROWS:
    /// What becomes of a write.
    of_step(step: &Step) {
        let is = |name: &str| step.known().name == name && step.kind == step.known().kind;
        let (is_whole, is_taken) = (step.kind == WHOLE, step.is_taken());
        let other_kind = step.kind != step.known().kind;
        let is_nan = f32::from_bits(step.bits).is_nan();
    } [
        "i32 patterns in all" => is_whole,
        "f32 patterns in all" => !is_whole,
        "pitch comes back" => is("pitch") && is_taken,
        "stretch comes back" => is("stretch") && is_taken,
        "level comes back" => is("level") && is_taken,
        "17: pitch as before" => is("pitch") && !is_taken,
        "17: stretch as before" => is("stretch") && !is_taken,
        "17: stretch as before, a NaN refused" => is("stretch") && is_nan,
        "17: level as before" => is("level") && !is_taken,
        "17: i32 for stretch" => is_whole && other_kind,
        "17: f32 for pitch or level" => !is_whole && other_kind,
    ]

    /// What a product is.
    of_product(stretch: u32, show: u32, rack: u32) {
        let [x, y, told] = [stretch, show, rack].map(|bits| f64::from(f32::from_bits(bits)));
        // no bit of it is lost in an f64
        let exact = x * y;
        let (is_up, is_down) = (told > exact, told < exact);
        let beside = f32::from_bits(if is_up { rack - 1 } else { rack + 1 });
        let is_half = told - exact == exact - f64::from(beside);
    } [
        "pairs of stretches multiplied" => true,
        "product exact" => told == exact,
        "product rounded down" => is_down,
        "product rounded up" => is_up,
        "product rounded up to a power of two" => is_up && rack << 9 == 0,
        "product halfway between two floats, rounded down" => is_down && is_half,
        "product halfway between two floats, rounded up" => is_up && is_half,
        "product below 0.25" => told < 0.25,
        "product above 4.0" => told > 4.0,
        "product 0.0625" => told == 0.0625,
        "product 16.0" => told == 16.0,
    ]
}
