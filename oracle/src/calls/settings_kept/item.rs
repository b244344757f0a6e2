//! What the original keeps: an item whose features are settings, and its stretch times another one.

use super::Step;
use crate::settings::{Known, KNOWN, STRETCH, WHOLE};
use original::ffeature::FeaturePath;
use original::pipeline::probe;
use original::utterance::{ItemId, Utterance};
use original::value::Value;

/// An item of the original.
pub struct Item {
    utterance: Utterance,
    item: ItemId,
    stretch: FeaturePath,
}

impl Item {
    /// An item with the settings of a new store.
    pub fn new() -> Item {
        let mut utterance = Utterance::new();
        let relation = utterance.create_relation("Token");
        let item = utterance.append(relation, None);
        let mut item = Item { utterance, item, stretch: FeaturePath::parse(STRETCH.name) };
        for Known { name, kind, missing, .. } in KNOWN {
            item.set(name, value(kind, missing));
        }
        item
    }

    fn set(&mut self, name: &str, value: Value) {
        self.utterance.set_feature(self.item, name, value);
    }

    /// What it gives back of each value, and what it has when the values that 02 accepts were set, in turn.
    pub fn kept(mut self, steps: &[Step]) -> Vec<(u32, [u32; 5])> {
        let kept = |step: &Step| {
            let value = value(step.kind, step.bits);
            let given_back = match step.kind {
                WHOLE => value.as_i32() as u32,
                _ => value.as_f32().to_bits(),
            };
            if step.is_taken() {
                self.set(step.known().name, value);
            }
            (given_back, self.shown(f32::from_bits(step.show)))
        };
        steps.iter().map(kept).collect()
    }

    fn shown(&self, show: f32) -> [u32; 5] {
        let Item { utterance, item, stretch } = self;
        let [pitch, level] = ["pitch", "level"].map(|name| utterance.feature_i32(*item, name));
        let rack = probe::local_stretch(utterance, *item, stretch, show);
        let stretch = utterance.feature_f32(*item, STRETCH.name);
        [3, pitch as u32, stretch.to_bits(), level as u32, rack.to_bits()]
    }
}

/// A value of the original.
fn value(kind: u32, bits: u32) -> Value {
    match kind {
        WHOLE => Value::Int(bits as i32),
        _ => Value::Float(f32::from_bits(bits)),
    }
}
