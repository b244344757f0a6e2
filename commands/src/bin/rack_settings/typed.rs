//! Values as they are typed and shown.

use pronouncer::Setting;

use crate::known::{Known, Range};

/// The nearest float; of two as near, the one whose last bit is 0. A plus in front is not taken: it may mean "more".
pub fn real(text: &str) -> Option<f32> {
    text.parse().ok().filter(|_| !text.starts_with('+'))
}

/// A value to write to a setting: a float where it takes one, else a whole number if it is one.
pub fn value(text: &str, known: Option<&Known>) -> Option<Setting> {
    let real = Setting::Real(real(text)?);
    match known.map(|known| &known.range) {
        Some(Range::Real(..)) => Some(real),
        _ => Some(text.parse().map_or(real, Setting::Whole)),
    }
}

/// A float by the shortest decimal that reads back to the same bits, with the bits beside it.
pub fn shown(value: Setting) -> String {
    match value {
        Setting::Whole(value) => value.to_string(),
        Setting::Real(value) => format!("{value:?} ({:08x})", value.to_bits()),
    }
}
