//! The settings that a version knows: kind, range, and what each is without a record.

use std::fmt;

use pronouncer::Setting;

/// A setting by its name.
#[derive(Debug)]
pub struct Known {
    pub name: &'static str,
    /// The first version that knows it.
    pub since: u32,
    pub range: Range,
    /// Its value where no record has one.
    pub missing: Setting,
}

/// From the least value to the greatest.
#[derive(Debug)]
pub enum Range {
    Whole(i32, i32),
    Real(f32, f32),
}

/// All of them, in the order in which they are shown.
const ALL: [Known; 3] = [
    Known { name: "pitch", since: 1, range: Range::Whole(50, 400), missing: Setting::Whole(100) },
    Known { name: "stretch", since: 1, range: STRETCH, missing: Setting::Real(1.0) },
    Known { name: "level", since: 2, range: Range::Whole(0, 100), missing: Setting::Whole(80) },
];

/// The latest version.
pub const LATEST: u32 = 2;

/// The range of every stretch, the show's too.
pub const STRETCH: Range = Range::Real(0.25, 4.0);

/// The settings of a version.
pub fn of_version(version: u32) -> impl Iterator<Item = &'static Known> {
    ALL.iter().filter(move |known| known.since <= version)
}

/// The setting of a name that a version knows.
pub fn named(version: u32, name: &[u8]) -> Option<&'static Known> {
    of_version(version).find(|known| known.name.as_bytes() == name)
}

impl Range {
    /// Whether a value is of this kind and range; a NaN is in none.
    pub fn has(&self, value: Setting) -> bool {
        match (self, value) {
            (Range::Whole(least, most), Setting::Whole(value)) => (least..=most).contains(&&value),
            (Range::Real(least, most), Setting::Real(value)) => (least..=most).contains(&&value),
            _ => false,
        }
    }
}

impl fmt::Display for Range {
    fn fmt(&self, f: &mut fmt::Formatter<'_>) -> fmt::Result {
        match self {
            Range::Whole(least, most) => write!(f, "a whole number from {least} to {most}"),
            Range::Real(least, most) => write!(f, "a float from {least:?} to {most:?}"),
        }
    }
}
