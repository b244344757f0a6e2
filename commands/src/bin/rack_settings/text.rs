//! A store in lines, for people.

use std::io::{self, Write};

use pronouncer::{Setting, Settings};

use crate::known;
use crate::store;
use crate::typed::shown;

/// Writes what the library told a reader of a store, with the show's stretch.
pub fn write(
    store: &[u8],
    reader: u32,
    show: f32,
    settings: &Settings,
    out: &mut dyn Write,
) -> io::Result<()> {
    let version = store::version(store).unwrap_or(0);
    writeln!(out, "version {version}, reader {reader}")?;
    let chain = store::chain(store).unwrap_or_default(); // one that was read does not break
    let (pitch, stretch) = (Setting::Whole(settings.pitch), Setting::Real(settings.stretch));
    let values = [Some(pitch), Some(stretch), settings.level.map(Setting::Whole)];
    for (known, value) in known::of_version(reader).zip(values.into_iter().flatten()) {
        let record = store::find(&chain, known);
        let kept =
            record.map_or("no record: the default".into(), |it| format!("record {}", it.number));
        writeln!(out, "{} {}, {kept}", known.name, shown(value))?;
    }
    let (rack, show) = (shown(Setting::Real(settings.rack)), shown(Setting::Real(show)));
    writeln!(out, "rack's stretch {rack}, show's {show}")
}
