use crate::refusal::Refused;
use crate::{foreign, unsound};

/// The value of a setting.
///
/// ```
/// use pronouncer::Setting;
///
/// assert_eq!((Setting::Whole(-1).kind(), Setting::Whole(-1).bits()), (1, 0xffff_ffff));
/// assert_eq!((Setting::Real(1.0).kind(), Setting::Real(1.0).bits()), (2, 0x3f80_0000));
/// ```
#[derive(Debug, Clone, Copy, PartialEq)]
pub enum Setting {
    /// A whole number: of pitch and of level.
    Whole(i32),
    /// A float: of stretch.
    Real(f32),
}

impl Setting {
    /// The number of its kind, the same in C and in a record.
    pub const fn kind(self) -> u32 {
        match self {
            Setting::Whole(_) => 1,
            Setting::Real(_) => 2,
        }
    }

    /// Its 32 bits, which a record holds in little-endian order.
    pub const fn bits(self) -> u32 {
        match self {
            Setting::Whole(number) => number as u32,
            Setting::Real(number) => number.to_bits(),
        }
    }
}

/// What a rack's settings show to a reader, those without a record too.
#[derive(Debug, Clone, Copy, PartialEq)]
#[non_exhaustive]
pub struct Settings {
    /// 50 to 400; 100 without a record.
    pub pitch: i32,
    /// 0.25 to 4.0; 1.0 without a record.
    pub stretch: f32,
    /// 0 to 100, and 80 without a record; none to a reader of version 1.
    pub level: Option<i32>,
    /// The rack's stretch: `stretch` times the show's, rounded once; 0.0625 to 16.0.
    pub rack: f32,
}

/// Reads settings for a reader of version 1 or 2, in a show that has this stretch.
///
/// The version is the reader's, and decides which settings are known: pitch and stretch, and in version 2 level
/// too. One that is not known may have any value. `docs/FORMATS.md` tells the layout; [`example::SETTINGS`] are
/// some to begin with.
///
/// # Errors
///
/// [`Unsound`](crate::Refusal::Unsound) if the bytes are not 32 to 65,536,
/// [`Version`](crate::Refusal::Version) for the reader's or that of the bytes,
/// [`Records`](crate::Refusal::Records), [`Range`](crate::Refusal::Range) for a known setting or for a show's
/// stretch that is not 0.25 to 4.0.
///
/// ```
/// use pronouncer::{example, read_settings, Refusal};
///
/// let rack = read_settings(&example::SETTINGS, 2, 0.5)?;
/// assert_eq!((rack.pitch, rack.stretch, rack.level, rack.rack), (120, 1.25, Some(75), 0.625));
///
/// assert_eq!(read_settings(&example::SETTINGS, 1, 0.5)?.level, None);
///
/// let refused = read_settings(&example::SETTINGS, 2, f32::NAN).unwrap_err();
/// assert_eq!(refused.refusal, Refusal::Range);
/// # Ok::<(), pronouncer::Refused>(())
/// ```
///
/// [`example::SETTINGS`]: crate::example::SETTINGS
pub fn read_settings(settings: &[u8], version: u32, show: f32) -> Result<Settings, Refused> {
    let shown = foreign::read_settings(settings, version, show).accepted();
    let shown = shown.map_err(|refused| refused.because(|| unsound::in_settings(settings)))?;
    Ok(Settings {
        pitch: shown.pitch,
        stretch: shown.stretch,
        level: (shown.count == 3).then_some(shown.level),
        rack: shown.rack,
    })
}

/// Writes a setting that a reader of version 1 or 2 knows and that has a record: its four value bytes, and no
/// other byte.
///
/// # Errors
///
/// As [`read_settings`]; also [`Records`](crate::Refusal::Records) for a name that the version does not know or
/// that has no record, and [`Range`](crate::Refusal::Range) for the value. What a known setting holds before the
/// write must be in its range, the named one too: no write mends settings, so write new ones then.
///
/// ```
/// use pronouncer::{example, read_settings, write_setting, Refusal, Setting};
///
/// let mut settings = example::SETTINGS;
/// write_setting(&mut settings, 2, "pitch", Setting::Whole(180))?;
/// write_setting(&mut settings, 2, "stretch", Setting::Real(0.75))?;
/// let rack = read_settings(&settings, 2, 1.0)?;
/// assert_eq!((rack.pitch, rack.rack), (180, 0.75));
///
/// let refused = write_setting(&mut settings, 2, "pitch", Setting::Real(180.0)).unwrap_err();
/// assert_eq!(refused.refusal, Refusal::Range);
/// let refused = write_setting(&mut settings, 1, "level", Setting::Whole(50)).unwrap_err();
/// assert_eq!(refused.refusal, Refusal::Records);
/// # Ok::<(), pronouncer::Refused>(())
/// ```
pub fn write_setting(
    settings: &mut [u8],
    version: u32,
    name: impl AsRef<[u8]>,
    value: Setting,
) -> Result<(), Refused> {
    foreign::write_setting(settings, version, name.as_ref(), value.kind(), value.bits())
        .accepted_on(|| unsound::in_settings(settings))?;
    Ok(())
}
