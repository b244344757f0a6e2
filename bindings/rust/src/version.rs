use core::fmt;

use crate::phones::Stress;
use crate::refusal::{Refusal, Refused};

/// The version of a [`Sheet`](crate::Sheet), which tells how words are put on it. A word whose phones have no "2"
/// is said alike on both.
///
/// A number that comes from elsewhere is asked for its version:
///
/// ```
/// use pronouncer::{Refusal, SheetVersion};
///
/// assert_eq!(SheetVersion::try_from(2)?, SheetVersion::V2);
/// assert_eq!(SheetVersion::try_from(257).unwrap_err().refusal, Refusal::Version);
/// # Ok::<(), pronouncer::Refused>(())
/// ```
#[derive(Debug, Clone, Copy, PartialEq, Eq, Hash)]
#[non_exhaustive]
pub enum SheetVersion {
    /// 1: a last "0" or "1" of a phone is its stress. "ae2" stays whole, and is no vowel. For readers of sheets
    /// that know no other stress.
    V1,
    /// 2: a last "2" is a stress, too: [`Stress::Secondary`], as CMUdict has it. The usual one.
    V2,
}

impl SheetVersion {
    /// The library's number for it, the same in C and in byte 1 of a sheet.
    pub const fn number(self) -> u32 {
        match self {
            SheetVersion::V1 => 1,
            SheetVersion::V2 => 2,
        }
    }

    /// Whether a syllable may have this stress.
    ///
    /// ```
    /// use pronouncer::{SheetVersion, Stress};
    ///
    /// assert!(!SheetVersion::V1.has_stress(Stress::Secondary));
    /// assert!(SheetVersion::V2.has_stress(Stress::Secondary));
    /// ```
    pub const fn has_stress(self, stress: Stress) -> bool {
        !matches!((self, stress), (SheetVersion::V1, Stress::Secondary))
    }
}

/// Refused with [`Version`](Refusal::Version) for a number that is no version.
impl TryFrom<u32> for SheetVersion {
    type Error = Refused;

    fn try_from(number: u32) -> Result<SheetVersion, Refused> {
        match number {
            1 => Ok(SheetVersion::V1),
            2 => Ok(SheetVersion::V2),
            _ => Err(Refusal::Version.into()),
        }
    }
}

/// Its number.
impl fmt::Display for SheetVersion {
    fn fmt(&self, f: &mut fmt::Formatter<'_>) -> fmt::Result {
        self.number().fmt(f)
    }
}
