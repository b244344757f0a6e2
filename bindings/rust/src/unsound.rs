use core::fmt;

use crate::foreign::{self, Answer};
use crate::items::{Items, VERSION};
use crate::phones::Stress;
use crate::refusal::{Refusal, Refused};
use crate::version::SheetVersion;
use crate::{ITEM_BYTES, LARGEST_BYTES, RECORD_BYTES, SLOT_BYTES};

/// Which of its causes a refusal by [`Unsound`](Refusal::Unsound) has: the first that applies.
///
/// ```
/// use pronouncer::{Store, Unsound};
///
/// let refused = Store::new_store(&mut [0; 1000]).unwrap_err();
/// assert_eq!(refused.unsound, Some(Unsound::StoreLength(1000)));
/// assert_eq!(
///     refused.to_string(),
///     "the store has 1000 bytes (refusal 2); lend 512 to 65,536, a multiple of 512"
/// );
/// ```
#[derive(Debug, Clone, Copy, PartialEq, Eq, Hash)]
#[non_exhaustive]
pub enum Unsound {
    /// The store has so many bytes, which are not 512 to 65,536 or no multiple of 512.
    StoreLength(usize),
    /// The store's length is right and its bytes are not: they are not what the calls wrote.
    StoreBytes,
    /// The sheet has so many bytes, which are not 64 to 65,536.
    SheetLength(usize),
    /// The sheet's length is right and its version is 0: it was made by an earlier library, which knew no versions,
    /// or was never begun.
    SheetUnversioned,
    /// The sheet has another version that this library does not know: it was made by a later one, or is no sheet.
    SheetVersion(u8),
    /// A syllable has the stress "2", which the sheet's version, this one, has not.
    SheetStress(SheetVersion),
    /// The sheet's length and version are right and its bytes are not: they are not what the calls wrote.
    SheetBytes,
    /// The spare is not as long as the store.
    SpareLength {
        /// Bytes of the store.
        store: usize,
        /// Bytes of the spare.
        spare: usize,
    },
    /// The spare is as long as the store and its bytes are no sound store: they are not what a preview wrote.
    SpareBytes,
    /// The settings have so many bytes, which are not 32 to 65,536.
    SettingsLength(usize),
}

impl Unsound {
    /// What to do.
    pub fn cure(self) -> &'static str {
        match self {
            Unsound::StoreLength(_) => "lend 512 to 65,536, a multiple of 512",
            Unsound::StoreBytes => "begin it with new_store, and let only calls write it",
            Unsound::SheetLength(_) => "lend 64 to 65,536",
            Unsound::SheetUnversioned => "begin a new sheet with new_sheet",
            Unsound::SheetVersion(_) => "begin a new sheet, or use the library that made it",
            Unsound::SheetStress(_) => {
                "begin a new sheet of version 2, and let only calls write it"
            }
            Unsound::SheetBytes => "begin it with new_sheet, and let only calls write it",
            Unsound::SpareLength { .. } => "lend a spare as long as the store",
            Unsound::SpareBytes => "preview the text again, and let only calls write the spare",
            Unsound::SettingsLength(_) => "lend 32 to 65,536",
        }
    }
}

/// What is wrong.
impl fmt::Display for Unsound {
    fn fmt(&self, f: &mut fmt::Formatter<'_>) -> fmt::Result {
        match self {
            Unsound::StoreLength(bytes) => write!(f, "the store has {bytes} bytes"),
            Unsound::StoreBytes => {
                f.write_str("the store was never begun, or somebody else wrote into it")
            }
            Unsound::SheetLength(bytes) => write!(f, "the sheet has {bytes} bytes"),
            Unsound::SheetUnversioned => {
                f.write_str("the sheet was made by an earlier library, or was never begun")
            }
            Unsound::SheetVersion(version) => write!(
                f,
                "the sheet has the unknown version {version}: it was made by a later library, or is no sheet"
            ),
            Unsound::SheetStress(version) => {
                write!(f, "a syllable has the stress 2, which version {version} of a sheet has not")
            }
            Unsound::SheetBytes => {
                f.write_str("the sheet was never begun, or somebody else wrote into it")
            }
            Unsound::SpareLength { store, spare } => {
                write!(f, "the spare has {spare} bytes and the store {store}")
            }
            Unsound::SpareBytes => {
                f.write_str("the spare was never filled, or somebody else wrote into it")
            }
            Unsound::SettingsLength(bytes) => write!(f, "the settings have {bytes} bytes"),
        }
    }
}

impl Refused {
    /// With the cause of a refusal by 2, which `find` tells.
    pub(crate) fn because(self, find: impl FnOnce() -> Option<Unsound>) -> Refused {
        match self.refusal {
            Refusal::Unsound => Refused { unsound: find(), ..self },
            _ => self,
        }
    }
}

impl Answer {
    /// The answer of an accepted call on a store or a sheet; `find` tells the cause of a refusal by 2.
    pub fn accepted_on(self, find: impl FnOnce() -> Option<Unsound>) -> Result<Answer, Refused> {
        self.accepted().map_err(|refused| refused.because(find))
    }
}

/// A section without phones, or without entries.
const NONE: &[u8] = &[0; 4];

/// Why bytes are no sound store.
pub fn in_store(bytes: &[u8]) -> Option<Unsound> {
    let length = bytes.len();
    if length == 0 || length > LARGEST_BYTES || length % SLOT_BYTES != 0 {
        return Some(Unsound::StoreLength(length));
    }
    (!is_sound(bytes)).then_some(Unsound::StoreBytes)
}

/// Whether bytes are a sound store, which a lookup tells.
fn is_sound(bytes: &[u8]) -> bool {
    !is_refused(foreign::lookup([NONE, NONE, b""], bytes, b"", b"", &mut []))
}

/// Why bytes are no sound sheet. Whether they are, a phone string tells.
pub fn in_sheet(bytes: &[u8]) -> Option<Unsound> {
    let length = bytes.len();
    if !(ITEM_BYTES..=LARGEST_BYTES).contains(&length) {
        return Some(Unsound::SheetLength(length));
    }
    is_refused(foreign::phone_string(bytes, &mut [])).then(|| in_items(bytes))
}

/// Why bytes as many as a sheet has are no sound one.
fn in_items(bytes: &[u8]) -> Unsound {
    let number = bytes[VERSION];
    let Ok(version) = SheetVersion::try_from(u32::from(number)) else {
        return match number {
            0 => Unsound::SheetUnversioned,
            _ => Unsound::SheetVersion(number),
        };
    };
    if !version.has_stress(Stress::Secondary) && Items::of(bytes).have_stress(b'2') {
        return Unsound::SheetStress(version);
    }
    Unsound::SheetBytes
}

/// Why a store is refused, or its spare, which may hold anything.
pub fn in_spare(store: &[u8], spare: &[u8]) -> Option<Unsound> {
    in_store(store).or_else(|| {
        let (store, spare) = (store.len(), spare.len());
        (store != spare).then_some(Unsound::SpareLength { store, spare })
    })
}

/// Why a store is refused, or its spare, which is to be accepted.
pub fn in_filled_spare(store: &[u8], spare: &[u8]) -> Option<Unsound> {
    in_spare(store, spare).or_else(|| (!is_sound(spare)).then_some(Unsound::SpareBytes))
}

/// Why settings are refused by 2, which their length alone decides.
pub fn in_settings(bytes: &[u8]) -> Option<Unsound> {
    let length = bytes.len();
    let is_wrong = !(RECORD_BYTES..=LARGEST_BYTES).contains(&length);
    is_wrong.then_some(Unsound::SettingsLength(length))
}

/// By 2.
fn is_refused(answer: Answer) -> bool {
    answer.refusal == Refusal::Unsound.number()
}
