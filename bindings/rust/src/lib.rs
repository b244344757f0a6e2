//! The pronouncer: which phones a word has, cut into syllables, on a sheet; and the voice settings of a rack.
//! Fifteen calls of a library that is written in Rattle and proved; this crate is plain Rust around it.
//!
//! Tables are handed over as borrowed sections ([`Lexicon`], [`Letters`], [`Sayable`]), entries are added to
//! a lent [`Store`], words are said onto a lent [`Sheet`], settings are read from lent bytes and written there.
//! No call allocates, and nothing is kept between calls but the bytes that were lent. Every call takes any
//! bytes, also those of a stranger's file: it answers, or it is [`Refused`] and leaves every lent byte as it
//! was, but for the spare of [`Store::add_entries`] and [`Store::preview_entries`].
//!
//! ```
//! use pronouncer::{example, Sheet, SheetVersion, Store};
//!
//! // A show's tables come from files; these are a few words to try the calls with.
//! let (lexicon, letters) = (example::LEXICON, example::LETTERS);
//!
//! let mut slots = [0; 16 * pronouncer::SLOT_BYTES];
//! let mut spare = [0; 16 * pronouncer::SLOT_BYTES];
//! let mut store = Store::new_store(&mut slots)?;
//! store.add_entries(&lexicon, &mut spare, "tormentor n : t ao0 r m eh1 n t er0")?;
//!
//! let mut items = [0; 256 * pronouncer::ITEM_BYTES];
//! let mut sheet = Sheet::new_sheet(&mut items, SheetVersion::V2)?;
//! for word in "lead tormentor".split(' ') {
//!     sheet.say_word(&lexicon, &letters, &store, word, "n")?;
//! }
//!
//! let mut out = [0; 256];
//! assert_eq!(sheet.phone_string(&mut out)?, "l eh d t ao r m eh n t er");
//! assert_eq!(sheet.words().map(|word| word.syllables().count()).collect::<Vec<_>>(), [1, 3]);
//! # Ok::<(), pronouncer::Refused>(())
//! ```
//!
//! | call | here |
//! |---|---|
//! | `check_lexicon` | [`Lexicon::check_lexicon`] |
//! | `lookup` | [`Lexicon::lookup`] |
//! | `predict` | [`Letters::predict`] |
//! | `syllabify` | [`PhoneList::syllabify`] |
//! | `is_sayable` | [`Sayable::is_sayable`] |
//! | `new_store` | [`Store::new_store`] |
//! | `add_entry` | [`Store::add_entry`] |
//! | `add_entries` | [`Store::add_entries`] |
//! | `preview_entries` | [`Store::preview_entries`] |
//! | `accept_entries` | [`Preview::accept`], [`Store::accept_entries`] |
//! | `new_sheet` | [`Sheet::new_sheet`] |
//! | `say_word` | [`Sheet::say_word`] |
//! | `phone_string` | [`Sheet::phone_string`] |
//! | `read_settings` | [`read_settings`] |
//! | `write_setting` | [`write_setting`] |
//!
//! With the feature `std` the crate also reads a folder of sections (`Tables`); else it is `no_std`.
//!
//! The layout of sections, store, sheet and settings is told in `docs/FORMATS.md`. The library links into
//! x86-64 programs.

#![no_std]
#![forbid(unsafe_op_in_unsafe_fn)]
#![deny(unsafe_code)]
#![warn(missing_docs, missing_debug_implementations)]

#[cfg(feature = "std")]
extern crate std;

// The example of bindings/README.md runs as a test, too.
#[cfg(doctest)]
#[doc = include_str!("../../README.md")]
struct Readme;

mod entries;
pub mod example;
#[allow(unsafe_code)]
mod foreign;
mod items;
mod phones;
mod preview;
mod refusal;
mod sections;
mod settings;
mod sheet;
mod store;
#[cfg(feature = "std")]
mod tables;
mod unsound;
mod version;

pub use entries::{Entries, Entry};
pub use phones::{is_vowel, split_stress, ListedPhones, PhoneList, Stress};
pub use preview::Preview;
pub use refusal::{Refusal, Refused};
pub use sections::{Found, Letters, Lexicon, Predicted, Sayable, Source};
pub use settings::{read_settings, write_setting, Setting, Settings};
pub use sheet::{Phones, Said, Sheet, Syllable, Syllables, Word, WordSource, Words};
pub use store::Store;
#[cfg(feature = "std")]
pub use tables::{read_section, Tables, TablesError, SECTION_NAMES};
pub use unsound::Unsound;
pub use version::SheetVersion;

/// Bytes of a slot of the store.
pub const SLOT_BYTES: usize = 512;

/// Bytes of an item of the sheet.
pub const ITEM_BYTES: usize = 64;

/// Bytes of a record of the settings.
pub const RECORD_BYTES: usize = 32;

/// Bytes of a phone in a list.
pub const CELL_BYTES: usize = 16;

/// Bytes of the largest store, of the largest sheet and of the largest settings.
pub const LARGEST_BYTES: usize = 65_536;

/// Bytes of the longest name of a setting.
pub const NAME_BYTES: usize = 15;

/// Bytes of the longest word and of the longest tag.
pub const WORD_BYTES: usize = 47;

/// Bytes of the longest phone.
pub const PHONE_BYTES: usize = 15;

/// Phones of the longest entry that can be added.
pub const ENTRY_PHONES: usize = 24;

/// Phones of the longest phone list.
pub const LIST_PHONES: usize = 96;

/// Bytes of the longest phone list: an output of this length is never too short.
pub const LIST_BYTES: usize = LIST_PHONES * CELL_BYTES;
