//! The original sources, unchanged (the build step copies and names them), and stubs of our own for
//! the files that are not at hand.

include!(concat!(env!("OUT_DIR"), "/originals.rs"));

pub mod lang;
pub mod normalize;
pub mod text;
pub mod voice;
