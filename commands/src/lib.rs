//! What the programs share: the command line, what ends a program and with which status, words for each refusal, typed
//! words, texts of entries, stores, files that are replaced whole, and numbers in bytes.
//!
//! A program's own code stands in its folder, `src/bin/NAME/`.

#![forbid(unsafe_code)]
#![warn(missing_docs)]

pub mod entries;
pub mod file;
pub mod numbers;
pub mod options;
pub mod program;
pub mod refusals;
pub mod stores;
pub mod tables;
pub mod typed;
