//! The folder of tables.

use std::env;
use std::ffi::{OsStr, OsString};

/// The folder that is told, else the one that PRONOUNCER_TABLES names, else the English one.
pub fn folder(told: Option<&OsStr>) -> OsString {
    let usual = env::var_os("PRONOUNCER_TABLES").filter(|folder| !folder.is_empty());
    let told = told.map(OsStr::to_owned).or(usual);
    told.unwrap_or("tables/english/sections".into())
}
