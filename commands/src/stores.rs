//! Stores of added entries, in files.

use std::io::{self, ErrorKind};
use std::path::Path;

use pronouncer::{Lexicon, Refusal, Store, Unsound, LARGEST_BYTES};

use crate::file;
use crate::program::Fault;

/// Tables without entries: a lookup there tells of the store alone.
const NONE: Lexicon = Lexicon { phones: &[0; 4], index: &[0; 4], data: b"" };

/// What to do about a file that is no store.
const ANOTHER: &str =
    "Take a whole copy of the file, or begin another store (names OTHER_FILE new).";

/// The bytes of a store without entries, as large as a store may be.
///
/// # Errors
///
/// The library refuses.
pub fn new() -> Result<Vec<u8>, Fault> {
    let mut bytes = vec![0; LARGEST_BYTES];
    Store::new_store(&mut bytes).map_err(|refused| Fault::Told(refused.to_string()))?;
    Ok(bytes)
}

/// The bytes of a file that holds a sound store.
///
/// # Errors
///
/// The file cannot be read, or holds no sound store.
pub fn read(file: &Path) -> Result<Vec<u8>, Fault> {
    let (mut bytes, length) =
        file::read(file, LARGEST_BYTES).map_err(|error| Fault::Told(unread(file, &error)))?;
    let found = NONE.lookup(&Store::over(&mut bytes), "", "", &mut []);
    let Some(refused) = found.err().filter(|refused| refused.refusal == Refusal::Unsound) else {
        return Ok(bytes);
    };
    let why = match refused.unsound {
        Some(Unsound::StoreLength(_)) => {
            format!("it has {length} bytes, and a store has 512 to 65,536, a multiple of 512")
        }
        _ => "its bytes are not as a store has them".into(),
    };
    Err(Fault::Told(format!("{} is refused: 2, {why}. {ANOTHER}", file.display())))
}

fn unread(file: &Path, error: &io::Error) -> String {
    let name = file.display();
    if error.kind() == ErrorKind::NotFound && !file::is_taken(file) {
        return format!("there is no {name}: begin a store there (names {name} new)");
    }
    format!("cannot read {name}: {error}")
}
