//! A file that a program keeps: read, and replaced whole or not at all.

use std::fs::{self, File, Metadata, OpenOptions};
use std::io::{self, ErrorKind, Read, Write};
use std::os::unix::fs::{fchown, MetadataExt, OpenOptionsExt};
use std::path::{Path, PathBuf};
use std::process;

use crate::program::{tell, Fault};

/// The bytes of a file, and how many it has: of one that has more than the most, no more are read than show that.
///
/// # Errors
///
/// It is no file, or cannot be read.
pub fn read(file: &Path, most: usize) -> io::Result<(Vec<u8>, u64)> {
    let length = regular(fs::metadata(file)?)?.len();
    let mut bytes = Vec::new();
    File::open(file)?.take(most as u64 + 1).read_to_end(&mut bytes)?;
    let length = length.max(bytes.len() as u64);
    Ok((bytes, length))
}

/// Whether a name is taken, be it by a link that leads nowhere.
pub fn is_taken(file: &Path) -> bool {
    fs::symlink_metadata(file).is_ok()
}

/// Keeps out who else holds the folder of a file, until what is given is dropped or the process ends. None where the
/// folder cannot be opened, which whoever writes there is told.
pub fn hold(file: &Path) -> Option<File> {
    let place = fs::canonicalize(file);
    let folder = File::open(folder_of(place.as_deref().unwrap_or(file))).ok()?;
    if let Err(error) = folder.lock() {
        let name = file.display();
        tell(format_args!(
            "warning: the folder of {name} cannot be locked: {error}; see that nobody else writes there now"
        ));
    }
    Some(folder)
}

/// Puts bytes in the place of a file, with its owner and permissions, or makes the file. A link stays one, and the file
/// that it leads to is replaced. The program's name is part of the name that the new file has at first.
///
/// # Errors
///
/// Where it fails before the folder is synced, all is as it was.
pub fn replace(program: &str, file: &Path, bytes: &[u8]) -> Result<(), Fault> {
    let name = file.display();
    let folder = put(program, file, bytes)
        .map_err(|error| Fault::Told(format!("cannot write {name}: {error}")))?;
    folder.sync_all().map_err(|error| {
        Fault::Told(format!(
            "{name} is written, and a power cut may undo it: its folder cannot be synced: {error}"
        ))
    })
}

/// Writes bytes beside a file, syncs them, and renames: the folder, which is to be synced.
fn put(program: &str, file: &Path, bytes: &[u8]) -> io::Result<File> {
    let (place, old) = found(file)?;
    let parent = folder_of(&place);
    let folder = File::open(parent)?;
    let (beside, new) = made(program, parent, if old.is_some() { 0o600 } else { 0o666 })?;
    let renamed = filled(new, old, bytes).and_then(|()| fs::rename(&beside, &place));
    if renamed.is_err() {
        let _ = fs::remove_file(&beside);
    }
    renamed.map(|()| folder)
}

fn folder_of(place: &Path) -> &Path {
    let parent = place.parent().filter(|parent| !parent.as_os_str().is_empty());
    parent.unwrap_or(Path::new("."))
}

/// Where a file stands behind its links, and what is there.
fn found(file: &Path) -> io::Result<(PathBuf, Option<Metadata>)> {
    match fs::symlink_metadata(file) {
        Err(error) if error.kind() == ErrorKind::NotFound => return Ok((file.to_path_buf(), None)),
        other => other?,
    };
    let place = fs::canonicalize(file)?;
    let old = regular(fs::metadata(&place)?)?;
    if old.permissions().readonly() {
        return Err(io::Error::other("it is write-protected"));
    }
    Ok((place, Some(old)))
}

/// A new file in a folder, under a name that nothing has.
fn made(program: &str, folder: &Path, mode: u32) -> io::Result<(PathBuf, File)> {
    let mut options = OpenOptions::new();
    options.write(true).create_new(true).mode(mode);
    let mut number = 0;
    loop {
        let path = folder.join(format!(".{program}.{}.{number}", process::id()));
        match options.open(&path) {
            Err(error) if error.kind() == ErrorKind::AlreadyExists => number += 1,
            made => return Ok((path, made?)),
        }
    }
}

/// Refuses folders, pipes and devices.
fn regular(found: Metadata) -> io::Result<Metadata> {
    if found.is_file() {
        Ok(found)
    } else {
        Err(io::Error::other("it is no file"))
    }
}

/// Fills a new file, and makes it like the old one.
fn filled(mut new: File, old: Option<Metadata>, bytes: &[u8]) -> io::Result<()> {
    new.write_all(bytes)?;
    if let Some(old) = old {
        fchown(&new, Some(old.uid()), Some(old.gid()))?;
        new.set_permissions(old.permissions())?;
    }
    new.sync_all()
}
