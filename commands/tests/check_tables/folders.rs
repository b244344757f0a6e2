//! Folders of sections in a place of a test's own, and the program run there.

use std::ffi::OsStr;
use std::fs;
use std::path::{Path, PathBuf};
use std::process::Command;
use std::sync::atomic::{AtomicUsize, Ordering};

use crate::running::{self, Ended};

/// The eight sections of a folder that is fit: "at" and "et", and letters that are all said as ae.
const SMALL: [(&str, &[u8]); 8] = [
    ("lex.phones", b"\x02\0\0\0\x02ae\x01t"),
    ("lex.index", b"\x02\0\0\0\0\0\0\0\x07\0\0\0"),
    ("lex.data", b"0\x02at\x02\0\x010\x02et\x02\0\x01"),
    ("lts.phones", b"\x02\0\0\0\x02ae\x01t"),
    ("lts.index", &[0; 52]),
    ("lts.model", b"\0x\x01\0\x01\0\xff\0\0\0\0\0"),
    ("aswd.p", &[0; 4]),
    ("aswd.s", &[0; 4]),
];

pub const NAMES: [&str; 8] = {
    let mut names = [""; 8];
    let mut i = 0;
    while i < 8 {
        names[i] = SMALL[i].0;
        i += 1;
    }
    names
};

/// The bytes of an English section.
pub fn english_section(name: &str) -> Vec<u8> {
    fs::read(running::english().join(name)).expect("the section is there")
}

/// The number of the next scratch place.
static NEXT: AtomicUsize = AtomicUsize::new(0);

/// A place of a test's own, removed at its end.
pub struct Scratch(PathBuf);

impl Scratch {
    pub fn new() -> Scratch {
        let number = NEXT.fetch_add(1, Ordering::Relaxed);
        let name = format!("check_tables-{}-{number}", std::process::id());
        let place = Path::new(env!("CARGO_TARGET_TMPDIR")).join(name);
        fs::create_dir_all(&place).expect("a folder can be made");
        Scratch(place)
    }

    pub fn path(&self, name: &str) -> PathBuf {
        self.0.join(name)
    }

    /// A folder with the small sections.
    pub fn small(&self, folder: &str) {
        for (name, bytes) in SMALL {
            self.write(folder, name, bytes);
        }
    }

    /// A folder with the small sections, one of them with other bytes.
    pub fn small_with(&self, folder: &str, name: &str, bytes: &[u8]) {
        self.small(folder);
        self.write(folder, name, bytes);
    }

    /// A folder with the English sections, linked, and without checksums.
    pub fn english(&self, folder: &str) {
        fs::create_dir_all(self.path(folder)).expect("a folder can be made");
        for name in NAMES {
            self.link(folder, name);
        }
    }

    pub fn link(&self, folder: &str, name: &str) {
        let link = self.path(folder).join(name);
        std::os::unix::fs::symlink(running::english().join(name), link)
            .expect("a link can be made");
    }

    /// Writes a file anew, also where a link was.
    pub fn write(&self, folder: &str, name: &str, bytes: &[u8]) {
        fs::create_dir_all(self.path(folder)).expect("a folder can be made");
        let file = self.path(folder).join(name);
        if file.is_symlink() {
            self.remove(folder, name);
        }
        fs::write(file, bytes).expect("a file can be written");
    }

    pub fn remove(&self, folder: &str, name: &str) {
        fs::remove_file(self.path(folder).join(name)).expect("the file can go");
    }

    /// Runs the program in this place.
    pub fn run<A: AsRef<OsStr>>(&self, arguments: impl IntoIterator<Item = A>) -> Ended {
        running::run_command(self.command(arguments), "")
    }

    pub fn command<A: AsRef<OsStr>>(&self, arguments: impl IntoIterator<Item = A>) -> Command {
        let arguments: Vec<A> = arguments.into_iter().collect();
        let mut command = running::command(env!("CARGO_BIN_EXE_check_tables"), &arguments);
        command.current_dir(&self.0);
        command
    }
}

impl Drop for Scratch {
    fn drop(&mut self) {
        let _ = fs::remove_dir_all(&self.0);
    }
}

impl Ended {
    /// The line of the output that begins so.
    pub fn line(&self, front: &str) -> &str {
        let found = self.out.lines().find(|line| line.starts_with(front));
        found.unwrap_or_else(|| panic!("no line begins with {front:?}:\n{}", self.out))
    }
}
