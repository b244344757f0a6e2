//! A store's file in a folder of a test's own, and the program run there.

use std::fs;
use std::path::{Path, PathBuf};
use std::process::Command;

use crate::running::{command_in, folder, names_in, run_command, Ended};

/// The bytes of the largest store.
pub const LARGEST: usize = 65_536;

/// A slot: the number of the next, a tag, a word, and phones with a blank between two.
pub fn slot(next: u16, tag: u8, word: &str, phones: &str) -> Vec<u8> {
    let mut slot = vec![0; 512];
    slot[..2].copy_from_slice(&next.to_le_bytes());
    slot[2] = tag;
    slot[3] = word.len() as u8;
    slot[4..4 + word.len()].copy_from_slice(word.as_bytes());
    for (place, phone) in phones.split_whitespace().enumerate() {
        slot[51] += 1;
        let cell = &mut slot[64 + 16 * place..];
        cell[0] = phone.len() as u8;
        cell[1..=phone.len()].copy_from_slice(phone.as_bytes());
    }
    slot
}

/// The slot of an exact entry.
pub fn exact(next: u16, tag: u8, word: &str, phones: &str) -> Vec<u8> {
    let mut slot = slot(next, tag, word, phones);
    slot[52] = 1;
    slot
}

/// A store of so many bytes: its count, the numbers of the first and the last slot of the chain, and the used slots.
pub fn store(length: usize, count: u64, ends: (u16, u16), slots: &[Vec<u8>]) -> Vec<u8> {
    let mut store = vec![0; 512];
    store[..2].copy_from_slice(&ends.0.to_le_bytes());
    store[2..4].copy_from_slice(&ends.1.to_le_bytes());
    store[4..6].copy_from_slice(&(slots.len() as u16).to_le_bytes());
    store[8..16].copy_from_slice(&count.to_le_bytes());
    store.extend(slots.concat());
    store.resize(length, 0);
    store
}

pub const IRIS: &str = "ay1 r ih0 s";
pub const LIGETI: &str = "l ih1 g eh0 t iy0";

/// Iris with the tag n and Ligeti without one, in the largest store.
pub fn two() -> Vec<u8> {
    counted(2)
}

/// The same with another count.
pub fn counted(count: u64) -> Vec<u8> {
    let slots = [slot(2, b'n', "iris", IRIS), slot(0, b'0', "ligeti", LIGETI)];
    store(LARGEST, count, (1, 2), &slots)
}

/// What `list` tells of them.
pub const TWO: &str = "iris/n: ay1 r ih0 s\nligeti/0: l ih1 g eh0 t iy0\n";

/// A folder in which the file `kept` may be.
pub struct Shelf(pub PathBuf);

impl Shelf {
    /// An empty folder.
    pub fn without(test: &str) -> Shelf {
        Shelf(folder(&format!("names_{test}")))
    }

    /// A folder with a file of these bytes.
    pub fn with(test: &str, bytes: impl AsRef<[u8]>) -> Shelf {
        let shelf = Shelf::without(test);
        shelf.put("kept", bytes);
        shelf
    }

    pub fn file(&self) -> PathBuf {
        self.0.join("kept")
    }

    pub fn put(&self, name: impl AsRef<Path>, bytes: impl AsRef<[u8]>) {
        fs::write(self.0.join(name), bytes).expect("it can be written");
    }

    pub fn bytes(&self) -> Vec<u8> {
        fs::read(self.file()).expect("it is there")
    }

    /// Sees that the file has these bytes.
    pub fn holds(&self, bytes: impl AsRef<[u8]>) {
        let (found, bytes) = (self.bytes(), bytes.as_ref());
        let at = found.iter().zip(bytes).position(|(found, byte)| found != byte);
        let lengths = (found.len(), bytes.len());
        assert!(found == bytes, "other bytes, first at {at:?}; lengths {lengths:?}");
    }

    /// The names in the folder.
    pub fn names(&self) -> Vec<String> {
        names_in(&self.0)
    }

    /// The program with arguments, to be run in the folder.
    pub fn command(&self, arguments: &[&str]) -> Command {
        command_in(&self.0, env!("CARGO_BIN_EXE_names"), arguments)
    }

    /// Runs the program in the folder.
    pub fn run(&self, arguments: &[&str]) -> Ended {
        run_command(self.command(arguments), "")
    }

    /// Runs say in the folder.
    pub fn say(&self, arguments: &[&str]) -> Ended {
        run_command(command_in(&self.0, env!("CARGO_BIN_EXE_say"), arguments), "")
    }

    /// Runs a line of the shell there; `$0` is the program.
    pub fn shell(&self, line: &str) -> Ended {
        run_command(command_in(&self.0, "sh", &["-c", line, env!("CARGO_BIN_EXE_names")]), "")
    }
}
