//! A rack's file in a folder of a test's own, and the program run there.

use std::fs;
use std::path::PathBuf;
use std::process::Command;

use crate::running::{command_in, folder, names_in, run_command, Ended};

/// The kinds.
pub const WHOLE: u8 = 1;
pub const FLOAT: u8 = 2;

/// A record: the number of the next, a name, a kind and the bits of a value.
pub fn record(next: u16, name: &str, kind: u8, bits: u32) -> Vec<u8> {
    let mut record = vec![0; 32];
    record[..2].copy_from_slice(&next.to_le_bytes());
    record[2] = name.len() as u8;
    record[3..3 + name.len()].copy_from_slice(name.as_bytes());
    record[18] = kind;
    record[19..23].copy_from_slice(&bits.to_le_bytes());
    record
}

/// A store: its version, the number of its first record, and its records from 1 on.
pub fn store(version: u16, first: u16, records: &[Vec<u8>]) -> Vec<u8> {
    let mut store = vec![0; 32];
    store[..2].copy_from_slice(&version.to_le_bytes());
    store[2..4].copy_from_slice(&first.to_le_bytes());
    store.extend(records.concat());
    store
}

/// Pitch 120, stretch 1.5 and level 75, in a store of version 2.
pub fn three() -> Vec<u8> {
    let records = [
        record(2, "pitch", WHOLE, 120),
        record(3, "stretch", FLOAT, 0x3fc0_0000),
        record(0, "level", WHOLE, 75),
    ];
    store(2, 1, &records)
}

/// A folder in which the file `rack` may be.
pub struct Rack(pub PathBuf);

impl Rack {
    /// An empty folder.
    pub fn without(test: &str) -> Rack {
        Rack(folder(&format!("rack_settings_{test}")))
    }

    /// A folder with a file of these bytes.
    pub fn with(test: &str, bytes: impl AsRef<[u8]>) -> Rack {
        let rack = Rack::without(test);
        rack.put(bytes);
        rack
    }

    pub fn file(&self) -> PathBuf {
        self.0.join("rack")
    }

    pub fn put(&self, bytes: impl AsRef<[u8]>) {
        fs::write(self.file(), bytes).expect("it can be written");
    }

    pub fn bytes(&self) -> Vec<u8> {
        fs::read(self.file()).expect("it is there")
    }

    /// The names in the folder.
    pub fn names(&self) -> Vec<String> {
        names_in(&self.0)
    }

    /// The program with arguments, to be run in the folder.
    pub fn command(&self, arguments: &[&str]) -> Command {
        command_in(&self.0, env!("CARGO_BIN_EXE_rack_settings"), arguments)
    }

    /// Runs the program in the folder.
    pub fn run(&self, arguments: &[&str]) -> Ended {
        run_command(self.command(arguments), "")
    }

    /// Runs a line of the shell there; `$0` is the program.
    pub fn shell(&self, line: &str) -> Ended {
        let program = env!("CARGO_BIN_EXE_rack_settings");
        run_command(command_in(&self.0, "sh", &["-c", line, program]), "")
    }
}
