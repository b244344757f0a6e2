//! A single changed bit of the English sections is told.

use crate::folders::{english_section, Scratch, NAMES};

/// How many bits of each section are changed.
const CHANGES: usize = 50;

/// A folder with the bit changed, its other files linked.
fn change(scratch: &Scratch, folder: &str, name: &str, bit: usize) {
    let mut section = english_section(name);
    section[bit / 8] ^= 1 << (bit % 8);
    scratch.english(folder);
    scratch.link(folder, "checksums");
    scratch.write(folder, name, &section);
}

#[test]
fn every_changed_bit_is_told() {
    let scratch = Scratch::new();
    let mut folders = Vec::new();
    for name in NAMES {
        let bits = 8 * english_section(name).len();
        for i in 0..CHANGES {
            let folder = format!("{name}-{i}");
            change(&scratch, &folder, name, i * (bits - 1) / (CHANGES - 1));
            folders.push((folder, name));
        }
    }
    let ran = scratch.run(folders.iter().map(|(folder, _)| folder));
    assert_eq!((ran.err.as_str(), ran.status), ("", Some(1)));
    let mut reports = ran.out.split("\n\n");
    for (folder, name) in folders {
        let report = reports.next().expect("each folder has a report");
        assert!(report.starts_with(&format!("{folder}: not fit for the show: ")), "{report}");
        assert!(report.contains(&format!("\n{name}: its checksum is ")), "{report}");
    }
}
