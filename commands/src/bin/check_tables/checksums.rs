//! The file of checksums beside the sections, as `tables/make` and `tables/from_flite` write it: a line `CRC32HEX NAME` for
//! each.

use std::path::Path;

use pronouncer::SECTION_NAMES;

use crate::report::{Kind, Place, Report};

pub const FILE: &str = "checksums";

/// What is added to a sum for each byte: CRC-32 as zlib and IEEE 802.3 have it.
const TABLE: [u32; 256] = {
    let mut table = [0; 256];
    let mut byte = 0;
    while byte < 256 {
        let mut sum = byte as u32;
        let mut bit = 0;
        while bit < 8 {
            sum = if sum & 1 == 1 { sum >> 1 ^ 0xedb8_8320 } else { sum >> 1 };
            bit += 1;
        }
        table[byte] = sum;
        byte += 1;
    }
    table
};

/// The checksum of bytes.
pub fn crc32(bytes: &[u8]) -> u32 {
    let add = |sum: u32, &byte: &u8| sum >> 8 ^ TABLE[usize::from(sum as u8 ^ byte)];
    !bytes.iter().fold(u32::MAX, add)
}

/// A line: a checksum and the name of a section.
fn parse(line: &str) -> Option<(u32, &'static str)> {
    let (digits, name) = line.split_once(' ')?;
    let is_digit = |c: char| matches!(c, '0'..='9' | 'a'..='f');
    if digits.len() != 8 || !digits.chars().all(is_digit) {
        return None;
    }
    let name = SECTION_NAMES.into_iter().find(|known| *known == name)?;
    Some((u32::from_str_radix(digits, 16).ok()?, name))
}

/// Holds sections to the file of checksums where the folder has one. `sums` are those of the sections that could be read.
pub fn check(folder: &Path, sums: &[(&'static str, u32)], report: &mut Report) {
    let before = report.faults().count();
    match crate::folder::read(folder, FILE) {
        Ok(text) => check_lines(&String::from_utf8_lossy(&text), sums, report),
        Err(error) if error.is_missing() => {
            report.note(FILE, "there is no such file, so that a changed bit may go unseen");
            return;
        }
        Err(error) => report.fault(Kind::Missing, Place::of(FILE), error.sentence()),
    }
    if report.faults().count() == before {
        let sentence = match sums.len() {
            8 => "all eight sections match",
            _ => "every section that could be read matches",
        };
        report.note(FILE, sentence);
    }
}

/// Compares each section with its line, up to a line that is damaged.
fn check_lines(text: &str, sums: &[(&'static str, u32)], report: &mut Report) {
    let mut listed = Vec::new();
    for (i, line) in text.lines().enumerate() {
        let Some((sum, name)) = parse(line).filter(|(_, name)| !listed.contains(name)) else {
            let sentence = format!(
                "line {} is damaged: expected 8 hexadecimal digits, a blank and the name of another section",
                i + 1
            );
            report.fault(Kind::Checksum, Place::of(FILE), sentence);
            return;
        };
        listed.push(name);
        compare(name, sum, sums, report);
    }
    if let Some(name) = SECTION_NAMES.into_iter().find(|name| !listed.contains(name)) {
        let sentence = format!("has no line for {name}: expected one for each of the eight");
        report.fault(Kind::Checksum, Place::of(FILE), sentence);
    }
}

fn compare(name: &'static str, listed: u32, sums: &[(&'static str, u32)], report: &mut Report) {
    if let Some((_, sum)) = sums.iter().find(|(read, sum)| *read == name && *sum != listed) {
        let sentence = format!(
            "its checksum is {sum:08x}: expected {listed:08x}, as the file {FILE} has it; take a whole copy of both"
        );
        report.fault(Kind::Checksum, Place::of(name), sentence);
    }
}

#[cfg(test)]
mod tests {
    use super::*;

    #[test]
    fn checksums_are_those_of_zlib() {
        assert_eq!(crc32(b""), 0);
        assert_eq!(crc32(b"123456789"), 0xcbf4_3926);
        assert_eq!(crc32(b"\0\0\0\0"), 0x2144_df1c);
    }
}
