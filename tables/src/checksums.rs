//! The file of checksums beside the sections: a line `CRC32HEX NAME` for each, by which `check_tables` tells a changed bit.

pub const FILE: &str = "checksums";

/// The polynomial of zlib and IEEE 802.3, its bits mirrored.
const POLYNOMIAL: u32 = 0xedb8_8320;

/// The text of the file.
pub fn text(files: &[(&'static str, Vec<u8>)]) -> String {
    let lines = files.iter();
    lines.map(|(name, bytes)| format!("{:08x} {name}\n", crc32(bytes))).collect()
}

/// The CRC-32 of bytes.
fn crc32(bytes: &[u8]) -> u32 {
    !bytes.iter().fold(u32::MAX, |sum, &byte| with_byte(sum, byte))
}

fn with_byte(sum: u32, byte: u8) -> u32 {
    (0..8).fold(sum ^ u32::from(byte), |sum, _| match sum & 1 {
        1 => sum >> 1 ^ POLYNOMIAL,
        _ => sum >> 1,
    })
}

#[cfg(test)]
mod tests {
    use super::*;

    #[test]
    fn checksums_are_those_of_zlib() {
        assert_eq!(crc32(b""), 0);
        assert_eq!(crc32(b"123456789"), 0xcbf4_3926);
        assert_eq!(crc32(b"\0\0\0\0"), 0x2144_df1c);
    }

    #[test]
    fn a_line_has_eight_digits_and_a_name() {
        let files = [("lex.index", vec![]), ("aswd.p", vec![0; 4])];
        assert_eq!(text(&files), "00000000 lex.index\n2144df1c aswd.p\n");
    }
}
