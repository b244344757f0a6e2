//! Logs: what several calls give back, one behind the other, as bytes that are compared.

use crate::prelude::*;

/// Logs something, behind its name and its length.
pub fn put(log: &mut Vec<u8>, name: &str, bytes: &[u8]) {
    log.extend(format!("{name} {}\n", bytes.len()).bytes());
    log.extend_from_slice(bytes);
}

/// A log as lines.
pub fn shown(log: &[u8]) -> String {
    let (mut text, mut rest) = (String::new(), log);
    while let Some(end) = rest.iter().position(|b| *b == b'\n') {
        let head = String::from_utf8_lossy(&rest[..end]);
        let (name, len) = head.rsplit_once(' ').expect("a length stands behind each name");
        let (part, behind) = rest[end + 1..].split_at(len.parse().expect("it is a number"));
        let shown = match name {
            "the store" | "the spare" => notation::store(part),
            "the sheet" => notation::sheet(part),
            "the output" => notation::bytes(part),
            _ => String::from_utf8_lossy(part).into(),
        };
        text += &format!("\n      {name} {shown}");
        rest = behind;
    }
    text
}
