//! Tiny sections to try the calls with: three entries, a phone for each letter, and words of letters with a
//! vowel among them as sayable ones; and a rack's settings. They serve the examples here; a show has its own.

use crate::sections::{Letters, Lexicon, Sayable};
use crate::settings::Setting;
use crate::RECORD_BYTES;

/// cat (noun), lead (noun) and lead (verb); and phones with stress to add others.
pub const LEXICON: Lexicon<'static> = Lexicon {
    phones:
        b"\x1f\0\0\0\x01k\x03ae1\x01t\x01l\x03iy1\x03eh1\x01d\x03ae0\x03iy0\x03eh0\x03ih0\x03ih1\
        \x03er0\x03er1\x03ow0\x03ow1\x03ay0\x03ay1\x03ao0\x03ao1\x03ah0\x03ah1\
        \x03ae2\x03iy2\x03eh2\x03ih2\x03er2\x03ow2\x03ay2\x03ao2\x03ah2",
    index: b"\x03\0\0\0\x00\0\0\0\x09\0\0\0\x13\0\0\0",
    data: b"n\x03cat\x03\x00\x01\x02n\x04lead\x03\x03\x05\x06v\x04lead\x03\x03\x04\x06",
};

/// The same phone for a letter wherever it stands; two phones for x.
pub const LETTERS: Letters<'static> = Letters {
    phones: b"\x1a\0\0\0\x03ae1\x01b\x01k\x01d\x03eh1\x01f\x01g\x02hh\x03ih1\x02jh\x01k\x01l\x01m\
        \x01n\x03ow1\x01p\x01k\x01r\x01s\x01t\x03ah1\x01v\x01w\x03k-s\x01y\x01z",
    index: &FIRST_NODES,
    model: &LEAVES,
};

/// A word of letters that has a vowel.
pub const SAYABLE: Sayable<'static> = Sayable { prefix: &MACHINE, suffix: &MACHINE };

/// Settings of version 2 with a record for each: pitch 120, stretch 1.25, level 75.
pub const SETTINGS: [u8; 4 * RECORD_BYTES] = {
    let mut settings = [0; 4 * RECORD_BYTES];
    settings[0] = 2;
    settings[2] = 1;
    settings = with_record(settings, 1, 2, b"pitch", Setting::Whole(120));
    settings = with_record(settings, 2, 3, b"stretch", Setting::Real(1.25));
    with_record(settings, 3, 0, b"level", Setting::Whole(75))
};

/// Letter n starts at node n.
const FIRST_NODES: [u8; 52] = {
    let mut index = [0; 52];
    let mut letter = 0;
    while letter < 26 {
        index[2 * letter] = letter as u8;
        letter += 1;
    }
    index
};

/// Node n is a leaf with phone n.
const LEAVES: [u8; 156] = {
    let mut model = [0; 156];
    let mut node = 0;
    while node < 26 {
        model[6 * node] = 255;
        model[6 * node + 1] = node as u8;
        node += 1;
    }
    model
};

/// The symbols that lead on from the state behind "#": V for the vowels, N for m and n.
const SYMBOLS: &[u8; 20] = b"VNbcdfghjklpqrstvwxz";

/// Four bytes that are skipped; "#" leads to the state in cell 2, from which each symbol leads back to it.
const MACHINE: [u8; 4 + 2 * 23] = {
    let mut machine = [0; 4 + 2 * 23];
    machine[4] = b'#';
    machine[5] = 1;
    let mut symbol = 0;
    while symbol < SYMBOLS.len() {
        machine[8 + 2 * symbol] = SYMBOLS[symbol];
        machine[9 + 2 * symbol] = 1;
        symbol += 1;
    }
    machine
};

/// Settings with one more record, which names the next.
const fn with_record(
    mut settings: [u8; 4 * RECORD_BYTES],
    record: usize,
    next: u8,
    name: &[u8],
    value: Setting,
) -> [u8; 4 * RECORD_BYTES] {
    let start = record * RECORD_BYTES;
    settings[start] = next;
    settings[start + 2] = name.len() as u8;
    let mut place = 0;
    while place < name.len() {
        settings[start + 3 + place] = name[place];
        place += 1;
    }
    settings[start + 18] = value.kind() as u8;
    let bits = value.bits().to_le_bytes();
    let mut place = 0;
    while place < bits.len() {
        settings[start + 19 + place] = bits[place];
        place += 1;
    }
    settings
}
