//! What stores and sheets share: records of one size, which link to each other by their numbers, in lent bytes.

use crate::random::Random;
use crate::shrink::{parts, shorter, with};

pub fn zeros(bytes: &[u8]) -> bool {
    bytes.iter().all(|b| *b == 0)
}

pub fn number(bytes: &[u8]) -> usize {
    usize::from(u16::from_le_bytes([bytes[0], bytes[1]]))
}

pub fn u32_at(bytes: &[u8], at: usize) -> u32 {
    let (front, _) = bytes[at..].split_first_chunk().expect("four bytes stand there");
    u32::from_le_bytes(*front)
}

pub fn put(bytes: &mut [u8], at: usize, value: usize) {
    bytes[at..at + 2].copy_from_slice(&(value as u16).to_le_bytes());
}

/// Bytes of every value but 0, in turn.
pub fn filled(len: usize) -> Vec<u8> {
    (0..len).map(|at| 1 + (at % 251) as u8).collect()
}

/// Any bytes, or all the same.
pub fn random(random: &mut Random, len: usize) -> Vec<u8> {
    match random.once_in(4) {
        true => vec![random.byte(); len],
        false => random.bytes(len),
    }
}

/// Fills the bytes from a place on.
pub fn spoil(random: &mut Random, bytes: &mut [u8], from: usize) {
    for byte in &mut bytes[from..] {
        *byte = random.byte();
    }
}

/// The same bytes with another one at a place.
pub fn with_byte(bytes: &[u8], at: usize, byte: u8) -> Vec<u8> {
    [&bytes[..at], &[byte], &bytes[at + 1..]].concat()
}

/// Bytes that are cut, or zeros behind them, so that they are so many.
pub fn resized(bytes: &[u8], len: usize) -> Vec<u8> {
    let zeros = std::iter::repeat(&0);
    bytes.iter().chain(zeros).take(len).copied().collect()
}

/// Bytes with one of them altered: each to some values, or where no field stands to the lowest of these.
pub fn altered(good: &[u8], size: usize, last_field: usize, values: &[u8]) -> Vec<Vec<u8>> {
    each! {
        for (at, byte) in good.iter().enumerate();
        let all = [values, &[byte ^ 1, byte.wrapping_add(1)]].concat();
        let is_field = at % size <= last_field;
        let others = all.into_iter().filter(|value| value != byte && (is_field || *value <= 2));
        others.map(|value| with_byte(good, at, value))
    }
}

/// An unused record in the place of a used one, whose bytes it gets; the links stand at these places.
pub fn in_place_of(bytes: &mut [u8], size: usize, [used, unused]: [usize; 2], links: Vec<usize>) {
    bytes.copy_within(size * used..size * (used + 1), size * unused);
    for at in links {
        if number(&bytes[at..]) == used {
            put(bytes, at, unused);
        }
    }
}

/// The same number of zeros, if the bytes are others, for shrinking.
pub fn zeroed(bytes: &[u8]) -> Vec<Vec<u8>> {
    let zeros = (!zeros(bytes)).then(|| vec![0; bytes.len()]);
    zeros.into_iter().collect()
}

/// Bytes of which those from a place on are fewer, or zeros, for shrinking; only lengths count that are shorter.
pub fn less_behind(bytes: &[u8], from: usize, lengths: &[usize]) -> Vec<Vec<u8>> {
    let lengths = lengths.iter().filter(|len| **len < bytes.len());
    let shorter = lengths.map(|len| bytes[..*len].to_vec());
    let zeros = zeroed(&bytes[from..]).into_iter();
    shorter.chain(zeros.map(|behind| [&bytes[..from], &behind].concat())).collect()
}

/// Bytes with records left out or made zero, for shrinking; one by one in so many records.
pub fn plainer(bytes: &[u8], size: usize, records: usize) -> Vec<Vec<u8>> {
    let mut all = shorter(bytes);
    all.truncate(64);
    all.extend((0..bytes.len() / size).map(|records| bytes[..size * records].to_vec()));
    let single = (0..bytes.len().min(size * records)).map(|at| at..at + 1);
    let every = parts(bytes.len()).into_iter().chain(single);
    let others = every.filter(|part| !zeros(&bytes[part.clone()]));
    all.extend(with(&bytes.to_vec(), others, |bytes, part| bytes[part].fill(0)));
    all
}
