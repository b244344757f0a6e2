//! The original reads sections that live as long as the program; these live as long as their reader.

use crate::lent::Part;
use original::data::Container;

/// Something of the original's that reads bytes, and the bytes behind it, so that they go last.
pub struct Held<T> {
    pub reader: T,
    _bytes: Vec<u8>,
}

/// Hands bytes to the original that are to live as long as what it makes of them.
pub fn hold_bytes<T>(bytes: Vec<u8>, make: impl FnOnce(&'static [u8]) -> T) -> Held<T> {
    // SAFETY: nothing alters or frees the bytes until what reads them is dropped.
    let forever = unsafe { &*(bytes.as_slice() as *const [u8]) };
    Held { reader: make(forever), _bytes: bytes }
}

/// Hands sections to the original the only way it takes them: as a container.
pub fn hold<T, E: std::fmt::Debug>(
    sections: &[Part],
    parse: impl FnOnce(&Container<'static>) -> Result<T, E>,
) -> Held<T> {
    let mut bytes = b"FLRSDAT\x01".to_vec();
    for Part { name, bytes: section, .. } in sections {
        let len = (section.len() as u32).to_le_bytes();
        bytes.extend([&[name.len() as u8], name.as_bytes(), &len, section].concat());
    }
    hold_bytes(bytes, |bytes| {
        let container = Container::parse(bytes).expect("the original reads our container");
        parse(&container).expect("the original takes sections that have 01's form")
    })
}
