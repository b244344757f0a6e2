//! Object files in a static library: the bytes of a named array, and the texts of a named table of texts.

/// Kinds of sections that are read.
const SYMBOLS: u32 = 2;
const RELOCATIONS: u32 = 4;

/// An object file of 64 bits, little-endian, as its bytes.
pub struct Object<'a> {
    bytes: &'a [u8],
}

/// Where a symbol stands: a section's number, a place in it, a length.
#[derive(Clone, Copy)]
struct Place {
    section: usize,
    offset: usize,
    size: usize,
}

/// The part of a section header that is read.
struct Header {
    kind: u32,
    offset: usize,
    size: usize,
    link: usize,
    info: usize,
}

/// The object files of a static library; none if it is no such library.
pub fn objects(library: &[u8]) -> Option<Vec<Object<'_>>> {
    let mut rest = library.strip_prefix(b"!<arch>\n")?;
    let mut objects = Vec::new();
    while rest.len() >= 60 {
        let digits = std::str::from_utf8(&rest[48..58]).ok()?;
        let size: usize = digits.trim_end().parse().ok()?;
        let bytes = rest.get(60..60usize.checked_add(size)?)?;
        if bytes.starts_with(b"\x7fELF\x02\x01") {
            objects.push(Object { bytes });
        }
        let next = 60 + size + size % 2;
        rest = rest.get(next..).unwrap_or_default();
    }
    Some(objects)
}

impl<'a> Object<'a> {
    fn number(&self, at: usize, length: usize) -> Option<usize> {
        let bytes = self.bytes.get(at..at.checked_add(length)?)?;
        let value = bytes.iter().rev().fold(0u64, |sum, &b| (sum << 8) | b as u64);
        usize::try_from(value).ok()
    }

    fn header(&self, section: usize) -> Option<Header> {
        let at = self.number(0x28, 8)? + section * self.number(0x3a, 2)?;
        Some(Header {
            kind: self.number(at + 4, 4)? as u32,
            offset: self.number(at + 24, 8)?,
            size: self.number(at + 32, 8)?,
            link: self.number(at + 40, 4)?,
            info: self.number(at + 44, 4)?,
        })
    }

    /// The sections of a kind that lie inside the file.
    fn headers(&self, kind: u32) -> Vec<Header> {
        let count = self.number(0x3c, 2).unwrap_or(0);
        let all = (0..count).filter_map(|section| self.header(section));
        all.filter(|header| header.kind == kind && header.size <= self.bytes.len()).collect()
    }

    /// The bytes at a place of the file up to the next 0.
    fn text(&self, at: usize) -> Option<&'a [u8]> {
        let rest = self.bytes.get(at..)?;
        rest.split(|&b| b == 0).next()
    }

    fn symbol(&self, table: &Header, i: usize) -> Option<Place> {
        let at = table.offset + 24 * i;
        Some(Place {
            section: self.number(at + 6, 2)?,
            offset: self.number(at + 8, 8)?,
            size: self.number(at + 16, 8)?,
        })
    }

    /// The place of a symbol that this file defines.
    fn find(&self, name: &str) -> Option<Place> {
        let table = self.headers(SYMBOLS).pop()?;
        let names = self.header(table.link)?;
        let i = (0..table.size / 24).find(|i| {
            let at = self.number(table.offset + 24 * i, 4);
            at.and_then(|at| self.text(names.offset + at)) == Some(name.as_bytes())
        })?;
        let inside = |place: &Place| place.section != 0 && place.size <= self.bytes.len();
        self.symbol(&table, i).filter(inside)
    }

    /// The bytes of an array.
    pub fn array(&self, name: &str) -> Option<&'a [u8]> {
        let place = self.find(name)?;
        let start = self.header(place.section)?.offset + place.offset;
        self.bytes.get(start..start.checked_add(place.size)?)
    }

    /// The texts that a table of pointers points to; an empty one where it has a null.
    pub fn texts(&self, name: &str) -> Option<Vec<&'a [u8]>> {
        let place = self.find(name)?;
        let mut texts = vec![&b""[..]; place.size / 8];
        for (offset, text) in self.pointers(place.section)? {
            if (place.offset..place.offset + place.size).contains(&offset) {
                *texts.get_mut((offset - place.offset) / 8)? = text;
            }
        }
        Some(texts)
    }

    /// The places of the pointers in a section, each with the text that it points to.
    fn pointers(&self, section: usize) -> Option<Vec<(usize, &'a [u8])>> {
        let symbols = self.headers(SYMBOLS).pop()?;
        let lists = self.headers(RELOCATIONS).into_iter();
        let list = lists.rev().find(|list| list.info == section)?;
        let places = (list.offset..list.offset + list.size).step_by(24);
        let pointer = |at: usize| {
            let to = self.symbol(&symbols, self.number(at + 12, 4)?)?;
            let start = self.header(to.section)?.offset + to.offset;
            let text = self.text(start + self.number(at + 16, 8)?)?;
            Some((self.number(at, 8)?, text))
        };
        places.map(pointer).collect()
    }
}
