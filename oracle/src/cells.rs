//! Phones in cells of 16 bytes: a length byte, up to 15 bytes of text, zeros past the text.

use crate::prelude::*;

pub const CELL: usize = 16;
pub type Cell = [u8; CELL];

pub fn cell(text: &[u8]) -> Cell {
    let mut cell = [0; CELL];
    cell[0] = text.len() as u8;
    cell[1..=text.len()].copy_from_slice(text);
    cell
}

/// Phones as cells, one behind the other.
pub fn cells<T: AsRef<[u8]>>(phones: &[T]) -> Vec<u8> {
    phones.iter().flat_map(|p| cell(p.as_ref())).collect()
}

/// The text of a cell handed in: 15 bytes at most, whatever its length says.
pub fn text(cell: &Cell) -> &[u8] {
    &cell[1..=usize::from(cell[0]).min(CELL - 1)]
}

/// Whether a cell's length is more than there is room for.
pub fn is_over(cell: &Cell) -> bool {
    usize::from(cell[0]) >= CELL
}

pub fn is_high(cell: &Cell) -> bool {
    !text(cell).is_ascii()
}

/// A phone list as it is handed in.
#[derive(Clone)]
pub struct List {
    pub cells: Vec<Cell>,
    /// Bytes behind the last cell, fewer than a cell has.
    pub rest: Vec<u8>,
}

impl List {
    pub fn of<T: AsRef<[u8]>>(phones: &[T]) -> List {
        List { cells: phones.iter().map(|p| cell(p.as_ref())).collect(), rest: vec![] }
    }

    pub fn texts(&self) -> Vec<&[u8]> {
        self.cells.iter().map(text).collect()
    }

    pub fn part(&self) -> Part<'static> {
        let bytes = [self.cells.concat(), self.rest.clone()].concat();
        Part::read("the phones", Form::PhoneList, bytes)
    }

    /// The same with another cell at a place.
    pub fn with(&self, at: usize, cell: Cell) -> List {
        let mut list = self.clone();
        list.cells[at] = cell;
        list
    }

    /// Fills what stands past the texts, which nobody reads.
    pub fn spoil_padding(&mut self, random: &mut Random) {
        for cell in &mut self.cells {
            let from = 1 + text(cell).len();
            records::spoil(random, cell, from);
        }
    }
}

smaller!(List: cells, rest);

/// Plain phones in its place, or the same without what stands past the text.
impl Shrink for Cell {
    fn smaller(&self) -> Vec<Cell> {
        let plain = [cell(b"t"), cell(b"ae")];
        let plainer = plain.into_iter().chain([cell(text(self))]);
        plainer.filter(|plainer| plainer != self && !plain.contains(self)).collect()
    }
}

rows! { pub PHONES:
    /// What phones have.
    of_phones(phones: &[impl AsRef<[u8]>]) [
        "phone of 0 bytes" => phones.iter().any(|phone| phone.as_ref().is_empty()),
        "phone of 15 bytes" => phones.iter().any(|phone| phone.as_ref().len() == 15),
    ]
}

rows! { pub UNREAD:
    /// What a list has that nobody reads.
    unread(list: &List) [
        "bytes past a text" => list.cells.iter().any(|given| cell(text(given)) != *given),
        "bytes behind the last cell" => !list.rest.is_empty(),
    ]
}
