//! The letter trees: every way through every tree ends in a leaf whose phone is there. No call of the library decides it,
//! so every node is entered here; the library's own walks must agree.

use commands::numbers::{u16_at, u32_at};
use pronouncer::{Letters, Refusal, LIST_BYTES};

use crate::forms::NODE;
use crate::report::{Kind, Place, Report, REPORT};

const MODEL: &str = "lts.model";
/// The first byte of a leaf, and the last feature.
const LEAF: u8 = 255;
const LAST_FEATURE: u8 = 7;
/// Where in a node the next one on a match stands, and the next one otherwise.
const MATCH: usize = 2;
const OTHERWISE: usize = 4;
/// The height of a node that is on the way down.
const ON_THE_WAY: u32 = u32::MAX;

/// A leaf that a letter can reach.
#[derive(Clone, Copy)]
pub struct Leaf {
    pub node: usize,
    pub letter: char,
    pub phone: usize,
}

impl Leaf {
    pub fn place(&self) -> Place {
        node_place(self.letter, self.node, NODE * self.node)
    }
}

/// The nodes of all trees.
pub struct Trees<'a> {
    letters: Letters<'a>,
    /// How many nodes there are on the longest way from a node to a leaf; 0 for a node that was not entered.
    heights: Vec<u32>,
    leaves: Vec<Leaf>,
}

/// Where a fault is, and what was expected.
type Told = (Place, String);

impl<'a> Trees<'a> {
    fn of(letters: Letters<'a>) -> Trees<'a> {
        Trees { letters, heights: vec![0; letters.model.len() / NODE], leaves: Vec::new() }
    }

    /// The leaves that letters can reach, once all trees were walked.
    pub fn leaves(&self) -> &[Leaf] {
        &self.leaves
    }

    fn kind(&self, node: usize) -> u8 {
        self.letters.model[NODE * node]
    }

    fn next(&self, node: usize, side: usize) -> usize {
        u16_at(self.letters.model, NODE * node + side).unwrap_or(usize::MAX)
    }

    /// The sides of a node that a walk can take.
    fn sides(&self, node: usize) -> &'static [usize] {
        match self.kind(node) {
            LEAF => &[],
            0..=LAST_FEATURE => &[MATCH, OTHERWISE],
            _ => &[OTHERWISE],
        }
    }

    /// Enters every node of a letter's tree, and tells how deep it is.
    fn walk(&mut self, letter: char, start: usize) -> Result<u32, Told> {
        let mut way = Vec::new();
        if self.enter(letter, None, start)? {
            way.push((start, 0));
        }
        while let Some((node, taken)) = way.pop() {
            let Some(&side) = self.sides(node).get(taken) else {
                self.heights[node] = self.height(node);
                continue;
            };
            way.push((node, taken + 1));
            let next = self.next(node, side);
            if self.enter(letter, Some((node, side)), next)? {
                way.push((next, 0));
            }
        }
        Ok(self.heights[start])
    }

    fn height(&self, node: usize) -> u32 {
        let below = self.sides(node).iter().map(|&side| self.heights[self.next(node, side)]);
        1 + below.max().unwrap_or(0)
    }

    /// Enters a node, from a side of another one or from lts.index; whether it is met for the first time.
    fn enter(
        &mut self,
        letter: char,
        from: Option<(usize, usize)>,
        node: usize,
    ) -> Result<bool, Told> {
        match self.heights.get(node) {
            None => Err(self.outside(letter, from, node)),
            Some(&ON_THE_WAY) => Err(circle(letter, from, node)),
            Some(0) => {
                self.heights[node] = ON_THE_WAY;
                if self.kind(node) == LEAF {
                    self.add_leaf(letter, node)?;
                }
                Ok(true)
            }
            Some(_) => Ok(false),
        }
    }

    fn add_leaf(&mut self, letter: char, node: usize) -> Result<(), Told> {
        let byte = NODE * node + 1;
        let phone = usize::from(self.letters.model[byte]);
        if phone >= u32_at(self.letters.phones, 0).unwrap_or(0) {
            let sentence = format!(
                "in the tree of \"{letter}\" node {node} is a leaf with phone {phone}: \
                 expected a number that lts.phones has"
            );
            return Err((node_place(letter, node, byte), sentence));
        }
        self.leaves.push(Leaf { node, letter, phone });
        Ok(())
    }

    fn outside(&self, letter: char, from: Option<(usize, usize)>, node: usize) -> Told {
        let expected =
            format!("expected one of the {} nodes that lts.model has", self.heights.len());
        match from {
            None => {
                let place =
                    Place { section: "lts.index", ..node_place(letter, node, start_byte(letter)) };
                (place, format!("the tree of \"{letter}\" begins at node {node}: {expected}"))
            }
            Some((parent, side)) => (
                node_place(letter, parent, NODE * parent + side),
                format!(
                    "in the tree of \"{letter}\" node {parent} leads to node {node}: {expected}"
                ),
            ),
        }
    }
}

/// A byte of a node in a letter's tree.
fn node_place(letter: char, node: usize, byte: usize) -> Place {
    Place { letter: Some(letter), node: Some(node), ..Place::at(MODEL, byte) }
}

/// The fault of a side that leads back to a node on the way; a letter's first node is on no way yet.
fn circle(letter: char, from: Option<(usize, usize)>, node: usize) -> Told {
    let (parent, side) = from.unwrap_or((node, 0));
    let sentence = format!(
        "in the tree of \"{letter}\" node {parent} leads back to node {node}: expected every question to end in a leaf"
    );
    (node_place(letter, parent, NODE * parent + side), sentence)
}

/// Where lts.index has a letter's first node.
fn start_byte(letter: char) -> usize {
    2 * (letter as usize - 'a' as usize)
}

/// Tells of the trees of sections that have their form, and how deep they are. `words` are asked of the library, too.
pub fn check<'a, 'w>(
    letters: &Letters<'a>,
    words: impl Iterator<Item = &'w [u8]>,
    report: &mut Report,
) -> Option<Trees<'a>> {
    let mut trees = Trees::of(*letters);
    let mut deepest = (0, 'a');
    for letter in 'a'..='z' {
        let start = u16_at(letters.index, start_byte(letter)).unwrap_or(usize::MAX);
        match trees.walk(letter, start) {
            Ok(depth) if depth as usize > deepest.0 => deepest = (depth as usize, letter),
            Ok(_) => {}
            Err((place, sentence)) => {
                report.fault(Kind::Letters, place, sentence);
                return None;
            }
        }
    }
    report.summary.deepest = Some(deepest);
    if let Some(word) = first_damaged(letters, words) {
        let sentence = format!(
            "the library meets damage at \"{word}\", and its place was not found; {REPORT}"
        );
        report.fault(Kind::Internal, Place::of(MODEL), sentence);
        return None;
    }
    report.note("letters", "every way through every tree ends in a phone");
    Some(trees)
}

/// The first letter or word at which the library finds a tree damaged.
fn first_damaged<'w>(letters: &Letters, words: impl Iterator<Item = &'w [u8]>) -> Option<String> {
    let mut out = [0; LIST_BYTES];
    let mut all = b"abcdefghijklmnopqrstuvwxyz".chunks(1).chain(words);
    all.find(|word| {
        let predicted = letters.predict(word, &mut out);
        predicted
            .is_err_and(|refused| matches!(refused.refusal, Refusal::Section | Refusal::Damaged))
    })
    .map(|word| String::from_utf8_lossy(word).into_owned())
}
