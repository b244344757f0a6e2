//! The sections of the letter trees: their form by 01, the walk that tells damage, and the original's reading.

use crate::forever::{hold, Held};
use crate::prelude::*;
use crate::records::number;
use crate::stresses::{twin, with_digit_in_both, Twins};
use crate::tables::{phone_names, phone_table};
use original::lexicon::Lts;

/// Bytes of a node.
pub const NODE: usize = 6;
/// The longest model that 01 accepts.
pub const LONGEST_MODEL: usize = 393_216;
/// Bytes of lts.index that must be there.
pub const INDEX: usize = 52;

sections!("lts": model);

/// Sections, what 01 says of them, and what words to try on them.
pub struct Trees {
    pub sections: Sections,
    pub alphabet: Vec<u8>,
    /// The phones of the table; none if a section breaks its form.
    pub names: Option<Vec<Vec<u8>>>,
    /// Whether some node leads outside or is a leaf without a phone.
    pub has_damage: bool,
    original: Option<Held<Lts>>,
    twins: Twins<Rc<Trees>>,
}

impl Trees {
    pub fn new(sections: Sections, alphabet: Vec<u8>) -> Trees {
        let model = sections.model.len();
        let fits = sections.index.len() >= INDEX && model % NODE == 0 && model <= LONGEST_MODEL;
        let names = phone_names(&sections.phones).filter(|_| fits);
        let original = names.as_ref().map(|_| hold(&sections.parts(), Lts::parse));
        let has_damage = has_damage(&sections.model, names.as_ref().map_or(0, Vec::len));
        Trees { sections, alphabet, names, has_damage, original, twins: Twins::default() }
    }

    /// The same with a digit in the place of each phone's last "2".
    pub fn with_digit(&self, digit: u8) -> &Rc<Trees> {
        twin(&self.twins, digit, || {
            let names = self.names.iter().flatten();
            let names: Vec<Vec<u8>> = names.map(|name| with_digit_in_both(name, digit)).collect();
            let sections = Sections { phones: phone_table(&names), ..self.sections.clone() };
            Rc::new(Trees::new(sections, vec![]))
        })
    }

    /// The original's reading of sections that have their form.
    pub fn original(&self) -> &Lts {
        let held = self.original.as_ref();
        &held.expect("only sections of 01's form are read").reader
    }

    /// The number of nodes.
    pub fn nodes(&self) -> usize {
        self.sections.model.len() / NODE
    }

    /// The node where a letter starts.
    pub fn start(&self, letter: u8) -> usize {
        number(&self.sections.index[2 * usize::from(letter - b'a')..])
    }

    /// Goes from a node to a leaf, by 01's rule.
    pub fn walk(&self, features: &[u8; 8], start: usize) -> Walk {
        let mut walk = Walk::default();
        let mut at = start;
        while walk.nodes < self.nodes() && at < self.nodes() {
            walk.nodes += 1;
            let node = &self.sections.model[NODE * at..];
            if node[0] == 255 {
                walk.leaf = Some(usize::from(node[1]));
                break;
            }
            // a question about a feature that there is not never matches
            let feature = features.get(usize::from(node[0]));
            let matched = feature == Some(&node[1]);
            walk.matched |= matched;
            walk.other |= feature.is_some() && !matched;
            walk.never |= feature.is_none();
            at = number(if matched { &node[2..] } else { &node[4..] });
        }
        walk
    }
}

/// How a walk went.
#[derive(Default)]
pub struct Walk {
    /// The leaf's number; none if the walk led outside or in a circle.
    pub leaf: Option<usize>,
    pub nodes: usize,
    pub matched: bool,
    pub other: bool,
    pub never: bool,
}

fn has_damage(model: &[u8], phones: usize) -> bool {
    let nodes = model.len() / NODE;
    let outside = |link: &[u8]| number(link) >= nodes;
    let damaged = |node: &[u8]| match node[0] {
        255 => usize::from(node[1]) >= phones,
        0..=7 => outside(&node[2..]) || outside(&node[4..]),
        8..=254 => outside(&node[4..]),
    };
    model.chunks_exact(NODE).any(damaged)
}
