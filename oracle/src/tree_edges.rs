//! Letter trees for the short inputs: sections at 01's limits and just past them.

use crate::prelude::*;
use crate::tables::{self, phone_table};
use crate::tree_shapes::{model, Node, Plan};
use crate::trees::{Sections, LONGEST_MODEL, NODE};

/// Trees of one node, whose leaf is this phone.
pub fn one_leaf(name: &[u8]) -> Trees {
    let plan = Plan { names: vec![name.to_vec()], starts: [0; 26], nodes: vec![Node::leaf(0)] };
    Trees::new(plan.sections(), b"ab".to_vec())
}

/// Sections at 01's limits, and just past them.
pub fn limits() -> Vec<Rc<Trees>> {
    let good = one_leaf(b"x").sections;
    let leaves = |count: usize| model(&vec![Node::leaf(0); count]);
    let phones = [tables::limits(&good.phones), vec![good.phones[..5].to_vec()]].concat();
    let indexes = [vec![0; 51], vec![], vec![0; 53], vec![1; 52], vec![255; 52]];
    let models = [
        vec![],
        leaves(1)[..5].to_vec(),
        [&leaves(1)[..], &[0]].concat(),
        leaves(2),
        leaves(LONGEST_MODEL / NODE),
        leaves(LONGEST_MODEL / NODE + 1),
        // a circle of one node, one of two, and a chain whose last node is the leaf
        vec![9, 0, 0, 0, 0, 0],
        vec![9, 0, 0, 0, 1, 0, 3, b'a', 0, 0, 0, 0],
        vec![8, 0, 0, 0, 1, 0, 254, 0, 0, 0, 2, 0, 255, 0, 0, 0, 0, 0],
        // the leaf's number has no phone; the question's match leads outside
        vec![255, 1, 0, 0, 0, 0],
        vec![3, b'a', 9, 0, 1, 0, 255, 0, 0, 0, 0, 0],
    ];
    // the last of 256 phones
    let (last, leaf) = (phone_table(&["p"; 256]), model(&[Node::leaf(255)]));
    let all = [
        with(&good, phones, |s, phones| s.phones = phones),
        with(&good, indexes, |s, index| s.index = index),
        with(&good, models, |s, model| s.model = model),
        vec![Sections { phones: last, model: leaf, ..good.clone() }, good],
    ];
    all.concat().into_iter().map(|sections| Rc::new(Trees::new(sections, vec![]))).collect()
}
