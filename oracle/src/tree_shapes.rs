//! Letter trees of many shapes, and ways to break them.

use crate::prelude::*;
use crate::records::number;
use crate::shrink::{parts, without};
use crate::tables::{self, first_fit, moved, phone_table, put};
use crate::trees::{Sections, INDEX, LONGEST_MODEL, NODE};
use std::ops::Range;

/// A node: a question (feature, wanted byte, next on a match, next otherwise) or a leaf (255, phone number).
#[derive(Clone, Copy, PartialEq)]
pub struct Node {
    pub first: u8,
    pub second: u8,
    pub yes: u16,
    pub no: u16,
}

impl Node {
    pub fn leaf(phone: u8) -> Node {
        Node { first: 255, second: phone, yes: 0, no: 0 }
    }

    fn of(bytes: &[u8]) -> Node {
        let [yes, no] = [2, 4].map(|at| number(&bytes[at..]) as u16);
        Node { first: bytes[0], second: bytes[1], yes, no }
    }
}

pub fn model(nodes: &[Node]) -> Vec<u8> {
    let bytes = |n: &Node| [[n.first, n.second], n.yes.to_le_bytes(), n.no.to_le_bytes()];
    nodes.iter().flat_map(bytes).flatten().collect()
}

/// Trees before they are written as sections.
#[derive(Clone)]
pub struct Plan {
    pub names: Vec<Vec<u8>>,
    pub starts: [u16; 26],
    pub nodes: Vec<Node>,
}

impl Plan {
    pub fn sections(&self) -> Sections {
        let index = self.starts.iter().flat_map(|start| start.to_le_bytes()).collect();
        Sections { phones: phone_table(&self.names), index, model: model(&self.nodes) }
    }
}

/// Any trees; one set in six is broken in some way, of which a word need not notice anything.
pub fn random(random: &mut Random) -> Trees {
    let shape = random.below(SHAPES);
    let whole = plan(random, shape, 400);
    let mut sections = whole.sections.clone();
    let names = whole.names.as_ref().map_or(0, Vec::len);
    if random.once_in(6) {
        break_one(random, &mut sections, names);
    }
    if random.once_in(20) {
        break_one(random, &mut sections, names);
    }
    if random.once_in(4) {
        let more = random.between(1, 9);
        sections.phones.extend(random.bytes(more));
        sections.index.extend(random.bytes(more));
    }
    Trees::new(sections, whole.alphabet)
}

/// Whole trees of one of the shapes, of a size that a list can hold.
pub fn to_record(random: &mut Random, shape: usize) -> Trees {
    plan_of(random, shape, 400, 5..usize::MAX)
}

/// Whole trees of a few nodes.
pub fn few_to_record(random: &mut Random, shape: usize) -> Trees {
    plan_of(random, shape, 24, 5..40)
}

/// Whole trees with so many names and nodes.
fn plan_of(random: &mut Random, shape: usize, most: usize, size: Range<usize>) -> Trees {
    let fits = |trees: &Trees| {
        let names = trees.names.as_ref().map_or(0, Vec::len);
        size.contains(&names) && size.contains(&trees.nodes())
    };
    first_fit(|| plan(random, shape % SHAPES, most), fits)
}

/// The largest model: a chain over its 65,536 nodes, with so many leaves at the end of it. Half of
/// the letters go through the whole of it, the others start near its end.
pub fn deepest(random: &mut Random, leaves: usize) -> Trees {
    let names = first_fit(|| names(random), |names| names.len() > 1);
    let count = LONGEST_MODEL / NODE;
    let chain = count - leaves;
    let mut nodes: Vec<Node> =
        (1..chain).map(|next| question(random, b"abc", next, next)).collect();
    let end = random.between(chain, count - 1);
    nodes.push(question(random, b"abc", end, end));
    nodes.extend((0..leaves).map(|_| leaf(random, names.len())));
    let mut starts = [0; 26];
    for i in 0..13 {
        starts[2 * i] = (count - 1 - random.below(1 + 4 * i)) as u16;
    }
    Trees::new(Plan { names, starts, nodes }.sections(), b"abcdefgh".to_vec())
}

/// How many shapes there are.
const SHAPES: usize = 5;

/// Whole trees of one of the shapes, with about so many nodes at most.
fn plan(random: &mut Random, shape: usize, most: usize) -> Trees {
    let names = names(random);
    let alphabet = words::alphabet(random);
    let size = random.ranged(&[(1, 1, 1), (6, 2, 40), (3, 2, most)]);
    let phones = names.len();
    let mut starts = [0; 26];
    let nodes = match shape {
        0 => (0..size).map(|_| leaf(random, phones)).collect(),
        1 => chain(random, size, &alphabet, phones),
        2 => downhill(random, size, &alphabet, phones),
        3 => {
            let nodes = downhill(random, size, &alphabet, phones);
            renumbered(random, nodes)
        }
        // a binary tree for each letter, as in the real sections
        _ => {
            let mut nodes = vec![];
            for start in &mut starts {
                let depth = random.between(0, 4);
                let depth = if nodes.len() + 64 > most { 0 } else { depth };
                *start = nodes.len() as u16;
                nodes.extend(grow(random, nodes.len(), depth, &alphabet, phones));
            }
            nodes
        }
    };
    if shape < 4 {
        starts = std::array::from_fn(|_| random.below(nodes.len()) as u16);
    }
    if shape == 1 {
        // mostly from the first node of a chain, so that walks are long
        starts.iter_mut().step_by(2).for_each(|start| *start = 0);
    }
    Trees::new(Plan { names, starts, nodes }.sections(), alphabet)
}

/// The names of a phone table.
fn names(random: &mut Random) -> Vec<Vec<u8>> {
    let mut names = tables::names(random, name);
    if names.len() > 1 && random.once_in(2) {
        names[0] = b"epsilon".to_vec();
    }
    names
}

/// Odd names, parted by commas; the first is the empty one.
const ODD_NAMES: &str = ",-,--,-x,x-,x-y-z,epsilon-x,x-epsilon,epsilon1,epsilo,Epsilon,\
    aaaaaaa-bbbbbbb,abcdefghijklmno,--------------a,0,1,-1,ae2,a b,ax11,2,-2,2-,2-2,t2,ae22,ae12,ae21,\
    ae2-t2,ae2-t2-ax2,epsilon2,t-ae2-";

fn name(random: &mut Random) -> Vec<u8> {
    let known = phoneset::probe::names();
    match random.weighted(&[3, 9, 5, 3, 3, 1]) {
        0 => b"epsilon".to_vec(),
        1 => (random.pick(&known).to_string() + random.pick(&["", "", "0", "1", "2"])).into(),
        2 => format!("{}-{}", random.pick(&known), random.pick(&known)).into(),
        3 => {
            let [left, right] = [(); 2].map(|()| random.pick(&["0", "1", "2"]));
            format!("{}{left}-{}{right}", random.pick(&known), random.pick(&known)).into()
        }
        4 => random.pick(&ODD_NAMES.split(',').collect::<Vec<_>>()).into(),
        _ => (0..random.between(0, 15)).map(|_| random.below(128) as u8).collect(),
    }
}

/// A leaf; the bytes behind its number may be anything.
fn leaf(random: &mut Random, phones: usize) -> Node {
    let second = random.below(phones.max(1)) as u8;
    let [yes, no] = [(); 2].map(|()| random.below(65_536) as u16);
    Node { first: 255, second, yes, no }
}

/// A question, one in seven of them one that never matches.
fn question(random: &mut Random, alphabet: &[u8], yes: usize, no: usize) -> Node {
    let first = if random.once_in(7) { random.between(8, 254) } else { random.below(8) };
    let second = match random.weighted(&[8, 2, 2, 1]) {
        0 => random.pick_byte(alphabet).to_ascii_lowercase(),
        1 => random.pick_byte(b"#0"),
        2 => random.pick_byte(alphabet),
        _ => random.byte(),
    };
    Node { first: first as u8, second, yes: yes as u16, no: no as u16 }
}

/// Questions that lead from each node to the next, and now and then to one further on; leaves at the end.
fn chain(random: &mut Random, size: usize, alphabet: &[u8], phones: usize) -> Vec<Node> {
    let mut nodes = vec![];
    for i in 0..size - 1 {
        let yes = if random.once_in(3) { random.between(i + 1, size - 1) } else { i + 1 };
        nodes.push(question(random, alphabet, yes, i + 1));
    }
    nodes.push(leaf(random, phones));
    nodes
}

/// Questions that lead to any later nodes, so that none is circular.
fn downhill(random: &mut Random, size: usize, alphabet: &[u8], phones: usize) -> Vec<Node> {
    let node = |i: usize| {
        if i + 1 == size || random.once_in(4) {
            return leaf(random, phones);
        }
        let [yes, no] = [(); 2].map(|()| random.between(i + 1, size - 1));
        question(random, alphabet, yes, no)
    };
    (0..size).map(node).collect()
}

/// The same nodes in another order.
fn renumbered(random: &mut Random, nodes: Vec<Node>) -> Vec<Node> {
    let mut place: Vec<usize> = (0..nodes.len()).collect();
    random.shuffle(&mut place);
    let moved = |link: u16| place.get(usize::from(link)).map_or(link, |p| *p as u16);
    let mut to = nodes.clone();
    for (node, p) in nodes.iter().zip(&place) {
        to[*p] = Node { yes: moved(node.yes), no: moved(node.no), ..*node };
    }
    to
}

/// A binary tree of a depth, whose first node is the one of this number.
fn grow(random: &mut Random, at: usize, depth: usize, alphabet: &[u8], phones: usize) -> Vec<Node> {
    let leaf = leaf(random, phones);
    if depth == 0 {
        return vec![leaf];
    }
    let yes = grow(random, at + 1, depth - 1, alphabet, phones);
    let behind = at + 1 + yes.len();
    let no = grow(random, behind, depth - 1, alphabet, phones);
    [vec![question(random, alphabet, at + 1, behind)], yes, no].concat()
}

/// Breaks the form of a section, damages a tree, makes a circle, or alters any byte.
fn break_one(random: &mut Random, sections: &mut Sections, names: usize) {
    let nodes = sections.model.len() / NODE;
    let node = NODE * random.below(nodes.max(1));
    let Sections { phones, index, model } = sections;
    match random.below(8 + tables::BREAKS) {
        way if way < tables::BREAKS => tables::break_form(random, phones, names, way),
        4 => index.truncate(random.below(INDEX)),
        5 => model.truncate(random.below(model.len() + 1)),
        6 => model.clear(),
        7 => {
            let longer = LONGEST_MODEL + NODE * usize::from(random.once_in(2));
            if random.once_in(20) {
                model.resize(longer, 255);
            }
        }
        8 => {
            let outside = [nodes, nodes + random.below(9), 65_535][random.below(3)] as u16;
            put(index, 2 * random.below(26), &outside.to_le_bytes());
        }
        9 => {
            // a link to anywhere: outside, back, or to itself
            let link = random.below(nodes + 2) as u16;
            let side = 2 + 2 * random.below(2);
            put(model, node + side, &link.to_le_bytes());
        }
        10 => put(model, node, &[255, names.min(255) as u8]),
        _ => {
            let model = (1, model, NODE * nodes + 1);
            tables::alter(random, [(1, phones, 600), (1, index, INDEX), model]);
        }
    }
}

/// Trees with nodes or phones left out, or plainer ones.
impl Shrink for Rc<Trees> {
    fn smaller(&self) -> Vec<Rc<Trees>> {
        let all = match &self.names {
            Some(names) => fewer_nodes(self, names),
            None => self.sections.smaller(),
        };
        let made = |sections: Sections| Rc::new(Trees::new(sections, vec![]));
        all.into_iter().map(made).collect()
    }
}

/// Nodes or phones left out, leaves in the place of questions, starts at the first node.
fn fewer_nodes(trees: &Trees, names: &[Vec<u8>]) -> Vec<Sections> {
    let given = &trees.sections;
    let longer = (given.index.len() > INDEX).then_some(INDEX);
    let shorter = with(given, longer, |sections, len| sections.index.truncate(len));
    let plan = Plan {
        names: names.to_vec(),
        starts: std::array::from_fn(|i| trees.start(b'a' + i as u8) as u16),
        nodes: given.model.chunks(NODE).map(Node::of).collect(),
    };
    let nodes = with(&plan, parts(plan.nodes.len()), |plan, part| {
        let moved = |link: u16| moved(link.into(), &part) as u16;
        plan.starts = plan.starts.map(moved);
        plan.nodes = without(&plan.nodes, &part);
        for node in &mut plan.nodes {
            (node.yes, node.no) = (moved(node.yes), moved(node.no));
        }
    });
    let phones = with(&plan, parts(names.len()), |plan, part| {
        plan.names = without(names, &part);
        for node in plan.nodes.iter_mut().filter(|node| node.first == 255) {
            match usize::from(node.second) {
                number if number >= part.end => node.second -= part.len() as u8,
                number if number >= part.start => node.second = 0,
                _ => {}
            }
        }
    });
    let plain = |node: Node| Node::leaf(node.second * u8::from(node.first == 255));
    let few = plan.nodes.len() <= 64;
    let others = (0..plan.nodes.len()).filter(|i| few && plan.nodes[*i] != plain(plan.nodes[*i]));
    let leaves = with(&plan, others, |plan, i| plan.nodes[i] = plain(plan.nodes[i]));
    let others = (0..26).filter(|i| plan.starts[*i] != 0);
    let starts = with(&plan, others, |plan, i| plan.starts[i] = 0);
    let fewer = [nodes, phones, leaves, starts].into_iter().flatten();
    shorter.into_iter().chain(fewer.map(|plan| plan.sections())).collect()
}
