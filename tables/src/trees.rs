//! Trees for the letters: nodes that ask for the byte of one feature, shared wherever they agree.

use std::collections::HashMap;

use crate::contexts::{Set, ANY};
use crate::fault::{Fault, Faults};
use crate::letters::{self, Case};
use crate::phones;

/// The order in which features are asked: near letters first.
const ORDER: [usize; 8] = [4, 5, 6, 7, 3, 2, 1, 0];
/// The first byte of a leaf.
const LEAF: u8 = 255;
/// The bytes that rules can name, and one that they cannot, which stands for all others.
const NAMED: &str = "#'abcdefghijklmnopqrstuvwxyz";
const UNNAMED: u8 = b'0';
/// The most nodes of a model, and the bytes of each.
const MOST_NODES: usize = 65_536;
const NODE: usize = 6;

/// The three sections of the trees.
pub struct Trees {
    pub phones: Vec<u8>,
    pub index: Vec<u8>,
    pub model: Vec<u8>,
}

impl Trees {
    pub fn nodes(&self) -> usize {
        self.model.len() / NODE
    }
}

/// The trees of letters.txt.
pub fn read(bytes: &[u8]) -> Result<Trees, Vec<Fault>> {
    let mut faults = Faults::of(letters::FILE);
    let rules = letters::read(bytes, &mut faults);
    let mut nodes = Nodes::default();
    let mut index = Vec::new();
    if faults.list.is_empty() {
        for letter in &rules.letters {
            match nodes.tree(letter.cases.clone()) {
                Some(root) => index.extend(root.to_le_bytes()),
                None => {
                    faults.add(letter.last_line, too_many());
                    break;
                }
            }
        }
    }
    faults.unless_any(Trees { phones: phones::table(&rules.leaves), index, model: nodes.model() })
}

fn too_many() -> String {
    format!(
        "up to this letter's rules the trees have more than {MOST_NODES} nodes; write fewer rules, or nearer contexts"
    )
}

/// A node: its first two bytes, and the nodes behind a yes and a no.
type Node = (u8, u8, u16, u16);

/// All nodes, each once.
#[derive(Default)]
struct Nodes {
    list: Vec<Node>,
    numbers: HashMap<Node, u16>,
    trees: HashMap<Vec<Case>, u16>,
}

impl Nodes {
    /// The first node of a tree that finds the first case that fits; none if there are too many nodes.
    fn tree(&mut self, cases: Vec<Case>) -> Option<u16> {
        let cases = needed(cases);
        if let Some(&number) = self.trees.get(&cases) {
            return Some(number);
        }
        let asked = ORDER.into_iter().find(|&f| cases.iter().any(|case| case.features[f] != ANY));
        let number = match asked {
            None => self.node((LEAF, cases[0].leaf, 0, 0))?,
            Some(feature) => self.questions(&cases, feature)?,
        };
        self.trees.insert(cases, number);
        Some(number)
    }

    /// Questions for the bytes of a feature that matter; all others go on together.
    fn questions(&mut self, cases: &[Case], feature: usize) -> Option<u16> {
        let otherwise = self.tree(with_byte(cases, feature, UNNAMED))?;
        let mut answers = Vec::new();
        for byte in NAMED.bytes() {
            let yes = self.tree(with_byte(cases, feature, byte))?;
            if yes != otherwise {
                answers.push((yes, byte));
            }
        }
        self.chain(feature as u8, answers, otherwise)
    }

    /// A chain of questions. Those of the most frequent answer come last, for others may share that end.
    fn chain(&mut self, feature: u8, answers: Vec<(u16, u8)>, otherwise: u16) -> Option<u16> {
        let count = |wanted: u16| answers.iter().filter(|(yes, _)| *yes == wanted).count();
        let mut order = answers.clone();
        order.sort_by_key(|&(yes, byte)| (count(yes), yes, byte));
        let mut number = otherwise;
        for (yes, byte) in order.into_iter().rev() {
            number = self.node((feature, byte, yes, number))?;
        }
        Some(number)
    }

    fn node(&mut self, node: Node) -> Option<u16> {
        if let Some(&number) = self.numbers.get(&node) {
            return Some(number);
        }
        if self.list.len() == MOST_NODES {
            return None;
        }
        let number = self.list.len() as u16;
        self.list.push(node);
        self.numbers.insert(node, number);
        Some(number)
    }

    fn model(&self) -> Vec<u8> {
        let bytes = self.list.iter().map(|&(kind, value, yes, no)| {
            let ([y0, y1], [n0, n1]) = (yes.to_le_bytes(), no.to_le_bytes());
            [kind, value, y0, y1, n0, n1]
        });
        bytes.flatten().collect()
    }
}

/// The cases that are left once a feature's byte is known.
fn with_byte(cases: &[Case], feature: usize, byte: u8) -> Vec<Case> {
    let fits = |case: &&Case| case.features[feature] >> byte & 1 == 1;
    let mut rest: Vec<Case> = cases.iter().filter(fits).cloned().collect();
    for case in &mut rest {
        case.features[feature] = ANY;
    }
    rest
}

/// The cases without those that can decide nothing: what lies behind a case that always fits or that covers it, and
/// those right before the last that have its leaf.
fn needed(cases: Vec<Case>) -> Vec<Case> {
    let mut kept: Vec<Case> = Vec::new();
    for case in cases {
        if !kept.iter().any(|earlier| covers(earlier, &case)) {
            kept.push(case);
        }
    }
    while let [.., before, last] = &kept[..] {
        if before.leaf != last.leaf {
            break;
        }
        kept.remove(kept.len() - 2);
    }
    kept
}

/// Whether a case fits wherever another does.
fn covers(one: &Case, other: &Case) -> bool {
    let pairs = one.features.iter().zip(&other.features);
    pairs.into_iter().all(|(a, b): (&Set, &Set)| a & b == *b)
}

#[cfg(test)]
mod tests {
    use super::*;
    use crate::walk::predict;

    /// Rules without context for every letter but those given.
    fn last_rules(but: &str) -> String {
        let letters = ('a'..='z').filter(|c| !but.contains(*c));
        letters.map(|c| format!("[{c}] = t\n")).collect()
    }

    /// What a word gives by rules; the letters that they do not close give t.
    fn say(rules: &str, word: &str) -> String {
        let open = |c: char| !rules.lines().any(|l| l.starts_with(&format!("[{c}] =")));
        let closed: String = ('a'..='z').filter(|&c| !open(c)).collect();
        let text = format!("{rules}\n{}", last_rules(&closed));
        let trees = read(text.as_bytes()).unwrap_or_else(|faults| panic!("{}", faults[0]));
        predict(&trees, word).join(" ")
    }

    /// The only fault of rules whose other letters are closed.
    fn fault(rules: &str, closed: &str) -> String {
        let text = format!("{rules}\n{}", last_rules(closed));
        let faults = read(text.as_bytes()).err().expect("the rules are faulty");
        assert_eq!(faults.len(), 1, "{}", faults[0]);
        faults[0].to_string()
    }

    #[test]
    fn the_first_rule_that_fits_wins() {
        let rules = "SHARP = e i y\n[c] SHARP = s\n[c] h = ch\n[c] = k\n[h] =\n";
        assert_eq!(say(rules, "cachice"), "k t ch t s t");
    }

    #[test]
    fn contexts_reach_four_letters_and_the_edge() {
        let rules = "efgh[a]jklm = aa\n|e[a]k| = ey\n[a] = ae\n";
        assert_eq!(say(rules, "efghajklm"), "t t t t aa t t t t");
        assert_eq!(say(rules, "efghajkl"), "t t t t ae t t t");
        assert_eq!(say(rules, "eak"), "t ey t");
        assert_eq!(say(rules, "eaks"), "t ae t t");
        assert_eq!(say(rules, "seak"), "t t ae t");
    }

    #[test]
    fn a_letter_gives_no_phone_one_or_two() {
        let rules = "[e]| =\n[e] = eh1\n[x] = k s\n";
        assert_eq!(say(rules, "exe"), "eh1 k s");
        assert_eq!(say(rules, "X-1"), "k s");
        assert_eq!(say("[e] = eh2\n[u] = y uw2\n", "eu"), "eh2 y uw2");
    }

    #[test]
    fn a_denied_item_fits_any_other_byte_and_the_edge() {
        let rules = "VOWEL = a e\n[b]!VOWEL = b\n[b] = p\n[c]!d = k\n[c] = s\n";
        assert_eq!(say(rules, "bab"), "p t b");
        assert_eq!(say(rules, "b1cd"), "b s t");
    }

    #[test]
    fn contexts_joined_by_an_ampersand_hold_together() {
        let rules = "ONE = |s |st\nt & ONE[a] = ey\n[a] = ae\n";
        assert_eq!(say(rules, "sta"), "t t ey");
        assert_eq!(say(rules, "sa"), "t ae");
        assert_eq!(say(rules, "rta"), "t t ae");
    }

    #[test]
    fn a_star_is_the_digit_that_the_definition_gives() {
        let rules = "VOWEL = a e\nSTRESSED = | |!VOWEL\nb[a] = ey*\n[a] = ae*\n";
        assert_eq!(say(rules, "a"), "ae1");
        assert_eq!(say(rules, "bata"), "t ey1 t ae0");
    }

    #[test]
    fn each_faulty_line_is_told_with_a_next_step() {
        #[rustfmt::skip]
        let cases = [
            ("hello", "there is no \"=\"; write LEFT [letter] RIGHT = PHONES, or NAME = CONTEXTS"),
            ("vowel = a e", "\"vowel\" is neither a rule nor a name; write"),
            (" = a", "\"\" is neither a rule nor a name; write"),
            ("A = ", "A stands for nothing; write at least one letter"),
            ("[a = ey", "the brackets do not fit; write one letter from a to z in brackets"),
            ("a] = ey", "the brackets do not fit; write"),
            ("[ab] = ey", "\"[ab]\" is no letter; write one letter from a to z in brackets"),
            ("[A] = ey", "\"[A]\" is no letter; write"),
            ("[a] = eyy", "\"eyy\" is no phone; write one of the 50"),
            ("[a] = k1", "\"k1\" has a stress behind a consonant; write k, and 0, 1 or 2 behind a vowel only"),
            ("[a] = k s t", "a letter gives at most two phones, and here are 3; give the others"),
            ("[a]NAME = ey", "NAME is not defined; write NAME = CONTEXTS in an earlier line"),
            ("[a]bcdef = ey", "the context reaches 5 letters far; write at most 4"),
            ("|b|[a] = ey", "something stands beyond \"|\", the word's edge; let"),
            ("[a]|b = ey", "something stands beyond \"|\", the word's edge; let"),
            ("[a]7 = ey", "\"7\" cannot stand beside a letter; write a to z"),
            ("[a]! = ey", "\"!\" needs one letter, or a name of single letters"),
            ("[a] = t*", "\"t*\" is no vowel with \"*\"; write \"*\" behind a vowel only"),
            ("[a] = ey*", "\"ey*\" needs the definition of STRESSED; write STRESSED"),
            ("[a] = \u{e9}", "has a byte of 128 or more; write plain letters"),
        ];
        for (rule, said) in cases {
            let told = fault(rule, "");
            assert!(told.starts_with(&format!("letters.txt, line 1: {said}")), "{told}");
        }
    }

    #[test]
    fn faults_between_lines_are_told_at_the_later_one() {
        let told = fault("A = a\nA = e", "");
        assert!(told.starts_with("letters.txt, line 2: A is defined above; choose"), "{told}");
        let told = fault("A = ab\n[a]!A = ey", "");
        assert!(told.starts_with("letters.txt, line 2: \"!\" needs one letter"), "{told}");
        let told = fault("[a] = ey\n[a]b = ae", "a");
        assert!(told.starts_with("letters.txt, line 2: line 1 fits every a"), "{told}");
        let pairs = "A = ab ac\n[e]A A = ey\n[a]A A A = ey";
        assert!(fault(pairs, "").starts_with("letters.txt, line 3: the context reaches 6"));
        let many = "A = ab ba aa bb ca ac bc cb\n[e] A & A & A & A = ey";
        assert!(
            fault(many, "").starts_with("letters.txt, line 2: the names stand for more than 1000")
        );
    }

    #[test]
    fn a_letter_without_a_last_rule_is_told() {
        let told = fault("[q]u = k", "q");
        let said = "the letter q has no last rule without context; add one, such as [q] = PHONES";
        assert!(told.starts_with(&format!("letters.txt, line 1: {said}")), "{told}");
        assert!(fault("", "z").starts_with("letters.txt: the letter z has no last rule"));
    }

    #[test]
    fn a_faulty_last_rule_is_told_once() {
        for rule in [
            "[q] = kk",
            "[q] = k1",
            "[q] = ae*",
            "[ q]7 = k",
            "[q k",
            "[q] k",
            "q] = k",
            "[Q] = k",
            "q = k",
            "[q] = \u{e9}",
        ] {
            fault(rule, "q");
        }
        let faults = read(b"[a] = eyy\nVOWEL = 7").err().expect("the rules are faulty");
        assert_eq!(faults.len(), 2 + 25);
    }

    #[test]
    fn the_257th_leaf_is_told_at_its_line() {
        let phones = [
            "aa", "ae", "ah", "ao", "aw", "ax", "ay", "eh", "er", "ey", "ih", "iy", "ow", "oy",
            "uh", "uw",
        ];
        let pairs = phones.iter().flat_map(|a| phones.iter().map(move |b| format!("{a} {b}")));
        let letters = ('a'..='z').flat_map(|c| ('a'..='z').map(move |d| format!("{c}{d}")));
        let rules = pairs.zip(letters).map(|(pair, right)| format!("[z]{right} = {pair}\n"));
        let text = format!("{}[a] = k\n{}", rules.collect::<String>(), last_rules("a"));
        let faults = read(text.as_bytes()).err().expect("the rules are faulty");
        let told = faults[0].to_string();
        assert!(told.starts_with("letters.txt, line 257: the rules give more than 256"), "{told}");
    }

    #[test]
    fn too_many_nodes_are_told() {
        let mut nodes = Nodes { list: vec![(0, 0, 0, 0); MOST_NODES - 1], ..Nodes::default() };
        assert!(nodes.node((LEAF, 1, 0, 0)).is_some());
        assert!(nodes.node((LEAF, 2, 0, 0)).is_none());
        assert!(nodes.node((LEAF, 1, 0, 0)).is_some());
        assert!(too_many().contains("more than 65536 nodes; write fewer rules"));
    }
}
