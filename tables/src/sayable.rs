//! sayable.txt and the machines aswd.p and aswd.s.

use std::collections::{BTreeMap, HashMap};

use crate::fault::{Fault, Faults};
use crate::lines::{self, Line};

pub const FILE: &str = "sayable.txt";

/// The state in which a machine stands behind "#", in both tables; the cell before it ends state 0.
const START: usize = 2;
/// Where a vowel leads: a state without cells.
const DONE: usize = 1;
/// The largest state number, for a cell holds it above its 7 bits of symbol.
const LAST_STATE: usize = (u16::MAX / 128) as usize;

/// The cells of the two machines.
pub struct Machines {
    pub beginnings: Vec<u16>,
    pub endings: Vec<u16>,
}

/// What a line lists.
#[derive(Clone, Copy, PartialEq, Eq)]
enum Side {
    Beginnings,
    Endings,
}

/// A list of clusters with the number of their line.
struct Listed<'a> {
    number: usize,
    side: Side,
    clusters: Vec<&'a str>,
}

/// The two machines of a text.
pub fn read(bytes: &[u8]) -> Result<Machines, Vec<Fault>> {
    let mut faults = Faults::of(FILE);
    let mut listed = Vec::new();
    for line in lines::read(bytes, &mut faults) {
        match clusters(&line) {
            Ok(list) => listed.push(list),
            Err(sentence) => faults.add(line.number, sentence),
        }
    }
    let beginnings = machine(&listed, Side::Beginnings, &mut faults);
    let endings = machine(&listed, Side::Endings, &mut faults);
    faults.unless_any(Machines { beginnings, endings })
}

/// The list of a line, `begin : CLUSTERS` or `end : CLUSTERS`.
fn clusters<'a>(line: &Line<'a>) -> Result<Listed<'a>, String> {
    let form = "write begin : CLUSTERS or end : CLUSTERS";
    let Some((head, tail)) = line.text.split_once(':') else {
        return Err(format!("there is no colon; {form}"));
    };
    let side = match lines::fields(head)[..] {
        ["begin"] => Side::Beginnings,
        ["end"] => Side::Endings,
        _ => return Err(format!("neither \"begin\" nor \"end\" stands before the colon; {form}")),
    };
    let clusters = lines::fields(tail);
    for cluster in &clusters {
        check(cluster)?;
    }
    Ok(Listed { number: line.number, side, clusters })
}

fn check(cluster: &str) -> Result<(), String> {
    for letter in cluster.bytes() {
        if symbol(letter) == b'V' {
            return Err(format!(
                "\"{cluster}\" has the vowel {}; write only what stands before the first or behind the last vowel",
                letter as char
            ));
        }
        if !letter.is_ascii_lowercase() && letter != b'\'' {
            return Err(format!(
                "\"{cluster}\" is no cluster; write letters from a to z and apostrophes"
            ));
        }
    }
    Ok(())
}

/// A letter as the machines see it.
fn symbol(letter: u8) -> u8 {
    match letter {
        b'n' | b'm' => b'N',
        b'a' | b'e' | b'i' | b'o' | b'u' | b'y' => b'V',
        other => other,
    }
}

/// The cells of one side's machine. If they are too many, the first line with which they are is told.
fn machine(listed: &[Listed], side: Side, faults: &mut Faults) -> Vec<u16> {
    let mut graph = Graph::new();
    let mut cells = graph.cells();
    for list in listed.iter().filter(|list| list.side == side) {
        graph.accept_all(list);
        cells = graph.cells();
        if cells.is_none() {
            faults.add(
                list.number,
                "with these clusters the machine has a state above 511; write fewer clusters",
            );
            break;
        }
    }
    cells.unwrap_or_default()
}

/// States with their steps by symbol; each may also step on a vowel. State 0 is the one before any letter.
struct Graph {
    steps: Vec<BTreeMap<u8, usize>>,
    vowel: Vec<bool>,
}

impl Graph {
    /// The graph in which a vowel comes first.
    fn new() -> Graph {
        Graph { steps: vec![BTreeMap::new()], vowel: vec![true] }
    }

    fn accept_all(&mut self, list: &Listed) {
        for cluster in &list.clusters {
            match list.side {
                Side::Beginnings => self.accept(cluster.bytes()),
                Side::Endings => self.accept(cluster.bytes().rev()),
            }
        }
    }

    /// Lets a cluster lead to a vowel.
    fn accept(&mut self, letters: impl Iterator<Item = u8>) {
        let mut state = 0;
        for letter in letters {
            let fresh = self.steps.len();
            state = *self.steps[state].entry(symbol(letter)).or_insert(fresh);
            if state == fresh {
                self.steps.push(BTreeMap::new());
                self.vowel.push(false);
            }
        }
        self.vowel[state] = true;
    }

    /// The cells, each set of steps written once; none if a state lies above the last number.
    fn cells(&self) -> Option<Vec<u16>> {
        let classes = self.classes();
        let mut cells = vec![cell(b'#', START), 0];
        let mut places = HashMap::new();
        let mut waiting = vec![0];
        let mut holes = Vec::new();
        while let Some(state) = waiting.pop() {
            if places.contains_key(&classes[state]) {
                continue;
            }
            if cells.len() > LAST_STATE {
                return None;
            }
            places.insert(classes[state], cells.len());
            if self.vowel[state] {
                cells.push(cell(b'V', DONE));
            }
            let steps = self.steps[state].iter();
            holes.extend(steps.zip(cells.len()..).map(|((&s, &next), at)| (at, s, classes[next])));
            waiting.extend(self.steps[state].values());
            cells.resize(cells.len() + self.steps[state].len() + 1, 0);
        }
        for (at, symbol, class) in holes {
            cells[at] = cell(symbol, places[&class]);
        }
        Some(cells)
    }

    /// A number for each state; states with equal steps have the same one. Children come behind their parents.
    fn classes(&self) -> Vec<usize> {
        let mut known = HashMap::new();
        let mut classes = vec![0; self.steps.len()];
        for state in (0..self.steps.len()).rev() {
            let steps: Vec<(u8, usize)> =
                self.steps[state].iter().map(|(&symbol, &next)| (symbol, classes[next])).collect();
            let fresh = known.len();
            classes[state] = *known.entry((self.vowel[state], steps)).or_insert(fresh);
        }
        classes
    }
}

fn cell(symbol: u8, state: usize) -> u16 {
    symbol as u16 + 128 * state as u16
}

/// A section: a u32 count, then the cells.
pub fn section(cells: &[u16]) -> Vec<u8> {
    let mut section = (cells.len() as u32).to_le_bytes().to_vec();
    section.extend(cells.iter().flat_map(|cell| cell.to_le_bytes()));
    section
}

#[cfg(test)]
mod tests {
    use super::*;

    fn fault(text: &str) -> String {
        let faults = read(text.as_bytes()).err().expect("the text is faulty");
        assert_eq!(faults.len(), 1, "{}", faults[0]);
        faults[0].to_string()
    }

    /// Whether letters lead to a vowel.
    fn reaches(cells: &[u16], letters: impl Iterator<Item = u8>) -> bool {
        let mut state = START;
        for letter in letters {
            let symbol = symbol(letter);
            let found = cells[state..]
                .iter()
                .take_while(|&&cell| cell != 0)
                .find(|&&cell| cell % 128 == symbol as u16);
            match found {
                Some(_) if symbol == b'V' => return true,
                Some(cell) => state = (cell / 128) as usize,
                None => return false,
            }
        }
        false
    }

    fn is_sayable(text: &str, word: &str) -> bool {
        let machines = read(text.as_bytes()).unwrap_or_else(|faults| panic!("{}", faults[0]));
        reaches(&machines.beginnings, word.bytes())
            && reaches(&machines.endings, word.bytes().rev())
    }

    #[test]
    fn words_between_the_clusters_can_be_said() {
        let text = "begin : st str sm\nend : nd  # as in sand\n";
        assert!(is_sayable(text, "stand") && is_sayable(text, "strand"));
        assert!(!is_sayable(text, "srand") && !is_sayable(text, "stans"));
        assert!(!is_sayable(text, "") && !is_sayable(text, "st"));
    }

    #[test]
    fn n_and_m_are_one_letter_and_vowels_stand_alone() {
        assert!(is_sayable("begin : sm\nend : p", "snap"));
        assert!(is_sayable("", "aha") && !is_sayable("", "hah"));
    }

    #[test]
    fn both_tables_start_at_the_same_state() {
        let machines = read(b"begin : b\nend : b c d").expect("the text is right");
        for cells in [&machines.beginnings, &machines.endings] {
            assert_eq!(cells[0], b'#' as u16 + 128 * START as u16);
            assert_eq!(cells[1], 0);
        }
    }

    #[test]
    fn a_section_is_a_count_and_cells() {
        assert_eq!(section(&[1, 258]), b"\x02\0\0\0\x01\0\x02\x01");
    }

    #[test]
    fn each_fault_names_its_line_and_a_next_step() {
        #[rustfmt::skip]
        let cases = [
            ("begin b", "there is no colon; write begin : CLUSTERS or end : CLUSTERS"),
            ("start : b", "neither \"begin\" nor \"end\" stands before the colon; write begin"),
            ("begin : be", "\"be\" has the vowel e; write only what stands before the first"),
            ("end : b2", "\"b2\" is no cluster; write letters from a to z and apostrophes"),
            ("end : B", "\"B\" is no cluster; write letters"),
            ("end : \u{df}", "has a byte of 128 or more; write plain letters"),
        ];
        for (text, said) in cases {
            let told = fault(text);
            assert!(told.starts_with(&format!("sayable.txt, line 1: {said}")), "{told}");
        }
    }

    /// Lines of two-letter clusters, each with a set of third letters of its own.
    #[test]
    fn a_machine_that_is_too_large_is_told_at_its_line() {
        let letters: Vec<char> = "bcdfghjklpqrstvwxz".chars().collect();
        let mut text = String::new();
        for (i, a) in letters.iter().enumerate() {
            let thirds = |j: usize| [letters[(i + j) % 18], letters[(i * j + 1) % 18]];
            let three = |(j, b)| thirds(j).map(|c| format!("{a}{b}{c}")).join(" ");
            let clusters: Vec<String> = letters.iter().enumerate().map(three).collect();
            text += &format!("begin : {}\n", clusters.join(" "));
        }
        let told = fault(&text);
        let said = "the machine has a state above 511; write fewer clusters";
        assert!(told.starts_with("sayable.txt, line ") && told.contains(said), "{told}");
    }
}
