//! letters.txt: definitions and ordered rules, turned into the cases of each letter.

use std::collections::HashMap;

use crate::contexts::{self, Context, Names, ANY};
use crate::fault::Faults;
use crate::lines::{self, Line};
use crate::phones::{self, MOST_PHONES};

pub const FILE: &str = "letters.txt";

/// The definition whose contexts, left of a letter, make a "*" a 1.
const STRESSED: &str = "STRESSED";
/// The leaf of a letter that is not said.
pub const SILENT: &str = "epsilon";

/// A set of letters: bit 0 is a.
type Letters = u32;
const EVERY: Letters = (1 << 26) - 1;

/// One case of a rule: the bytes that each feature may have, and the leaf's number.
#[derive(Clone, Debug, PartialEq, Eq, Hash)]
pub struct Case {
    pub features: [u128; 8],
    pub leaf: u8,
}

impl Case {
    pub fn always_fits(&self) -> bool {
        self.features == [ANY; 8]
    }
}

/// The cases of one letter in order, and the line of its last rule.
#[derive(Default)]
pub struct Letter {
    pub cases: Vec<Case>,
    pub last_line: usize,
    /// The line of the rule without context.
    closed_at: Option<usize>,
}

/// What the text says: the leaves in order of use, and 26 letters.
#[derive(Default)]
pub struct Rules {
    pub leaves: Vec<String>,
    pub letters: [Letter; 26],
    names: Names,
    numbers: HashMap<String, u8>,
}

/// A rule as it stands in a line.
struct Rule<'a> {
    left: Vec<Context>,
    letter: u8,
    right: Vec<Context>,
    phones: Vec<&'a str>,
}

/// The rules of a text. Each letter has a last rule without context, or there is a fault.
pub fn read(bytes: &[u8], faults: &mut Faults) -> Rules {
    let mut rules = Rules::default();
    let lines = lines::read(bytes, faults);
    let mut doubtful = if faults.list.is_empty() { 0 } else { EVERY };
    for line in lines {
        if let Err(sentence) = rules.take(&line) {
            faults.add(line.number, sentence);
            doubtful |= meant(line.text);
        }
    }
    rules.check_last(doubtful, faults);
    rules
}

/// The letters that a faulty line may be a rule of: the one behind its bracket, none if it begins as a definition, else
/// any.
fn meant(text: &str) -> Letters {
    let bracket = text.split_once('[');
    let behind = bracket.map(|(_, rest)| rest.trim_start_matches(lines::is_blank));
    match behind.map(|rest| rest.bytes().next()) {
        Some(Some(letter @ b'a'..=b'z')) => 1 << (letter - b'a'),
        None if text.starts_with(|c: char| c.is_ascii_uppercase()) => 0,
        _ => EVERY,
    }
}

impl Rules {
    /// Takes a line: a rule if it has brackets, else a definition.
    fn take(&mut self, line: &Line) -> Result<(), String> {
        let Some((head, tail)) = line.text.split_once('=') else {
            return Err(
                "there is no \"=\"; write LEFT [letter] RIGHT = PHONES, or NAME = CONTEXTS"
                    .to_string(),
            );
        };
        if head.contains(['[', ']']) {
            let rule = self.rule(head, tail)?;
            self.add(&rule, line.number)
        } else {
            self.names.define(head.trim_end_matches(lines::is_blank), tail)
        }
    }

    /// Tells each letter without a last rule, but for those whose rule may stand in a faulty line, which is told already.
    fn check_last(&self, doubtful: Letters, faults: &mut Faults) {
        for (place, (letter, name)) in self.letters.iter().zip('a'..='z').enumerate() {
            if letter.closed_at.is_none() && doubtful >> place & 1 == 0 {
                let sentence = format!(
                    "the letter {name} has no last rule without context; add one, such as [{name}] = PHONES, behind its other rules"
                );
                faults.add(letter.last_line, sentence);
            }
        }
    }

    fn rule<'a>(&self, head: &str, tail: &'a str) -> Result<Rule<'a>, String> {
        let form = "write one letter from a to z in brackets, as in LEFT [letter] RIGHT = PHONES";
        let parts =
            head.split_once('[').and_then(|(left, rest)| Some((left, rest.split_once(']')?)));
        let Some((left, (middle, right))) = parts else {
            return Err(format!("the brackets do not fit; {form}"));
        };
        let letter = match lines::fields(middle)[..] {
            [one] if one.len() == 1 && one.as_bytes()[0].is_ascii_lowercase() => one.as_bytes()[0],
            _ => return Err(format!("\"[{middle}]\" is no letter; {form}")),
        };
        let phones = lines::fields(tail);
        self.check_phones(&phones)?;
        Ok(Rule {
            left: self.side(left, contexts::left)?,
            letter,
            right: self.side(right, contexts::right)?,
            phones,
        })
    }

    /// The contexts of one side; between "&" stand such as must hold together.
    fn side(
        &self,
        text: &str,
        placed: fn(Vec<contexts::Run>) -> Result<Vec<Context>, String>,
    ) -> Result<Vec<Context>, String> {
        let mut all = vec![[ANY; 4]];
        for part in text.split('&') {
            all = contexts::both(&all, &placed(self.names.contexts(part)?)?)?;
        }
        Ok(all)
    }

    fn check_phones(&self, phones: &[&str]) -> Result<(), String> {
        if phones.len() > 2 {
            return Err(format!(
                "a letter gives at most two phones, and here are {}; give the others to its neighbours",
                phones.len()
            ));
        }
        for phone in phones {
            match phone.strip_suffix('*') {
                Some(vowel) if !phones::is_vowel(vowel) => {
                    return Err(format!(
                        "\"{phone}\" is no vowel with \"*\"; write \"*\" behind a vowel only"
                    ))
                }
                Some(_) if self.names.get(STRESSED).is_none() => {
                    return Err(format!(
                        "\"{phone}\" needs the definition of {STRESSED}; write {STRESSED} = CONTEXTS in an earlier line"
                    ))
                }
                Some(_) => {}
                None => phones::check(phone)?,
            }
        }
        Ok(())
    }

    /// Adds a rule's cases behind those of its letter.
    fn add(&mut self, rule: &Rule, number: usize) -> Result<(), String> {
        let place = (rule.letter - b'a') as usize;
        if let Some(first) = self.letters[place].closed_at {
            return Err(format!(
                "line {first} fits every {}, so this rule is never reached; put it before line {first}",
                rule.letter as char
            ));
        }
        let mut cases = Vec::new();
        if rule.phones.iter().any(|phone| phone.ends_with('*')) {
            let stressed = self.names.get(STRESSED).unwrap_or_default();
            let left = contexts::both(&rule.left, &contexts::left(stressed.to_vec())?)?;
            let leaf = self.leaf(&rule.phones, "1")?;
            push_cases(&mut cases, &left, &rule.right, leaf);
        }
        let leaf = self.leaf(&rule.phones, "0")?;
        push_cases(&mut cases, &rule.left, &rule.right, leaf);

        let letter = &mut self.letters[place];
        letter.last_line = number;
        if cases.iter().any(Case::always_fits) {
            letter.closed_at = Some(number);
        }
        letter.cases.extend(cases);
        Ok(())
    }

    /// The number of a leaf, with a digit in place of "*".
    fn leaf(&mut self, phones: &[&str], digit: &str) -> Result<u8, String> {
        let text = match phones {
            [] => SILENT.to_string(),
            _ => phones.join("-").replace('*', digit),
        };
        if let Some(&number) = self.numbers.get(&text) {
            return Ok(number);
        }
        if self.leaves.len() == MOST_PHONES {
            return Err(format!(
                "the rules give more than {MOST_PHONES} different phones and pairs; use one of those above again"
            ));
        }
        let number = self.leaves.len() as u8;
        self.numbers.insert(text.clone(), number);
        self.leaves.push(text);
        Ok(number)
    }
}

/// A case for each left and right context; feature 3 is the left neighbour, 4 the right one.
fn push_cases(cases: &mut Vec<Case>, lefts: &[Context], rights: &[Context], leaf: u8) {
    for left in lefts {
        for right in rights {
            let mut features = [ANY; 8];
            features[..4].copy_from_slice(left);
            features[4..].copy_from_slice(right);
            cases.push(Case { features, leaf });
        }
    }
}
