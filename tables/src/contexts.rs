//! Contexts: what may stand beside a letter, as sets of bytes, and the names of such contexts.

use std::collections::BTreeMap;

use crate::lines;

/// A set of bytes below 128.
pub type Set = u128;
/// The set of all bytes.
pub const ANY: Set = u128::MAX;
/// The byte at the word's edge, written "|" in rules.
const EDGE: Set = 1 << b'#';
/// The most letters on either side.
const REACH: usize = 4;
/// The most contexts that the names in one rule may stand for.
const MOST_CONTEXTS: usize = 1000;

/// One side of a letter: four sets, in the order of the features.
pub type Context = [Set; REACH];
/// Sets for neighbouring bytes, from left to right.
pub type Run = Vec<Set>;

/// Definitions: a name stands for any of its runs.
#[derive(Default)]
pub struct Names {
    runs: BTreeMap<String, Vec<Run>>,
}

impl Names {
    pub fn get(&self, name: &str) -> Option<&[Run]> {
        self.runs.get(name).map(Vec::as_slice)
    }

    /// Takes a definition: runs with blanks between them.
    pub fn define(&mut self, name: &str, text: &str) -> Result<(), String> {
        if name.is_empty() || !name.bytes().all(|b| b.is_ascii_uppercase() || b == b'_') {
            return Err(format!(
                "\"{name}\" is neither a rule nor a name; write LEFT [letter] RIGHT = PHONES, or a name in capital letters"
            ));
        }
        if self.runs.contains_key(name) {
            return Err(format!(
                "{name} is defined above; choose another name, or put all contexts into one line"
            ));
        }
        let mut runs = Vec::new();
        for field in lines::fields(text) {
            runs.extend(self.contexts(field)?);
        }
        if runs.is_empty() {
            return Err(format!(
                "{name} stands for nothing; write at least one letter behind \"=\""
            ));
        }
        self.runs.insert(name.to_string(), merged(runs));
        Ok(())
    }

    /// All runs that a text stands for; blanks in it are for the reader only.
    pub fn contexts(&self, text: &str) -> Result<Vec<Run>, String> {
        let mut rest = text.trim_matches(lines::is_blank);
        let mut all = vec![Run::new()];
        while !rest.is_empty() {
            let (runs, behind) = self.item(rest)?;
            all = few(joined(&all, &runs))?;
            rest = behind.trim_start_matches(lines::is_blank);
        }
        Ok(all)
    }

    /// The first item of a text, a letter, "|", a name, or "!" and one of these, and the text behind it.
    fn item<'a>(&self, text: &'a str) -> Result<(Vec<Run>, &'a str), String> {
        if let Some(behind) = text.strip_prefix('!') {
            return self.negated(behind);
        }
        let first = text.as_bytes()[0];
        match first {
            b'a'..=b'z' | b'\'' => Ok((vec![vec![1 << first]], &text[1..])),
            b'|' => Ok((vec![vec![EDGE]], &text[1..])),
            b'A'..=b'Z' => {
                let is_name = |c: char| c.is_ascii_uppercase() || c == '_';
                let (name, behind) = text.split_at(text.find(|c| !is_name(c)).unwrap_or(text.len()));
                match self.get(name) {
                    Some(runs) => Ok((runs.to_vec(), behind)),
                    None => Err(format!(
                        "{name} is not defined; write {name} = CONTEXTS in an earlier line, or small letters"
                    )),
                }
            }
            _ => Err(format!(
                "\"{}\" cannot stand beside a letter; write a to z, an apostrophe, | for the word's edge, ! or a name",
                first as char
            )),
        }
    }

    /// Any byte but those of the item behind "!".
    fn negated<'a>(&self, text: &'a str) -> Result<(Vec<Run>, &'a str), String> {
        let needs =
            "\"!\" needs one letter, or a name of single letters, right behind it; write it so";
        if text.is_empty() || text.starts_with(lines::is_blank) || text.starts_with('!') {
            return Err(needs.to_string());
        }
        let (runs, behind) = self.item(text)?;
        if runs.iter().any(|run| run.len() != 1) {
            return Err(needs.to_string());
        }
        let set = runs.iter().fold(0, |set, run| set | run[0]);
        Ok((vec![vec![!set]], behind))
    }
}

/// The runs, with those of a single set made one.
fn merged(runs: Vec<Run>) -> Vec<Run> {
    let (single, mut rest): (Vec<Run>, Vec<Run>) = runs.into_iter().partition(|run| run.len() == 1);
    if !single.is_empty() {
        rest.push(vec![single.iter().fold(0, |set, run| set | run[0])]);
    }
    rest
}

/// Each run of a list with each of another behind it.
fn joined(fronts: &[Run], behind: &[Run]) -> Vec<Run> {
    fronts
        .iter()
        .flat_map(|front| behind.iter().map(move |run| [&front[..], run].concat()))
        .collect()
}

/// Runs left of a letter, their last set beside it.
pub fn left(runs: Vec<Run>) -> Result<Vec<Context>, String> {
    runs.into_iter()
        .map(|run| {
            check(&run, run.iter().skip(1))?;
            let mut context = [ANY; REACH];
            context[REACH - run.len()..].copy_from_slice(&run);
            Ok(context)
        })
        .collect()
}

/// Runs right of a letter, their first set beside it.
pub fn right(runs: Vec<Run>) -> Result<Vec<Context>, String> {
    runs.into_iter()
        .map(|run| {
            check(&run, run.iter().rev().skip(1))?;
            let mut context = [ANY; REACH];
            context[..run.len()].copy_from_slice(&run);
            Ok(context)
        })
        .collect()
}

/// A run fits if it reaches four letters at most, and has the edge at its outer end only.
fn check<'a>(run: &Run, mut inner: impl Iterator<Item = &'a Set>) -> Result<(), String> {
    if run.len() > REACH {
        return Err(format!(
            "the context reaches {} letters far; write at most {REACH} on either side",
            run.len()
        ));
    }
    if inner.any(|&set| set == EDGE) {
        return Err("something stands beyond \"|\", the word's edge; let \"|\" be the outermost"
            .to_string());
    }
    Ok(())
}

/// Contexts in which one of each list holds.
pub fn both(some: &[Context], others: &[Context]) -> Result<Vec<Context>, String> {
    let all: Vec<Context> = some
        .iter()
        .flat_map(|a| others.iter().map(move |b| std::array::from_fn(|i| a[i] & b[i])))
        .collect();
    few(all)
}

/// The list, unless it is too long.
fn few<T>(all: Vec<T>) -> Result<Vec<T>, String> {
    if all.len() > MOST_CONTEXTS {
        return Err(format!(
            "the names stand for more than {MOST_CONTEXTS} contexts; use shorter definitions, or fewer in one rule"
        ));
    }
    Ok(all)
}
