//! How lists are made.

use super::{Act, Input, Sections, Step};
use crate::calls::{add_entry, adding};
use crate::prelude::*;
use crate::sheets::LARGEST;

/// A list without calls, and words to add and to say.
pub type Sources = (Input, Vec<Vec<u8>>);

/// A random list.
pub fn list(random: &mut Random, sources: &Sources, phones: &Rc<Phones>) -> Input {
    let lengths = [(6, 0, 6), (8, 4, 16), (1, 16, 40)];
    let (len, steps) = match random.once_in(400) {
        true => (LARGEST, random.ranged(&[(1, 100, 400)])),
        false => (sheet_shapes::length(random), random.ranged(&lengths)),
    };
    let all = stores::LARGEST / SLOT;
    let slots = random.ranged(&[(40, 1, 1), (240, 2, 6), (60, 7, 16), (1, all, all)]);
    let bytes = |random: &mut Random, len: usize| match random.once_in(3) {
        true => random.bytes(len),
        false => vec![random.byte() * random.below(2) as u8; len],
    };
    let pool = Pool::new(random, sources, phones);
    let version = if pool.first { 1 } else { sheet_shapes::version(random) };
    let weights = match random.once_in(2) {
        true => [8, 2, 1, 2, 5, 5],
        false => [10, 4, 2, 2, 0, 0],
    };
    let breaks = random.once_in(6);
    let (store, sheet) = (bytes(random, SLOT * slots), bytes(random, len));
    let step = |_| Step { act: pool.act(random, &weights), broken: breaks && random.once_in(4) };
    let steps = (0..steps).map(step).collect();
    Input { store, sheet, version, steps, ..sources.0.clone() }
}

/// Sections, and words around them; and how many lists they serve.
pub fn begin(random: &mut Random, phones: &Phones) -> (Sources, usize) {
    let shape = lexicon_shapes::few(random, phones);
    let lexicon = match random.once_in(6) {
        true => lexicon_shapes::broken(random, &shape.lexicon),
        false => shape.lexicon,
    };
    let trees = match random.once_in(3) {
        true => tree_shapes::random(random),
        false => {
            let shape = random.below(5);
            tree_shapes::to_record(random, shape)
        }
    };
    let mut words = shape.words;
    words.truncate(12);
    words.extend((0..random.between(1, 4)).map(|_| words::accepted(random, &trees.alphabet)));
    let sections = Sections::new(Rc::new(lexicon), Rc::new(trees));
    let broken = broken(random, &sections);
    let (store, sheet, steps) = (vec![], vec![], vec![]);
    ((Input { sections, broken, store, sheet, version: 1, steps }, words), 8)
}

/// What the calls of one list are made of; half of the lists have few words and tags, so that words come again.
struct Pool<'a> {
    few: bool,
    /// Whether version 1 is the only known one.
    first: bool,
    tags: Vec<Vec<u8>>,
    all_words: &'a [Vec<u8>],
    /// The sections beside an empty store, and the words of the list.
    adds: adding::Pool,
}

impl Pool<'_> {
    fn new<'a>(random: &mut Random, sources: &'a Sources, phones: &Rc<Phones>) -> Pool<'a> {
        let (few, first) = (random.once_in(2), random.once_in(2));
        let (empty, all_words) = sources;
        let (words, tags) = match few {
            true => {
                let count = random.between(1, 3);
                let any = |_| all_words[random.below(all_words.len())].clone();
                ((0..count).map(any).collect(), vec![words::tag(random), vec![]])
            }
            false => (all_words.clone(), (0..40).map(|_| words::tag(random)).collect()),
        };
        let scene = Rc::new(Scene::new(&empty.sections.table, stores::new(1, 0)));
        let exact = !random.once_in(3);
        let adds = adding::Pool { scene, words, phones: phones.clone(), exact };
        Pool { few, first, tags, all_words, adds }
    }

    /// A call, each kind as often as its weight says.
    fn act(&self, random: &mut Random, weights: &[usize; 6]) -> Act {
        let adding::Pool { words, phones, .. } = &self.adds;
        let tag = self.tags[random.below(self.tags.len())].clone();
        match random.weighted(weights) {
            0 => {
                let word = match self.few && !random.once_in(8) {
                    true => words[random.below(words.len())].clone(),
                    false => words::near(random, self.all_words),
                };
                Act::SayWord(Wanted { word, tag })
            }
            1 => {
                let mut add = self.adds.add(random);
                if self.few {
                    add.wanted.tag = tag;
                }
                if random.once_in(2) {
                    add_entry::spoil(random, &mut add, phones);
                }
                Act::AddEntry(add)
            }
            2 => Act::AddText {
                text: self.adds.text(random, 16),
                fill: random.byte(),
                spare: random.once_in(20).then(|| SLOT * random.below(4) + random.below(2)),
            },
            3 => match sheet_shapes::any_version(random) {
                2 if self.first => Act::NewSheet(1),
                version => Act::NewSheet(version),
            },
            4 => Act::Preview(self.adds.text(random, 32)),
            _ => Act::Accept,
        }
    }
}

/// Sections of which one at least breaks its form.
fn broken(random: &mut Random, sections: &Sections) -> Sections {
    let mut lexicon = sections.lexicon.sections.clone();
    let mut trees = sections.trees.sections.clone();
    match (random.once_in(2), random.below(3)) {
        (true, 0) => trees.phones.truncate(3),
        (true, 1) => trees.index.truncate(51),
        (true, _) => trees.model.push(0),
        (false, 0) => lexicon.phones.truncate(3),
        (false, 1) => lexicon.index.truncate(3),
        (false, _) => lexicon.phones = vec![1, 2, 0, 0],
    }
    Sections::new(Rc::new(Lexicon::new(lexicon)), Rc::new(Trees::new(trees, vec![])))
}
