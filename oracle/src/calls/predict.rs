//! predict: the phones of a word by the letter trees.

use crate::calls::lookup::WORDS;
use crate::prelude::*;
use crate::trees::Walk;

input!(word: Vec<u8> => fewer_or_plainer, room: Room, trees: Rc<Trees>);

#[derive(Default)]
pub struct Predict {
    trees: Served<Rc<Trees>>,
}

impl Call for Predict {
    type Input = Input;
    const NAME: &'static str = "predict";
    const SHARE: usize = 31;
    const SHARE_RECORDED: usize = 38;
    const ANSWERS: Rows = &["phones 0", "phones 1 to 5", "phones 6 to 47", "phones 48 to 94"];
    const REFUSALS: &'static [u32] = &[1, 3, 6, 9];
    const MET: Table = &[
        words::WORD,
        &[&["'#' that stops"]],
        ROWS,
        &[&["damage that is not walked", "phone with a stress"]],
        places::ROWS,
        &[&["1: '#' in the word", "3: '#' in the word", "6: '#' in the word", "9: '#' that stops"]],
        cells::PHONES,
        &[OUTPUT],
    ];
    const LIBRARY: Function = ours::predict;

    fn short(&self) -> Vec<Input> {
        let random = &mut Random::new(7, "short predict");
        let sets = (0..10).map(|shape| tree_shapes::to_record(random, shape));
        let leaves = [&b"x-y-z"[..], b"-"].map(tree_edges::one_leaf);
        let short = each! {
            for (i, trees) in sets.chain(leaves).map(Rc::new).enumerate();
            for word in words::every(b"abzA#'0-", 3).into_iter().chain(words::edges());
            [input(&trees, word, Size::More(i % 3))]
        };
        [short, edges()].concat()
    }

    fn random(&mut self, random: &mut Random) -> Input {
        let made = || match random.once_in(300) {
            true => {
                let leaves = random.between(1, 40);
                // a walk over so many nodes takes its time
                (Rc::new(tree_shapes::deepest(random, leaves)), 4)
            }
            false => (Rc::new(tree_shapes::random(random)), WORDS),
        };
        let trees = self.trees.next(made).clone();
        let mut word = words::random(random, &trees.alphabet);
        if trees.nodes() > 10_000 {
            word.truncate(3);
        }
        Input::new(word, Room::random(random, 40), trees)
    }

    fn rule(&self, input: &Input, met: &mut Met) -> Ruling {
        let mut walks = Met::default();
        let Input { word, trees, .. } = input;
        refusal(trees, word, &mut walks)
            .inspect_err(|refusal| met.shared(places::refused(*refusal, word)))?;
        let phones = ask(|| trees.original().predict(ascii(word)))?;
        let place = places::beside_the_original(word)?;
        *met = walks;
        met.all(places::of_letters(word, phones.len()));
        met.add("phone with a stress", phones.iter().any(|p| p.ends_with(['0', '1'])));
        met.all(cells::of_phones(&phones));
        let row = row_of(Self::ANSWERS, &[1, 6, 48], phones.len());
        let answer = Answer::accepted(0, phones.len()).and(place);
        let short = places::refused(9, word);
        Ok(Told { short, ..Told::new(answer, row, vec![cells(&phones)]) })
    }

    fn lent<'a>(&self, input: &'a Input) -> Vec<Part<'a>> {
        let own = [words::word_part(&input.word), Part::output(Form::Cells, input.room)];
        input.trees.sections.parts().into_iter().chain(own).collect()
    }

    fn record(&self, random: &mut Random, cases: usize) -> Vec<String> {
        let sets = 12;
        record::sets("letter trees", sets, |set| {
            let trees = Rc::new(tree_shapes::to_record(random, set));
            let mut lines = registers(0, &trees.sections.parts());
            for i in 0..cases.div_ceil(sets) {
                // the edges on a few sets only
                let edge = (set % 5 == 4).then_some(i);
                let word = words::to_record(random, &trees.alphabet, edge);
                let input = Input::new(word, Room::to_record(random, 40), trees.clone());
                lines.push(whole_case(self, &input, &named(0..3)));
            }
            lines
        })
    }
}

fn input(trees: &Rc<Trees>, word: impl Into<Vec<u8>>, size: Size) -> Input {
    Input::new(word.into(), Room::of(size), trees.clone())
}

/// The refusal that 01 gives before an output matters, if it gives one. Tells what the walks met.
pub fn refusal(trees: &Trees, given: &[u8], met: &mut Met) -> Result<(), u32> {
    met.refuse(1, trees.names.is_none(), || None)?;
    met.refuse(3, words::is_refused(given), || None)?;
    let names = trees.names.as_deref().unwrap_or_default();
    let word = given.to_ascii_lowercase();
    let padded = [b"000#", &word[..], b"#000"].concat();
    let first = places::place(given);
    met.all(words::of_word(given));
    met.add("'#' that stops", first > 0);
    for at in (first..word.len()).rev() {
        met.once(of_byte(word[at], at, first));
        if word[at].is_ascii_lowercase() {
            let features = [0, 1, 2, 3, 5, 6, 7, 8].map(|i| padded[at + i]);
            let walk = trees.walk(&features, trees.start(word[at]));
            let name = walk.leaf.and_then(|leaf| names.get(leaf)).ok_or(6_u32)?;
            met.once(walked(&walk, trees.nodes(), name));
        }
    }
    met.add("damage that is not walked", trees.has_damage);
    Ok(())
}

/// Words on sections at 01's limits.
fn edges() -> Vec<Input> {
    let limits = tree_edges::limits();
    let sizes = each! {
        for trees in &limits;
        for word in ["", "a#", "7", "a", "ab", "ba", "aab"];
        [Size::Exact, Size::More(1), Size::Short(1), Size::Short(16)].map(|size| input(trees, word, size))
    };
    // a lower refusal goes before a higher one
    let ranks = each! {
        for trees in &limits;
        [input(trees, [b'a'; 48], Size::Short(1)), input(trees, [200], Size::More(3))]
    };
    let random = &mut Random::new(7, "deepest");
    let deepest = each! {
        for leaves in [1, 2, 40];
        let deepest = Rc::new(tree_shapes::deepest(random, leaves));
        (b'a'..=b'z').map(|letter| input(&deepest, [letter], Size::Exact))
    };
    let leaf = Rc::new(tree_edges::one_leaf(b"x-y-z"));
    let marked = words::marked().into_iter().map(|word| input(&leaf, word, Size::Exact));
    [sizes, ranks, deepest, marked.collect()].concat()
}

/// Words with letters left out, or one letter made an "a".
fn fewer_or_plainer(word: &Vec<u8>) -> Vec<Vec<u8>> {
    let others = (0..word.len()).filter(|i| word[*i] != b'a');
    let plainer = others.map(|i| records::with_byte(word, i, b'a'));
    word.smaller().into_iter().chain(plainer).collect()
}

rows! { ROWS:
    /// What a byte of a word has, as it is read.
    of_byte(byte: u8, at: usize, first: usize) {
        let letter = byte.is_ascii_lowercase();
    } [
        "letter walked" => letter,
        "byte that is no letter" => !letter,
        "window that reaches over '#'" => letter && first > 1 && at < first + 3,
    ]

    /// What a letter's walk met, and its leaf.
    walked(walk: &Walk, nodes: usize, name: &[u8]) {
        let is_epsilon = name == b"epsilon";
        let is_split = !is_epsilon && name.contains(&b'-');
    } [
        "question that matches" => walk.matched,
        "question that does not match" => walk.other,
        "question 8 to 254" => walk.never,
        "leaf epsilon" => is_epsilon,
        "leaf split at '-'" => is_split,
        "leaf whole" => !is_epsilon && !is_split,
        "leaf number 255" => walk.leaf == Some(255),
        "walk over every node" => walk.nodes == nodes,
        "walk over 65,536 nodes" => walk.nodes == 65_536,
    ]
}
