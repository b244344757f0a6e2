//! Either order (02, S-10): two adds on one store, in both orders, then lookups and words on what each order leaves. Where
//! the folded words differ and neither order refuses a call, all that is looked up and said must be the same.

mod made;
mod rule;
mod run;
mod short;

use crate::prelude::*;
use made::Sources;
use run::{are_accepted, Calls, Half, Library, Papers};

/// A lookup behind both adds.
#[derive(Clone)]
pub struct Query {
    wanted: Wanted,
    room: Room,
}

smaller!(Query: wanted, room);

input!(
    said: Vec<Wanted>,
    lookups: Vec<Query>,
    one: Add,
    two: Add,
    scene: Rc<Scene>,
    trees: Rc<Trees>
);

impl Input {
    /// The adds in both orders.
    fn orders(&self) -> [[&Add; 2]; 2] {
        [[&self.one, &self.two], [&self.two, &self.one]]
    }

    /// Whether both adds are of one folded word.
    fn is_of_one_word(&self) -> bool {
        self.one.wanted.word.eq_ignore_ascii_case(&self.two.wanted.word)
    }
}

#[derive(Default)]
pub struct EitherOrder {
    calls: Calls,
    phones: Rc<Phones>,
    sources: Served<Sources>,
}

impl Call for EitherOrder {
    type Input = Input;
    const NAME: &'static str = "either order";
    const SHARE: usize = 4;
    const ANSWERS: Rows = rule::ANSWERS;
    const MET: Table = &[rule::ROWS];
    const LIBRARY: Function = |_| unreachable!("it is many calls of the library");

    fn short(&self) -> Vec<Input> {
        short::inputs()
    }

    fn random(&mut self, random: &mut Random) -> Input {
        let sources = self.sources.next(|| made::begin(random, &self.phones));
        made::input(random, sources, &self.phones)
    }

    fn rule(&self, input: &Input, met: &mut Met) -> Ruling {
        let mut papers = Papers::default();
        let halves = run::both(input, &self.calls, &mut papers)?;
        rule::agree_by_the_original(input, &halves)?;
        met.all(rule::met(input, &halves));
        let log = log(&halves, verdict(input, &halves));
        let told = Told::new(Answer::accepted(0, 0), rule::row(input, &halves), vec![log]);
        Ok(if papers.asked { told } else { told.by_papers() })
    }

    fn is_beyond(&self, input: &Input) -> bool {
        input.one.exact || input.two.exact || input.scene.has_exact()
    }

    /// The log, which is all that is compared.
    fn lent<'a>(&self, _input: &'a Input) -> Vec<Part<'a>> {
        vec![Part::output(Form::Bytes, Room::PLAIN)]
    }

    fn ours(&self, input: &Input, _handed: &[Vec<u8>]) -> Outcome {
        let mut library = Library::default();
        let halves = run::both(input, &self.calls, &mut library);
        let halves = halves.expect("the library is never at odds with itself");
        let log = log(&halves, verdict(input, &halves));
        Outcome { answer: Answer::accepted(0, 0), written: vec![log], altered: library.altered }
    }

    fn show(&self, input: &Input, _handed: &[Vec<u8>]) -> String {
        let Input { lookups, said, scene, trees, .. } = input;
        let mut lines = vec![
            "two adds in both orders".into(),
            notation::line("    lex", &scene.lexicon.sections.parts(), &[], &[]),
            notation::line("    lts", &trees.sections.parts(), &[], &[]),
            format!("    store {}", notation::store(&scene.store)),
            notation::line("  one", &input.one.parts(), &[], &[]),
            notation::line("  two", &input.two.parts(), &[], &[]),
        ];
        lines.extend(lookups.iter().map(|Query { wanted, room }| {
            let lookup = notation::line("    lookup", &wanted.parts(), &[], &[]);
            format!("{lookup} (an output of {} bytes)", room.bytes(0).len())
        }));
        let word = |wanted: &Wanted| notation::line("    say_word", &wanted.parts(), &[], &[]);
        lines.extend(said.iter().map(word));
        lines.join("\n")
    }

    fn show_written(&self, _input: &Input, outcome: &Outcome) -> String {
        log::shown(&outcome.written.concat())
    }
}

/// The verdict where 02 is broken.
const DIFFER: &str = "differ, and must not";

/// The verdict where one order refuses neither add and the other refuses one, which the library's proofs rule out.
const ONE_ALONE: &str = "one order alone is accepted";

/// What both orders are to each other, by their own answers.
fn verdict(input: &Input, halves: &[Half; 2]) -> &'static str {
    let [one_first, two_first] = halves;
    match one_first.tells_the_same(two_first) {
        _ if one_first.is_accepted() != two_first.is_accepted() => ONE_ALONE,
        _ if input.is_of_one_word() || !are_accepted(halves) => "may differ",
        true => "tell the same",
        false => DIFFER,
    }
}

/// What both orders give back, and the verdict on them.
fn log(halves: &[Half; 2], verdict: &str) -> Vec<u8> {
    let mut log = vec![];
    for (order, half) in ["one, then two", "two, then one"].into_iter().zip(halves) {
        log::put(&mut log, "order", order.as_bytes());
        half.put(&mut log);
    }
    log::put(&mut log, "both orders", verdict.as_bytes());
    log
}
