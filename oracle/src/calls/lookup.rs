//! lookup: the phones of a word by the runtime entries, the addenda and the compiled entries. The original
//! does not tell the source; it is derived here. Nor has it exact entries: those of the word's bytes go first.

mod rule;
pub mod short;

use crate::lexicon_shapes::Shape;
use crate::lexicons::DAMAGE;
use crate::prelude::*;
pub use rule::{rule, runtime_entries, Origin, EXACT};

/// How many words tables serve, in every call, before others are made.
pub const WORDS: usize = 40;
/// The most phones that 01 lets be answered, or accepts in a list.
pub const LONGEST: usize = 96;

input!(scene: Rc<Scene>, wanted: Wanted, room: Room);

#[derive(Default)]
pub struct Lookup {
    phones: Phones,
    /// A lexicon with a store, and words to try on both.
    scene: Served<(Rc<Scene>, Vec<Vec<u8>>)>,
}

impl Call for Lookup {
    type Input = Input;
    const NAME: &'static str = "lookup";
    const SHARE: usize = 88;
    const SHARE_RECORDED: usize = 40;
    const ANSWERS: Rows = &["none", "runtime", "addenda", "compiled", "runtime, exact"];
    const REFUSALS: &'static [u32] = &[1, 2, 3, 6, 7, 9];
    const MET: Table = &[
        &[&["tag empty", "tag 'nil'", "tag of one byte", "tag of more bytes", "tag of 47 bytes"]],
        &[&["7 before 9"]],
        words::WORD,
        rule::ROWS,
        rule::EXACT,
        rule::WAYS,
        store_edges::STORE,
        store_edges::EXACT,
        &[OUTPUT_OR_NONE, DAMAGE],
        stores::UNSOUND,
    ];
    const LIBRARY: Function = ours::lookup;

    fn short(&self) -> Vec<Input> {
        short::inputs()
    }

    fn random(&mut self, random: &mut Random) -> Input {
        let (scene, words) = self.scene.next(|| {
            let exact = !random.once_in(4);
            (scene(random, &self.phones, exact), WORDS)
        });
        let scene = match random.once_in(12) {
            true => scene.with_store(store_shapes::damaged(random, &scene.store)),
            false => scene.clone(),
        };
        let wanted = match random.once_in(12) {
            true => Wanted::new(words::random(random, b"abAB'_"), words::tag(random)),
            false => wanted(random, &scene, words),
        };
        Input::new(scene, wanted, Room::random(random, 40))
    }

    fn rule(&self, input: &Input, met: &mut Met) -> Ruling {
        let Input { scene, wanted, room } = input;
        let found = rule(scene, wanted, met)?;
        let row = found.as_ref().map_or("none", |origin| origin.row);
        let kind = found.as_ref().map_or(0, Origin::source).into();
        let found = found.map(|origin| cells(&origin.phones));
        for pos in ways(&wanted.tag) {
            let word = ascii(&wanted.word);
            let told = scene.asked_for(&wanted.word, |original| {
                ask(|| original.lookup(word, pos).map(|phones| cells(&phones)))
            })?;
            if told != found {
                let told = told.map(|cells| Form::PhoneList.shown(&cells));
                let other = format!("the driver another answer of kind {kind}");
                return Err(Stop::AtOdds(format!("the Rust finds {told:?}, {other}")));
            }
        }
        let phones = found.unwrap_or_default();
        let count = phones.len() / CELL;
        if count > LONGEST {
            *met = Met::default();
            met.add("7 before 9", room.bytes(phones.len()).len() < phones.len());
            return Err(Stop::RefusedBeside(7, phones.len()));
        }
        met.shared(wanted.met());
        met.all(store_edges::features(&scene.store, scene.entries()));
        met.all(store_edges::of_exact(scene.entries()));
        Ok(Told::new(Answer::accepted(kind, count), row, vec![phones]))
    }

    fn is_beyond(&self, input: &Input) -> bool {
        input.scene.has_exact()
    }

    fn lent<'a>(&self, input: &'a Input) -> Vec<Part<'a>> {
        let sections = input.scene.lexicon.sections.parts().into_iter();
        let store = Part::read("the store", Form::Store, &input.scene.store);
        let output = Part::output(Form::Cells, input.room);
        sections.chain([store]).chain(input.wanted.parts()).chain([output]).collect()
    }

    fn record(&self, random: &mut Random, cases: usize) -> Vec<String> {
        let (sets, stores) = (20, 3);
        let recorded = |input: &Input| whole_case(self, input, &named(0..4));
        let fixed = short::fixed();
        let mut lines = vec!["# the addenda, and words at 01's limits".to_string()];
        lines.extend(registers(0, &self.lent(&fixed[0])[..4]));
        lines.extend(fixed.iter().map(recorded));
        lines.extend(record::sets("lexicon", sets, |_| {
            let Shape { lexicon, words } = lexicon_shapes::to_record(random, &self.phones);
            let empty = Scene::of(lexicon, stores::new(1, 0));
            let mut lines = registers(0, &empty.lexicon.sections.parts());
            for number in 0..stores {
                let scene = self.store_to_record(random, &empty, &words, number > 0);
                lines.push(register(3, Form::Store, &scene.store));
                let added = scene.entries().iter().map(|placed| &placed.entry.word);
                let words: Vec<_> = words.iter().chain(added).cloned().collect();
                for _ in 0..cases.saturating_sub(fixed.len()).div_ceil(sets * stores) {
                    lines.push(recorded(&to_record(random, &scene, &words)));
                }
            }
            lines
        }));
        lines
    }
}

impl Lookup {
    /// A store of a size that a list can hold, whose unused slots hold one byte, in the place of an empty one.
    fn store_to_record(
        &self,
        random: &mut Random,
        empty: &Scene,
        words: &[Vec<u8>],
        exact: bool,
    ) -> Rc<Scene> {
        let slots = random.between(1, 7);
        let adds = random.below(2 * slots);
        let add = |_| store_shapes::few_phones(random, empty, words, &self.phones, exact);
        let adds: Vec<Add> = (0..adds).map(add).collect();
        let new = empty.with_store(stores::new(slots, random.byte()));
        let store = new.grown(&adds);
        new.with_store(match random.once_in(3) {
            true => store_shapes::renumbered(random, &store),
            false => store,
        })
    }
}

/// An accepted input on this scene; most find something.
fn to_record(random: &mut Random, scene: &Rc<Scene>, words: &[Vec<u8>]) -> Input {
    loop {
        let wanted = Wanted::new(words::near(random, words), words::tag(random));
        let room = Room::to_record(random, 40);
        let fits = match rule(scene, &wanted, &mut Met::default()) {
            Ok(Some(origin)) => origin.phones.len() <= LONGEST,
            Ok(None) => random.once_in(3),
            Err(_) => false,
        };
        if fits {
            return Input::new(scene.clone(), wanted, room);
        }
    }
}

/// A word near some others; where a store has exact entries, more often one of theirs, with its tag or any.
pub fn wanted(random: &mut Random, scene: &Scene, words: &[Vec<u8>]) -> Wanted {
    let entries = scene.entries.iter().flatten().map(|placed| &placed.entry);
    let exact: Vec<&Entry> = entries.filter(|entry| entry.exact).collect();
    if exact.is_empty() || random.once_in(6) {
        return Wanted::new(words::near(random, words), words::tag(random));
    }
    let Entry { word, tag, .. } = exact[random.below(exact.len())];
    let tag = if random.once_in(3) { words::tag(random) } else { vec![*tag] };
    let word = if random.once_in(4) { words::recased(random, word) } else { word.clone() };
    Wanted::new(word, tag)
}

/// A lexicon with a store, one in five of them broken in some way, and words around both; some entries exact if they
/// may be.
pub fn scene(random: &mut Random, phones: &Phones, exact: bool) -> (Rc<Scene>, Vec<Vec<u8>>) {
    let Shape { lexicon, mut words } = lexicon_shapes::whole(random, phones);
    let empty = Scene::of(lexicon, stores::new(1, 0));
    let store = store_shapes::random(random, &empty, &words, phones, exact);
    let scene = match random.once_in(5) {
        true => Scene::of(lexicon_shapes::broken(random, &empty.lexicon), store),
        false => empty.with_store(store),
    };
    words.extend(scene.entries().iter().map(|placed| placed.entry.word.clone()).take(30));
    (scene, words)
}
