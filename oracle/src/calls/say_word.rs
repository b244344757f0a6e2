//! say_word: a word becomes the last of its sheet, with its syllables and phones. The sheet at exit is written by
//! the driver from the original's own utterance of that word, by 01's layout and numbering.

mod rule;
mod short;

use crate::calls::{lookup, phone_string};
use crate::prelude::*;
use crate::spoken::Word;
use rule::{bare, digits_of, origin};

input!(sheet: Vec<u8> => sheet_shapes::smaller, scene: Rc<Scene>, trees: Rc<Trees>, wanted: Wanted);

/// How many words more are tried on sections that are refused.
const FEW: usize = 4;

/// Sections, with the sheet as the words before have left it, and words to try on them.
struct Sources {
    input: Input,
    words: Vec<Vec<u8>>,
}

#[derive(Default)]
pub struct SayWord {
    phones: Phones,
    sources: Served<Sources>,
}

impl Call for SayWord {
    type Input = Input;
    const NAME: &'static str = "say_word";
    const SHARE: usize = 83;
    const SHARE_RECORDED: usize = 40;
    const ANSWERS: Rows = &["runtime", "runtime, exact", "addenda", "compiled", "letters"];
    const REFUSALS: &'static [u32] = &[1, 2, 3, 6, 7, 9];
    const MET: Table = &[
        stresses::ROWS,
        rule::ROWS,
        cells::PHONES,
        words::WORD,
        &[
            &["tag empty", "tag 'nil'", "tag of more bytes"],
            &["sheet without words", "sheet in another order than its items"],
            &["sheet with a stress 50", "sheet of version 2 with a phone that ends in 2"],
            &["sheet with a runtime word", "sheet with an addenda word"],
            &["sheet with a compiled word", "sheet with a word by letters"],
            &["sheet of 65,536 bytes", "bytes behind the last whole item"],
            &["anything in unused items"],
            &["6: compiled entry", "6: letter tree"],
            &["store whose count is the largest"],
            &["accepted in version 1 without exact entries"],
        ],
        places::ROWS,
        places::UNTOLD,
        sheets::UNSOUND,
        lookup::EXACT,
        stores::UNSOUND,
    ];
    const LIBRARY: Function = ours::say_word;

    fn short(&self) -> Vec<Input> {
        short::inputs()
    }

    fn random(&mut self, random: &mut Random) -> Input {
        let Sources { input, words } = self.sources.next(|| {
            let exact = random.once_in(2);
            let (scene, words) = lookup::scene(random, &self.phones, exact);
            let input = without_word(scene, tree_shapes::random(random));
            (Sources { input, words }, lookup::WORDS)
        });
        let wanted = match random.weighted(&[5, 3]) {
            0 => lookup::wanted(random, &input.scene, words),
            _ => {
                Wanted::new(words::random(random, &input.trees.alphabet), words::tag(random))
            }
        };
        let mut input = Input { wanted, ..input.clone() };
        if input.sheet.is_empty() || random.once_in(2) {
            input.sheet = self.sheet(random, &input);
        }
        if let Ok(mut outcome) = self.expected(&input).outcome {
            // sections without their form serve few words more; a full sheet is left for another
            let refusal = outcome.answer.refusal;
            self.sources.serve_at_most(if refusal == 1 { FEW } else { lookup::WORDS });
            self.sources.now().input.sheet = match refusal {
                9 => vec![],
                _ => outcome.written.remove(0),
            };
        }
        let Input { sheet, scene, .. } = &mut input;
        match random.below(24) {
            0 | 1 => *sheet = sheet_shapes::damaged(random, sheet),
            2 => *scene = scene.with_store(store_shapes::damaged(random, &scene.store)),
            _ => {}
        }
        input
    }

    fn rule(&self, input: &Input, met: &mut Met) -> Ruling {
        let given = &input.wanted.word;
        let origin = origin(input, met)
            .inspect_err(|refusal| met.shared(places::refused(*refusal, given)))?;
        let word = said(input, &origin)?;
        let place = rule::place(&origin, given)?;
        let before = sheets::read(&input.sheet).expect("the sheet is sound");
        let unused = sheets::room(&input.sheet) - sheets::used(&before);
        let why = || rule::by_7_or_9(input, &word, unused);
        met.refuse(7, origin.phones.len() > lookup::LONGEST, why)
            .and_then(|()| met.refuse(9, word.items() > unused, why))
            .inspect_err(|refusal| met.shared(places::refused(*refusal, &given[..place])))
            .map_err(|refusal| Stop::RefusedBeside(refusal, 0))?;
        met.all(rule::stopped(&origin, given));
        met.all(rule::silent(&origin));
        let version = sheets::version(&input.sheet);
        let digits = digits_of(version, &origin, &word);
        let whole = version == 1 && !input.scene.has_exact();
        met.add("accepted in version 1 without exact entries", whole);
        met.all(stresses::by_version(version, &origin.phones, &word));
        met.all(stresses::in_version_2(version, &digits));
        met.all(rule::spoken(version, &origin, &word));
        met.all(rule::digits(version, &origin, &digits));
        met.all(cells::of_phones(&bare(version, &origin)));
        met.all(rule::added(input, &word, &before));
        met.shared(input.wanted.met());
        met.shared(sheet_edges::features(&input.sheet, &before));
        met.shared(store_edges::features(&input.scene.store, input.scene.entries()));
        let after = sheets::with_word(&input.sheet, &before, &word);
        Ok(Told::new(Answer::accepted(0, 0).and(place), origin.row, vec![after]))
    }

    fn is_beyond(&self, input: &Input) -> bool {
        input.scene.has_exact() || sheets::version(&input.sheet) == 2
    }

    fn lent<'a>(&self, input: &'a Input) -> Vec<Part<'a>> {
        let Input { sheet, scene, trees, wanted } = input;
        let sections = scene.lexicon.sections.parts().into_iter().chain(trees.sections.parts());
        let store = Part::read("the store", Form::Store, &scene.store);
        let sheet = Part::written("the sheet", Form::Sheet, sheet);
        sections.chain([store, sheet]).chain(wanted.parts()).collect()
    }

    fn record(&self, random: &mut Random, cases: usize) -> Vec<String> {
        let sets = 20;
        record::sets("sections", sets, |set| {
            let shape = lexicon_shapes::few_to_record(random, &self.phones);
            let scene = Scene::of(shape.lexicon, stores::new(1, 0));
            let input = without_word(scene, tree_shapes::few_to_record(random, set));
            let mut lines = registers(0, &self.lent(&input)[..6]);
            let mut sources = Sources { input, words: shape.words };
            let mut left = cases.div_ceil(sets);
            while left > 0 {
                // a store that holds nothing, or a few entries
                let slots = [1, 1, 2, 3, 4][random.below(5)];
                let store = stores::new(slots, random.byte() * (slots > 2) as u8);
                sources.input.scene = sources.input.scene.with_store(store);
                let utterance = self.utterance(random, &sources, left.min(5), set % 2 == 0);
                left -= utterance.len();
                lines.extend(self.recorded(random, &utterance));
            }
            lines
        })
    }
}

/// The word by the original, with the phones that the driver finds by 01's rule, and the stress by 02's.
fn said(input: &Input, origin: &lookup::Origin) -> Result<Word, String> {
    let Input { sheet, scene, trees, wanted } = input;
    let version = sheets::version(sheet);
    let words = std::slice::from_ref(wanted);
    let mut said = match version == 2 && origin.phones.iter().any(|phone| phone.ends_with(b"2")) {
        false => scene.asked_for(&wanted.word, |original| {
            spoken::say(original, trees.original(), words)
        })?,
        true => stresses::of_both(|digit| {
            let trees = trees.with_digit(digit).original();
            scene.asked_with(digit, &wanted.word, |original| spoken::say(original, trees, words))
        })?,
    };
    let word = said.words.pop().ok_or("the original says no word")?;
    let phones: Vec<&[u8]> = word.phones().map(|phone| &phone[..]).collect();
    if phones.join(&b" "[..]) != said.phone_string.as_bytes() {
        return Err("the original's phone string has other phones than its word".into());
    }
    if phones != bare(version, origin) || word.text != wanted.word || !said.words.is_empty() {
        return Err("the original says another word than 01's rule does".into());
    }
    let digits = digits_of(version, origin, &word);
    let stresses = digits.iter().map(|own| *own.last().unwrap_or(&b'0'));
    if !word.syllables.iter().map(|syllable| syllable.stress).eq(stresses) {
        return Err("the original shows another stress than the last digit of its syllable".into());
    }
    if word.source != origin.source() {
        return Err(format!("the original shows another source than {}", origin.row));
    }
    Ok(word)
}

/// The word by the original on any sheet of a version, if no refusal comes before its items are counted.
fn on_any_sheet(input: &Input, version: u8) -> Option<Word> {
    let input = Input { sheet: sheets::new(&[0; ITEM], version), ..input.clone() };
    let origin = origin(&input, &mut Met::default()).ok()?;
    said(&input, &origin).ok()
}

/// The version of a sheet: more often 1 where the original can be asked as a whole then.
fn version(random: &mut Random, scene: &Scene) -> u8 {
    let weights = if scene.has_exact() { [1, 5] } else { [7, 3] };
    sheets::VERSIONS[random.weighted(&weights)]
}

/// Sections to say words with, before there is a sheet or a word.
fn without_word(scene: Rc<Scene>, trees: Trees) -> Input {
    Input::new(vec![], scene, Rc::new(trees), Wanted::new("", ""))
}

impl SayWord {
    /// A sheet about as long as a word needs it.
    fn sheet(&self, random: &mut Random, input: &Input) -> Vec<u8> {
        let version = version(random, &input.scene);
        let need = on_any_sheet(input, version).map_or(5, |word| word.items());
        let unused = match random.weighted(&[9, 6, 2, 1, 1]) {
            0 => need + random.below(20),
            1 => need,
            2 => need - 1,
            3 => random.below(need),
            _ => random.between(need, 1_023),
        };
        sheet_shapes::random(random, &self.phones, version, unused)
    }

    /// Words to say on one sheet, at most so many, with entries that may change between them, exact ones too. The last has a
    /// sheet that is large enough for all of them; the first finds it new, of one version or the other.
    fn utterance(
        &self,
        random: &mut Random,
        sources: &Sources,
        most: usize,
        exact: bool,
    ) -> Vec<Input> {
        let (mut input, words) = (sources.input.clone(), &sources.words);
        let version = 1 + u8::from(random.once_in(3));
        let (mut inputs, mut need) = (vec![], 0);
        let count = random.between(1, most);
        while inputs.len() < count {
            if random.once_in(2) && stores::room(&input.scene.store) > 0 {
                let (scene, phones) = (&input.scene, &self.phones);
                let add = store_shapes::few_phones(random, scene, words, phones, exact);
                input.scene = scene.with_store(scene.grown(&[add]));
            }
            let entries = input.scene.entries();
            let word = match random.weighted(&[4, 3, 2 * entries.len().min(1)]) {
                0 => words::near(random, words),
                1 => words::accepted(random, &input.trees.alphabet),
                _ => entries[random.below(entries.len())].entry.word.clone(),
            };
            input.wanted = Wanted::new(word, words::tag(random));
            // few long ones
            let longest = if random.once_in(30) { 40 } else { 12 };
            let said = on_any_sheet(&input, version);
            if let Some(word) = said.filter(|word| word.items() <= longest) {
                need += word.items();
                inputs.push(input.clone());
            }
        }
        let items = 1 + need + random.below(3);
        let more = random.below(ITEM) * random.below(2);
        let bytes = vec![random.byte(); ITEM * items + more];
        inputs[0].sheet = sheets::new(&bytes, version);
        inputs
    }

    /// The cases of an utterance, over the sections that stand in the first six registers; the sheet at exit
    /// stands in the next two in turn. Its phone string comes last.
    fn recorded(&self, random: &mut Random, utterance: &[Input]) -> Vec<String> {
        let mut at = 6;
        let mut sheet = utterance[0].sheet.clone();
        let mut lines = vec![register(at, Form::Sheet, &sheet)];
        for input in utterance {
            let input = Input { sheet, ..input.clone() };
            let store = Form::Store.shown(&input.scene.store);
            let front = [named(0..6), vec![store], named([at])].concat();
            let (case, expected) = case(self, &input, &front);
            at = 13 - at;
            sheet = expected.outcome.expect("the original answers").written.concat();
            lines.push(register(at, Form::Sheet, &sheet));
            lines.push(format!("{case} ${at}"));
        }
        let input = phone_string::Input::new(sheet, Room::to_record(random, 20));
        lines.push(whole_case(&phone_string::PhoneString::default(), &input, &named([at])));
        lines
    }
}
