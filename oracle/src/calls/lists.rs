//! Lists of calls on one store and one sheet: new_sheet, add_entry, add_entries, its two steps and say_word, refused ones
//! too. Each call gets what the library's call before left; the spare too, where a list holds a step. Beside it goes a
//! book, which is the original with its own list of entries, and one more for each word with exact entries: it is fed the
//! calls and whether each was refused, and says the words of a sheet again.

mod book;
mod made;
mod run;
mod short;
mod state;

use crate::prelude::*;
use crate::sheets::LARGEST;
use book::Book;
use made::Sources;
use run::{run, Library};

/// A call of a list. A text comes with the byte that fills the spare, and its length, if that is not the store's; they
/// count where the list holds no step.
#[derive(Clone)]
pub enum Act {
    /// A new sheet of any version, known or not.
    NewSheet(u32),
    AddEntry(Add),
    AddText { text: Vec<u8>, fill: u8, spare: Option<usize> },
    Preview(Vec<u8>),
    Accept,
    SayWord(Wanted),
}

impl Shrink for Act {
    fn smaller(&self) -> Vec<Act> {
        match self {
            Act::Accept => vec![],
            Act::NewSheet(version) => {
                sheet_shapes::plainer_version(version).into_iter().map(Act::NewSheet).collect()
            }
            Act::AddEntry(given) => given.smaller().into_iter().map(Act::AddEntry).collect(),
            Act::AddText { text, fill, spare } => {
                let made = |text| Act::AddText { text, fill: *fill, spare: *spare };
                lines::shorter(text).into_iter().map(made).collect()
            }
            Act::Preview(text) => lines::shorter(text).into_iter().map(Act::Preview).collect(),
            Act::SayWord(wanted) => wanted.smaller().into_iter().map(Act::SayWord).collect(),
        }
    }
}

#[derive(Clone)]
pub struct Step {
    act: Act,
    /// Whether sections are lent that break their form.
    broken: bool,
}

// sections that are whole in the place of broken ones
smaller!(Step: act, broken by |broken: &bool| Vec::from_iter(broken.then_some(false)));

/// The sections of a list.
#[derive(Clone)]
pub struct Sections {
    lexicon: Rc<Lexicon>,
    /// lex.phones alone, which is all that adding takes.
    table: Rc<Lexicon>,
    trees: Rc<Trees>,
}

impl Sections {
    fn new(lexicon: Rc<Lexicon>, trees: Rc<Trees>) -> Sections {
        let table = Lexicon::of_table(lexicon.sections.phones.clone());
        Sections { lexicon, table, trees }
    }

    /// Whether a call refuses what it takes of them.
    fn are_refused(&self, act: &Act) -> bool {
        match act {
            Act::SayWord(_) => !self.lexicon.has_form() || self.trees.names.is_none(),
            _ => self.table.names.is_none(),
        }
    }
}

impl Shrink for Sections {
    fn smaller(&self) -> Vec<Sections> {
        let lexicons = self.lexicon.smaller().into_iter();
        let lexicons = lexicons.map(|lexicon| Sections::new(lexicon, self.trees.clone()));
        let trees = with(self, self.trees.smaller(), |sections, trees| sections.trees = trees);
        lexicons.chain(trees).collect()
    }
}

#[derive(Clone)]
pub struct Input {
    sections: Sections,
    /// Sections that break their form, one at least.
    broken: Sections,
    /// The bytes of store and sheet before they are made new.
    store: Vec<u8>,
    sheet: Vec<u8>,
    /// The known version of the sheet that the list starts with.
    version: u8,
    steps: Vec<Step>,
}

smaller!(
    Input: steps, sheet by shorter_sheet, store by shorter_store, sections,
    version by |version: &u8| (1..*version).collect::<Vec<u8>>()
);

impl Input {
    /// Whether each call gets the spare as the one before left it, the first one a new store.
    fn keeps_spare(&self) -> bool {
        self.steps.iter().any(|step| matches!(step.act, Act::Preview(_) | Act::Accept))
    }

    /// Whether some sheet is made new in this version.
    fn has_version(&self, version: u8) -> bool {
        let is_made = |step: &Step| matches!(step.act, Act::NewSheet(new) if new == version.into());
        self.version == version || self.steps.iter().any(is_made)
    }
}

fn shorter_sheet(sheet: &[u8]) -> Vec<Vec<u8>> {
    let len = sheet.len();
    let lengths = [ITEM, len / 2, len - len % ITEM, len - 1];
    records::less_behind(sheet, 0, &lengths.map(|len| len.max(ITEM)))
}

fn shorter_store(store: &[u8]) -> Vec<Vec<u8>> {
    let one_less = (store.len() - SLOT).max(SLOT);
    records::less_behind(store, 0, &[SLOT, one_less])
}

/// The rows of a call: its answers, then the refusals that lists meet.
macro_rules! of_call {
    ($call:literal: $($answer:literal)*; $($refusal:literal)*) => {
        &[$(concat!($call, ": ", $answer),)* $(concat!($call, ": refusal ", $refusal)),*]
    };
}

/// The calls of lists, by their answers.
const CALLS: &[Rows] = &[
    &["calls in all"],
    of_call!("new_sheet": "version 1" "version 2"; 15),
    of_call!("add_entry": "new key" "known key" "exact: new key" "exact: known key"; 1 3 5 7 8),
    of_call!("add_entries": "lines taken 0" "lines taken 1" "lines taken 2 and more"; 1 2 3 4 5 7 8),
    of_call!("preview_entries": "lines taken 0" "lines taken 1" "lines taken 2 and more"; 1 3 4 5 7 8),
    of_call!("accept_entries": "accepted"; 12),
    of_call!("say_word": "runtime" "runtime, exact" "addenda" "compiled" "letters"; 1 3 6 7 9),
    &["phone_string: at an utterance's end", "refused call, then an accepted one"],
];

#[derive(Default)]
pub struct Lists {
    phones: Rc<Phones>,
    sources: Served<Sources>,
}

impl Call for Lists {
    type Input = Input;
    const NAME: &'static str = "lists of calls";
    const SHARE: usize = 10;
    const ANSWERS: Rows = &[
        "lists of no call",
        "lists of 1 to 5 calls",
        "lists of 6 to 20 calls",
        "lists of more calls",
    ];
    const MET: Table = &[CALLS, book::STEPS, book::ROWS, ROWS];
    const LIBRARY: Function = |_| unreachable!("a list is many calls of the library");

    fn short(&self) -> Vec<Input> {
        short::inputs()
    }

    fn random(&mut self, random: &mut Random) -> Input {
        let sources = self.sources.next(|| made::begin(random, &self.phones));
        made::list(random, sources, &self.phones)
    }

    fn rule(&self, input: &Input, met: &mut Met) -> Ruling {
        let log = run(input, &mut Book::new(&input.sections, input.version, met))?;
        met.all(lengths(input));
        let row = row_of(Self::ANSWERS, &[1, 6, 21], input.steps.len());
        Ok(Told::new(Answer::accepted(0, 0), row, vec![log]))
    }

    fn is_beyond(&self, input: &Input) -> bool {
        let is_exact = |step: &Step| matches!(step.act, Act::AddEntry(Add { exact: true, .. }));
        input.has_version(2) || input.steps.iter().any(is_exact)
    }

    /// The log, which is all that is compared.
    fn lent<'a>(&self, _input: &'a Input) -> Vec<Part<'a>> {
        vec![Part::output(Form::Bytes, Room::PLAIN)]
    }

    fn ours(&self, input: &Input, _handed: &[Vec<u8>]) -> Outcome {
        let mut library = Library::default();
        let log = run(input, &mut library).expect("the library is never at odds with itself");
        Outcome { answer: Answer::accepted(0, 0), written: vec![log], altered: library.altered }
    }

    fn show(&self, input: &Input, _handed: &[Vec<u8>]) -> String {
        let Sections { lexicon, trees, .. } = &input.sections;
        let mut lines = vec![
            "a list of calls".into(),
            notation::line("    lex", &lexicon.sections.parts(), &[], &[]),
            notation::line("    lts", &trees.sections.parts(), &[], &[]),
            format!("  0 new_store {}", notation::bytes(&input.store)),
            format!("  0 new_sheet {} {}", notation::bytes(&input.sheet), input.version),
        ];
        let keeps = input.keeps_spare();
        if keeps {
            lines.push("  0 a spare equal to the store, which every call gets".into());
        }
        for (i, step) in (1..).zip(&input.steps) {
            let broken = if step.broken { " (broken sections)" } else { "" };
            lines.push(format!("  {i} {}{broken}", shown(&step.act, keeps)));
        }
        lines.join("\n")
    }

    fn show_written(&self, _input: &Input, outcome: &Outcome) -> String {
        log::shown(&outcome.written.concat())
    }
}

/// A call as a line, without what it shares with the others, the spare among it where the list keeps one.
fn shown(act: &Act, keeps: bool) -> String {
    match act {
        Act::NewSheet(version) => format!("new_sheet {version}"),
        Act::AddEntry(given) => notation::line("add_entry", &given.parts(), &[], &[]),
        Act::AddText { text, .. } if keeps => format!("add_entries {}", notation::bytes(text)),
        Act::AddText { text, fill, spare } => {
            let len = spare.map_or("as long as the store".into(), |len| format!("{len} bytes"));
            format!("add_entries (a spare of {fill:02x}, {len}) {}", notation::bytes(text))
        }
        Act::Preview(text) => format!("preview_entries {}", notation::bytes(text)),
        Act::Accept => "accept_entries".into(),
        Act::SayWord(wanted) => notation::line("say_word", &wanted.parts(), &[], &[]),
    }
}

rows! { ROWS:
    /// How long the store and the sheet of a list are, which spare it has, and which versions.
    lengths(input: &Input) {
        let [first, second] = sheets::VERSIONS.map(|version| input.has_version(version));
    } [
        "list of version 1 alone" => !second,
        "list of version 2 alone" => !first,
        "list of both versions" => first && second,
        "list that keeps its spare" => input.keeps_spare(),
        "list with any spare each time" => !input.keeps_spare(),
        "sheet of 64 bytes" => input.sheet.len() == ITEM,
        "sheet of 128 bytes" => input.sheet.len() == 2 * ITEM,
        "sheet of up to 4,096 bytes" => input.sheet.len() <= 4_096,
        "sheet of 65,536 bytes" => input.sheet.len() == LARGEST,
        "store of one slot" => input.store.len() == SLOT,
        "store of 65,536 bytes" => input.store.len() == stores::LARGEST,
    ]
}
