//! check_lexicon: whether the entries of a lexicon are whole and their words do not fall. The original has
//! no such call; the driver's own test, written from 01, says what is expected.

use crate::lexicon_edges::{altered_bytes, large, limits, small};
use crate::lexicons::{Compiled, DAMAGE};
use crate::prelude::*;

#[derive(Default)]
pub struct CheckLexicon {
    phones: Phones,
}

impl Call for CheckLexicon {
    type Input = Rc<Lexicon>;
    const NAME: &'static str = "check_lexicon";
    const SHARE: usize = 6;
    const ANSWERS: Rows = &["yes", "no"];
    const REFUSALS: &'static [u32] = &[1];
    const MET: Table = &[ROWS, &[&["words that fall"], DAMAGE]];
    const LIBRARY: Function = ours::check_lexicon;

    fn short(&self) -> Vec<Rc<Lexicon>> {
        [small(4), large().into(), limits(), altered_bytes()].concat()
    }

    fn random(&mut self, random: &mut Random) -> Rc<Lexicon> {
        let whole = lexicon_shapes::whole(random, &self.phones).lexicon;
        Rc::new(match random.once_in(2) {
            true => lexicon_shapes::broken(random, &whole),
            false => whole,
        })
    }

    fn rule(&self, lexicon: &Rc<Lexicon>, met: &mut Met) -> Ruling {
        met.refuse(1, !lexicon.has_form(), || None)?;
        met.all(entries(lexicon.count()));
        let (kind, row, rows) = match lexicon.check() {
            Ok(()) => (1, "yes", accepted(lexicon)),
            Err(why) => (0, "no", [vec![why], amiss(lexicon)].concat()),
        };
        met.all(rows);
        Ok(Told::new(Answer::accepted(kind, 0), row, vec![]).by_papers())
    }

    fn lent<'a>(&self, lexicon: &'a Rc<Lexicon>) -> Vec<Part<'a>> {
        lexicon.sections.parts().into()
    }
}

rows! { ROWS:
    /// How many entries there are.
    entries(count: usize) [
        "no entries" => count == 0,
        "entries 1 to 100" => (1..=100).contains(&count),
        "entries 101 and more" => count > 100,
    ]

    /// What a lexicon has that is accepted.
    accepted(lexicon: &Lexicon) {
        let entries: Vec<Compiled> = (0..lexicon.count()).flat_map(|i| lexicon.entry(i)).collect();
        let any = |is_met: &dyn Fn(&Compiled) -> bool| entries.iter().any(is_met);
        let end = lexicon.sections.data.as_ptr_range().end;
    } [
        "yes: equal words in a row" => entries.windows(2).any(|two| two[0].word == two[1].word),
        "yes: tag of 128 or more" => any(&|e| e.tag > 127),
        "yes: entry without phones" => any(&|e| e.numbers.is_empty()),
        "yes: number 255" => any(&|e| e.numbers.contains(&255)),
        "yes: entry of the empty word" => any(&|e| e.word.is_empty()),
        "yes: word of 255 bytes" => any(&|e| e.word.len() == 255),
        "yes: last entry ends with the section" => any(&|e| e.numbers.as_ptr_range().end == end),
    ]

    /// What a lexicon has that is not.
    amiss(lexicon: &Lexicon) {
        let last = lexicon.count().saturating_sub(1);
        let whole_before = (0..last).all(|i| lexicon.whole(i).is_ok());
    } [
        "no: only its last entry is amiss" => whole_before && lexicon.whole(last).is_err(),
    ]
}
