//! syllabify: the marks after the phones of a list.

use crate::calls::lookup::LONGEST;
use crate::phones::REHEARSED;
use crate::prelude::*;

input!(list: List, room: Room);

#[derive(Default)]
pub struct Syllabify {
    phones: Phones,
}

impl Call for Syllabify {
    type Input = Input;
    const NAME: &'static str = "syllabify";
    const SHARE: usize = 11;
    const SHARE_RECORDED: usize = 33;
    const ANSWERS: Rows =
        &["marks 0", "one syllable", "2 syllables", "3 to 6 syllables", "7 syllables and more"];
    const REFUSALS: &'static [u32] = &[3, 7, 9];
    const MET: Table = &[&[OUTPUT], cells::PHONES, ROWS, cells::UNREAD];
    const LIBRARY: Function = ours::syllabify;

    fn short(&self) -> Vec<Input> {
        let lists = short_lists(self.phones.names).into_iter();
        let short = lists.map(|list| input(List::of(&list), Size::More(list.len() % 2)));
        edges().into_iter().chain(short).collect()
    }

    fn random(&mut self, random: &mut Random) -> Input {
        let accepted = [(40, 0, 12), (6, 0, LONGEST), (1, LONGEST, LONGEST)];
        let refused = [(1, LONGEST + 1, LONGEST + 30)];
        let len = random.ranged(&[&accepted[..], &refused].concat());
        let mut list = List::of(&self.phones.list(random, len));
        if random.once_in(6) {
            list.spoil_padding(random);
        }
        if len > 0 && random.once_in(30) {
            list.cells[random.below(len)][0] = random.between(16, 255) as u8;
        }
        if len > 0 && random.once_in(30) {
            let at = random.between(1, CELL - 1);
            list.cells[random.below(len)][at] = 128 + random.below(128) as u8;
        }
        if random.once_in(5) {
            let rest = random.between(0, CELL - 1);
            list.rest = random.bytes(rest);
        }
        Input::new(list, Room::random(random, 20))
    }

    fn rule(&self, input: &Input, met: &mut Met) -> Ruling {
        let cells = &input.list.cells;
        let count = cells.len();
        let too_long = count > LONGEST || cells.iter().any(is_over);
        met.refuse(3, cells.iter().any(is_high), || None)
            .and_then(|()| met.refuse(7, too_long, || None))
            .map_err(|refusal| Stop::Refused(refusal, count))?;
        let phones: Vec<&str> = cells.iter().map(|cell| ascii(text(cell))).collect();
        let marks = ask(|| lexicon::syllabify(&phones))?;
        let syllables = marks.iter().filter(|cut| **cut).count();
        let row = row_of(Self::ANSWERS, &[1, 2, 3, 7], syllables);
        met.all(places(&phones, &marks));
        met.all(cells::of_phones(&phones));
        met.all(features(&phones));
        met.all(cells::unread(&input.list));
        let marks: Vec<u8> = marks.into_iter().map(u8::from).collect();
        Ok(Told::new(Answer::accepted(0, count), row, vec![marks]))
    }

    fn lent<'a>(&self, input: &'a Input) -> Vec<Part<'a>> {
        vec![input.list.part(), Part::output(Form::Bytes, input.room)]
    }

    fn record(&self, random: &mut Random, cases: usize) -> Vec<String> {
        let mut inputs = edges();
        let accepted = |outcome: Outcome| outcome.answer.refusal == 0;
        inputs.retain(|input| self.expected(input).outcome.is_ok_and(accepted));
        // a part of the short lists, taken at even steps
        let short = short_lists(self.phones.names);
        let step = short.len() / (cases / 4).max(1);
        let some = short.iter().step_by(step.max(1));
        inputs.extend(some.map(|list| input(List::of(list), Size::Exact)));
        while inputs.len() < cases {
            let len = random.ranged(&[(1, 13, LONGEST), (11, 0, 12)]);
            let mut list = List::of(&self.phones.list(random, len));
            if random.once_in(16) {
                list.spoil_padding(random);
            }
            if random.once_in(8) {
                let rest = random.between(1, CELL - 1);
                list.rest = vec![random.byte(); rest];
            }
            inputs.push(Input::new(list, Room::to_record(random, 20)));
        }
        record::cases(self, "phone lists", &inputs)
    }
}

/// Every short list over phones that the rules tell apart, and every cluster, also of these names, between two vowels.
fn short_lists(names: &[&'static str]) -> Vec<Vec<&'static str>> {
    let phones = |phones: &'static str| phones.split(',').collect::<Vec<_>>();
    let mixed = phones("ae,er,axr,t,s,r,st,h,ng,pau,h#,,zz,ae1,pau0,AE");
    let few = phones("ae,s,t,r,ng,pau");
    let clustered = phones("s,p,t,k,r,l,w,y,th,sh,h,hh,st,ng,pau,");
    let between = |middle: Vec<&'static str>| [&["ae"], &middle[..], &["ae"]].concat();
    let of_length = |alphabet: &[&'static str], least: usize, most: usize| {
        let lists = words::every(alphabet, most).into_iter();
        lists.filter(move |list| list.len() >= least)
    };
    let mut lists = words::every(&mixed, 3);
    lists.extend(of_length(&few, 4, 5));
    lists.extend(of_length(names, 2, 2).map(between));
    lists.extend(of_length(&clustered, 3, 3).map(between));
    lists
}

fn input(list: List, size: Size) -> Input {
    Input::new(list, Room { size, fill: 0x39, step: 0 })
}

/// A cell of a length byte, letters, and a last byte.
fn odd(len: u8, last: u8) -> Cell {
    let mut cell = [b'a'; CELL];
    (cell[0], cell[CELL - 1]) = (len, last);
    cell
}

/// Lists beside 01's rehearsed ones, parted by commas.
const OTHERS: &str = "ae1 t ae1,ae st r ae,pau,pau pau,ng,ae ng,ae ng ae,ae s t r y ae";

/// Lists at 01's limits, just past them, and 01's rehearsed ones.
fn edges() -> Vec<Input> {
    let rehearsed = each! {
        for list in REHEARSED.split(',').chain(OTHERS.split(','));
        let list = List::of(&list.split_whitespace().collect::<Vec<_>>());
        [Size::Exact, Size::More(1), Size::More(200), Size::Short(1)]
            .map(|size| input(list.clone(), size))
    };
    let lengths = each! {
        for len in [95, 96, 97, 98, 200];
        for phone in ["ae", "t", "pau", "", "abcdefghijklmno"];
        [Size::Exact, Size::Short(1)].map(|size| input(List::of(&vec![phone; len]), size))
    };
    let long = [(15, b'a'), (16, b'a'), (255, b'a'), (15, 127), (15, 128)];
    let longer = [(14, 128), (16, 128), (255, 255), (2, 255), (0, 255)];
    let cells = each! {
        for (len, last) in [long, longer].concat();
        // 3 and 7 look at every cell, also past the 96th
        for before in [0, 96, 95];
        let list = List::of(&vec!["ae"; before + 1]);
        [input(list.with(before, odd(len, last)), Size::Exact)]
    };
    let rests = each! {
        for rest in [1, 15];
        for len in [0, 1, 96, 97];
        [input(List { rest: vec![255; rest], ..List::of(&vec!["ae"; len]) }, Size::Exact)]
    };
    [rehearsed, lengths, cells, rests].concat()
}

/// The rule of 01 that decides each place, by the original's own marks.
fn places(phones: &[&str], marks: &[bool]) -> Vec<&'static str> {
    let mut rows = vec![];
    let mut seen = false;
    for (i, cut) in marks.iter().enumerate() {
        seen |= phoneset::is_vowel(phones[i]);
        let rest = &phones[i + 1..];
        let next_vowel = rest.iter().position(|phone| phoneset::is_vowel(phone));
        // the first that is so decides
        rows.push(place(rest, next_vowel, seen, *cut)[0]);
        rows.extend(onset(rest, next_vowel.filter(|_| seen && *cut)));
        seen &= !cut;
    }
    rows
}

rows! { ROWS:
    /// What may decide a place, in 01's order.
    place(rest: &[&str], next_vowel: Option<usize>, seen: bool, cut: bool) {
        let (next, vowel) = (rest.first(), next_vowel);
    } [
        "place: the last" => next.is_none(),
        "place: next is pau" => next == Some(&"pau"),
        "place: no vowel later" => vowel.is_none(),
        "place: no vowel yet" => !seen,
        "place: next is a vowel" => vowel == Some(0),
        "place: next is ng" => next == Some(&"ng"),
        "place: vowel second" => vowel == Some(1),
        "place: vowel third, onset" => vowel == Some(2) && cut,
        "place: vowel third, no onset" => vowel == Some(2),
        "place: vowel fourth, onset" => vowel == Some(3) && cut,
        "place: vowel fourth, no onset" => vowel == Some(3),
        "place: vowel later still" => true,
    ]

    /// What an onset before a vowel has, if the place is a cut.
    onset(rest: &[&str], next_vowel: Option<usize>) {
        let phones = rest.get(..next_vowel.unwrap_or(0)).unwrap_or_default();
        let is_onset = (2..=3).contains(&phones.len()) && phones[0] != "pau";
    } [
        "onset of phones that are in no table" =>
            is_onset && phones.iter().any(|p| phoneset::phone_id(p).is_none()),
    ]

    /// What the phones of an accepted list have.
    features(phones: &[&str]) {
        let mut split = phones.iter().map(|phone| lexicon::split_stress(phone));
        let stressed = split.any(|(bare, stress)| stress.is_some() && phoneset::is_vowel(bare));
    } [
        "vowel with a stress, so a consonant" => stressed,
        "list of 96 phones" => phones.len() == LONGEST,
    ]
}
