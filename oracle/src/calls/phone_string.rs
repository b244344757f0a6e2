//! phone_string: the phones of a sheet in a row, one blank between. The original joins the segments of an
//! utterance; it is given those that the driver's own reader finds in a sheet.

use crate::prelude::*;
use crate::sheet_edges::{altered_bytes, every_byte, flipped};

input!(sheet: Vec<u8> => sheet_shapes::smaller, room: Room);

#[derive(Default)]
pub struct PhoneString {
    phones: Phones,
}

impl Call for PhoneString {
    type Input = Input;
    const NAME: &'static str = "phone_string";
    const SHARE: usize = 9;
    const SHARE_RECORDED: usize = 12;
    const ANSWERS: Rows = &["no bytes", "bytes 1 to 20", "bytes 21 and more"];
    const REFUSALS: &'static [u32] = &[2, 9];
    const MET: Table =
        &[cells::PHONES, ROWS, sheet_edges::SHEET, &[OUTPUT_OR_NONE, TOO_SHORT], sheets::UNSOUND];
    const LIBRARY: Function = ours::phone_string;

    fn short(&self) -> Vec<Input> {
        let input = |sheet: &[u8], size: Size| Input::new(sheet.to_vec(), Room::of(size));
        let limits = each! {
            for sheet in [sheet_edges::limits(), sheet_edges::small()].concat();
            for size in [Size::Exact, Size::More(1), Size::More(100), Size::Short(1), Size::Short(usize::MAX)];
            [input(&sheet, size)]
        };
        let altered = [altered_bytes(), every_byte(), flipped()].concat();
        let altered = altered.iter().enumerate().map(|(i, sheet)| input(sheet, Size::More(i % 2)));
        // a sheet of phones alone, as far as there is room
        let full = each! {
            for phone in ["", "x", "abcdefghijklmno"];
            let syllable = format!("0{}", format!(" {phone}").repeat(sheets::LARGEST / ITEM - 3));
            let placed = sheet_edges::in_order(&[sheet_edges::word("w", 1, &[&syllable])]);
            for version in sheets::VERSIONS;
            let sheet = sheet_edges::sheet(version, &placed, 0, 0);
            [Size::Exact, Size::Short(1)].map(|size| input(&sheet, size))
        };
        altered.chain(limits).chain(full).collect()
    }

    fn random(&mut self, random: &mut Random) -> Input {
        let (version, unused) = (sheet_shapes::version(random), random.below(6));
        let mut sheet = sheet_shapes::random(random, &self.phones, version, unused);
        if random.once_in(4) {
            sheet = sheet_shapes::damaged(random, &sheet);
        }
        Input::new(sheet, Room::random(random, 40))
    }

    fn rule(&self, input: &Input, met: &mut Met) -> Ruling {
        let words = sheets::read(&input.sheet);
        met.sound(&words).map_err(|two| Stop::Refused(two, 1))?;
        let words = words.unwrap_or_default();
        let phones = words.iter().flat_map(|placed| placed.word.phones());
        let phones: Vec<&[u8]> = phones.map(|phone| &phone[..]).collect();
        let text = spoken::phone_string(&phones)?.into_bytes();
        let row = row_of(Self::ANSWERS, &[1, 21], text.len());
        met.all(cells::of_phones(&phones));
        met.all(features(&words, &phones));
        met.all(sheet_edges::features(&input.sheet, &words));
        Ok(Told::new(Answer::accepted(0, text.len()), row, vec![text]))
    }

    fn is_beyond(&self, input: &Input) -> bool {
        sheets::version(&input.sheet) == 2
    }

    fn lent<'a>(&self, input: &'a Input) -> Vec<Part<'a>> {
        let sheet = Part::read("the sheet", Form::Sheet, &input.sheet);
        vec![sheet, Part::output(Form::Bytes, input.room)]
    }

    fn record(&self, random: &mut Random, cases: usize) -> Vec<String> {
        let mut inputs = vec![];
        while inputs.len() < cases {
            let (version, unused) = (1 + u8::from(random.once_in(3)), random.below(2));
            let mut sheet = sheet_shapes::random(random, &self.phones, version, unused);
            // small ones
            if sheet.len() <= 14 * ITEM {
                let from = sheets::unused(&sheet);
                sheet[from..].fill(random.byte());
                inputs.push(Input::new(sheet, Room::to_record(random, 20)));
            }
        }
        record::cases(self, "phone strings of sheets of any shape", &inputs)
    }
}

rows! { ROWS:
    /// What the words and the phones of a sheet have.
    features(words: &[sheets::Placed], phones: &[&[u8]]) [
        "no phones" => phones.is_empty(),
        "one phone" => phones.len() == 1,
        "over 96 phones" => phones.len() > 96,
        "1,000 phones and more" => phones.len() >= 1_000,
        "blank in a phone" => phones.iter().any(|p| p.contains(&b' ')),
        "word without phones" => words.iter().any(|placed| placed.word.syllables.is_empty()),
    ]
}
