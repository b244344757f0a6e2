//! new_sheet: the first item of a sheet, written whole, with its version (02, S-9). The original has no such call; 01 and 02
//! say what is expected.

use crate::prelude::*;
use crate::sheet_shapes::{any_version, plainer_version, UNKNOWN};

input!(sheet: Vec<u8> => sheet_shapes::smaller, version: u32 => plainer_version);

#[derive(Default)]
pub struct NewSheet {
    phones: Phones,
}

impl Call for NewSheet {
    type Input = Input;
    const NAME: &'static str = "new_sheet";
    const SHARE: usize = 30;
    const ANSWERS: Rows = &["version 1", "version 2"];
    const REFUSALS: &'static [u32] = &[2, 15];
    const MET: Table = &[ROWS];
    const LIBRARY: Function = ours::new_sheet;

    fn short(&self) -> Vec<Input> {
        let items = (1..=sheets::LARGEST / ITEM).step_by(31).chain([1_023, 1_024]);
        let lengths = items.flat_map(|items| [0, 1, ITEM - 1].map(|more| ITEM * items + more));
        let sheets = (0..6 * ITEM).chain(lengths).map(records::filled);
        let mut all = each! {
            for sheet in sheets.chain(sheet_edges::limits());
            [1, 2, 0].map(|version| Input::new(sheet.clone(), version))
        };
        let [first, second] = sheets::VERSIONS.map(sheet_edges::good);
        let filled = [0, 1, 63, 64, 65, 200].map(records::filled);
        let sheets = [&filled[..], &[vec![0; 65_537], vec![0; 128], first, second]].concat();
        all.extend(each! {
            for version in (0..=600).chain(UNKNOWN);
            sheets.iter().map(|sheet| Input::new(sheet.clone(), version))
        });
        all
    }

    fn random(&mut self, random: &mut Random) -> Input {
        let items = random.ranged(&[(24, 1, 20), (2, 0, 0), (2, 21, 1_023), (1, 1_022, 1_026)]);
        let more = random.below(ITEM) * random.below(2);
        let sheet = match random.once_in(4) {
            true => {
                let version = sheet_shapes::version(random);
                sheet_shapes::random(random, &self.phones, version, items.min(4))
            }
            false => records::random(random, ITEM * items + more),
        };
        Input::new(sheet, any_version(random))
    }

    fn rule(&self, Input { sheet, version }: &Input, met: &mut Met) -> Ruling {
        let is_known = sheets::is_version(*version);
        met.refuse(2, !sheets::has_length(sheet.len()), || length(sheet.len(), is_known))?;
        met.refuse(15, !is_known, || unknown(sheet, *version))?;
        met.all(before(sheet, *version));
        let mut head = vec![0; ITEM];
        head[1] = *version as u8;
        let row = Self::ANSWERS[usize::from(*version == 2)];
        Ok(Told::new(Answer::accepted(0, 0), row, vec![head]).by_papers())
    }

    fn lent<'a>(&self, Input { sheet, version }: &'a Input) -> Vec<Part<'a>> {
        let sheet = Part::written("the sheet", Form::Sheet, sheet);
        vec![sheet, Part::number("the version", Form::Number, *version)]
    }
}

rows! { ROWS:
    /// What there is before.
    before(sheet: &[u8], version: u32) {
        let sound = sheets::read(sheet).is_ok();
        let (old, new) = (u32::from(sheets::version(sheet)), version);
    } [
        "sheet that is sound" => sound,
        "sheet that is not" => !sound,
        "version 1 in the place of 2" => sound && (old, new) == (2, 1),
        "version 2 in the place of 1" => sound && (old, new) == (1, 2),
        "version that the sheet had" => sound && old == new,
        "sheet of one item" => sheet.len() < 2 * ITEM,
        "sheet of 65,536 bytes" => sheet.len() == sheets::LARGEST,
        "bytes behind the last whole item" => sheet.len() % ITEM != 0,
        "later items that stay as they are" => !zeros(&sheet[ITEM..]),
    ]

    /// Why a length is refused.
    length(len: usize, is_known: bool) [
        "refusal 2: no bytes" => len == 0,
        "refusal 2: fewer than 64 bytes" => (1..ITEM).contains(&len),
        "refusal 2: over 65,536 bytes" => len > sheets::LARGEST,
        "refusal 2: a known version" => is_known,
        "refusal 2 before 15" => !is_known,
    ]

    /// What a version is that is not known, and what stays then.
    unknown(sheet: &[u8], version: u32) {
        let low = version % 256;
    } [
        "15: version 0" => version == 0,
        "15: version 3" => version == 3,
        "15: version 255" => version == 255,
        "15: version 256" => version == 256,
        "15: version whose lowest byte is 1" => low == 1,
        "15: version whose lowest byte is 2" => low == 2,
        "15: version whose lower half is known" => sheets::is_version(version % 65_536),
        "15: version of 2^31 and more" => version >= 1 << 31,
        "15: version 2^32 - 1" => version == u32::MAX,
        "15: sound sheet that stays" => sheets::read(sheet).is_ok(),
        "15: other bytes that stay" => sheets::read(sheet).is_err(),
    ]
}
