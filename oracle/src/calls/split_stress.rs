//! split_stress: a phone's stress and its bare phone. Not one of the eleven calls, but theirs rest on it.

use crate::prelude::*;

#[derive(Default)]
pub struct SplitStress {
    phones: Phones,
}

impl Call for SplitStress {
    type Input = Vec<u8>;
    const NAME: &'static str = "split_stress";
    const SHARE: usize = 3;
    const SHARE_RECORDED: usize = 6;
    const ANSWERS: Rows = &["stress 0", "stress 1", "no stress"];
    const MET: Table = &[ROWS];
    const LIBRARY: Function = ours::split_stress;

    fn short(&self) -> Vec<Vec<u8>> {
        self.phones.short()
    }

    fn random(&mut self, random: &mut Random) -> Vec<u8> {
        self.phones.phone(random)
    }

    fn rule(&self, phone: &Vec<u8>, met: &mut Met) -> Ruling {
        let name = ascii(phone);
        let (bare, stress) = ask(|| lexicon::split_stress(name))?;
        // the library tells the bare phone by its length alone
        assert!(name.starts_with(bare), "the bare phone is the front");
        let (kind, row) = match stress {
            Some("0") => (48, "stress 0"),
            Some("1") => (49, "stress 1"),
            None => (0, "no stress"),
            Some(other) => panic!("the original tells stress {other}"),
        };
        met.all(of_bare(bare, stress.is_some()));
        Ok(Told::new(Answer::accepted(kind, bare.len()), row, vec![]))
    }

    fn lent<'a>(&self, phone: &'a Vec<u8>) -> Vec<Part<'a>> {
        vec![Part::read("the phone", Form::Text, phone)]
    }

    fn record(&self, random: &mut Random, cases: usize) -> Vec<String> {
        record::cases(self, "stress", &self.phones.to_record(random, cases))
    }
}

rows! { ROWS:
    /// What a phone has whose stress was taken off.
    of_bare(bare: &str, taken_off: bool) [
        "bare phone of 0 bytes" => taken_off && bare.is_empty(),
        "bare phone that ends in a stress" => taken_off && bare.ends_with(['0', '1']),
    ]
}
