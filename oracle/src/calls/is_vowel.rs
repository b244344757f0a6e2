//! is_vowel: whether a phone is a vowel. Not one of the eleven calls, but theirs rest on it.

use crate::prelude::*;

#[derive(Default)]
pub struct IsVowel {
    phones: Phones,
}

impl Call for IsVowel {
    type Input = Vec<u8>;
    const NAME: &'static str = "is_vowel";
    const SHARE: usize = 3;
    const SHARE_RECORDED: usize = 6;
    const ANSWERS: Rows = &["vowel", "of the 50, no vowel", "in no table"];
    const LIBRARY: Function = ours::is_vowel;

    fn short(&self) -> Vec<Vec<u8>> {
        self.phones.short()
    }

    fn random(&mut self, random: &mut Random) -> Vec<u8> {
        self.phones.phone(random)
    }

    fn rule(&self, phone: &Vec<u8>, _met: &mut Met) -> Ruling {
        let is_vowel = ask(|| phoneset::is_vowel(ascii(phone)))?;
        let row = match (is_vowel, phoneset::phone_id(ascii(phone))) {
            (true, _) => "vowel",
            (false, Some(_)) => "of the 50, no vowel",
            (false, None) => "in no table",
        };
        Ok(Told::new(Answer::accepted(u32::from(is_vowel), 0), row, vec![]))
    }

    fn lent<'a>(&self, phone: &'a Vec<u8>) -> Vec<Part<'a>> {
        vec![Part::read("the phone", Form::Text, phone)]
    }

    fn record(&self, random: &mut Random, cases: usize) -> Vec<String> {
        record::cases(self, "vowels", &self.phones.to_record(random, cases))
    }
}
