//! The proved library, through its C interface: a slice is a pointer and a length.

use crate::lent::Lent;
use crate::settings;
use std::fmt;

#[repr(C)]
#[derive(Clone, Copy, PartialEq, Eq)]
pub struct Answer {
    pub refusal: u32,
    pub kind: u32,
    pub value: u64,
    pub second: u64,
    pub third: u64,
}

impl Answer {
    pub fn accepted(kind: u32, value: usize) -> Answer {
        Answer { refusal: 0, kind, value: value as u64, second: 0, third: 0 }
    }

    /// The same with a second number.
    pub fn and(self, second: usize) -> Answer {
        Answer { second: second as u64, ..self }
    }

    /// The same with a third number.
    pub fn and_third(self, third: usize) -> Answer {
        Answer { third: third as u64, ..self }
    }

    /// A refusal; its line is 0 except where a text is taken.
    pub fn refused(refusal: u32, line: usize) -> Answer {
        Answer { refusal, ..Answer::accepted(0, line) }
    }
}

/// All numbers; the last two where they are told.
impl fmt::Display for Answer {
    fn fmt(&self, f: &mut fmt::Formatter) -> fmt::Result {
        let Answer { refusal, kind, value, second, third } = self;
        write!(f, "refusal {refusal} kind {kind} value {value}")?;
        match (second, third) {
            (0, 0) => Ok(()),
            _ => write!(f, ", second {second}, third {third}"),
        }
    }
}

/// A function of the library, given what it is lent.
pub type Function = fn(&mut [Lent]) -> Answer;

/// Something that is handed over by value, from the number that is lent in its place.
trait ByValue {
    fn of(lent: &Lent) -> Self;
}

impl ByValue for u32 {
    fn of(lent: &Lent) -> u32 {
        lent.number()
    }
}

/// Yes is 1.
impl ByValue for bool {
    fn of(lent: &Lent) -> bool {
        lent.number() == 1
    }
}

/// Functions of the library by their slices, with values in brackets behind a slice; each gets these, in this order.
macro_rules! library {
    ($($name:ident = $function:ident($($slice:ident $([$($value:ident: $kind:ty),*])?),*);)*) => {
        #[link(name = "pronouncer", kind = "static")]
        extern "C" {
            $(fn $function($($slice: *mut u8, _: usize $($(, $value: $kind)*)?),*) -> Answer;)*
        }

        $(pub fn $name(lent: &mut [Lent]) -> Answer {
            let [$($slice $($(, $value)*)?),*] = lent else {
                panic!("{} takes other slices", stringify!($name))
            };
            $(let $slice = $slice.bytes_mut();)*
            // SAFETY: each pointer and length is a whole slice that nothing else refers to.
            unsafe {
                $function($($slice.as_mut_ptr(), $slice.len() $($(, <$kind>::of($value))*)?),*)
            }
        })*
    };
}

library! {
    predict = pronouncer_predict(phones, index, model, word, out);
    syllabify = pronouncer_syllabify(phones, marks);
    is_sayable = pronouncer_is_sayable(prefix, suffix, word);
    is_vowel = pronouncer_is_vowel(phone);
    split_stress = pronouncer_split_stress(phone);
    check_lexicon = pronouncer_check_lexicon(phones, index, data);
    lookup = pronouncer_lookup(phones, index, data, store, word, tag, out);
    new_store = pronouncer_new_store(store);
    add_entry = pronouncer_add_entry(lex_phones, store, word, tag, phones [exact: bool]);
    add_entries = pronouncer_add_entries(phones, store, spare, text);
    preview_entries = pronouncer_preview_entries(phones, store, spare, text);
    accept_entries = pronouncer_accept_entries(store, spare);
    new_sheet = pronouncer_new_sheet(sheet [version: u32]);
    say_word = pronouncer_say_word(
        lex_phones, lex_index, lex_data, lts_phones, lts_index, lts_model, store, sheet, word, tag
    );
    phone_string = pronouncer_phone_string(sheet, out);
    write_setting = pronouncer_write_setting(settings [version: u32], name [kind: u32, value: u32]);
}

/// Both steps of add_entries; the answer is the first one's, unless the second refuses.
pub fn two_steps(lent: &mut [Lent]) -> Answer {
    let previewed = preview_entries(lent);
    if previewed.refusal > 0 {
        return previewed;
    }
    match accept_entries(&mut lent[1..3]) {
        accepted if accepted.refusal > 0 => accepted,
        _ => previewed,
    }
}

/// What read_settings gives back.
#[repr(C)]
struct Settings {
    refusal: u32,
    count: u32,
    pitch: i32,
    stretch: f32,
    level: i32,
    rack: f32,
}

extern "C" {
    fn pronouncer_read_settings(settings: *mut u8, _: usize, version: u32, show: f32) -> Settings;
}

/// The numbers behind the refusal go into the last that is lent, bit for bit.
pub fn read_settings(lent: &mut [Lent]) -> Answer {
    let [settings, version, show, shown] = lent else { panic!("read_settings takes other slices") };
    let (settings, version) = (settings.bytes_mut(), version.number());
    let (start, len, show) = (settings.as_mut_ptr(), settings.len(), f32::from_bits(show.number()));
    // SAFETY: the pointer and the length are a whole slice that nothing else refers to.
    let told = unsafe { pronouncer_read_settings(start, len, version, show) };
    let Settings { refusal, count, pitch, stretch, level, rack } = told;
    let numbers = [count, pitch as u32, stretch.to_bits(), level as u32, rack.to_bits()];
    shown.bytes_mut().copy_from_slice(&settings::in_bytes(numbers));
    Answer { refusal, ..Answer::accepted(0, 0) }
}
