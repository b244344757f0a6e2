//! The library's C functions, as `bindings/c/pronouncer.h` declares them, each behind a safe function on
//! slices.
//!
//! All `unsafe` of the crate stands here. `tests/signatures` compares the declarations with the Rattle
//! source.

use crate::refusal::{Refusal, Refused};

/// What every call gives back, but for `pronouncer_read_settings`.
#[repr(C)]
#[derive(Clone, Copy)]
pub struct Answer {
    pub refusal: u32,
    pub kind: u32,
    pub value: u64,
    pub second: u64,
    pub third: u64,
}

impl Answer {
    /// The answer of an accepted call.
    pub fn accepted(self) -> Result<Answer, Refused> {
        match self.refusal {
            0 => Ok(self),
            number => Err(Refused {
                refusal: Refusal::of_number(number),
                line: self.value as usize,
                unsound: None,
            }),
        }
    }

    pub fn count(self) -> usize {
        self.value as usize
    }

    /// Where the letters stopped, in an answer of predict or of say_word.
    pub fn place(self) -> usize {
        self.second as usize
    }

    /// How many slots are newly used, in an answer of preview_entries.
    pub fn newly_used(self) -> usize {
        self.second as usize
    }

    /// How many lines replaced an entry, in an answer of preview_entries.
    pub fn replaced(self) -> usize {
        self.third as usize
    }
}

/// What `pronouncer_read_settings` gives back.
#[repr(C)]
#[derive(Clone, Copy)]
pub struct Settings {
    pub refusal: u32,
    pub count: u32,
    pub pitch: i32,
    pub stretch: f32,
    pub level: i32,
    pub rack: f32,
}

impl Settings {
    /// The answer of an accepted call.
    pub fn accepted(self) -> Result<Settings, Refused> {
        match self.refusal {
            0 => Ok(self),
            number => Err(Refusal::of_number(number).into()),
        }
    }
}

#[link(name = "pronouncer", kind = "static")]
extern "C" {
    fn pronouncer_check_lexicon(
        phones: *const u8,
        phones_len: usize,
        index: *const u8,
        index_len: usize,
        data: *const u8,
        data_len: usize,
    ) -> Answer;

    fn pronouncer_lookup(
        phones: *const u8,
        phones_len: usize,
        index: *const u8,
        index_len: usize,
        data: *const u8,
        data_len: usize,
        store: *const u8,
        store_len: usize,
        word: *const u8,
        word_len: usize,
        tag: *const u8,
        tag_len: usize,
        out: *mut u8,
        out_len: usize,
    ) -> Answer;

    fn pronouncer_predict(
        phones: *const u8,
        phones_len: usize,
        index: *const u8,
        index_len: usize,
        model: *const u8,
        model_len: usize,
        word: *const u8,
        word_len: usize,
        out: *mut u8,
        out_len: usize,
    ) -> Answer;

    fn pronouncer_syllabify(
        phones: *const u8,
        phones_len: usize,
        marks: *mut u8,
        marks_len: usize,
    ) -> Answer;

    fn pronouncer_is_sayable(
        prefix: *const u8,
        prefix_len: usize,
        suffix: *const u8,
        suffix_len: usize,
        word: *const u8,
        word_len: usize,
    ) -> Answer;

    fn pronouncer_new_store(store: *mut u8, store_len: usize) -> Answer;

    fn pronouncer_add_entry(
        table: *const u8,
        table_len: usize,
        store: *mut u8,
        store_len: usize,
        word: *const u8,
        word_len: usize,
        tag: *const u8,
        tag_len: usize,
        phones: *const u8,
        phones_len: usize,
        exact: bool,
    ) -> Answer;

    fn pronouncer_add_entries(
        table: *const u8,
        table_len: usize,
        store: *mut u8,
        store_len: usize,
        spare: *mut u8,
        spare_len: usize,
        text: *const u8,
        text_len: usize,
    ) -> Answer;

    fn pronouncer_preview_entries(
        table: *const u8,
        table_len: usize,
        store: *const u8,
        store_len: usize,
        spare: *mut u8,
        spare_len: usize,
        text: *const u8,
        text_len: usize,
    ) -> Answer;

    fn pronouncer_accept_entries(
        store: *mut u8,
        store_len: usize,
        spare: *const u8,
        spare_len: usize,
    ) -> Answer;

    fn pronouncer_new_sheet(sheet: *mut u8, sheet_len: usize, version: u32) -> Answer;

    fn pronouncer_say_word(
        phones: *const u8,
        phones_len: usize,
        index: *const u8,
        index_len: usize,
        data: *const u8,
        data_len: usize,
        sounds: *const u8,
        sounds_len: usize,
        starts: *const u8,
        starts_len: usize,
        model: *const u8,
        model_len: usize,
        store: *const u8,
        store_len: usize,
        sheet: *mut u8,
        sheet_len: usize,
        word: *const u8,
        word_len: usize,
        tag: *const u8,
        tag_len: usize,
    ) -> Answer;

    fn pronouncer_phone_string(
        sheet: *const u8,
        sheet_len: usize,
        out: *mut u8,
        out_len: usize,
    ) -> Answer;

    fn pronouncer_read_settings(
        settings: *const u8,
        settings_len: usize,
        version: u32,
        show: f32,
    ) -> Settings;

    fn pronouncer_write_setting(
        settings: *mut u8,
        settings_len: usize,
        version: u32,
        name: *const u8,
        name_len: usize,
        kind: u32,
        value: u32,
    ) -> Answer;

    fn pronouncer_is_vowel(phone: *const u8, phone_len: usize) -> Answer;

    fn pronouncer_split_stress(phone: *const u8, phone_len: usize) -> Answer;
}

// SAFETY, of each call below: every pointer and length is a whole slice that lives through the call, and the
// slices that the call writes are borrowed for this call alone. The library takes any bytes and any lengths.

pub fn check_lexicon([phones, index, data]: [&[u8]; 3]) -> Answer {
    unsafe {
        pronouncer_check_lexicon(
            phones.as_ptr(),
            phones.len(),
            index.as_ptr(),
            index.len(),
            data.as_ptr(),
            data.len(),
        )
    }
}

pub fn lookup(
    [phones, index, data]: [&[u8]; 3],
    store: &[u8],
    word: &[u8],
    tag: &[u8],
    out: &mut [u8],
) -> Answer {
    unsafe {
        pronouncer_lookup(
            phones.as_ptr(),
            phones.len(),
            index.as_ptr(),
            index.len(),
            data.as_ptr(),
            data.len(),
            store.as_ptr(),
            store.len(),
            word.as_ptr(),
            word.len(),
            tag.as_ptr(),
            tag.len(),
            out.as_mut_ptr(),
            out.len(),
        )
    }
}

pub fn predict([phones, index, model]: [&[u8]; 3], word: &[u8], out: &mut [u8]) -> Answer {
    unsafe {
        pronouncer_predict(
            phones.as_ptr(),
            phones.len(),
            index.as_ptr(),
            index.len(),
            model.as_ptr(),
            model.len(),
            word.as_ptr(),
            word.len(),
            out.as_mut_ptr(),
            out.len(),
        )
    }
}

pub fn syllabify(phones: &[u8], marks: &mut [u8]) -> Answer {
    unsafe { pronouncer_syllabify(phones.as_ptr(), phones.len(), marks.as_mut_ptr(), marks.len()) }
}

pub fn is_sayable(prefix: &[u8], suffix: &[u8], word: &[u8]) -> Answer {
    unsafe {
        pronouncer_is_sayable(
            prefix.as_ptr(),
            prefix.len(),
            suffix.as_ptr(),
            suffix.len(),
            word.as_ptr(),
            word.len(),
        )
    }
}

pub fn new_store(store: &mut [u8]) -> Answer {
    unsafe { pronouncer_new_store(store.as_mut_ptr(), store.len()) }
}

pub fn add_entry(
    table: &[u8],
    store: &mut [u8],
    word: &[u8],
    tag: &[u8],
    phones: &[u8],
    exact: bool,
) -> Answer {
    unsafe {
        pronouncer_add_entry(
            table.as_ptr(),
            table.len(),
            store.as_mut_ptr(),
            store.len(),
            word.as_ptr(),
            word.len(),
            tag.as_ptr(),
            tag.len(),
            phones.as_ptr(),
            phones.len(),
            exact,
        )
    }
}

pub fn add_entries(table: &[u8], store: &mut [u8], spare: &mut [u8], text: &[u8]) -> Answer {
    unsafe {
        pronouncer_add_entries(
            table.as_ptr(),
            table.len(),
            store.as_mut_ptr(),
            store.len(),
            spare.as_mut_ptr(),
            spare.len(),
            text.as_ptr(),
            text.len(),
        )
    }
}

pub fn preview_entries(table: &[u8], store: &[u8], spare: &mut [u8], text: &[u8]) -> Answer {
    unsafe {
        pronouncer_preview_entries(
            table.as_ptr(),
            table.len(),
            store.as_ptr(),
            store.len(),
            spare.as_mut_ptr(),
            spare.len(),
            text.as_ptr(),
            text.len(),
        )
    }
}

pub fn accept_entries(store: &mut [u8], spare: &[u8]) -> Answer {
    unsafe {
        pronouncer_accept_entries(store.as_mut_ptr(), store.len(), spare.as_ptr(), spare.len())
    }
}

pub fn new_sheet(sheet: &mut [u8], version: u32) -> Answer {
    unsafe { pronouncer_new_sheet(sheet.as_mut_ptr(), sheet.len(), version) }
}

pub fn say_word(
    [phones, index, data]: [&[u8]; 3],
    [sounds, starts, model]: [&[u8]; 3],
    store: &[u8],
    sheet: &mut [u8],
    word: &[u8],
    tag: &[u8],
) -> Answer {
    unsafe {
        pronouncer_say_word(
            phones.as_ptr(),
            phones.len(),
            index.as_ptr(),
            index.len(),
            data.as_ptr(),
            data.len(),
            sounds.as_ptr(),
            sounds.len(),
            starts.as_ptr(),
            starts.len(),
            model.as_ptr(),
            model.len(),
            store.as_ptr(),
            store.len(),
            sheet.as_mut_ptr(),
            sheet.len(),
            word.as_ptr(),
            word.len(),
            tag.as_ptr(),
            tag.len(),
        )
    }
}

pub fn phone_string(sheet: &[u8], out: &mut [u8]) -> Answer {
    unsafe { pronouncer_phone_string(sheet.as_ptr(), sheet.len(), out.as_mut_ptr(), out.len()) }
}

pub fn read_settings(settings: &[u8], version: u32, show: f32) -> Settings {
    unsafe { pronouncer_read_settings(settings.as_ptr(), settings.len(), version, show) }
}

pub fn write_setting(
    settings: &mut [u8],
    version: u32,
    name: &[u8],
    kind: u32,
    value: u32,
) -> Answer {
    unsafe {
        pronouncer_write_setting(
            settings.as_mut_ptr(),
            settings.len(),
            version,
            name.as_ptr(),
            name.len(),
            kind,
            value,
        )
    }
}

pub fn is_vowel(phone: &[u8]) -> Answer {
    unsafe { pronouncer_is_vowel(phone.as_ptr(), phone.len()) }
}

pub fn split_stress(phone: &[u8]) -> Answer {
    unsafe { pronouncer_split_stress(phone.as_ptr(), phone.len()) }
}
