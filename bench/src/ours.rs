//! The proved library, through its C interface: a slice is a pointer and a length.

#[repr(C)]
pub struct Answer {
    pub refusal: u32,
    pub kind: u32,
    pub value: u64,
    pub second: u64,
    pub third: u64,
}

/// What a read of settings gives back.
#[repr(C)]
pub struct Settings {
    pub refusal: u32,
    pub count: u32,
    pub pitch: i32,
    pub stretch: f32,
    pub level: i32,
    pub rack: f32,
}

/// A slice that a call is lent, to read or to write.
trait Lent {
    fn lent(self) -> (*mut u8, usize);
}

impl Lent for &[u8] {
    fn lent(self) -> (*mut u8, usize) {
        (self.as_ptr().cast_mut(), self.len())
    }
}

impl Lent for &mut [u8] {
    fn lent(self) -> (*mut u8, usize) {
        (self.as_mut_ptr(), self.len())
    }
}

/// Functions of the library by their slices, those that are written with `mut`, and by a number or a bool behind them.
macro_rules! library {
    ($($name:ident = $function:ident($($slice:ident: $kind:ty),* $(; $number:ident: $of:ty)?);)*) => {
        #[link(name = "pronouncer", kind = "static")]
        extern "C" {
            $(fn $function($($slice: *mut u8, _: usize,)* $($number: $of)?) -> Answer;)*
        }

        $(pub fn $name($($slice: $kind,)* $($number: $of)?) -> Answer {
            $(let $slice = $slice.lent();)*
            // SAFETY: each pointer and length is a whole slice; the library writes only what is lent with `mut`.
            unsafe { $function($($slice.0, $slice.1,)* $($number)?) }
        })*
    };
}

library! {
    predict = pronouncer_predict(phones: &[u8], index: &[u8], model: &[u8], word: &[u8], out: &mut [u8]);
    syllabify = pronouncer_syllabify(phones: &[u8], marks: &mut [u8]);
    is_sayable = pronouncer_is_sayable(prefix: &[u8], suffix: &[u8], word: &[u8]);
    check_lexicon = pronouncer_check_lexicon(phones: &[u8], index: &[u8], data: &[u8]);
    lookup_in = pronouncer_lookup(
        phones: &[u8], index: &[u8], data: &[u8], store: &[u8], word: &[u8], tag: &[u8], out: &mut [u8]
    );
    new_store = pronouncer_new_store(store: &mut [u8]);
    add_entry = pronouncer_add_entry(
        table: &[u8], store: &mut [u8], word: &[u8], tag: &[u8], phones: &[u8]; exact: bool
    );
    add_entries = pronouncer_add_entries(table: &[u8], store: &mut [u8], spare: &mut [u8], text: &[u8]);
    preview_entries = pronouncer_preview_entries(table: &[u8], store: &[u8], spare: &mut [u8], text: &[u8]);
    accept_entries = pronouncer_accept_entries(store: &mut [u8], spare: &[u8]);
    new_sheet = pronouncer_new_sheet(sheet: &mut [u8]; version: u32);
    say_word_in = pronouncer_say_word(
        lex_phones: &[u8], lex_index: &[u8], lex_data: &[u8], lts_phones: &[u8], lts_index: &[u8], lts_model: &[u8],
        store: &[u8], sheet: &mut [u8], word: &[u8], tag: &[u8]
    );
    phone_string = pronouncer_phone_string(sheet: &[u8], out: &mut [u8]);
}

extern "C" {
    fn pronouncer_read_settings(_: *mut u8, _: usize, version: u32, show: f32) -> Settings;
    fn pronouncer_write_setting(
        _: *mut u8,
        _: usize,
        version: u32,
        _: *mut u8,
        _: usize,
        kind: u32,
        value: u32,
    ) -> Answer;
}

#[inline]
pub fn read_settings(settings: &[u8], version: u32, show: f32) -> Settings {
    let settings = settings.lent();
    // SAFETY: the pointer and the length are a whole slice, which the library only reads.
    unsafe { pronouncer_read_settings(settings.0, settings.1, version, show) }
}

/// Writes a setting that is a whole number.
#[inline]
pub fn write_whole(settings: &mut [u8], version: u32, name: &[u8], value: i32) -> Answer {
    let (settings, name, value) = (settings.lent(), name.lent(), value as u32);
    // SAFETY: each pointer and length is a whole slice; the library writes only the settings.
    unsafe { pronouncer_write_setting(settings.0, settings.1, version, name.0, name.1, 1, value) }
}

/// Lookup in the three sections of a lexicon.
#[inline]
pub fn lookup(lex: [&[u8]; 3], store: &[u8], word: &[u8], tag: &[u8], out: &mut [u8]) -> Answer {
    let [phones, index, data] = lex;
    lookup_in(phones, index, data, store, word, tag, out)
}

/// Say word by the sections of a lexicon and of letter trees.
#[inline]
pub fn say_word(
    [lex_phones, lex_index, lex_data]: [&[u8]; 3],
    [lts_phones, lts_index, lts_model]: [&[u8]; 3],
    store: &[u8],
    sheet: &mut [u8],
    word: &[u8],
    tag: &[u8],
) -> Answer {
    say_word_in(
        lex_phones, lex_index, lex_data, lts_phones, lts_index, lts_model, store, sheet, word, tag,
    )
}
