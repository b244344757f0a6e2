//! Nothing checks a foreign declaration against the Rattle source. These tests compare each exported
//! function's signature, the answers, the numbers and the sizes as the source, the header and this crate tell
//! them.

mod declared;

use declared::{
    differences, fields_in_c, fields_in_rust, in_c, in_rattle, in_rust, Function, ANSWERS,
};
use pronouncer::{Refusal, Setting, SheetVersion, Source, WordSource};
use std::fs;
use std::path::Path;

const CALLS: [&str; 17] = [
    "check_lexicon",
    "lookup",
    "predict",
    "syllabify",
    "is_sayable",
    "new_store",
    "add_entry",
    "add_entries",
    "preview_entries",
    "accept_entries",
    "new_sheet",
    "say_word",
    "phone_string",
    "read_settings",
    "write_setting",
    "is_vowel",
    "split_stress",
];

fn text_of(path: &str) -> String {
    let whole = Path::new(env!("CARGO_MANIFEST_DIR")).join("../..").join(path);
    fs::read_to_string(&whole).unwrap_or_else(|fault| panic!("{}: {fault}", whole.display()))
}

fn rattle() -> String {
    text_of("crates/pronouncer/src/lib.rt")
}

fn answers() -> String {
    text_of("crates/answers/src/lib.rt")
}

fn header() -> String {
    text_of("bindings/c/pronouncer.h")
}

fn binding() -> String {
    text_of("bindings/rust/src/foreign.rs")
}

/// Where header and binding part from the source.
fn compared(rattle: &str, header: &str, binding: &str) -> Vec<String> {
    let source = in_rattle(rattle).expect("the Rattle source can be read");
    let beside = |place, found: Result<Vec<Function>, String>| match found {
        Ok(found) => differences(&source, place, &found),
        Err(fault) => vec![fault],
    };
    [beside("the header", in_c(header)), beside("the binding", in_rust(binding))].concat()
}

#[test]
fn signatures_are_the_sources() {
    let source = in_rattle(&rattle()).expect("the Rattle source can be read");
    let mut names: Vec<String> = source.iter().map(|function| function.name.clone()).collect();
    let mut wanted = CALLS.map(|call| format!("pronouncer_{call}"));
    names.sort();
    wanted.sort();
    assert_eq!(names, wanted);

    let told = compared(&rattle(), &header(), &binding());
    assert!(told.is_empty(), "{}", told.join("\n"));
}

#[test]
fn answers_are_the_sources() {
    for ((answer, in_c), fields) in ANSWERS.into_iter().zip([5, 6]) {
        let source = fields_in_rust(&answers(), answer).expect("the source's answer can be read");
        assert_eq!(source.len(), fields);
        assert_eq!(fields_in_c(&header(), in_c), Ok(source.clone()));
        assert_eq!(fields_in_rust(&binding(), answer), Ok(source));
    }
}

/// One alteration of a text, which must stand there.
fn altered(text: &str, from: &str, to: &str) -> String {
    assert!(text.contains(from), "there is no {from:?}");
    text.replacen(from, to, 1)
}

const SHEET_AND_VERSION: &str = "uint8_t *sheet, size_t sheet_len, uint32_t version";

/// Alterations of the header, each with words of what must be told.
const HEADER_ALTERED: &[(&str, &str, &str)] = &[
    ("const uint8_t *data, size_t data_len);", "const uint8_t *data);", "data has no length"),
    (",\n    const uint8_t *data, size_t data_len);", ");", "the header has"),
    (
        "const uint8_t *index, size_t index_len",
        "uint8_t *index, size_t index_len",
        "the header has",
    ),
    (
        "uint8_t *marks, size_t marks_len",
        "const uint8_t *marks, size_t marks_len",
        "the header has",
    ),
    (
        "const uint8_t *word, size_t word_len,\n    const uint8_t *tag, size_t tag_len",
        "const uint8_t *tag, size_t tag_len,\n    const uint8_t *word, size_t word_len",
        "the header has",
    ),
    (
        "const uint8_t *store, size_t store_len,\n    uint8_t *spare, size_t spare_len",
        "uint8_t *store, size_t store_len,\n    uint8_t *spare, size_t spare_len",
        "the header has",
    ),
    (
        "const uint8_t *spare, size_t spare_len);",
        "uint8_t *spare, size_t spare_len);",
        "the header has",
    ),
    (
        SHEET_AND_VERSION,
        "size_t sheet_len, uint8_t *sheet, uint32_t version",
        "no pointer before it",
    ),
    (SHEET_AND_VERSION, "uint32_t version, uint8_t *sheet, size_t sheet_len", "the header has"),
    (SHEET_AND_VERSION, "uint8_t *sheet, size_t sheet_len, int32_t version", "the header has"),
    (SHEET_AND_VERSION, "uint8_t *sheet, size_t sheet_len, uint16_t version", "no number"),
    (SHEET_AND_VERSION, "uint8_t *sheet, size_t sheet_len", "the header has"),
    ("size_t phone_len", "int phone_len", "no part of a slice"),
    (
        "struct pronouncer_answer pronouncer_new_store",
        "uint32_t pronouncer_new_store",
        "the header has",
    ),
    (
        "struct pronouncer_answer pronouncer_new_store",
        "void pronouncer_new_store",
        "the header has",
    ),
    (
        "struct pronouncer_settings pronouncer_read_settings",
        "struct pronouncer_answer pronouncer_read_settings",
        "the header has",
    ),
    ("uint32_t version,\n    float show", "uint16_t version,\n    float show", "no number"),
    ("uint32_t version,\n    float show", "float show,\n    uint32_t version", "the header has"),
    ("float show", "double show", "no number"),
    ("float show", "uint32_t show", "the header has"),
    (",\n    float show", "", "the header has"),
    (
        "uint32_t kind,\n    uint32_t value);",
        "uint32_t value,\n    uint32_t kind);",
        "the header has",
    ),
    ("bool exact", "uint32_t exact", "the header has"),
    ("bool exact", "int exact", "no number"),
    ("bool exact", "bool whole", "the header has"),
    (",\n    bool exact", "", "the header has"),
    (
        "const uint8_t *phones, size_t phones_len,\n    bool exact",
        "bool exact,\n    const uint8_t *phones, size_t phones_len",
        "the header has",
    ),
    ("pronouncer_is_vowel(", "pronouncer_is_a_vowel(", "the header lacks pronouncer_is_vowel"),
    (
        "#endif\n\n#endif",
        "int pronouncer_more(uint8_t *a, size_t a_len);\n#endif\n\n#endif",
        "the source lacks",
    ),
];

#[test]
fn an_altered_header_is_told() {
    let plain = header();
    for (from, to, wanted) in HEADER_ALTERED {
        let told = compared(&rattle(), &altered(&plain, from, to), &binding());
        assert!(told.iter().any(|line| line.contains(wanted)), "{from:?} to {to:?}: {told:?}");
    }
}

const WORD_AND_TAG: &str = "word: *const u8,
        word_len: usize,
        tag: *const u8,
        tag_len: usize,";

const TAG_AND_WORD: &str = "tag: *const u8, tag_len: usize, word: *const u8, word_len: usize,";

const READ_STORE_AND_SPARE: &str = "store: *const u8,
        store_len: usize,
        spare: *mut u8,";

const WRITTEN_STORE_AND_SPARE: &str = "store: *mut u8, store_len: usize, spare: *mut u8,";

const PHONES_AND_EXACT: &str = "phones: *const u8,
        phones_len: usize,
        exact: bool,";

const EXACT_AND_PHONES: &str = "exact: bool, phones: *const u8, phones_len: usize,";

const IS_VOWEL: &str = "fn pronouncer_is_vowel(phone: *const u8, phone_len: usize) -> Answer;";

/// Alterations of the binding, each with words of what must be told.
const BINDING_ALTERED: &[(&str, &str, &str)] = &[
    ("index: *const u8,\n        index_len: usize,\n", "", "the binding has"),
    ("data: *const u8,", "data: *mut u8,", "the binding has"),
    ("out: *mut u8,", "out: *const u8,", "the binding has"),
    (WORD_AND_TAG, TAG_AND_WORD, "the binding has"),
    ("spare: *const u8,", "spare: *mut u8,", "the binding has"),
    (READ_STORE_AND_SPARE, WRITTEN_STORE_AND_SPARE, "the binding has"),
    ("marks_len: usize", "marks_len: u32", "marks has no length behind it"),
    ("marks_len: usize", "marks_len: u16", "no part of a slice"),
    ("version: u32,\n        show: f32,", "show: f32,\n        version: u32,", "the binding has"),
    ("show: f32", "show: f64", "no number"),
    ("kind: u32,\n        value: u32,", "value: u32,\n        kind: u32,", "the binding has"),
    ("exact: bool", "exact: u32", "the binding has"),
    ("exact: bool", "exact: u8", "no number"),
    ("        exact: bool,\n    ) -> Answer;", "    ) -> Answer;", "the binding has"),
    (PHONES_AND_EXACT, EXACT_AND_PHONES, "the binding has"),
    (") -> Settings;", ") -> Answer;", "the binding has"),
    ("store_len: usize) -> Answer", "store_len: usize) -> u32", "the binding has"),
    ("store_len: usize) -> Answer", "store_len: usize)", "answers nothing"),
    ("pronouncer_new_sheet(", "pronouncer_newer_sheet(", "the binding lacks pronouncer_new_sheet"),
    ("sheet_len: usize, version: u32", "sheet_len: usize", "the binding has"),
    ("sheet_len: usize, version: u32", "sheet_len: usize, version: u8", "no number"),
    (
        "sheet: *mut u8, sheet_len: usize, version: u32",
        "version: u32, sheet: *mut u8, sheet_len: usize",
        "the binding has",
    ),
    (IS_VOWEL, "", "the binding lacks pronouncer_is_vowel"),
    ("pronouncer_split_stress(", "pronouncer_is_vowel(", "has pronouncer_is_vowel twice"),
];

#[test]
fn an_altered_binding_is_told() {
    let plain = binding();
    for (from, to, wanted) in BINDING_ALTERED {
        let told = compared(&rattle(), &header(), &altered(&plain, from, to));
        assert!(told.iter().any(|line| line.contains(wanted)), "{from:?} to {to:?}: {told:?}");
    }
}

#[test]
fn an_altered_source_is_told() {
    let alterations = [
        (
            "pronouncer_syllabify(phones: &[u8], marks: &mut [u8])",
            "pronouncer_syllabify(phones: &[u8])",
        ),
        (
            "pronouncer_syllabify(phones: &[u8], marks: &mut [u8])",
            "pronouncer_syllabify(phones: &[u8], marks: &[u8])",
        ),
        (
            "pronouncer_syllabify(phones: &[u8], marks: &mut [u8])",
            "pronouncer_syllabify(marks: &mut [u8], phones: &[u8])",
        ),
        (
            "pronouncer_new_store(store: &mut [u8]) -> Answer",
            "pronouncer_new_store(store: &mut [u8]) -> Count",
        ),
        (
            "pronouncer_accept_entries(store: &mut [u8], spare: &[u8])",
            "pronouncer_accept_entries(spare: &[u8], store: &mut [u8])",
        ),
        ("exact: bool,\n", ""),
        ("exact: bool,\n", "exact: u32,\n"),
        ("phones: &[u8],\n    exact: bool,\n", "exact: bool,\n    phones: &[u8],\n"),
        ("version: u32, show: f32", "version: u32, show: u32"),
        ("version: u32, show: f32", "show: f32, version: u32"),
        ("fn pronouncer_new_sheet(", "fn pronouncer_next_sheet("),
        ("sheet: &mut [u8], version: u32", "sheet: &mut [u8]"),
        ("sheet: &mut [u8], version: u32", "sheet: &mut [u8], version: u64"),
        ("sheet: &mut [u8], version: u32", "version: u32, sheet: &mut [u8]"),
        (
            "// a sheet, a version\n",
            "#[unsafe(no_mangle)]\npub extern \"C\" fn pronouncer_close(sheet: &mut [u8]) -> Answer {}\n",
        ),
    ];
    let plain = rattle();
    for (from, to) in alterations {
        let told = compared(&altered(&plain, from, to), &header(), &binding());
        assert!(told.len() >= 2, "header and binding both part from {to:?}: {told:?}");
    }
}

#[test]
fn an_altered_answer_is_told() {
    let [(answer, answer_in_c), (settings, settings_in_c)] = ANSWERS;
    for (in_c, from, to) in [
        (answer_in_c, "uint32_t kind;", "uint64_t kind;"),
        (answer_in_c, "uint64_t third;", ""),
        (answer_in_c, "uint64_t second;", "uint64_t other;"),
        (answer_in_c, "uint64_t value;", "int64_t value;"),
        (settings_in_c, "int32_t pitch;", "uint32_t pitch;"),
        (settings_in_c, "float stretch;", "double stretch;"),
        (settings_in_c, "int32_t level;", ""),
        (settings_in_c, "float rack;", "float show;"),
    ] {
        let source = fields_in_c(&header(), in_c);
        assert!(source.is_ok());
        assert_ne!(fields_in_c(&altered(&header(), from, to), in_c), source, "{to}");
    }
    let settings_alone = "#[derive(Clone, Copy)]\npub struct Settings";
    for (name, from, to) in [
        (answer, "pub kind: u32,", "pub kind: u64,"),
        (answer, "pub third: u64,", ""),
        (answer, "#[repr(C)]", ""),
        (answer, "pub value: u64,\n    pub second: u64,", "pub second: u64,\n    pub value: u64,"),
        (settings, "pub pitch: i32,", "pub pitch: u32,"),
        (settings, "pub rack: f32,", ""),
        (settings, &format!("#[repr(C)]\n{settings_alone}"), settings_alone),
        (
            settings,
            "pub stretch: f32,\n    pub level: i32,",
            "pub level: i32,\n    pub stretch: f32,",
        ),
    ] {
        let source = fields_in_rust(&binding(), name);
        assert!(source.is_ok());
        assert_ne!(fields_in_rust(&altered(&binding(), from, to), name), source, "{to}");
    }
}

/// A name as C constants are written: `UnknownPhone` is `UNKNOWN_PHONE`.
fn constant(name: &str) -> String {
    let mut constant = String::new();
    for letter in name.chars() {
        if letter.is_uppercase() && !constant.is_empty() {
            constant.push('_');
        }
        constant.push(letter.to_ascii_uppercase());
    }
    constant
}

/// The cases of an enum of the Rattle source, each with its number.
fn cases(kind: &str) -> Vec<String> {
    let source = answers();
    let (_, behind) = source.split_once(&format!("pub enum {kind} {{\n")).expect(kind);
    let (inside, _) = behind.split_once("\n}").expect(kind);
    inside.lines().map(|line| line.trim().to_string()).collect()
}

/// Sees that a case of an enum has one number in the Rattle source, in the header and here.
fn same_number(kind: &str, case: &str, number: u32) {
    let row = format!("{case} = {number},");
    assert!(cases(kind).contains(&row), "the source's {kind} lacks {row}");
    same_in_header(case, number);
}

/// Sees that a case of an enum has this number in the header.
fn same_in_header(case: &str, number: u32) {
    is_in_header(&constant(case), number);
}

/// Sees that a constant of an enum has this number in the header.
fn is_in_header(constant: &str, number: u32) {
    let row = format!("    PRONOUNCER_{constant} = {number}");
    let lines = header();
    let mut values = lines.lines().map(|line| line.split(['/', ',']).next().unwrap_or(line));
    assert!(values.any(|line| line.trim_end() == row), "the header lacks {row}");
}

#[test]
fn numbers_are_the_sources() {
    let refusals = [
        (Refusal::Section, 1),
        (Refusal::Unsound, 2),
        (Refusal::Text, 3),
        (Refusal::Line, 4),
        (Refusal::UnknownPhone, 5),
        (Refusal::Damaged, 6),
        (Refusal::Phones, 7),
        (Refusal::Full, 8),
        (Refusal::Short, 9),
        (Refusal::Count, 12),
        (Refusal::Version, 15),
        (Refusal::Records, 16),
        (Refusal::Range, 17),
    ];
    for (refusal, number) in refusals {
        assert_eq!(refusal.number(), number);
        same_number("Refusal", &format!("{refusal:?}"), number);
    }
    assert_eq!(cases("Refusal").len(), refusals.len());
    for source in [Source::Runtime, Source::Addenda, Source::Compiled] {
        same_number("Source", &format!("{source:?}"), source.number());
    }
    assert_eq!(WordSource::Letters.number(), 4);
    same_in_header("Letters", 4);
    for (setting, case) in [(Setting::Whole(0), "Whole"), (Setting::Real(0.0), "Real")] {
        same_in_header(case, setting.kind());
    }
}

#[test]
fn versions_of_a_sheet_are_the_headers() {
    let versions = [(SheetVersion::V1, 1), (SheetVersion::V2, 2)];
    for (version, number) in versions {
        assert_eq!(version.number(), number);
        is_in_header(&format!("SHEET_{version}"), number);
    }
    assert_eq!(header().matches("    PRONOUNCER_SHEET_").count(), versions.len());
}

#[test]
fn sizes_are_the_headers() {
    let sizes = [
        ("SLOT_BYTES", pronouncer::SLOT_BYTES, 512),
        ("ITEM_BYTES", pronouncer::ITEM_BYTES, 64),
        ("RECORD_BYTES", pronouncer::RECORD_BYTES, 32),
        ("CELL_BYTES", pronouncer::CELL_BYTES, 16),
        ("LARGEST_BYTES", pronouncer::LARGEST_BYTES, 65_536),
        ("NAME_BYTES", pronouncer::NAME_BYTES, 15),
        ("WORD_BYTES", pronouncer::WORD_BYTES, 47),
        ("PHONE_BYTES", pronouncer::PHONE_BYTES, 15),
        ("ENTRY_PHONES", pronouncer::ENTRY_PHONES, 24),
        ("LIST_PHONES", pronouncer::LIST_PHONES, 96),
        ("LIST_BYTES", pronouncer::LIST_BYTES, 96 * 16),
    ];
    for (name, here, scope) in sizes {
        assert_eq!(here, scope, "{name}");
        let row = format!("#define PRONOUNCER_{name} {scope}");
        let is_there =
            header().lines().any(|line| line.split(" /*").next().unwrap_or("").trim_end() == row);
        assert!(is_there, "the header lacks {row}");
    }
}
