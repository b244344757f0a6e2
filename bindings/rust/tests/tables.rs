//! A folder of sections, read whole.

use pronouncer::{read_section, Refusal, Sheet, SheetVersion, Store, Tables, SECTION_NAMES};
use std::error::Error;
use std::fs;
use std::io;
use std::path::{Path, PathBuf};

/// A new folder with a file for each section, which holds its own name; `left_out` are missing.
fn folder(name: &str, left_out: &[&str]) -> PathBuf {
    let folder = Path::new(env!("CARGO_TARGET_TMPDIR")).join(name);
    if folder.exists() {
        fs::remove_dir_all(&folder).expect("an earlier one can be removed");
    }
    fs::create_dir_all(&folder).expect("it can be made");
    for name in SECTION_NAMES.iter().filter(|name| !left_out.contains(name)) {
        fs::write(folder.join(name), name).expect("it can be written");
    }
    folder
}

fn english() -> Tables {
    let folder = Path::new(env!("CARGO_MANIFEST_DIR")).join("../../tables/english/sections");
    Tables::read(folder).expect("the English sections can be read")
}

#[test]
fn each_section_is_where_it_belongs() {
    let tables = Tables::read(folder("whole", &[])).expect("it is whole");
    let (lexicon, letters, sayable) = (tables.lexicon(), tables.letters(), tables.sayable());
    let sections = [
        (lexicon.phones, "lex.phones"),
        (lexicon.index, "lex.index"),
        (lexicon.data, "lex.data"),
        (letters.phones, "lts.phones"),
        (letters.index, "lts.index"),
        (letters.model, "lts.model"),
        (sayable.prefix, "aswd.p"),
        (sayable.suffix, "aswd.s"),
    ];
    for (bytes, name) in sections {
        assert_eq!(bytes, name.as_bytes());
        assert_eq!(tables.section(name), Some(name.as_bytes()));
    }
    assert_eq!(tables.section("lex"), None);
    assert_eq!(tables.section("checksums"), None);
    assert!(format!("{tables:?}").starts_with("{\"lex.phones\": Some(10), "));
}

#[test]
fn a_folder_may_lack_what_tells_sayable_words() {
    let tables = Tables::read(folder("six", &["aswd.p", "aswd.s"])).expect("six are enough");
    assert_eq!(tables.section("lts.model"), Some(&b"lts.model"[..]));
    assert_eq!(tables.section("aswd.p"), None);
    let refused = tables.sayable().is_sayable("cat").unwrap_err();
    assert_eq!(refused.refusal, Refusal::Section);
}

#[test]
fn a_missing_section_is_named() {
    for name in &SECTION_NAMES[..6] {
        let folder = folder("five", &[name]);
        let error = Tables::read(&folder).unwrap_err();
        let path = folder.join(name);
        assert_eq!(error.path(), path);
        assert!(error.is_missing());
        let told = format!("cannot read {}: No such file or directory", path.display());
        assert!(error.to_string().starts_with(&told), "{error}");
    }
    let nowhere = Tables::read("there is no such folder").unwrap_err();
    assert_eq!(nowhere.path(), Path::new("there is no such folder/lex.phones"));
}

#[test]
fn what_is_there_and_cannot_be_read_is_told() {
    for name in ["lex.data", "aswd.s"] {
        let folder = folder("closed", &[name]);
        fs::create_dir(folder.join(name)).expect("it can be made");
        let error = Tables::read(&folder).unwrap_err();
        assert_eq!(error.path(), folder.join(name));
        assert!(!error.is_missing());
        let source = error.source().expect("it has a source");
        let reason = source.downcast_ref::<io::Error>().expect("of this kind");
        assert_eq!(reason.kind(), io::ErrorKind::IsADirectory);
        assert!(read_section(&folder, name).is_err());
        assert_eq!(read_section(&folder, "lex.index").ok(), Some(b"lex.index".to_vec()));
    }
}

#[test]
fn the_english_sections_say_words() -> Result<(), Box<dyn Error>> {
    let tables = english();
    assert!(tables.lexicon().check_lexicon()?);
    assert!(tables.sayable().is_sayable("gobo")?);
    let (mut slots, mut items, mut out) = ([0; 512], [0; 64 * 64], [0; 80]);
    let store = Store::new_store(&mut slots)?;
    let mut sheet = Sheet::new_sheet(&mut items, SheetVersion::V2)?;
    for word in ["house", "lead"] {
        sheet.say_word(&tables.lexicon(), &tables.letters(), &store, word, "v")?;
    }
    assert_eq!(sheet.phone_string(&mut out)?, "hh aw z l iy d");
    Ok(())
}
