//! Lines in CMUdict's form, from `tables/from_cmudict` over `tables/make` to a lookup of the proved library. The lines are
//! written by hand or made here: CMUdict itself is not in the repository.

use std::fs;
use std::path::{Path, PathBuf};
use std::process::{Command, Output};
use std::time::{Duration, Instant};

use pronouncer::{Source, Store, Tables, LIST_BYTES, SLOT_BYTES};

const LINES: &[u8] = b";;; # Lines in CMUdict's form
ABANDON  AH0 B AE1 N D AH0 N
BACKSTAGE  B AE1 K S T EY2 JH
#HASH-MARK  HH AE1 SH M AA2 R K
EITHER  IY1 DH ER0
EITHER(1)  AY1 DH ER0
LIGHTHOUSE  L AY1 T HH AW2 S
D\xc9J\xc0  D EY2 ZH AA1
TOMATO(2)  T AH0 M AA1 T OW2
TOMATO  T AH0 M EY1 T OW2
UNDERSTUDY  AH1 N D ER0 S T AH2 D IY0
;SEMI-COLON  S EH1 M IY0 K OW1 L AH0 N
usher AH1 SH ER0 # newer form
WRITE-OFF(3)  R AY1 T AO2 F
";

const LEXICON: &str =
    "# Made by tables/from_cmudict. This is CMUdict's data, under CMUdict's licence.
;semi-colon : s eh1 m iy0 k ow1 l ax0 n
abandon : ax0 b ae1 n d ax0 n
backstage : b ae1 k s t ey2 jh
either : iy1 dh er0
either 1 : ay1 dh er0
lighthouse : l ay1 t hh aw2 s
tomato : t ax0 m ey1 t ow2
tomato 2 : t ax0 m aa1 t ow2
understudy : ah1 n d er0 s t ah2 d iy0
usher : ah1 sh er0
write-off 3 : r ay1 t ao2 f
";

/// The most time for a file as long as CMUdict.
const MOST: Duration = Duration::from_secs(10);
const MANY: usize = 134_000;

/// An empty folder for one test.
fn scratch(name: &str) -> PathBuf {
    let folder = Path::new(env!("CARGO_TARGET_TMPDIR")).join(name);
    let _ = fs::remove_dir_all(&folder);
    fs::create_dir_all(&folder).expect("a folder can be made");
    folder
}

fn run(folder: &Path, arguments: &[&str]) -> Output {
    let mut command = Command::new(env!("CARGO_BIN_EXE_tables"));
    command.current_dir(folder).args(arguments).output().expect("the tool runs")
}

/// What a run that ends with 0 printed, and told on standard error.
fn done(folder: &Path, arguments: &[&str]) -> (String, String) {
    let ran = run(folder, arguments);
    let texts = [ran.stdout, ran.stderr].map(|bytes| String::from_utf8(bytes).expect("plain text"));
    assert_eq!(ran.status.code(), Some(0), "{}", texts[1]);
    texts.into()
}

/// What a run that ends with 1 told.
fn refused(folder: &Path, arguments: &[&str]) -> String {
    let ran = run(folder, arguments);
    assert_eq!((ran.status.code(), ran.stdout.len()), (Some(1), 0));
    String::from_utf8(ran.stderr).expect("plain text")
}

/// The sections of a folder's lexicon.txt with the English rules.
fn sections(folder: &Path) -> (Tables, String) {
    for name in ["letters.txt", "sayable.txt"] {
        let english = Path::new(env!("CARGO_MANIFEST_DIR")).join("english").join(name);
        fs::copy(english, folder.join("cmu").join(name)).expect("it can be copied");
    }
    let (said, told) = done(folder, &["make", "cmu", "sections"]);
    assert_eq!(told, "");
    (Tables::read(folder.join("sections")).expect("the sections can be read"), said)
}

/// The phones of a word among the compiled entries.
fn looked_up(tables: &Tables, word: &str, tag: &str) -> Option<String> {
    let (mut slots, mut out) = ([0; SLOT_BYTES], [0; LIST_BYTES]);
    let store = Store::new_store(&mut slots).expect("a slot is a store");
    let found =
        tables.lexicon().lookup(&store, word, tag, &mut out).expect("nothing is damaged")?;
    assert_eq!(found.source, Source::Compiled, "{word}");
    Some(found.phones.to_string())
}

#[test]
fn lines_become_a_lexicon() {
    let folder = scratch("lines_become_a_lexicon");
    fs::write(folder.join("dict"), LINES).expect("it can be written");
    let (said, told) = done(&folder, &["cmudict", "dict", "cmu"]);
    assert_eq!(said, "cmu: 11 entries, 3 of them alternates, 2 left out\n");
    let left_out = "dict, line 4: \"#HASH-MARK\" is left out: \"#\" begins a remark in lexicon.txt
dict, line 8: \"D\u{fffd}J\u{fffd}\" is left out: it has a byte of 128 or more\n";
    assert_eq!(told, left_out);
    let made = fs::read_to_string(folder.join("cmu/lexicon.txt")).expect("it was made");
    assert_eq!(made, LEXICON);
    done(&folder, &["cmudict", "dict", "cmu"]);
}

#[test]
fn a_lookup_keeps_secondary_stress_and_finds_alternates() {
    let folder = scratch("a_lookup_keeps_secondary_stress");
    fs::write(folder.join("dict"), LINES).expect("it can be written");
    done(&folder, &["cmudict", "dict", "cmu"]);
    let (tables, said) = sections(&folder);
    assert!(said.starts_with("sections: 11 entries, "), "{said}");
    assert_eq!(tables.lexicon().check_lexicon(), Ok(true));
    let cases = [
        ("backstage", "", "b ae1 k s t ey2 jh"),
        ("understudy", "n", "ah1 n d er0 s t ah2 d iy0"),
        ("abandon", "", "ax0 b ae1 n d ax0 n"),
        ("either", "", "iy1 dh er0"),
        ("either", "0", "iy1 dh er0"),
        ("either", "n", "iy1 dh er0"),
        ("either", "1", "ay1 dh er0"),
        ("tomato", "", "t ax0 m ey1 t ow2"),
        ("tomato", "v", "t ax0 m ey1 t ow2"),
        ("tomato", "2", "t ax0 m aa1 t ow2"),
        ("write-off", "", "r ay1 t ao2 f"),
        ("write-off", "3", "r ay1 t ao2 f"),
        (";semi-colon", "", "s eh1 m iy0 k ow1 l ax0 n"),
    ];
    for (word, tag, phones) in cases {
        assert_eq!(looked_up(&tables, word, tag).as_deref(), Some(phones), "{word}/{tag}");
    }
    assert_eq!(looked_up(&tables, "hash-mark", ""), None);
}

#[test]
fn names_may_have_a_secondary_stress() {
    let folder = scratch("names_may_have_a_secondary_stress");
    fs::write(folder.join("dict"), "GO  G OW1").expect("it can be written");
    done(&folder, &["cmudict", "dict", "cmu"]);
    let (tables, _) = sections(&folder);
    let (mut slots, mut spare) = ([0; 2 * SLOT_BYTES], [0; 2 * SLOT_BYTES]);
    let mut store = Store::new_store(&mut slots).expect("two slots are a store");
    let added = store.add_entries(&tables.lexicon(), &mut spare, "understudy : ah1 axr2 el2");
    assert!(added.is_ok(), "{added:?}");
}

#[test]
fn faults_are_told_and_nothing_is_written() {
    let folder = scratch("faults_are_told");
    let faulty: String = (0..25).map(|i| format!("WORD-{i}  QQ\n")).collect();
    fs::write(folder.join("dict"), faulty).expect("it can be written");
    let told = refused(&folder, &["cmudict", "dict", "cmu"]);
    assert_eq!(told.lines().count(), 21);
    assert!(told.starts_with("dict, line 1: \"QQ\" is no phone of CMUdict; write"), "{told}");
    assert!(told.ends_with("\nand 5 more\n"), "{told}");
    assert!(!folder.join("cmu").exists());
    let told = refused(&folder, &["cmudict", "nowhere", "cmu"]);
    assert_eq!(told, "nowhere: there is no such file; name a file in CMUdict's form\n");
}

#[test]
fn a_lexicon_of_other_origin_is_not_replaced() {
    let folder = scratch("a_lexicon_of_other_origin");
    fs::write(folder.join("dict"), "GO  G OW1").expect("it can be written");
    let own = folder.join("lexicon.txt");
    fs::write(&own, "cue : k y uw1\n").expect("it can be written");
    let told = refused(&folder, &["cmudict", "dict", "."]);
    let said = "./lexicon.txt: is there already, and tables/from_cmudict did not make it; name another folder, or move it away\n";
    assert_eq!(told, said);
    assert_eq!(fs::read_to_string(own).expect("it is there"), "cue : k y uw1\n");
}

/// The word of a line, six letters, and whether it is an alternate: every 16th is, of the line before.
fn word(line: usize) -> (String, bool) {
    let is_alternate = line % 16 == 15;
    let number = (line - usize::from(is_alternate)) * 7919 % 26usize.pow(6);
    let letters = (0..6).rev().map(|place| number / 26usize.pow(place) % 26);
    (letters.map(|letter| char::from(b'a' + letter as u8)).collect(), is_alternate)
}

fn phones(line: usize) -> String {
    const PHONES: [&str; 8] = ["ax0", "b", "ae1", "ng", "ey2", "t", "er0", "zh"];
    let all = (0..3 + line % 9).map(|place| PHONES[(line + place * line / 5) % 8]);
    all.collect::<Vec<&str>>().join(" ")
}

/// As many lines as CMUdict has, their words in no order.
fn many_lines() -> String {
    let line = |line| {
        let (word, is_alternate) = word(line);
        let number = if is_alternate { "(2)" } else { "" };
        format!("{word}{number}  {}\n", phones(line).replace("ax", "ah")).to_ascii_uppercase()
    };
    (0..MANY).map(line).collect()
}

#[test]
fn as_many_lines_as_cmudict_has_take_under_ten_seconds() {
    let folder = scratch("as_many_lines_as_cmudict_has");
    fs::write(folder.join("dict"), many_lines()).expect("it can be written");
    let started = Instant::now();
    let (said, told) = done(&folder, &["cmudict", "dict", "cmu"]);
    let read = started.elapsed();
    assert_eq!(
        (said.as_str(), told.as_str()),
        ("cmu: 134000 entries, 8375 of them alternates, 0 left out\n", "")
    );
    let started = Instant::now();
    let (tables, said) = sections(&folder);
    let made = started.elapsed();
    assert!(said.starts_with("sections: 134000 entries, "), "{said}");
    println!("{MANY} lines: tables/from_cmudict took {read:?}, tables/make {made:?}");
    assert!(read < MOST && made < MOST, "{read:?}, {made:?}");
    assert_eq!(tables.lexicon().check_lexicon(), Ok(true));
    for line in (0..MANY).step_by(677).chain([MANY - 1]) {
        let (word, is_alternate) = word(line);
        let tag = if is_alternate { "2" } else { "" };
        assert_eq!(looked_up(&tables, &word, tag), Some(phones(line)), "{word}/{tag}");
    }
    fs::remove_dir_all(folder).expect("the scratch folder can go");
}
