//! `say` as a user runs it. The values of answers were written by hand, from the words of tables/english.

mod running;

use running::{altered, command, ended, english, file, folder, run, run_command, Ended};
use std::ffi::OsString;
use std::fs::{self, File};
use std::io::{BufRead, BufReader, Write};
use std::process::Stdio;

const SAY: &str = env!("CARGO_BIN_EXE_say");

fn say(arguments: &[&str]) -> Ended {
    run(SAY, arguments, "")
}

/// With one file of entries, and words behind it.
fn with_entries(test: &str, text: impl AsRef<[u8]>, words: &[&str]) -> Ended {
    let names = file(&folder(test), "names.txt", text);
    let mut arguments = vec![OsString::from("--entries"), names];
    arguments.extend(words.iter().map(OsString::from));
    run(SAY, &arguments, "")
}

const NAMES: &str = "# tonight's names\niris n : ay1 r ih0 s\n\"Mel\" n : m eh1 l\n";

const TEXT_REFUSED: &str =
    "is refused: 3, a word or tag has more than 47 bytes, or a byte is not ASCII. \
    Shorten it, or write it with plain letters.\n";

#[test]
fn words_of_every_source() {
    let long = "x".repeat(48);
    let said = with_entries(
        "words_of_every_source",
        NAMES,
        &[
            "house",
            "lights to half",
            "lead/v",
            "lead/n",
            "Iris",
            ",",
            "xylophone",
            "tempo#two",
            &long,
            "café",
        ],
    );
    let out = "entries: 2 taken\n\
        house (compiled): 1 hh aw s\n\
        lights (compiled): 1 l ay t s\n\
        to (addenda): 0 t ax\n\
        half (compiled): 1 hh ae f\n\
        lead/v (compiled): 1 l iy d\n\
        lead/n (compiled): 1 l eh d\n\
        Iris (runtime): 1 ay | 0 r ih s\n\
        , (addenda): no phones\n\
        xylophone (letters): 1 z ay | 0 l ax | 1 f ow n\n\
        tempo#two (letters): 1 t ow\n";
    let err = format!("{}{long} {TEXT_REFUSED}café {TEXT_REFUSED}", only_read("tempo#two", "two"));
    assert_eq!(said, ended(1, out, &err));
}

const ALL_SPOKEN: &str = "write it all as it is spoken, without \"#\"";

/// The warning of a word with "#" whose letters behind it gave phones.
fn only_read(word: &str, letters: &str) -> String {
    format!("warning: \"{word}\": only \"{letters}\" was read, which stands behind the last \"#\": {ALL_SPOKEN}\n")
}

#[test]
fn all_said_ends_with_0() {
    assert_eq!(say(&["house"]), ended(0, "house (compiled): 1 hh aw s\n", ""));
    assert_eq!(say(&[","]), ended(0, ", (addenda): no phones\n", ""));
    assert_eq!(say(&["/"]), ended(0, "/ (addenda): 1 s l ae sh\n", ""));
    assert_eq!(say(&[""]), ended(0, "", ""));
}

#[test]
fn letters_without_phones_end_with_1() {
    let err = "warning: nothing in \"12\" gave a phone: write it as it is spoken, or add an entry for it (--entries)\n";
    assert_eq!(say(&["12"]), ended(1, "12 (letters): no phones\n", err));
    assert_eq!(
        say(&["12", "house"]),
        ended(1, "12 (letters): no phones\nhouse (compiled): 1 hh aw s\n", err)
    );
}

#[test]
fn a_refused_word_ends_with_1_and_the_others_are_said() {
    let bytes = no_text();
    assert_eq!(
        run(SAY, &[bytes, "house".into()], ""),
        ended(1, "house (compiled): 1 hh aw s\n", &format!("\u{fffd} {TEXT_REFUSED}"))
    );
}

/// A byte that is no text.
fn no_text() -> OsString {
    use std::os::unix::ffi::OsStringExt;
    OsString::from_vec(vec![0xff])
}

#[test]
fn help_and_version() {
    let help = say(&["--help"]);
    assert_eq!((help.status, help.err.as_str()), (Some(0), ""));
    assert!(help.out.starts_with(
        "say [--tables FOLDER] [--store STORE_FILE] [--entries FILE] .. [--plain] [--guessed] [--sheet-version VERSION] [--]\n    [WORD ..]\n"
    ));
    assert_eq!(say(&["house", "--help"]), help);
    assert_eq!(say(&["--version"]), ended(0, "say 0.1.0\n", ""));
}

#[test]
fn wrong_use_ends_with_2() {
    let pointer = "; say --help lists what it takes\n";
    for (arguments, told) in [
        (&["--loud", "house"][..], "there is no option --loud"),
        (&["house", "-v"], "there is no option -v"),
        (&["--plain=yes", "house"], "--plain takes no value"),
        (&["--guessed=yes", "house"], "--guessed takes no value"),
        (&["house", "--entries"], "--entries needs a value behind it"),
        (&["--tables", "a", "--tables=b", "house"], "--tables stands twice"),
    ] {
        assert_eq!(say(arguments), ended(2, "", &format!("say: {told}{pointer}")));
    }
}

#[test]
fn options_stand_anywhere() {
    let names = file(&folder("options_stand_anywhere"), "good.txt", "iris n : ay1 r ih0 s\n");
    let out = "entries: 1 taken\nhouse (compiled): 1 hh aw s\niris (runtime): 1 ay | 0 r ih s\n";
    let arguments = ["house".into(), "--entries".into(), names.clone(), "iris".into()];
    assert_eq!(run(SAY, &arguments, ""), ended(0, out, ""));

    let mut behind = OsString::from("--entries=");
    behind.push(&names);
    assert_eq!(run(SAY, &["house".into(), "iris".into(), behind], ""), ended(0, out, ""));
}

#[test]
fn two_dashes_end_options() {
    let said = say(&["--", "house", "-"]);
    assert_eq!(said, ended(0, "house (compiled): 1 hh aw s\n- (addenda): no phones\n", ""));
    let said = say(&["--", "--help"]);
    assert_eq!(said.status, Some(0));
    assert!(said.out.starts_with("--help (letters): "), "{}", said.out);
}

#[test]
fn several_files_of_entries_are_taken_in_order() {
    let folder = folder("several_files");
    let first = file(&folder, "a.txt", "iris n : ay1 r ih0 s\nmel n : m eh1 l\n");
    let second = file(&folder, "b.txt", "mel n : m iy1 l\n");
    let arguments = ["--entries".into(), first, "--entries".into(), second, "iris mel".into()];
    let out = "entries: 2 taken\nentries: 1 taken\niris (runtime): 1 ay | 0 r ih s\nmel (runtime): 1 m iy l\n";
    assert_eq!(run(SAY, &arguments, ""), ended(0, out, ""));
}

#[test]
fn entries_that_cannot_be_read_end_with_1() {
    let folder = folder("entries_that_cannot_be_read");
    let path = folder.display();
    let arguments = ["--entries".into(), folder.clone().into_os_string(), "iris".into()];
    let err = format!("say: cannot read {path}: Is a directory (os error 21)\n");
    assert_eq!(run(SAY, &arguments, ""), ended(1, "", &err));

    let err = "say: cannot read a\\nhouse (letters): No such file or directory (os error 2)\n";
    assert_eq!(say(&["--entries", "a\nhouse (letters)", "iris"]), ended(1, "", err));
    let err = "say: cannot read /x (letters): y: No such file or directory (os error 2)\n";
    assert_eq!(say(&["--entries", "/x (letters): y", "iris"]), ended(1, "", err));
}

/// The sentence for a text of entries that is refused; the words behind it are not said.
fn refused(test: &str, text: impl AsRef<[u8]>) -> String {
    let ended = with_entries(test, text, &["house"]);
    assert_eq!((ended.status, ended.out.as_str()), (Some(1), ""));
    let (_, told) = ended.err.split_once("/names.txt").expect("the file is named");
    assert!(ended.err.starts_with("say: entries of /"), "{}", ended.err);
    told.into()
}

#[test]
fn refused_entries_name_the_place() {
    let long = "x".repeat(48);
    let phones = "ae1 ".repeat(25);
    for (test, text, told) in [
        ("mark", "\u{feff}iris n : ay1\n".to_string(),
            "line 1, byte 1 is refused: 3, a byte order mark stands there. Save the file as plain text without one."),
        ("letter", "mel n : m eh1 l\nzoé n : z ow1\n".into(),
            "line 2, byte 3 is refused: 3, \"é\" is not ASCII. Write it with plain letters."),
        ("word", format!("\n{long} n : ay1\n"),
            &format!("line 2 is refused: 3, \"{long}\" has more than 47 bytes. Shorten it.")),
        ("tag", format!("\"{}\" {long}y {long} : ay1\n", "x".repeat(47)),
            &format!("line 1 is refused: 3, \"{long}y\" has more than 47 bytes. Shorten it.")),
        ("colon", "# names\niris n ay1 r ih0 s\n".into(),
            "line 2 is refused: 4, a line has no colon, or no word before it. Write: word tag : phones"),
        ("hash", "\"tempo#two\" n : t uw1\n".into(),
            "line 1 is refused: 4, a line has no colon, or no word before it. Write: word tag : phones"),
        ("phone", "iris n : ay1 r ih9 s # ih0\n".into(),
            "line 1 is refused: 5, the phone \"ih9\" is in neither lex.phones nor the 50 known phones. Correct its spelling."),
        ("long_phone", "iris n : ay1 rrrrrrrrrrrrrrrr s\n".into(),
            "line 1 is refused: 5, the phone \"rrrrrrrrrrrrrrrr\" is in neither lex.phones nor the 50 known phones. Correct its spelling."),
        ("phones", format!("iris n : {phones}\n"),
            "line 1 is refused: 7, too many phones: an added entry has at most 24, a word 96. Take some away, or split the word in two."),
        ("full", (0..128).map(|n| format!("w{n} : ay1\n")).collect(),
            "line 128 is refused: 8, the store is full: the largest holds 127 entries. Begin a new store with the entries that this show needs."),
    ] {
        assert_eq!(refused(test, text), format!(": {told}\n"));
    }
    assert_eq!(
        refused("byte", b"mel : m\xe9\n"),
        ": line 1, byte 8 is refused: 3, the byte 233 is not ASCII. Write it with plain letters.\n"
    );
}

#[test]
fn a_damaged_folder_is_told() {
    let folder = altered("a_damaged_folder", &[("lex.phones", b"\x01")]);
    let tables = folder.to_str().expect("a name in letters");
    let section = "is refused: 1, a section breaks its form. \
        Run check_tables on the folder: it says which one and where.\n";
    assert_eq!(say(&["--tables", tables, "house"]), ended(1, "", &format!("house {section}")));
    let names = file(&folder, "names.txt", format!("{NAMES}zoé : z\n"));
    let arguments = ["--tables".into(), folder.clone().into(), "--entries".into(), names.clone()];
    let err =
        format!("say: entries of {} are {}", names.display(), section.trim_start_matches("is "));
    assert_eq!(run(SAY, &arguments, ""), ended(1, "", &err));

    let folder = altered("a_damaged_entry", &[("lex.data", b"")]);
    let tables = folder.to_str().expect("a name in letters");
    let err = "house is refused: 6, the entry or the letter tree of this word is damaged. \
        Run check_tables on the folder: it says which.\n";
    assert_eq!(say(&["--tables", tables, "house", "to"]), ended(1, "to (addenda): 0 t ax\n", err));
}

#[test]
fn a_folder_that_is_not_there_is_told() {
    let err = "say: cannot read nowhere/lex.phones: No such file or directory (os error 2)\n";
    assert_eq!(say(&["--tables", "nowhere", "house"]), ended(1, "", err));
}

#[test]
fn words_as_a_desk_types_them_are_warned_of() {
    for (word, out, warning) in [
        ("cue,", "1 k uw | 0 ax", "\"cue,\" is not in the lexicon, but \"cue\" is: type that, or use --plain"),
        ("go!", "1 g aa", "\"go!\" is not in the lexicon, but \"go\" is: type that, or use --plain"),
        ("Lead/n", "1 l iy d", "\"Lead/n\" is not in the lexicon, but \"lead/n\" is: type that, or use --plain"),
        ("house's", "1 hh aw | 0 z ax s", "\"house's\" is not in the lexicon, but \"house\" with \"'s\" is: type that, or use --plain"),
        ("LX", "0 l k s", "\"LX\" is not in the lexicon, but \"lx\" is: type that, or use --plain"),
        ("zrt", "0 z r t", "\"zrt\" does not look like a word that can be said: write its letters as words, or add an entry (--entries)"),
        ("Q12", "0 k", "\"Q12\" was read without \"12\": write that as it is spoken, or add an entry (--entries)"),
    ] {
        let out = format!("{word} (letters): {out}\n");
        assert_eq!(say(&[word]), ended(0, &out, &format!("warning: {warning}\n")));
    }
}

#[test]
fn what_was_read_of_a_word_with_a_hash_is_told() {
    for (word, out, letters) in [
        ("tempo#two", "1 t ow", "two"),
        ("Tempo#Two/n", "1 t ow", "Two"),
        ("a#b#c", "0 k", "c"),
        ("tempo#zrt", "0 z r t", "zrt"),
        ("##tempo#it's", "1 ih t s", "it's"),
    ] {
        let out = format!("{word} (letters): {out}\n");
        assert_eq!(say(&[word]), ended(0, &out, &only_read(word, letters)));
    }
    for (word, out, warning) in [
        ("tempo#t2", "0 t", "only \"t2\" was read, which stands behind the last \"#\", and that without \"2\": write it all as it is spoken, without \"#\""),
        ("#two", "1 t ow", "only \"two\" was read, which stands behind the last \"#\": type \"two\", which is in the lexicon, or use --plain"),
    ] {
        let out = format!("{word} (letters): {out}\n");
        assert_eq!(say(&[word]), ended(0, &out, &format!("warning: \"{word}\": {warning}\n")));
    }
}

#[test]
fn why_a_word_with_a_hash_has_no_phones_is_told() {
    let nothing = "only what stands behind the last \"#\" is read";
    for (word, why, cure) in [
        ("tempo#", nothing, ALL_SPOKEN),
        ("##", nothing, ALL_SPOKEN),
        ("#/v", nothing, ALL_SPOKEN),
        ("tempo#12", "only \"12\" was read, which stands behind the last \"#\"", ALL_SPOKEN),
        ("a#", nothing, "type \"a\", which is in the lexicon, or use --plain"),
    ] {
        let out = format!("{word} (letters): no phones\n");
        let err = format!("warning: nothing in \"{word}\" gave a phone, as {why}: {cure}\n");
        assert_eq!(say(&[word]), ended(1, &out, &err));
    }
}

#[test]
fn a_plain_word_with_a_hash_is_warned_of_as_it_was_asked() {
    let (asked, err) = ("-> tempo#two (letters): 1 t ow\n", only_read("tempo#two", "two"));
    let out = format!("(Tempo#Two) {asked}");
    assert_eq!(say(&["--plain", "(Tempo#Two)"]), ended(0, &out, &err));
    let out = format!("tempo#two's {asked}tempo#two's -> 's (addenda): 0 z\n");
    assert_eq!(say(&["--plain", "tempo#two's"]), ended(0, &out, &err));
    let out = "#Two -> two (compiled): 1 t uw\ntempo# -> tempo (letters): 1 t eh m | 0 p ow\n";
    assert_eq!(say(&["--plain", "#Two", "tempo#"]), ended(0, out, ""));
}

#[test]
fn a_word_with_a_hash_that_is_found_is_not_warned_of() {
    let out = "# (addenda): 1 hh ae sh\n#/n (addenda): 1 hh ae sh\n";
    assert_eq!(say(&["#", "#/n"]), ended(0, out, ""));

    // The first entry, 'd, becomes #d.
    let mut data = fs::read(english().join("lex.data")).expect("the section is there");
    assert_eq!(data[1..4], *b"\x02'd");
    data[2] = b'#';
    let tables = altered("a_word_with_a_hash_that_is_found", &[("lex.data", &data)]);
    let arguments = ["--tables".into(), tables, "#d".into()];
    assert_eq!(run(SAY, &arguments, ""), ended(0, "#d (compiled): 0 d\n", ""));
}

#[test]
fn plain_words_are_asked() {
    for (word, out) in [
        ("cue,", "cue, -> cue (compiled): 1 k y uw\n"),
        ("GO!", "GO! -> go (compiled): 1 g ow\n"),
        ("Lead/n", "Lead/n -> lead/n (compiled): 1 l eh d\n"),
        ("(House's)", "(House's) -> house (compiled): 1 hh aw s\n(House's) -> 's (addenda): 0 z\n"),
        ("LX've", "LX've -> lx (compiled): 1 eh | 1 l eh k s\nLX've -> 've (compiled): 0 v\n"),
        ("you'll", "you'll -> you (compiled): 1 y uw\nyou'll -> 'll (compiled): 0 l\n"),
        ("he'd", "he'd -> he (compiled): 1 hh iy\nhe'd -> 'd (compiled): 0 d\n"),
        ("it's", "it's (compiled): 1 ih t s\n"),
        ("house", "house (compiled): 1 hh aw s\n"),
        ("...", "... (letters): no phones\n"),
    ] {
        let said = say(&["--plain", word]);
        assert_eq!(said.out, out);
        assert_eq!(said.status, Some(i32::from(word == "...")), "{word}");
        assert_eq!(said.err.is_empty(), word != "...", "{}", said.err);
    }
}

#[test]
fn an_ending_that_is_not_found_is_not_called_found() {
    let data = fs::read(english().join("lex.data")).expect("the section is there");
    let at = data.windows(3).position(|bytes| bytes == b"\x02'd");
    let mut other = data.clone();
    other[at.expect("an entry") + 2] = b'c';
    let tables = altered("an_ending_that_is_not_found", &[("lex.data", &other)]);
    let out = "he'd -> he (compiled): 1 hh iy\nhe'd -> 'd (letters): 0 d\n";
    let err = "warning: \"'d\" does not look like a word that can be said: \
        write its letters as words, or add an entry (--entries)\n";
    let arguments = ["--plain".into(), "--tables".into(), tables, "he'd".into()];
    assert_eq!(run(SAY, &arguments, ""), ended(0, out, err));
}

/// The last line of standard error with `--guessed`.
fn counts(words: usize, guessed: usize, refused: usize) -> String {
    format!("words: {words}, guessed: {guessed}, refused: {refused}\n")
}

const TEMPO: &str = "tempo (letters): 1 t eh m | 0 p ow\n";

#[test]
fn guessed_words_are_listed_alone() {
    let words = ["house tempo", "to", "Iris", "xylophone", "lead/v", ",", "tempo#two", "tempo"];
    let said = with_entries("guessed_words", NAMES, &[&["--guessed"][..], &words].concat());
    let out = format!(
        "{TEMPO}\
        xylophone (letters): 1 z ay | 0 l ax | 1 f ow n\n\
        tempo#two (letters): 1 t ow\n\
        {TEMPO}"
    );
    let err = format!("entries: 2 taken\n{}{}", only_read("tempo#two", "two"), counts(9, 4, 0));
    assert_eq!(said, ended(0, &out, &err));
}

#[test]
fn where_none_is_guessed_none_is_listed() {
    let words = ["--guessed", "house", "to", ",", "lead/n"];
    assert_eq!(say(&words), ended(0, "", &counts(4, 0, 0)));
    assert_eq!(say(&["--guessed", ""]), ended(0, "", &counts(0, 0, 0)));
}

#[test]
fn guessed_words_are_warned_of() {
    let err = "warning: \"go!\" is not in the lexicon, but \"go\" is: type that, or use --plain\n";
    let err = format!("{err}{}", counts(2, 1, 0));
    assert_eq!(say(&["go", "go!", "--guessed"]), ended(0, "go! (letters): 1 g aa\n", &err));
}

#[test]
fn guessed_words_without_phones_end_with_1() {
    let err = "warning: nothing in \"12\" gave a phone: write it as it is spoken, or add an entry for it (--entries)\n";
    let err = format!("{err}{}", counts(3, 2, 0));
    let out = format!("12 (letters): no phones\n{TEMPO}");
    assert_eq!(say(&["--guessed", "house", "12", "tempo"]), ended(1, &out, &err));
}

#[test]
fn refused_words_are_told_beside_guessed_ones() {
    let err = format!("café {TEXT_REFUSED}zoé {TEXT_REFUSED}{}", counts(4, 1, 2));
    assert_eq!(say(&["--guessed", "café", "tempo", "zoé", "house"]), ended(1, TEMPO, &err));
    let err = format!("café {TEXT_REFUSED}{}", counts(1, 0, 1));
    assert_eq!(say(&["--guessed", "café"]), ended(1, "", &err));
}

#[test]
fn of_plain_words_those_that_were_asked_are_guessed_or_not() {
    let words = ["--plain", "--guessed", "Cue,", "(Tempo's)", "Tempo", "tempo"];
    let out = format!(
        "(Tempo's) -> tempo (letters): 1 t eh m | 0 p ow\n\
        Tempo -> tempo (letters): 1 t eh m | 0 p ow\n\
        {TEMPO}"
    );
    assert_eq!(say(&words), ended(0, &out, &counts(5, 3, 0)));
}

#[test]
fn guessed_words_of_input_are_listed_line_by_line() {
    let mut child = command(SAY, &["--guessed"]).spawn().expect("it runs");
    let mut input = child.stdin.take().expect("its input");
    let mut answers = BufReader::new(child.stdout.take().expect("its output")).lines();
    for word in ["Tempo", "TEMPO"] {
        writeln!(input, "house {word} to").expect("it is read");
        let answer = answers.next().expect("an answer").expect("a line");
        assert_eq!(answer, format!("{word} (letters): 1 t eh m | 0 p ow"));
    }
    drop(input);
    assert!(answers.next().is_none());
    let ended = child.wait_with_output().expect("it ends");
    assert_eq!(ended.status.code(), Some(0));
    assert_eq!(String::from_utf8_lossy(&ended.stderr), counts(6, 2, 0));

    assert_eq!(run(SAY, &["--guessed"], ""), ended_with_counts("", 0, 0));
    assert_eq!(run(SAY, &["--guessed"], "house\n\nto tempo\n"), ended_with_counts(TEMPO, 3, 1));
}

/// All words were said, and some of them guessed.
fn ended_with_counts(out: &str, words: usize, guessed: usize) -> Ended {
    ended(0, out, &counts(words, guessed, 0))
}

#[test]
fn what_ends_early_tells_no_counts() {
    let mut say = command(SAY, &["--guessed", "tempo"]);
    say.stdout(Stdio::from(File::create("/dev/full").expect("it is there")));
    let err = "say: cannot write its output: No space left on device (os error 28)\n";
    assert_eq!(run_command(say, ""), ended(1, "", err));

    let err = "say: a line of standard input has 1048576 bytes or more; part it\n";
    let input = [b"tempo\n".to_vec(), vec![b' '; 1 << 21]].concat();
    assert_eq!(run(SAY, &["--guessed"], input), ended(1, TEMPO, err));
}

#[test]
fn the_sheet_alone_tells_the_source() {
    // What say_word is refused by comes before what a lookup is refused by: 1 before 3.
    let tables = altered("the_sheet_alone", &[("lts.phones", b"\x01")]);
    let arguments = ["--tables".into(), tables, "café".into()];
    let err = "café is refused: 1, a section breaks its form. \
        Run check_tables on the folder: it says which one and where.\n";
    assert_eq!(run(SAY, &arguments, ""), ended(1, "", err));
}

#[test]
fn words_are_read_from_input() {
    let out = "house (compiled): 1 hh aw s\nto (addenda): 0 t ax\nhalf (compiled): 1 hh ae f\n";
    assert_eq!(run(SAY, &[""; 0], "house\tto\r\n\n half"), ended(0, out, ""));
    assert_eq!(run(SAY, &[""; 0], ""), ended(0, "", ""));
}

#[test]
fn input_is_answered_line_by_line() {
    let mut child = command(SAY, &[""; 0]).spawn().expect("it runs");
    let mut input = child.stdin.take().expect("its input");
    let mut answers = BufReader::new(child.stdout.take().expect("its output")).lines();
    for (word, answer) in [("house", "house (compiled): 1 hh aw s"), ("to", "to (addenda): 0 t ax")]
    {
        writeln!(input, "{word}").expect("it is read");
        assert_eq!(answers.next().expect("an answer").expect("a line"), answer);
    }
    drop(input);
    assert!(child.wait().expect("it ends").success());
}

#[test]
fn input_that_cannot_be_read_ends_with_1() {
    let mut say = command(SAY, &[""; 0]);
    say.stdin(File::open(english()).expect("the folder is there"));
    let err = "say: cannot read standard input: Is a directory (os error 21)\n";
    assert_eq!(run_command(say, ""), ended(1, "", err));

    let err = "say: a line of standard input has 1048576 bytes or more; part it\n";
    assert_eq!(run(SAY, &[""; 0], vec![b' '; 1 << 21]), ended(1, "", err));
}

#[test]
fn a_closed_pipe_ends_it_quietly() {
    let mut child = command(SAY, &[""; 0]).spawn().expect("it runs");
    let mut input = child.stdin.take().expect("its input");
    let mut answers = BufReader::new(child.stdout.take().expect("its output"));
    writeln!(input, "house").expect("it is read");
    answers.read_line(&mut String::new()).expect("an answer");
    drop(answers);
    // It ends at a later word, and closes its input then.
    while writeln!(input, "house").is_ok() {}
    let ended = child.wait_with_output().expect("it ends");
    assert_eq!(ended.status.code(), Some(1));
    assert_eq!(String::from_utf8_lossy(&ended.stderr), "");
}

#[test]
fn output_that_cannot_be_written_ends_with_1() {
    for arguments in [&["house"][..], &["--help"]] {
        let mut say = command(SAY, arguments);
        say.stdout(Stdio::from(File::create("/dev/full").expect("it is there")));
        let err = "say: cannot write its output: No space left on device (os error 28)\n";
        assert_eq!(run_command(say, ""), ended(1, "", err));
    }
}
