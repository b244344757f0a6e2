//! Each refusal with the smallest store that has it: its number, and what is at fault.

use std::fs::File;

use crate::racks::{record, store, three, Rack, FLOAT, WHOLE};
use crate::running::ended;

const ANEW: &str = "Take a whole copy of the file, or write a new store (--new with --replace).";
const NO_WRITE: &str = "No write mends a store: write a new one (--new with --replace).";
const NO_RECORD: &str = "No write adds a record: write a new store (--new with --replace).";

/// A store, arguments, and why it is refused with them.
type Case<'a> = (Vec<u8>, &'a [&'a str], &'a str, &'a str);

/// Sees that each is refused so, and left as it was.
fn refused(test: &str, cases: &[Case]) {
    let rack = Rack::without(test);
    for (bytes, arguments, why, cure) in cases {
        rack.put(bytes);
        let err = format!("rack_settings: rack is refused: {why}. {cure}\n");
        assert_eq!(rack.run(&[*arguments, &["rack"]].concat()), ended(1, "", &err));
        assert_eq!(rack.bytes(), *bytes, "{why}");
    }
}

/// Sees that each is shown or written.
fn taken(test: &str, cases: &[(Vec<u8>, &[&str])]) {
    let rack = Rack::without(test);
    for (bytes, arguments) in cases {
        rack.put(bytes);
        let ended = rack.run(&[*arguments, &["rack"]].concat());
        assert_eq!((ended.status, ended.err.as_str()), (Some(0), ""), "{arguments:?}: {bytes:?}");
    }
}

/// A store of version 2 with one record.
fn one(name: &str, kind: u8, bits: u32) -> Vec<u8> {
    store(2, 1, &[record(0, name, kind, bits)])
}

/// A store of version 2 whose records 1 to 3 lead to these.
fn leading(first: u16, next: [u16; 3]) -> Vec<u8> {
    let names = ["x", "y", "z"];
    let records: Vec<Vec<u8>> =
        next.iter().zip(names).map(|(next, name)| record(*next, name, WHOLE, 0)).collect();
    store(2, first, &records)
}

#[test]
fn a_wrong_length_is_2() {
    let of_length = |length| {
        let mut bytes = three();
        bytes.resize(length, 0);
        bytes
    };
    let cases = [(0, "0"), (1, "1"), (31, "31"), (65_537, "65537"), (70_000, "70000")];
    for (length, told) in cases {
        let why = format!("2, it has {told} bytes, and a store has 32 to 65,536");
        // ahead of 15
        refused("length", &[(of_length(length), &[], &why, ANEW)]);
        refused("length", &[(of_length(length), &["--reader", "9"], &why, ANEW)]);
        refused("length", &[(of_length(length), &["--set", "pitch=60"], &why, ANEW)]);
    }
    taken("length", &[(store(2, 0, &[]), &[]), (of_length(65_536), &[])]);

    let rack = Rack::without("huge");
    let file = File::create(rack.file()).expect("it can be made");
    file.set_len(1 << 32).expect("it may have holes");
    let why = "2, it has 4294967296 bytes, and a store has 32 to 65,536";
    let err = format!("rack_settings: rack is refused: {why}. {ANEW}\n");
    assert_eq!(rack.run(&["rack"]), ended(1, "", &err));
}

#[test]
fn a_wrong_version_is_15() {
    let reader = "Name one of these (--reader).";
    for version in [0, 3, 0x0100, 0x0201, 65_535] {
        let why = format!("15, the store's version is {version}, and there are 1 and 2");
        let store = store(version, 9, &[]); // ahead of 16
        refused("version", &[(store.clone(), &[], &why, ANEW)]);
        refused("version", &[(store.clone(), &["--reader=2"], &why, ANEW)]);
        refused("version", &[(store, &["--reader=3", "--set=pitch=60"], &why, ANEW)]);
    }
    for version in ["0", "3", "257", "65537", "65538", "4294967295"] {
        let why = format!("15, the reader's version is {version}, and there are 1 and 2");
        let store = store(1, 9, &[]);
        refused("version", &[(store.clone(), &["--reader", version], &why, reader)]);
        refused("version", &[(store, &["--reader", version, "--set=x=1"], &why, reader)]);
    }
}

#[test]
fn an_index_outside_is_16() {
    let mut short = store(1, 2, &[record(0, "pitch", WHOLE, 60), record(0, "x", WHOLE, 60)]);
    short.truncate(95);
    refused(
        "outside",
        &[
            (short, &[], "16, record 0 leads to record 2, and the last is 1", ANEW),
            (store(1, 1, &[]), &[], "16, record 0 leads to record 1, and the last is 0", ANEW),
            // not 0, though a byte of it is
            (
                leading(0x0100, [0; 3]),
                &[],
                "16, record 0 leads to record 256, and the last is 3",
                ANEW,
            ),
            (leading(3, [0, 0, 4]), &[], "16, record 3 leads to record 4, and the last is 3", ANEW),
            (
                leading(3, [65_535, 0, 1]),
                &["--set=pitch=60"],
                "16, record 1 leads to record 65535, and the last is 3",
                ANEW,
            ),
        ],
    );
}

#[test]
fn a_circle_is_16() {
    let circle = "the chain is a circle";
    let cases = [
        (leading(1, [1, 0, 0]), 1, 1),
        (leading(2, [0, 2, 0]), 2, 2),
        (leading(1, [2, 1, 0]), 2, 1),
        (leading(1, [2, 2, 0]), 2, 2),
        (leading(3, [3, 0, 1]), 1, 3),
        (leading(1, [2, 3, 1]), 3, 1),
        (leading(1, [2, 3, 2]), 3, 2),
        (leading(1, [2, 3, 3]), 3, 3),
        (leading(3, [3, 1, 2]), 1, 3),
    ];
    for (store, from, to) in cases {
        let why = format!("16, record {from} leads back to record {to}: {circle}");
        refused("circle", &[(store, &[], &why, ANEW)]);
    }
}

#[test]
fn a_name_twice_is_16() {
    let twice = |name: &str, version| {
        let mut second = record(0, name, FLOAT, 1);
        second[3 + name.len()..18].fill(0xff); // what stands behind a name is not looked at
        store(version, 1, &[record(2, name, WHOLE, 60), second])
    };
    let apart =
        [record(2, "pitch", WHOLE, 60), record(3, "x", WHOLE, 60), record(0, "pitch", WHOLE, 61)];
    refused(
        "twice",
        &[
            (twice("x", 1), &[], "16, records 1 and 2 have one name, \"x\"", ANEW),
            (twice("", 1), &[], "16, records 1 and 2 have one name, \"\"", ANEW),
            (
                twice("fifteen letters", 2),
                &[],
                "16, records 1 and 2 have one name, \"fifteen letters\"",
                ANEW,
            ),
            (twice("level", 1), &[], "16, records 1 and 2 have one name, \"level\"", ANEW),
            (
                store(2, 1, &apart),
                &["--set=pitch=70"],
                "16, records 1 and 3 have one name, \"pitch\"",
                ANEW,
            ),
        ],
    );
    let cased = store(1, 1, &[record(2, "pitch", WHOLE, 60), record(0, "Pitch", FLOAT, 0)]);
    taken("twice", &[(cased, &["--set=pitch=70"])]);
}

#[test]
fn a_length_or_a_kind_out_of_range_is_16() {
    let with_byte = |at: usize, byte: u8| {
        let mut store = one("pitch", WHOLE, 60);
        store[32 + at] = byte;
        store
    };
    let kinds = "and there are 1 (whole) and 2 (float)";
    for (at, byte, why) in [
        (2, 16, "16, record 1 has a name of 16 bytes, and 15 are the most".to_string()),
        (2, 255, "16, record 1 has a name of 255 bytes, and 15 are the most".into()),
        (18, 0, format!("16, record 1, \"pitch\", has kind 0, {kinds}")),
        (18, 3, format!("16, record 1, \"pitch\", has kind 3, {kinds}")),
        (18, 255, format!("16, record 1, \"pitch\", has kind 255, {kinds}")),
    ] {
        refused("form", &[(with_byte(at, byte), &[], &why, ANEW)]);
    }
    let unknown = one("colour", 7, 60);
    refused(
        "form",
        &[(unknown, &[], &format!("16, record 1, \"colour\", has kind 7, {kinds}"), ANEW)],
    );
    let unreached = store(2, 0, &[record(0, "pitch", 7, 60)]);
    taken("form", &[(unreached, &[]), (with_byte(2, 15), &[])]);
}

#[test]
fn a_name_in_a_message_is_one_line() {
    let names = [("a\nb", "a\\nb"), ("\u{1b}[2J", "\\u{1b}[2J"), ("é", "é")];
    for (name, told) in names {
        let why = format!("16, records 1 and 2 have one name, \"{told}\"");
        let records = [record(2, name, WHOLE, 0), record(0, name, WHOLE, 0)];
        refused("one_line", &[(store(2, 1, &records), &[], &why, ANEW)]);
    }
    let mut bytes = store(2, 1, &[record(2, "x", WHOLE, 0), record(0, "x", WHOLE, 0)]);
    (bytes[32 + 3], bytes[64 + 3]) = (0xff, 0xff);
    refused("one_line", &[(bytes, &[], "16, records 1 and 2 have one name, \"\u{fffd}\"", ANEW)]);
}

#[test]
fn a_write_to_an_unknown_setting_is_16() {
    let cure = "Name one of these (--set), or another reader (--reader).";
    refused(
        "unknown",
        &[
            (three(), &["--set=volume=3"], "16, version 2 has no setting \"volume\": it has pitch, stretch and level", cure),
            (three(), &["--set=volume=0.5"], "16, version 2 has no setting \"volume\": it has pitch, stretch and level", cure),
            (three(), &["--set=Pitch=60"], "16, version 2 has no setting \"Pitch\": it has pitch, stretch and level", cure),
            (three(), &["--set==60"], "16, version 2 has no setting \"\": it has pitch, stretch and level", cure),
            (three(), &["--set=sixteen letters.=1"], "16, version 2 has no setting \"sixteen letters.\": it has pitch, stretch and level", cure),
            (three(), &["--reader=1", "--set=level=60"], "16, version 1 has no setting \"level\": it has pitch and stretch", cure),
            (one("volume", WHOLE, 3), &["--set=volume=3"], "16, version 2 has no setting \"volume\": it has pitch, stretch and level", cure),
        ],
    );
}

#[test]
fn a_write_without_a_record_is_16() {
    let two =
        store(2, 1, &[record(2, "pitch", WHOLE, 60), record(0, "stretch", FLOAT, 0x3f80_0000)]);
    refused(
        "no_record",
        &[
            (
                two.clone(),
                &["--set=level=60"],
                "16, level has no record; settings with one: pitch and stretch",
                NO_RECORD,
            ),
            // ahead of 17
            (
                two,
                &["--set=level=999"],
                "16, level has no record; settings with one: pitch and stretch",
                NO_RECORD,
            ),
            (
                one("pitch", WHOLE, 1),
                &["--set=level=60"],
                "16, level has no record; settings with one: pitch",
                NO_RECORD,
            ),
            (
                one("x", WHOLE, 1),
                &["--set=pitch=60"],
                "16, pitch has no record; settings with one: none",
                NO_RECORD,
            ),
            (
                store(2, 0, &[]),
                &["--set=stretch=1.5"],
                "16, stretch has no record; settings with one: none",
                NO_RECORD,
            ),
            (
                store(2, 0, &[]),
                &["--set=pitch=1.5"],
                "16, pitch has no record; settings with one: none",
                NO_RECORD,
            ),
            // it would be there for another reader only
            (
                one("level", WHOLE, 60),
                &["--reader=1", "--set=pitch=60"],
                "16, pitch has no record; settings with one: none",
                NO_RECORD,
            ),
        ],
    );
}

#[test]
fn a_kept_value_of_the_wrong_kind_or_range_is_17() {
    let pitch = "and must be a whole number from 50 to 400";
    let level = "and must be a whole number from 0 to 100";
    let told = |front: &str, range: &str| format!("17, {front}, {range}");
    for (store, arguments, why) in [
        (one("pitch", WHOLE, 49), &[][..], told("record 1: pitch is the whole number 49", pitch)),
        (one("pitch", WHOLE, 401), &[], told("record 1: pitch is the whole number 401", pitch)),
        (
            one("pitch", WHOLE, 0x8000_0000),
            &[],
            told("record 1: pitch is the whole number -2147483648", pitch),
        ),
        (
            one("pitch", FLOAT, 0x42c8_0000),
            &[],
            told("record 1: pitch is the float 100.0 (42c80000)", pitch),
        ),
        (one("level", WHOLE, 101), &[], told("record 1: level is the whole number 101", level)),
        (
            one("level", WHOLE, 0xffff_ffff),
            &[],
            told("record 1: level is the whole number -1", level),
        ),
        (
            one("level", FLOAT, 0x4000_0000),
            &[],
            told("record 1: level is the float 2.0 (40000000)", level),
        ),
        // no write mends it
        (
            one("pitch", WHOLE, 1),
            &["--set=pitch=100"],
            told("record 1: pitch is the whole number 1", pitch),
        ),
        (
            one("pitch", FLOAT, 1),
            &["--set=pitch=100"],
            told("record 1: pitch is the float 1e-45 (00000001)", pitch),
        ),
        // ahead of the value and of the show's stretch
        (
            one("pitch", WHOLE, 1),
            &["--set=pitch=1"],
            told("record 1: pitch is the whole number 1", pitch),
        ),
        (
            one("pitch", WHOLE, 1),
            &["--show=9"],
            told("record 1: pitch is the whole number 1", pitch),
        ),
    ] {
        refused("kept_value", &[(store, arguments, &why, NO_WRITE)]);
    }
    let other = store(2, 2, &[record(0, "level", WHOLE, 999), record(1, "pitch", WHOLE, 60)]);
    let why = told("record 1: level is the whole number 999", level);
    refused("kept_value", &[(other.clone(), &["--set=pitch=70"], &why, NO_WRITE)]);
    taken(
        "kept_value",
        &[
            (other, &["--reader=1", "--set=pitch=70"]),
            (one("level", FLOAT, 0x4000_0000), &["--reader=1"]),
            (one("pitch", WHOLE, 50), &[]),
            (one("pitch", WHOLE, 400), &[]),
            (one("level", WHOLE, 0), &[]),
            (one("level", WHOLE, 100), &[]),
        ],
    );
}

#[test]
fn of_several_kept_values_the_first_shown_is_told() {
    let records = [
        record(2, "level", WHOLE, 101),
        record(3, "stretch", FLOAT, 0),
        record(0, "pitch", WHOLE, 49),
    ];
    let why =
        "17, record 3: pitch is the whole number 49, and must be a whole number from 50 to 400";
    refused("several", &[(store(2, 1, &records), &[], why, NO_WRITE)]);
}

#[test]
fn the_shows_stretch_out_of_range_is_17() {
    let cure = "Give such a value (--show).";
    for (show, told) in [
        ("0.24", "0.24 (3e75c28f)"),
        ("4.1", "4.1 (40833333)"),
        ("-1", "-1.0 (bf800000)"),
        ("-0.0", "-0.0 (80000000)"),
        ("nan", "NaN (7fc00000)"),
        ("inf", "inf (7f800000)"),
        ("-inf", "-inf (ff800000)"),
    ] {
        let why = format!(
            "17, the show's stretch is the float {told}, and must be a float from 0.25 to 4.0"
        );
        refused("show", &[(three(), &["--show", show], &why, cure)]);
        refused("show", &[(three(), &["--show", show, "--set=pitch=60"], &why, cure)]);
    }
}
