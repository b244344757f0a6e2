//! Settings that are written, and new stores.

use std::fs;
use std::os::unix::fs::MetadataExt;

use crate::racks::{record, store, three, Rack, FLOAT, WHOLE};
use crate::running::ended;

#[test]
fn a_write_sets_the_four_bytes_of_its_record() {
    let rack = Rack::without("four_bytes");
    let mut before = three();
    before.extend([0xff; 45]);
    for (setting, record, bits) in [
        ("pitch=50", 1, 50),
        ("pitch=400", 1, 400),
        ("stretch=0.25", 2, 0x3e80_0000),
        ("stretch=4", 2, 0x4080_0000),
        ("level=0", 3, 0),
        ("level=100", 3, 100_u32),
    ] {
        rack.put(&before);
        let wrote = rack.run(&["--set", setting, "rack"]);
        assert_eq!((wrote.status, wrote.err.as_str()), (Some(0), ""), "{setting}");
        let mut after = before.clone();
        after[32 * record + 19..][..4].copy_from_slice(&bits.to_le_bytes());
        assert_eq!(rack.bytes(), after, "{setting}");
        assert_eq!(rack.run(&["rack"]), wrote, "{setting}");
    }
}

#[test]
fn what_was_written_is_shown() {
    let rack = Rack::with("written", three());
    let out = "version 2, reader 2\n\
        pitch 120, record 1\n\
        stretch 0.5 (3f000000), record 2\n\
        level 75, record 3\n\
        rack's stretch 0.75 (3f400000), show's 1.5 (3fc00000)\n";
    let arguments = ["--show", "1.5", "--set", "stretch=0.5", "rack"];
    assert_eq!(rack.run(&arguments), ended(0, out, ""));
}

#[test]
fn a_new_store_has_every_setting_of_its_version() {
    let pitch = record(2, "pitch", WHOLE, 100);
    let one = [pitch.clone(), record(0, "stretch", FLOAT, 0x3f80_0000)];
    let two = [pitch, record(3, "stretch", FLOAT, 0x3f80_0000), record(0, "level", WHOLE, 80)];
    let rack = Rack::without("new");
    for (version, bytes) in [("1", store(1, 1, &one)), ("2", store(2, 1, &two))] {
        let made = rack.run(&["--new", version, version]);
        assert_eq!((made.status, made.err.as_str()), (Some(0), ""));
        assert_eq!(fs::read(rack.0.join(version)).expect("it was made"), bytes);
        assert_eq!(rack.run(&[version]), made);
        assert!(!made.out.contains("default"), "{}", made.out);
    }
    assert_eq!(rack.names(), ["1", "2"]);
}

#[test]
fn a_new_store_takes_a_setting_at_once() {
    let rack = Rack::without("new_set");
    let out = "version 2, reader 2\n\
        pitch 100, record 1\n\
        stretch 1.0 (3f800000), record 2\n\
        level 60, record 3\n\
        rack's stretch 1.0 (3f800000), show's 1.0 (3f800000)\n";
    assert_eq!(rack.run(&["rack", "--set=level=60", "--new=2"]), ended(0, out, ""));
    assert_eq!(rack.run(&["rack"]), ended(0, out, ""));
}

#[test]
fn a_file_that_is_there_is_replaced_only_where_that_is_said() {
    let rack = Rack::with("replace", "notes");
    let err = "rack_settings: rack is there already: --replace replaces it\n";
    assert_eq!(rack.run(&["--new", "1", "rack"]), ended(1, "", err));
    assert_eq!(rack.bytes(), b"notes");
    assert_eq!(rack.run(&["--new", "1", "--replace", "rack"]).status, Some(0));
    assert_eq!(rack.bytes().len(), 96);
    assert_eq!(rack.run(&["--new", "2", "--replace", "other"]).status, Some(0));
    assert_eq!(rack.names(), ["other", "rack"]);
}

#[test]
fn what_is_refused_leaves_the_file() {
    let rack = Rack::with("left", three());
    let number = fs::metadata(rack.file()).expect("it is there").ino();
    for arguments in [
        &["--set", "pitch=401"][..],
        &["--set", "volume=1"],
        &["--set", "pitch=60", "--show", "5"],
        &["--set", "pitch=60", "--reader", "3"],
        &["--new", "1", "--replace", "--set", "level=1"],
        &["--new", "1", "--replace", "--show", "0"],
    ] {
        let refused = rack.run(&[arguments, &["rack"]].concat());
        assert_eq!((refused.status, refused.out.as_str()), (Some(1), ""), "{arguments:?}");
        assert_eq!(rack.bytes(), three(), "{arguments:?}");
    }
    assert_eq!(rack.run(&["--new", "2", "--set", "pitch=1", "other"]).status, Some(1));
    assert_eq!(rack.names(), ["rack"]);
    // not even by the same bytes
    assert_eq!(fs::metadata(rack.file()).expect("it is there").ino(), number);
    assert_eq!(rack.run(&["rack"]).status, Some(0));
    assert_eq!(fs::metadata(rack.file()).expect("it is there").ino(), number);
}
