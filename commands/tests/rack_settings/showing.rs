//! What is shown of a store.

use crate::racks::{record, store, three, Rack, FLOAT, WHOLE};
use crate::running::ended;

#[test]
fn each_setting_is_shown_with_its_record() {
    let rack = Rack::with("shown", three());
    let out = "version 2, reader 2\n\
        pitch 120, record 1\n\
        stretch 1.5 (3fc00000), record 2\n\
        level 75, record 3\n\
        rack's stretch 1.5 (3fc00000), show's 1.0 (3f800000)\n";
    assert_eq!(rack.run(&["rack"]), ended(0, out, ""));
    assert_eq!(rack.bytes(), three());
}

#[test]
fn a_setting_without_a_record_is_the_default() {
    let rack = Rack::with("default", store(2, 0, &[]));
    let out = "version 2, reader 2\n\
        pitch 100, no record: the default\n\
        stretch 1.0 (3f800000), no record: the default\n\
        level 80, no record: the default\n\
        rack's stretch 1.0 (3f800000), show's 1.0 (3f800000)\n";
    assert_eq!(rack.run(&["rack"]), ended(0, out, ""));
}

#[test]
fn the_reader_decides_what_is_known() {
    let rack = Rack::with("reader", three());
    let out = "version 2, reader 1\n\
        pitch 120, record 1\n\
        stretch 1.5 (3fc00000), record 2\n\
        rack's stretch 1.5 (3fc00000), show's 1.0 (3f800000)\n";
    assert_eq!(rack.run(&["--reader", "1", "rack"]), ended(0, out, ""));

    rack.put(store(1, 1, &[record(0, "level", WHOLE, 0)]));
    let out = "version 1, reader 1\n\
        pitch 100, no record: the default\n\
        stretch 1.0 (3f800000), no record: the default\n\
        rack's stretch 1.0 (3f800000), show's 1.0 (3f800000)\n";
    assert_eq!(rack.run(&["rack"]), ended(0, out, ""));
    let out = "version 1, reader 2\n\
        pitch 100, no record: the default\n\
        stretch 1.0 (3f800000), no record: the default\n\
        level 0, record 1\n\
        rack's stretch 1.0 (3f800000), show's 1.0 (3f800000)\n";
    assert_eq!(rack.run(&["--reader=2", "rack"]), ended(0, out, ""));
}

#[test]
fn the_chain_decides_which_records_count() {
    let records = [
        record(0, "pitch", 7, 1),
        record(0, "stretch", FLOAT, 0x3f00_0000),
        record(2, "Pitch", FLOAT, 0x7fc0_0000),
        record(3, "pitch", WHOLE, 400),
    ];
    let mut bytes = store(2, 4, &records);
    bytes.extend([0xff; 31]);
    let rack = Rack::with("chain", bytes);
    let out = "version 2, reader 2\n\
        pitch 400, record 4\n\
        stretch 0.5 (3f000000), record 2\n\
        level 80, no record: the default\n\
        rack's stretch 0.5 (3f000000), show's 1.0 (3f800000)\n";
    assert_eq!(rack.run(&["rack"]), ended(0, out, ""));
}

#[test]
fn the_racks_stretch_is_the_product() {
    let rack = Rack::with("product", three());
    for (stretch, show, told) in [
        (0x3fc0_0000, "0.5", "0.75 (3f400000), show's 0.5 (3f000000)"),
        (0x4080_0000, "4", "16.0 (41800000), show's 4.0 (40800000)"),
        (0x3e80_0000, "0.25", "0.0625 (3d800000), show's 0.25 (3e800000)"),
        // 1.00000011920928955078125 twice is 1 + 2^-22 + 2^-46, and nearest to it is 1 + 2^-22
        (0x3f80_0001, "1.0000001", "1.0000002 (3f800002), show's 1.0000001 (3f800001)"),
    ] {
        rack.put(store(2, 1, &[record(0, "stretch", FLOAT, stretch)]));
        let ended = rack.run(&["--show", show, "rack"]);
        assert_eq!((ended.status, ended.err.as_str()), (Some(0), ""));
        let last = ended.out.lines().last();
        assert_eq!(last, Some(&*format!("rack's stretch {told}")), "{}", ended.out);
    }
}

#[test]
fn the_smallest_and_the_largest_store_are_shown() {
    let rack = Rack::without("sizes");
    for length in [32, 65_536] {
        let mut bytes = store(1, 0, &[]);
        bytes.resize(length, 0xff);
        rack.put(bytes);
        assert_eq!(rack.run(&["rack"]).status, Some(0), "{length} bytes");
    }
    // Records 1 to 2047, all in the chain, each with a name of its own.
    let next = |number| if number == 2047 { 0 } else { number + 1 };
    let numbered = |number: u16| record(next(number), &format!("n{number}"), WHOLE, 0);
    let mut records: Vec<Vec<u8>> = (1..=2047).map(numbered).collect();
    records[2046] = record(0, "pitch", WHOLE, 50);
    rack.put(store(2, 1, &records));
    let ended = rack.run(&["rack"]);
    assert_eq!(ended.out.lines().nth(1), Some("pitch 50, record 2047"), "{}", ended.err);
}
