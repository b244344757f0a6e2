//! Numbers as they are typed and shown.

use crate::racks::{record, store, three, Rack, FLOAT, WHOLE};
use crate::running::ended;

/// The record of stretch in a store that has it alone, and its bits there.
fn with_stretch(bits: u32) -> Vec<u8> {
    store(1, 1, &[record(0, "stretch", FLOAT, bits)])
}

/// The floats next to the edges and the middle, and those themselves: bits, and the shortest decimal.
const FLOATS: [(u32, &str); 7] = [
    (0x3e80_0000, "0.25"),
    (0x3e80_0001, "0.25000003"),
    (0x3f7f_ffff, "0.99999994"),
    (0x3f80_0000, "1.0"),
    (0x3f80_0001, "1.0000001"),
    (0x407f_ffff, "3.9999998"),
    (0x4080_0000, "4.0"),
];

/// The floats next to the range.
const BEYOND: [(u32, &str); 2] = [(0x3e7f_ffff, "0.24999999"), (0x4080_0001, "4.0000005")];

#[test]
fn a_float_that_is_shown_reads_back() {
    let rack = Rack::without("floats");
    for (bits, text) in FLOATS {
        rack.put(with_stretch(bits));
        let shown = rack.run(&["rack"]).out;
        let line = format!("\nstretch {text} ({bits:08x}), record 1\n");
        assert!(shown.contains(&line), "{bits:08x}: {shown}");

        rack.put(with_stretch(0x4000_0000));
        assert_eq!(rack.run(&["--set", &format!("stretch={text}"), "rack"]).out, shown);
        assert_eq!(rack.bytes(), with_stretch(bits), "{text}");

        let show = rack.run(&["--show", text, "rack"]).out;
        assert!(show.ends_with(&format!(", show's {text} ({bits:08x})\n")), "{show}");
    }
}

#[test]
fn a_float_next_to_the_range_is_told_as_itself() {
    let rack = Rack::without("beyond");
    for (bits, text) in BEYOND {
        rack.put(with_stretch(bits));
        let err = format!(
            "rack_settings: rack is refused: 17, record 1: stretch is the float {text} ({bits:08x}), \
             and must be a float from 0.25 to 4.0. No write mends a store: write a new one (--new with --replace).\n"
        );
        assert_eq!(rack.run(&["rack"]), ended(1, "", &err));

        rack.put(three());
        let err = format!(
            "rack_settings: rack is refused: 17, stretch cannot be {text}: \
             it must be a float from 0.25 to 4.0. Give such a value (--set).\n"
        );
        assert_eq!(rack.run(&["--set", &format!("stretch={text}"), "rack"]), ended(1, "", &err));

        let err = format!(
            "rack_settings: rack is refused: 17, the show's stretch is the float {text} ({bits:08x}), \
             and must be a float from 0.25 to 4.0. Give such a value (--show).\n"
        );
        assert_eq!(rack.run(&["--show", text, "rack"]), ended(1, "", &err));
    }
}

/// What became of a setting that was typed so: the bits, or the status.
fn typed(rack: &Rack, setting: &str, at: usize) -> Result<u32, i32> {
    rack.put(three());
    let wrote = rack.run(&["--set", setting, "rack"]);
    if wrote.status == Some(0) {
        let bytes = rack.bytes();
        return Ok(u32::from_le_bytes(*bytes[32 * at + 19..].first_chunk().expect("four bytes")));
    }
    assert_eq!(rack.bytes(), three(), "{setting}");
    Err(wrote.status.expect("it ends"))
}

#[test]
fn a_decimal_is_rounded_to_the_nearest_float() {
    let rack = Rack::without("rounded");
    for (text, taken) in [
        // half way between 1.0 and the next one, and just off it: less than a double can tell
        ("1.000000059604644775390625", Ok(0x3f80_0000)),
        ("1.000000059604644775390624999999999999", Ok(0x3f80_0000)),
        ("1.000000059604644775390625000000000001", Ok(0x3f80_0001)),
        // half way between the next one and the one behind it: the even one
        ("1.000000178813934326171875", Ok(0x3f80_0002)),
        ("1.000000178813934326171874999999999999", Ok(0x3f80_0001)),
        // half way out of the range, and just off it
        ("0.249999992549419403076171875", Ok(0x3e80_0000)),
        ("0.249999992549419403076171874999999999", Err(1)),
        ("4.0000002384185791015625", Ok(0x4080_0000)),
        ("4.000000238418579101562500000000000001", Err(1)),
    ] {
        assert_eq!(typed(&rack, &format!("stretch={text}"), 2), taken, "{text}");
    }
}

#[test]
fn floats_as_people_type_them() {
    let rack = Rack::without("float_forms");
    for text in ["2", "2.", "2.0", "02.0", "2e0", "20e-1", "0.2E1", "0.2e+1"] {
        assert_eq!(typed(&rack, &format!("stretch={text}"), 2), Ok(0x4000_0000), "{text}");
    }
    assert_eq!(typed(&rack, "stretch=.5", 2), Ok(0x3f00_0000));
    // numbers that no stretch is: the library refuses them
    for text in
        ["nan", "NaN", "-nan", "inf", "-inf", "infinity", "0.1e400", "1e-50", "-1.5", "-0.0", "0"]
    {
        assert_eq!(typed(&rack, &format!("stretch={text}"), 2), Err(1), "{text}");
    }
    // no numbers: the command line is not understood
    for text in [
        "+1.5",
        " 1.5",
        "1.5 ",
        "1,5",
        "0x3fc00000",
        "3fc00000",
        "1_5",
        "",
        ".",
        "e1",
        "1.5f",
        "1/2",
        "1=2",
        "٢",
    ] {
        assert_eq!(typed(&rack, &format!("stretch={text}"), 2), Err(2), "{text}");
        assert_eq!(rack.run(&["--show", text, "rack"]).status, Some(2), "{text}");
    }
}

#[test]
fn whole_numbers_as_people_type_them() {
    let rack = Rack::without("whole_forms");
    assert_eq!(typed(&rack, "pitch=100", 1), Ok(100));
    assert_eq!(typed(&rack, "pitch=0100", 1), Ok(100));
    assert_eq!(typed(&rack, "level=-0", 3), Ok(0));
    // floats, and whole numbers that are too large for one: the library refuses them
    for text in ["100.0", "1e2", "100.", "2147483648", "4294967396", "nan"] {
        assert_eq!(typed(&rack, &format!("pitch={text}"), 1), Err(1), "{text}");
    }
    for text in ["+100", " 100", "0x64", "1,000", "", "hundred", "٣٠٠"] {
        assert_eq!(typed(&rack, &format!("pitch={text}"), 1), Err(2), "{text}");
    }
    for (text, taken) in [("49", Err(1)), ("50", Ok(50)), ("400", Ok(400)), ("401", Err(1))] {
        assert_eq!(typed(&rack, &format!("pitch={text}"), 1), taken);
    }
    for (text, taken) in [("-1", Err(1)), ("0", Ok(0)), ("100", Ok(100)), ("101", Err(1))] {
        assert_eq!(typed(&rack, &format!("level={text}"), 3), taken);
    }
}

#[test]
fn a_value_is_told_as_it_was_typed() {
    let rack = Rack::with("as_typed", three());
    for (setting, told) in [
        (
            "pitch=2147483648",
            "pitch cannot be 2147483648: it must be a whole number from 50 to 400",
        ),
        ("pitch=100.0", "pitch cannot be 100.0: it must be a whole number from 50 to 400"),
        ("level=-1", "level cannot be -1: it must be a whole number from 0 to 100"),
        ("stretch=0.1e400", "stretch cannot be 0.1e400: it must be a float from 0.25 to 4.0"),
    ] {
        let err =
            format!("rack_settings: rack is refused: 17, {told}. Give such a value (--set).\n");
        assert_eq!(rack.run(&["--set", setting, "rack"]), ended(1, "", &err));
    }
    let err = "rack_settings: \"1,5\" is no number: write it as 120 or 1.5; \
        rack_settings --help lists what it takes\n";
    assert_eq!(rack.run(&["--set", "stretch=1,5", "rack"]), ended(2, "", err));
    assert_eq!(rack.run(&["--show", "1,5", "rack"]), ended(2, "", err));
}

#[test]
fn floats_that_are_kept_are_told_with_their_bits() {
    let rack = Rack::without("kept");
    for (kind, bits, told) in [
        (FLOAT, 0x7fc0_0001, "the float NaN (7fc00001)"),
        (FLOAT, 0x7f80_0001, "the float NaN (7f800001)"),
        (FLOAT, 0xff80_0000, "the float -inf (ff800000)"),
        (FLOAT, 0x7f80_0000, "the float inf (7f800000)"),
        (FLOAT, 0x8000_0000, "the float -0.0 (80000000)"),
        (FLOAT, 0x0000_0001, "the float 1e-45 (00000001)"),
        (WHOLE, 0x3f80_0000, "the whole number 1065353216"),
        (WHOLE, 0xffff_ffff, "the whole number -1"),
    ] {
        rack.put(store(1, 1, &[record(0, "stretch", kind, bits)]));
        let err = format!(
            "rack_settings: rack is refused: 17, record 1: stretch is {told}, and must be a float \
             from 0.25 to 4.0. No write mends a store: write a new one (--new with --replace).\n"
        );
        assert_eq!(rack.run(&["rack"]), ended(1, "", &err));
    }
}
