//! Settings: what each version is shown, which bytes a write sets, every refusal, and any bytes.

use pronouncer::{
    example, read_settings, write_setting, Refusal, Refused, Setting, Settings, Unsound,
    LARGEST_BYTES, RECORD_BYTES,
};
use Setting::{Real, Whole};

// The places of a record's fields.
const NAME_LENGTH: usize = 2;
const NAME: usize = 3;
const KIND: usize = 18;
const VALUE: usize = 19;

/// Settings of a version with these records, chained in this order.
fn settings(version: u8, records: &[(&str, Setting)]) -> Vec<u8> {
    let mut bytes = vec![0; (1 + records.len()) * RECORD_BYTES];
    bytes[0] = version;
    bytes[2] = u8::from(!records.is_empty());
    for (place, (name, value)) in records.iter().enumerate() {
        let record = &mut bytes[(1 + place) * RECORD_BYTES..][..RECORD_BYTES];
        record[0] = if place + 1 < records.len() { place as u8 + 2 } else { 0 };
        record[NAME_LENGTH] = name.len() as u8;
        record[NAME..NAME + name.len()].copy_from_slice(name.as_bytes());
        record[KIND] = value.kind() as u8;
        record[VALUE..VALUE + 4].copy_from_slice(&value.bits().to_le_bytes());
    }
    bytes
}

/// Pitch, stretch, level and the rack's stretch.
type Shown = (i32, f32, Option<i32>, f32);

fn shown(bytes: &[u8], version: u32, show: f32) -> Result<Shown, Refusal> {
    let told = read_settings(bytes, version, show);
    told.map(|s: Settings| (s.pitch, s.stretch, s.level, s.rack)).map_err(|r: Refused| r.refusal)
}

/// What a write is refused by. Sees that only the four bytes of an accepted one change, and none of a refused one.
fn written(
    bytes: &mut [u8],
    version: u32,
    name: impl AsRef<[u8]>,
    value: Setting,
) -> Result<(), Refusal> {
    const GUARD: usize = 40;
    let before = bytes.to_vec();
    let mut lent = [&[0xee; GUARD][..], bytes, &[0xee; GUARD][..]].concat();
    let told = write_setting(&mut lent[GUARD..][..before.len()], version, name, value);
    let (in_front, behind) = (&lent[..GUARD], &lent[GUARD + before.len()..]);
    assert!([in_front, behind].concat().iter().all(|byte| *byte == 0xee), "a guard is altered");
    bytes.copy_from_slice(&lent[GUARD..][..before.len()]);

    let altered: Vec<usize> = (0..before.len()).filter(|at| bytes[*at] != before[*at]).collect();
    match told {
        Err(refused) => {
            assert!(altered.is_empty(), "{refused} altered {altered:?}");
            assert_eq!(refused.line, 0);
            assert_eq!(refused.unsound.is_some(), refused.refusal == Refusal::Unsound);
            Err(refused.refusal)
        }
        Ok(()) => {
            let value = value.bits().to_le_bytes();
            let records = bytes.chunks_exact(RECORD_BYTES).skip(1);
            assert!(records.into_iter().any(|record| record[VALUE..VALUE + 4] == value));
            let record = altered.first().map_or(0, |at| at / RECORD_BYTES * RECORD_BYTES);
            let is_value = |at: &usize| (record + VALUE..record + VALUE + 4).contains(at);
            assert!(altered.iter().all(is_value), "{altered:?} are altered");
            Ok(())
        }
    }
}

#[test]
fn what_a_version_is_shown() {
    assert_eq!(shown(&example::SETTINGS, 1, 2.0), Ok((120, 1.25, None, 2.5)));
    assert_eq!(shown(&example::SETTINGS, 2, 2.0), Ok((120, 1.25, Some(75), 2.5)));
    // The settings' own version changes nothing.
    let mut older = example::SETTINGS;
    older[0] = 1;
    assert_eq!(shown(&older, 2, 2.0), Ok((120, 1.25, Some(75), 2.5)));
    // What has no record.
    for version in [1, 2] {
        let none = settings(version, &[]);
        assert_eq!(shown(&none, 1, 0.5), Ok((100, 1.0, None, 0.5)));
        assert_eq!(shown(&none, 2, 0.5), Ok((100, 1.0, Some(80), 0.5)));
    }
    // The product is rounded once, and may be out of stretch's range.
    let bytes = settings(2, &[("stretch", Real(3.3))]);
    assert_eq!(shown(&bytes, 2, 1.9).map(|shown| shown.3.to_bits()), Ok(0x40c8_a3d7));
    let long = settings(2, &[("stretch", Real(4.0))]);
    assert_eq!(shown(&long, 2, 4.0), Ok((100, 4.0, Some(80), 16.0)));
    // A reader of version 1 does not know level.
    for level in [Whole(999), Real(f32::NAN)] {
        let settings = settings(2, &[("level", level)]);
        assert_eq!(shown(&settings, 1, 1.0), Ok((100, 1.0, None, 1.0)));
        assert_eq!(shown(&settings, 2, 1.0), Err(Refusal::Range));
    }
    let mut bytes = settings(2, &[("pitch", Whole(60)), ("level", Whole(999))]);
    assert_eq!(written(&mut bytes, 1, "pitch", Whole(61)), Ok(()));
    assert_eq!(written(&mut bytes, 2, "pitch", Whole(62)), Err(Refusal::Range));
    assert_eq!(written(&mut bytes, 2, "level", Whole(5)), Err(Refusal::Range));
    assert_eq!(written(&mut bytes, 1, "level", Whole(5)), Err(Refusal::Records));
}

#[test]
fn a_write_sets_four_bytes() {
    let mut bytes = example::SETTINGS;
    assert_eq!(written(&mut bytes, 1, "pitch", Whole(0x0123)), Ok(()));
    assert_eq!(bytes[RECORD_BYTES + VALUE..][..4], [0x23, 0x01, 0, 0]);
    assert_eq!(written(&mut bytes, 2, "stretch", Real(0.3)), Ok(()));
    assert_eq!(bytes[2 * RECORD_BYTES + VALUE..][..4], [0x9a, 0x99, 0x99, 0x3e]);
    assert_eq!(written(&mut bytes, 2, "level", Whole(7)), Ok(()));
    assert_eq!(bytes[3 * RECORD_BYTES + VALUE..][..4], [7, 0, 0, 0]);
    assert_eq!(shown(&bytes, 2, 1.0), Ok((0x0123, 0.3, Some(7), 0.3)));
    // A name as bytes; names that are there and not known, and others that are neither.
    let mut bytes = settings(2, &[("Pitch", Whole(60)), ("", Whole(1)), ("pitch", Whole(60))]);
    assert_eq!(written(&mut bytes, 2, b"pitch", Whole(61)), Ok(()));
    let long = b"pitchpitchpitchp";
    for name in [&b"Pitch"[..], b"", b"pitc", b"pitch\0", b"stretch", b"l\xff", long] {
        assert_eq!(written(&mut bytes, 2, name, Whole(61)), Err(Refusal::Records), "{name:?}");
    }
    assert_eq!(shown(&bytes, 2, 1.0), Ok((61, 1.0, Some(80), 1.0)));
}

#[test]
fn ranges_at_their_edges() {
    let above = |x: f32| f32::from_bits(x.to_bits() + 1);
    let below = |x: f32| f32::from_bits(x.to_bits() - 1);
    let good = [
        ("pitch", Whole(50)),
        ("pitch", Whole(400)),
        ("level", Whole(0)),
        ("level", Whole(100)),
        ("stretch", Real(0.25)),
        ("stretch", Real(above(0.25))),
        ("stretch", Real(below(4.0))),
        ("stretch", Real(4.0)),
    ];
    let bad = [
        ("pitch", Whole(49)),
        ("pitch", Whole(401)),
        ("pitch", Whole(i32::MIN)),
        ("pitch", Real(f32::from_bits(100))),
        ("level", Whole(-1)),
        ("level", Whole(101)),
        ("level", Real(f32::from_bits(50))),
        ("stretch", Whole(0x3f80_0000)),
        ("stretch", Real(below(0.25))),
        ("stretch", Real(above(4.0))),
        ("stretch", Real(-1.0)),
        ("stretch", Real(-0.0)),
        ("stretch", Real(f32::NAN)),
        ("stretch", Real(f32::INFINITY)),
        ("stretch", Real(f32::NEG_INFINITY)),
    ];
    for (name, value) in good {
        let mut bytes = example::SETTINGS;
        assert_eq!(written(&mut bytes, 2, name, value), Ok(()), "{name} {value:?}");
        assert!(shown(&settings(1, &[(name, value)]), 2, 1.0).is_ok(), "{name} {value:?}");
    }
    for (name, value) in bad {
        let mut bytes = example::SETTINGS;
        assert_eq!(written(&mut bytes, 2, name, value), Err(Refusal::Range), "{name} {value:?}");
        // No write mends such settings, be it of this setting or of another.
        let or_bad = |known, good| if known == name { (known, value) } else { (known, good) };
        let records = [("pitch", Whole(60)), ("stretch", Real(1.5)), ("level", Whole(5))];
        let mut bytes = settings(1, &records.map(|(known, good)| or_bad(known, good)));
        assert_eq!(shown(&bytes, 2, 1.0), Err(Refusal::Range), "{name} {value:?}");
        for (name, value) in records {
            assert_eq!(written(&mut bytes, 2, name, value), Err(Refusal::Range));
        }
    }
    for show in [0.25, above(0.25), below(4.0), 4.0] {
        assert_eq!(shown(&example::SETTINGS, 2, show).map(|shown| shown.3), Ok(1.25 * show));
    }
    let infinity = f32::INFINITY;
    for show in [below(0.25), above(4.0), 0.0, -0.0, -1.0, f32::NAN, infinity, -infinity] {
        assert_eq!(shown(&example::SETTINGS, 2, show), Err(Refusal::Range), "{show}");
    }
}

/// Sees what read and write are refused by.
fn refused(bytes: &[u8], version: u32, refusal: Refusal) {
    let mut bytes = bytes.to_vec();
    assert_eq!(shown(&bytes, version, 1.0), Err(refusal));
    assert_eq!(written(&mut bytes, version, "pitch", Whole(60)), Err(refusal));
}

#[test]
fn the_first_in_rank_order() {
    // With all of it wrong, then one thing less.
    let mut bytes = settings(3, &[("pitch", Whole(1)), ("pitch", Whole(1))]);
    refused(&bytes[..31], 9, Refusal::Unsound);
    refused(&bytes, 9, Refusal::Version);
    refused(&bytes, 2, Refusal::Version);
    bytes[0] = 2;
    refused(&bytes, 9, Refusal::Version);
    refused(&bytes, 2, Refusal::Records);
    assert_eq!(written(&mut bytes, 2, "x", Whole(1)), Err(Refusal::Records));
    bytes[RECORD_BYTES] = 0;
    refused(&bytes, 2, Refusal::Range);
    assert_eq!(written(&mut bytes, 2, "x", Whole(1)), Err(Refusal::Records));
    bytes[RECORD_BYTES + VALUE] = 50;
    assert_eq!(shown(&bytes, 2, f32::NAN), Err(Refusal::Range));
    assert_eq!(shown(&bytes, 2, 1.0), Ok((50, 1.0, Some(80), 1.0)));
    assert_eq!(written(&mut bytes, 2, "pitch", Whole(60)), Ok(()));
}

#[test]
fn versions() {
    for version in [0, 3, 258, 65_537, 65_538, 1 << 31, u32::MAX] {
        refused(&example::SETTINGS, version, Refusal::Version);
    }
    for (low, high) in [(0, 0), (3, 0), (1, 1), (2, 1), (0, 2), (255, 255)] {
        let mut bytes = example::SETTINGS;
        bytes[..2].copy_from_slice(&[low, high]);
        for version in [1, 2] {
            refused(&bytes, version, Refusal::Version);
        }
    }
}

#[test]
fn records() {
    let plain = settings(2, &[("x", Whole(1)), ("pitch", Whole(60)), ("y", Real(0.0))]);
    assert_eq!(shown(&plain, 2, 1.0), Ok((60, 1.0, Some(80), 1.0)));
    let first_field = 2;
    let [x, pitch, y] = [1, 2, 3].map(|record| record * RECORD_BYTES);
    let faults = [
        ("the first outside", first_field, 4),
        ("the first far outside", first_field + 1, 1),
        ("a next outside", y, 4),
        ("a next far outside", y + 1, 1),
        ("a record behind itself", y, 3),
        ("a circle of two", y, 2),
        ("a circle of three", y, 1),
        ("a name twice", y + NAME, b'x'),
        ("a length of 16", x + NAME_LENGTH, 16),
        ("a length of 255", y + NAME_LENGTH, 255),
        ("no kind", x + KIND, 0),
        ("a third kind", pitch + KIND, 3),
    ];
    for (fault, at, byte) in faults {
        let mut bytes = plain.clone();
        bytes[at] = byte;
        assert_eq!(shown(&bytes, 2, 1.0), Err(Refusal::Records), "{fault}");
        assert_eq!(written(&mut bytes, 2, "pitch", Whole(61)), Err(Refusal::Records), "{fault}");
    }
    // Out of the chain it is not looked at.
    let mut bytes = plain.clone();
    bytes[pitch] = 0;
    bytes[y..].fill(0xff);
    assert_eq!(written(&mut bytes, 2, "pitch", Whole(61)), Ok(()));
    assert_eq!(shown(&bytes, 2, 1.0), Ok((61, 1.0, Some(80), 1.0)));
}

#[test]
fn names() {
    // Any bytes are a name, none too, and capitals are others.
    let names = ["", "x", "X", "é", "pitch", "Pitch", "pitchpitchpitch"];
    let bytes = settings(2, &names.map(|name| (name, Whole(60))));
    assert_eq!(shown(&bytes, 2, 1.0), Ok((60, 1.0, Some(80), 1.0)));
    for twice in names.into_iter().chain(["level"]) {
        // Twice it is refused to every reader, also with other bytes behind it.
        let mut bytes = settings(2, &[(twice, Whole(60)), ("y", Whole(60)), (twice, Whole(61))]);
        bytes[3 * RECORD_BYTES..][NAME + twice.len()..KIND].fill(0xff);
        for version in [1, 2] {
            assert_eq!(shown(&bytes, version, 1.0), Err(Refusal::Records), "{twice:?}");
        }
    }
}

#[test]
fn bytes_that_are_no_field() {
    let plain = settings(2, &[("pitch", Whole(60)), ("level", Whole(5))]);
    let wanted = shown(&plain, 2, 1.0);
    assert_eq!(wanted, Ok((60, 1.0, Some(5), 1.0)));
    let is_field = |at: usize| match (at / RECORD_BYTES, at % RECORD_BYTES) {
        (0, byte) => byte < 4,
        (_, byte) => byte < NAME + 5 || (KIND..VALUE + 4).contains(&byte),
    };
    for at in (0..plain.len()).filter(|at| !is_field(*at)) {
        let mut bytes = plain.clone();
        bytes[at] = 0xff;
        assert_eq!(shown(&bytes, 2, 1.0), wanted, "byte {at}");
        assert_eq!(written(&mut bytes, 2, "level", Whole(6)), Ok(()), "byte {at}");
    }
}

#[test]
fn lengths() {
    for length in [0, 1, 31, LARGEST_BYTES + 1, 70_000] {
        let mut bytes = vec![1; length];
        let cause = Some(Unsound::SettingsLength(length));
        assert_eq!(read_settings(&bytes, 2, 1.0).unwrap_err().unsound, cause);
        let told = write_setting(&mut bytes, 2, "pitch", Whole(60)).unwrap_err();
        assert_eq!((told.refusal, told.unsound), (Refusal::Unsound, cause));
        refused(&bytes, 2, Refusal::Unsound);
    }
    // A remainder behind the last whole record is ignored.
    for remainder in 0..RECORD_BYTES {
        let mut bytes = [&example::SETTINGS[..], &vec![0xff; remainder]].concat();
        assert_eq!(written(&mut bytes, 2, "level", Whole(6)), Ok(()));
        assert_eq!(shown(&bytes, 2, 1.0), Ok((120, 1.25, Some(6), 1.25)));
        bytes[3 * RECORD_BYTES] = 4;
        refused(&bytes, 2, Refusal::Records);
    }
    let mut largest = example::SETTINGS.to_vec();
    largest.resize(LARGEST_BYTES, 0xff);
    assert_eq!(written(&mut largest, 2, "pitch", Whole(60)), Ok(()));
    // The last record that there can be, 2,047.
    largest[3 * RECORD_BYTES..][..2].copy_from_slice(&[0xff, 0x07]);
    refused(&largest, 2, Refusal::Records);
    let last = settings(2, &[("x", Real(f32::NAN))]);
    largest[LARGEST_BYTES - RECORD_BYTES..].copy_from_slice(&last[RECORD_BYTES..]);
    assert_eq!(shown(&largest, 2, 1.0), Ok((60, 1.25, Some(75), 1.25)));
}

/// A number below `count` that looks like chance.
fn chance(state: &mut u64, count: u64) -> usize {
    *state = state.wrapping_mul(6_364_136_223_846_793_005).wrapping_add(1_442_695_040_888_963_407);
    ((*state >> 33) % count) as usize
}

/// One of some.
fn one_of<T: Copy>(state: &mut u64, some: &[T]) -> T {
    some[chance(state, some.len() as u64)]
}

/// Settings of so many bytes, in an allocation of just that length, that are often nearly right.
fn nearly_right(state: &mut u64, length: usize) -> Box<[u8]> {
    let records = [
        ("pitch", Whole(60)),
        ("stretch", Real(1.5)),
        ("level", Whole(5)),
        ("x", Whole(1)),
        ("pitch", Whole(0)),
        ("stretch", Real(f32::NAN)),
    ];
    let mut bytes = settings(2, &[one_of(state, &records)]);
    bytes.resize(70, 0);
    for _ in 0..chance(state, 4) {
        let at = one_of(state, &[0, 0, 1, 2, 2, 3, 32, 33, 34, 35, 39, 50, 51, 54, 60, 69]);
        bytes[at] = one_of(state, &[0, 1, 2, 3, 5, 15, 16, 100, 128, 255]);
    }
    bytes[..length].into()
}

#[test]
fn any_bytes() {
    let (mut state, mut reads, mut writes) = (1, 0, 0);
    let values = [
        ("pitch", Whole(77)),
        ("stretch", Real(2.5)),
        ("level", Whole(7)),
        ("level", Whole(-7)),
        ("stretch", Real(f32::NAN)),
        ("x", Whole(1)),
        ("pitchpitchpitchp", Whole(77)),
    ];
    // Every length, and those with room for a record more often.
    let lengths = (0..=70).chain((64..=70).cycle().take(70));
    for length in lengths.cycle().take(141 * 200) {
        let mut bytes = nearly_right(&mut state, length);
        let version = one_of(&mut state, &[1, 2, 1, 2, 1, 2, 0, 3, 65_537, u32::MAX]);
        let show = one_of(&mut state, &[1.0, 0.25, 4.0, 1.0 / 3.0, 5.0, f32::NAN]);
        let is_version = |version: u32| version == 1 || version == 2;
        let told = shown(&bytes, version, show);
        if length < RECORD_BYTES {
            assert_eq!(told, Err(Refusal::Unsound));
        } else if !is_version(version)
            || !is_version(u16::from_le_bytes([bytes[0], bytes[1]]).into())
        {
            assert_eq!(told, Err(Refusal::Version));
        } else if let Ok((pitch, stretch, level, rack)) = told {
            assert!((50..=400).contains(&pitch) && (0.25..=4.0).contains(&stretch));
            assert_eq!(level.is_some(), version == 2);
            assert!(level.is_none_or(|level| (0..=100).contains(&level)));
            assert_eq!(rack, stretch * show);
            reads += 1;
        } else {
            assert!(told == Err(Refusal::Records) || told == Err(Refusal::Range), "{told:?}");
        }

        let (name, value) = one_of(&mut state, &values);
        let before = shown(&bytes, version, 1.0);
        let guarded = written(&mut bytes.clone(), version, name, value);
        let told = write_setting(&mut bytes, version, name, value).map_err(|told| told.refusal);
        assert_eq!(told, guarded);
        if told.is_ok() {
            let (pitch, stretch, level, _) = shown(&bytes, version, 1.0).expect("it is read back");
            let now = [Whole(pitch), Real(stretch), Whole(level.unwrap_or(0))];
            let place = ["pitch", "stretch", "level"].iter().position(|known| *known == name);
            assert_eq!(now[place.expect("it is known")], value);
            assert!(before.is_ok(), "no write mends settings");
            writes += 1;
        }
    }
    assert!(reads > 2000 && writes > 150, "{reads} reads and {writes} writes were accepted");
}
