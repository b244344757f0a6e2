//! English tables without checksums, damaged in many ways: none is fit, and the program never fails itself.

use std::fs;

use crate::folders::{english_section, Scratch, NAMES};

/// Sections with other bytes: which one, and which bytes.
type Damage = (&'static str, Vec<u8>);

/// A section with the byte at a place changed.
fn changed(name: &'static str, at: usize, change: impl Fn(u8) -> u8) -> Damage {
    let mut bytes = english_section(name);
    bytes[at] = change(bytes[at]);
    (name, bytes)
}

/// Each section cut off: to nothing, in its first bytes, at its half.
fn cut() -> Vec<Damage> {
    let lengths = |name| [0, 1, 3, english_section(name).len() / 2];
    let all = NAMES.into_iter().flat_map(|name| lengths(name).map(|length| (name, length)));
    all.map(|(name, length)| (name, english_section(name)[..length].to_vec())).collect()
}

/// The last byte is missing; of a machine it belongs to a cell of 0, without which it ends as well.
fn cut_by_one() -> Vec<Damage> {
    let cut = |name| (name, english_section(name)[..english_section(name).len() - 1].to_vec());
    NAMES[..6].iter().copied().map(cut).collect()
}

/// Bits that matter in the tables of phones and the indices.
fn changed_tables() -> Vec<Damage> {
    let high = |byte| byte | 0x80;
    let mut all = Vec::new();
    for name in ["lex.phones", "lts.phones"] {
        all.extend([1, 2, 3, 4, 5].map(|at| changed(name, at, high)));
    }
    all.extend([1, 2, 3, 7, 11, 403, 2027].map(|at| changed("lex.index", at, high)));
    all.extend([1, 11, 31, 51].map(|at| changed("lts.index", at, high)));
    all
}

/// Bits that matter in entries, nodes and cells.
fn changed_contents() -> Vec<Damage> {
    let high = |byte| byte | 0x80;
    let entries = [0, 100, 505].into_iter().flat_map(entry_bytes);
    let mut all: Vec<Damage> = entries.map(|at| changed("lex.data", at, high)).collect();
    let leaves = nodes(|kind| kind == 255).into_iter();
    all.extend(leaves.map(|node| changed("lts.model", 6 * node + 1, |_| 200)));
    for node in nodes(|kind| kind < 8) {
        all.push(changed("lts.model", 6 * node + 3, high));
        all.push(changed("lts.model", 6 * node + 5, high));
    }
    for name in ["aswd.p", "aswd.s"] {
        all.extend([5, 11, 13, 15].map(|at| changed(name, at, high)));
    }
    all
}

/// Bytes of an entry: the first of its word, its count of phones, its first phone.
fn entry_bytes(entry: usize) -> [usize; 3] {
    let (index, data) = (english_section("lex.index"), english_section("lex.data"));
    let offset = &index[4 + 4 * entry..];
    let at = usize::from(u16::from_le_bytes([offset[0], offset[1]]));
    let behind = at + 2 + usize::from(data[at + 1]);
    [at + 2, behind, behind + 1]
}

/// Some nodes of a kind.
fn nodes(is_wanted: impl Fn(u8) -> bool) -> Vec<usize> {
    let model = english_section("lts.model");
    let nodes = model.chunks(6).enumerate().filter(|(_, node)| is_wanted(node[0]));
    let all: Vec<usize> = nodes.map(|(number, _)| number).collect();
    all.iter().copied().step_by(all.len() / 8).collect()
}

/// Bytes without any sense.
fn noise(seed: u32, length: usize) -> Vec<u8> {
    let mut state = seed;
    let next = |_| {
        state = state.wrapping_mul(1_664_525).wrapping_add(1_013_904_223);
        (state >> 24) as u8
    };
    (0..length).map(next).collect()
}

#[test]
fn each_damaged_folder_is_told() {
    let noisy = NAMES.map(|name| (name, noise(7, 66)));
    let all = [cut(), cut_by_one(), changed_tables(), changed_contents(), noisy.to_vec()].concat();
    assert!(all.len() >= 80, "{}", all.len());
    for (name, bytes) in all {
        let scratch = Scratch::new();
        scratch.english("folder");
        scratch.write("folder", name, &bytes);
        let ran = scratch.run(["folder"]);
        assert_eq!((ran.err.as_str(), ran.status), ("", Some(1)), "{name}, {} bytes", bytes.len());
        assert!(ran.out.starts_with("folder: not fit for the show: "), "{}", ran.out);
    }
}

#[test]
fn what_is_no_file_is_told() {
    for name in NAMES {
        let scratch = Scratch::new();
        scratch.english("folder");
        scratch.remove("folder", name);
        assert_eq!(scratch.run(["folder"]).status, Some(1), "{name} is missing");
        fs::create_dir(scratch.path("folder").join(name)).expect("a folder can be made");
        let ran = scratch.run(["folder"]);
        let expected = format!("{name}: cannot be read: it is no file. Put the file in its place.");
        assert_eq!(ran.line(&format!("{name}: cannot")), expected);
        assert_eq!(ran.status, Some(1));
    }
}

#[test]
fn a_file_in_place_of_the_folder_is_told() {
    let scratch = Scratch::new();
    fs::write(scratch.path("file"), "").expect("a file can be written");
    let ran = scratch.run(["file"]);
    assert_eq!(ran.out.matches(": cannot be read: Not a directory").count(), 9, "{}", ran.out);
    assert_eq!(ran.status, Some(1));
}

/// Whatever stands in the sections, the library and the search for faults agree.
#[test]
fn the_library_and_the_search_never_disagree() {
    let scratch = Scratch::new();
    let folders: Vec<String> = (0..400).map(|i| i.to_string()).collect();
    for (i, folder) in folders.iter().enumerate() {
        scratch.small(folder);
        let name = NAMES[i % 8];
        let small = fs::read(scratch.path(folder).join(name)).expect("it was written");
        let chaos = noise(i as u32, 2);
        let mut bytes = small.clone();
        bytes[usize::from(chaos[0]) % small.len()] = chaos[1] % 16;
        scratch.write(folder, name, &bytes);
    }
    let ran = scratch.run(&folders);
    assert_eq!(ran.out.matches("check_tables and the library disagree").count(), 0, "{}", ran.out);
    assert_eq!(ran.out.matches("fit for the show").count(), 400);
    assert!(ran.out.matches("not fit for the show").count() >= 100);
    assert_eq!((ran.err.as_str(), ran.status), ("", Some(1)));
}
