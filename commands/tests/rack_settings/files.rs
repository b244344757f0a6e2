//! A file is replaced whole or not at all.

use std::fs::{self, Permissions};
use std::os::unix::fs::{chown, symlink, MetadataExt, PermissionsExt};
use std::os::unix::process::CommandExt;
use std::path::Path;
use std::{env, process};

use crate::racks::{three, Rack};
use crate::running::{command, ended};

/// Pitch 60 in `three()`.
fn with_60() -> Vec<u8> {
    let mut bytes = three();
    bytes[32 + 19] = 60;
    bytes
}

fn mode(path: &Path) -> u32 {
    fs::metadata(path).expect("it is there").mode() & 0o7777
}

fn set_mode(path: &Path, mode: u32) {
    fs::set_permissions(path, Permissions::from_mode(mode)).expect("it may be set");
}

#[test]
fn permissions_and_owner_stay() {
    let rack = Rack::with("permissions", three());
    for wanted in [0o640, 0o600, 0o666, 0o755] {
        set_mode(&rack.file(), wanted);
        let _ = chown(rack.file(), Some(65_534), Some(65_534)); // which only root may do
        let before = fs::metadata(rack.file()).expect("it is there");
        assert_eq!(rack.run(&["--set", "pitch=60", "rack"]).status, Some(0));
        let after = fs::metadata(rack.file()).expect("it is there");
        assert_ne!(before.ino(), after.ino());
        let told = [&before, &after].map(|found| (found.mode(), found.uid(), found.gid()));
        assert_eq!(told[0], told[1]);
        assert_eq!(rack.run(&["--new", "1", "--replace", "rack"]).status, Some(0));
        assert_eq!(mode(&rack.file()), wanted);
        rack.put(three());
    }
}

#[test]
fn a_new_file_has_the_users_usual_permissions() {
    let rack = Rack::without("usual_permissions");
    for (mask, wanted) in [("022", 0o644), ("077", 0o600), ("002", 0o664)] {
        let line = format!("umask {mask}; exec \"$0\" --new 2 {mask}");
        assert_eq!(rack.shell(&line).status, Some(0));
        assert_eq!(mode(&rack.0.join(mask)), wanted);
    }
}

#[test]
fn a_write_protected_file_stays() {
    let rack = Rack::with("write_protected", three());
    set_mode(&rack.file(), 0o444);
    let err = "rack_settings: cannot write rack: it is write-protected\n";
    for arguments in [&["--set", "pitch=60", "rack"][..], &["--new", "1", "--replace", "rack"]] {
        assert_eq!(rack.run(arguments), ended(1, "", err));
        assert_eq!(rack.bytes(), three());
    }
    assert_eq!(rack.run(&["rack"]).status, Some(0));
}

#[test]
fn a_link_stays_and_its_file_is_replaced() {
    let rack = Rack::without("link");
    let other = rack.0.join("other");
    fs::create_dir(&other).expect("a folder can be made");
    fs::write(other.join("kept"), three()).expect("it can be written");
    symlink("other/kept", rack.0.join("first")).expect("a link can be made");
    symlink("first", rack.file()).expect("a link can be made");
    assert_eq!(rack.run(&["--set", "pitch=60", "rack"]).status, Some(0));
    assert_eq!(fs::read(other.join("kept")).expect("it is there"), with_60());
    assert_eq!(fs::read_link(rack.file()).expect("a link"), Path::new("first"));
    assert_eq!(fs::read_link(rack.0.join("first")).expect("a link"), Path::new("other/kept"));
    assert_eq!(rack.names(), ["first", "other", "rack"]);
    assert_eq!(Rack(other).names(), ["kept"]);
}

#[test]
fn a_link_that_leads_nowhere_is_told() {
    let rack = Rack::without("dangling");
    symlink("nowhere", rack.file()).expect("a link can be made");
    let missing = "No such file or directory (os error 2)";
    for (arguments, told) in [
        (&["rack"][..], format!("cannot read rack: {missing}")),
        (&["--new", "1", "rack"], "rack is there already: --replace replaces it".into()),
        (&["--new", "1", "--replace", "rack"], format!("cannot write rack: {missing}")),
    ] {
        assert_eq!(rack.run(arguments), ended(1, "", &format!("rack_settings: {told}\n")));
    }
    assert_eq!(rack.names(), ["rack"]);
    assert!(rack.file().is_symlink());
}

#[test]
fn what_is_no_file_is_told() {
    let rack = Rack::without("no_file");
    fs::create_dir(rack.file()).expect("a folder can be made");
    for name in ["rack", ".", "..", "/", "/dev/full", "/dev/zero"] {
        for (arguments, told) in [
            (&[][..], format!("cannot read {name}: it is no file")),
            (&["--set", "pitch=60"], format!("cannot read {name}: it is no file")),
            (&["--new", "1"], format!("{name} is there already: --replace replaces it")),
            (&["--new", "1", "--replace"], format!("cannot write {name}: it is no file")),
        ] {
            let err = format!("rack_settings: {told}\n");
            assert_eq!(rack.run(&[arguments, &[name]].concat()), ended(1, "", &err));
        }
    }
    assert_eq!(rack.names(), ["rack"]);
    assert_eq!(Rack(rack.file()).names(), [""; 0]);
}

#[test]
fn a_place_that_is_not_there_is_told() {
    let rack = Rack::with("nowhere", three());
    let missing = "No such file or directory (os error 2)";
    let no_folder = "Not a directory (os error 20)";
    for (arguments, told) in [
        (&["nowhere"][..], format!("cannot read nowhere: {missing}")),
        (&["--set=pitch=60", "nowhere"], format!("cannot read nowhere: {missing}")),
        (&[""], format!("cannot read : {missing}")),
        (&["rack/x"], format!("cannot read rack/x: {no_folder}")),
        (&["--new=1", "nowhere/x"], format!("cannot write nowhere/x: {missing}")),
        (&["--new=1", "rack/x"], format!("cannot write rack/x: {no_folder}")),
        (&["--new=1", "x/"], format!("cannot write x/: {no_folder}")),
        (&["--new=1", ""], format!("cannot write : {missing}")),
    ] {
        assert_eq!(rack.run(arguments), ended(1, "", &format!("rack_settings: {told}\n")));
    }
    assert_eq!(rack.names(), ["rack"]);
    assert_eq!(rack.bytes(), three());
}

#[test]
fn a_failing_write_leaves_all_as_it_was() {
    let rack = Rack::with("failing", three());
    let err = "File too large (os error 27)";
    for (arguments, name) in [
        ("--set pitch=60 rack", "rack"),
        ("--new 1 --replace rack", "rack"),
        ("--new 1 other", "other"),
    ] {
        // no file may have a byte, and the program is told instead of ended
        let ran = rack.shell(&format!("trap '' XFSZ; ulimit -f 0; exec \"$0\" {arguments}"));
        assert_eq!(ran, ended(1, "", &format!("rack_settings: cannot write {name}: {err}\n")));
        assert_eq!(rack.names(), ["rack"]);
        assert_eq!(rack.bytes(), three());
    }
}

#[test]
fn who_is_ended_while_writing_leaves_the_file() {
    for (test, arguments) in [("ended", "--set pitch=60 rack"), ("ended_new", "--new 1 other")] {
        let rack = Rack::with(test, three());
        let ran = rack.shell(&format!("echo $$; ulimit -f 0; exec \"$0\" {arguments}"));
        assert_eq!(ran.status, None);
        assert_eq!(rack.bytes(), three());
        // what was begun stands beside it, and in nobody's way
        let begun = format!(".rack_settings.{}.0", ran.out.trim_end());
        assert_eq!(rack.names(), [&*begun, "rack"]);
        assert_eq!(rack.run(&["--set", "pitch=60", "rack"]).status, Some(0));
        assert_eq!(rack.bytes(), with_60());
    }
}

#[test]
fn what_stands_beside_is_not_overwritten() {
    let rack = Rack::with("beside", three());
    let own = ".rack_settings.$$"; // the program keeps the shell's number
    let line = format!("echo a > {own}.0; echo b > {own}.1; exec \"$0\" --set pitch=60 rack");
    assert_eq!(rack.shell(&line).status, Some(0));
    assert_eq!(rack.bytes(), with_60());
    let mut found: Vec<Vec<u8>> = Vec::new();
    for name in rack.names().iter().filter(|name| *name != "rack") {
        found.push(fs::read(rack.0.join(name)).expect("it is there"));
    }
    assert_eq!(found, [b"a\n", b"b\n"]);
}

/// A folder with this mode and a file, which everybody may write, and a run of the program there by somebody who is not
/// root: status and standard error. None where root cannot become somebody else.
fn not_by_root(test: &str, mode: u32) -> Option<(Option<i32>, String)> {
    let rack = Rack(env::temp_dir().join(format!("rack_settings-{test}-{}", process::id())));
    let program = rack.0.join("program");
    fs::create_dir(&rack.0).expect("a folder can be made");
    rack.put(three());
    fs::copy(env!("CARGO_BIN_EXE_rack_settings"), &program).expect("it can be copied");
    set_mode(&rack.file(), 0o666);
    set_mode(&rack.0, mode);
    let mut command = command(&program.to_string_lossy(), &["--set", "pitch=60", "rack"]);
    command.current_dir(&rack.0);
    if is_root() {
        command.uid(NOBODY).gid(NOBODY);
    }
    let ran = command.output().ok();
    let left = (rack.names(), rack.bytes());
    set_mode(&rack.0, 0o755);
    fs::remove_dir_all(&rack.0).expect("it can go");
    let ran = ran?;
    assert_eq!(left, (vec!["program".into(), "rack".into()], three()));
    Some((ran.status.code(), String::from_utf8_lossy(&ran.stderr).into()))
}

/// Somebody who is not root.
const NOBODY: u32 = 65_534;

fn is_root() -> bool {
    fs::metadata("/proc/self").is_ok_and(|own| own.uid() == 0)
}

#[test]
fn a_folder_that_may_not_be_written_is_told() {
    let Some(ran) = not_by_root("folder", 0o555) else {
        return;
    };
    let err = "rack_settings: cannot write rack: Permission denied (os error 13)\n";
    assert_eq!(ran, (Some(1), err.into()));
}

#[test]
fn a_file_keeps_its_owner_or_is_not_replaced() {
    let Some(ran) = is_root().then(|| not_by_root("owner", 0o777)).flatten() else {
        return;
    };
    let err = "rack_settings: cannot write rack: Operation not permitted (os error 1)\n";
    assert_eq!(ran, (Some(1), err.into()));
}

#[test]
fn a_long_name_is_taken() {
    let rack = Rack::without("long_name");
    let name = "x".repeat(255);
    assert_eq!(rack.run(&["--new", "1", &name]).status, Some(0));
    assert_eq!(rack.run(&["--set", "pitch=60", &name]).status, Some(0));
    assert_eq!(rack.names(), [name]);
}
