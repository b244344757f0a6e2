//! The command line and the exit status.

use std::fs::{self, File};
use std::io;
use std::process::Stdio;

use crate::racks::{three, Rack};
use crate::running::{ended, run_command};

#[test]
fn help_and_version_end_with_0() {
    let rack = Rack::without("help");
    let help = rack.run(&["--help"]);
    assert!(help.out.starts_with("rack_settings [--new VERSION [--replace]] "), "{}", help.out);
    assert_eq!((help.status, help.err.as_str()), (Some(0), ""));
    assert_eq!(rack.run(&["--new", "1", "rack", "--help"]), help);
    assert_eq!(rack.run(&["--version"]), ended(0, "rack_settings 0.1.0\n", ""));
    assert_eq!(rack.names(), [""; 0]);
}

#[test]
fn wrong_use_ends_with_2() {
    let rack = Rack::with("wrong_use", three());
    let pointer = "; rack_settings --help lists what it takes\n";
    for (arguments, told) in [
        (&[][..], "no file is named"),
        (&["--set", "pitch=60"], "no file is named"),
        (&["rack", "rack"], "FILE stands twice"),
        (&["--loud", "rack"], "there is no option --loud"),
        (&["rack", "-v"], "there is no option -v"),
        (&["rack", "--set"], "--set needs a value behind it"),
        (&["--replace=yes", "--new=1", "rack"], "--replace takes no value"),
        (&["--replace", "rack"], "--replace goes with --new"),
        (&["--set", "pitch", "rack"], "--set takes NAME=VALUE, as pitch=120, and not \"pitch\""),
        (&["--set", "pitch=x", "rack"], "\"x\" is no number: write it as 120 or 1.5"),
        (&["--set=pitch=1", "--set=level=1", "rack"], "--set stands twice"),
        (&["--show=1", "--show=1", "rack"], "--show stands twice"),
        (&["--reader=1", "--reader=2", "rack"], "--reader stands twice"),
        (&["--new=1", "--new=1", "rack"], "--new stands twice"),
        (&["--new", "3", "rack"], "--new takes 1 or 2, and not \"3\""),
        (&["--new", "01", "rack"], "--new takes 1 or 2, and not \"01\""),
        (&["--new", "65537", "rack"], "--new takes 1 or 2, and not \"65537\""),
        (&["--reader", "two", "rack"], "--reader takes a version, and not \"two\""),
        (&["--reader", "-1", "rack"], "--reader takes a version, and not \"-1\""),
        (&["--reader", "4294967298", "rack"], "--reader takes a version, and not \"4294967298\""),
    ] {
        let err = format!("rack_settings: {told}{pointer}");
        assert_eq!(rack.run(arguments), ended(2, "", &err), "{arguments:?}");
    }
    assert_eq!(rack.bytes(), three());
    assert_eq!(rack.names(), ["rack"]);
}

#[test]
fn what_is_no_text_is_understood_or_told() {
    use std::ffi::OsStr;
    use std::os::unix::ffi::OsStrExt;
    let rack = Rack::with("no_text", three());
    let run = |front: &str| {
        let mut command = rack.command(&["rack"]);
        command.arg(OsStr::from_bytes(&[front.as_bytes(), b"\xff"].concat()));
        run_command(command, "")
    };
    for front in ["--set=pitch=6", "--set=x", "--show=1", "--reader=1", "--new="] {
        assert_eq!(run(front).status, Some(2), "{front}");
    }
    assert_eq!(
        run("").err,
        "rack_settings: FILE stands twice; rack_settings --help lists what it takes\n"
    );
    let mut command = rack.command(&[]);
    command.arg(OsStr::from_bytes(b"--set=\xff=1")).arg("rack");
    let told = "16, version 2 has no setting \"\u{fffd}\": it has pitch, stretch and level";
    let err = run_command(command, "").err;
    assert!(err.starts_with(&format!("rack_settings: rack is refused: {told}")), "{err}");
}

#[test]
fn a_file_may_be_named_like_an_option() {
    let rack = Rack::without("named_like_an_option");
    assert_eq!(rack.run(&["--new", "1", "--", "--new"]).status, Some(0));
    assert_eq!(rack.run(&["--set", "pitch=60", "--", "--new"]).status, Some(0));
    assert_eq!(rack.run(&["--", "--new"]).out.lines().nth(1), Some("pitch 60, record 1"));
    assert_eq!(rack.run(&["--new", "1", "-"]).status, Some(0));
    assert_eq!(rack.names(), ["-", "--new"]);
}

#[test]
fn a_name_cannot_forge_a_line() {
    let rack = Rack::without("forged");
    let err = "rack_settings: cannot read a\\npitch 60, record 1: No such file or directory (os error 2)\n";
    assert_eq!(rack.run(&["a\npitch 60, record 1"]), ended(1, "", err));
}

#[test]
fn output_that_cannot_be_written_ends_with_1() {
    let rack = Rack::with("output", three());
    for arguments in [&["rack"][..], &["--help"], &["--set", "pitch=60", "rack"]] {
        let mut command = rack.command(arguments);
        command.stdout(Stdio::from(File::create("/dev/full").expect("it is there")));
        let err = "rack_settings: cannot write its output: No space left on device (os error 28)\n";
        assert_eq!(run_command(command, ""), ended(1, "", err));
    }
    // the file is written before it is shown
    assert_eq!(rack.bytes()[32 + 19], 60);
    assert_eq!(rack.names(), ["rack"]);
}

#[test]
fn a_closed_pipe_ends_it_quietly() {
    let rack = Rack::with("closed_pipe", three());
    let (reader, writer) = io::pipe().expect("a pipe");
    drop(reader);
    let mut command = rack.command(&["rack"]);
    command.stdout(writer);
    assert_eq!(run_command(command, ""), ended(1, "", ""));
    assert_eq!(fs::read(rack.file()).expect("it is there"), three());
}
