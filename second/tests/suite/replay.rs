//! The program that replays a night from standard input.

use std::fs::File;
use std::io::Write;
use std::process::{Child, Command, Output, Stdio};
use std::thread;

use crate::calls::{showing_disabled, Call};
use crate::capitals::respelled_night;
use crate::night::{any_night, e4, e5, expected, night_of};

fn program(arguments: &[&str]) -> Command {
    let mut command = Command::new(env!("CARGO_BIN_EXE_second_replay"));
    command.args(arguments).stdout(Stdio::piped());
    command.stderr(Stdio::piped());
    command
}

/// Feeds the night from a thread, so that a full pipe stops neither side.
fn feed(mut child: Child, night: Vec<u8>) -> Output {
    let mut input = child.stdin.take().unwrap();
    // A program that ends early reads no further.
    let feeding = thread::spawn(move || drop(input.write_all(&night)));
    let output = child.wait_with_output().unwrap();
    feeding.join().unwrap();
    output
}

fn run(arguments: &[&str], night: Vec<u8>) -> Output {
    let mut command = program(arguments);
    feed(command.stdin(Stdio::piped()).spawn().unwrap(), night)
}

#[track_caller]
fn writes(output: Output, status: i32, report: &str, message: &str) {
    assert_eq!(output.status.code(), Some(status));
    assert_eq!(String::from_utf8(output.stdout).unwrap(), report);
    assert_eq!(String::from_utf8(output.stderr).unwrap(), message);
}

#[test]
fn reports_and_tallies() {
    let night = night_of(&[e4(), e5()]);
    let report = "0 0 0 0\n1 1 0 0\ntotal 2\n";
    writes(run(&[], night.clone()), 0, report, "");
    writes(run(&["tally"], night), 0, report, "0 1\n1 1\n");
    writes(run(&["tally"], Vec::new()), 0, "total 0\n", "");
}

#[test]
fn learns_from_disabled_servers() {
    let disabled = Call::at(1000, "a.b").with(showing_disabled([0x11; 64]));
    let report = "0 0 0 0\n1 1 0 0\ntotal 2\n";
    writes(run(&[], night_of(&[disabled, e5()])), 0, report, "");
}

#[test]
fn capitals_make_no_difference() {
    let calls = any_night(2, 1000);
    let (text, tally) = expected(&calls);
    let night = night_of(&respelled_night(3, &calls));
    writes(run(&["tally"], night), 0, &text, &tally.to_string());
}

#[test]
fn a_bad_call_is_no_error() {
    let mut night = night_of(&[e4(), e5()]);
    night.pop();
    let report = "0 0 0 0\nbad\n";
    writes(run(&[], night.clone()), 0, report, "");
    writes(run(&["tally"], night), 0, report, "0 1\n");
}

#[test]
fn a_long_night() {
    let calls = any_night(6, 4000);
    let (text, tally) = expected(&calls);
    let output = run(&["tally"], night_of(&calls));
    writes(output, 0, &text, &tally.to_string());
}

#[test]
fn other_arguments() {
    let usage = "usage: second_replay [tally]\n";
    let wrong: [&[&str]; 6] = [
        &[""],
        &["tall"],
        &["Tally"],
        &["--help"],
        &["tally", "tally"],
        &["-", "tally"],
    ];
    for arguments in wrong {
        writes(run(arguments, night_of(&[e4()])), 2, "", usage);
    }
}

/// A directory can be opened but not read.
#[cfg(unix)]
#[test]
fn a_read_error() {
    let directory = File::open(".").unwrap();
    let output = program(&["tally"]).stdin(directory).output().unwrap();
    assert_eq!(output.status.code(), Some(1));
    assert!(output.stdout.is_empty());
    assert!(output.stderr.starts_with(b"second_replay: "));
}

#[test]
fn a_write_error() {
    let mut command = program(&["tally"]);
    let mut child = command.stdin(Stdio::piped()).spawn().unwrap();
    drop(child.stdout.take());
    let output = feed(child, night_of(&[e4(), e5()]));
    assert_eq!(output.status.code(), Some(1));
    assert!(output.stderr.starts_with(b"second_replay: "));
}
