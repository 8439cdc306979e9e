//! A library that is wrong must be reported, and a right one must not.

use std::path::{Path, PathBuf};
use std::process::{Command, Output};

/// The stub stands where cargo builds the examples beside this test.
fn stub() -> PathBuf {
    let test = std::env::current_exe().unwrap();
    test.parent().unwrap().parent().unwrap().join("examples/libstub.so")
}

/// A folder of that name for each test, since tests run side by side.
fn folder(name: &str) -> PathBuf {
    Path::new(env!("CARGO_TARGET_TMPDIR")).join(name.replace(' ', "-"))
}

/// Replays with a stub that has that fault.
fn replay(fault: &str, arguments: &[&str]) -> Output {
    Command::new(env!("CARGO_BIN_EXE_replay"))
        .env("HITAC_STUB_FAULT", fault)
        .arg("--library")
        .arg(stub())
        .args(arguments)
        .output()
        .unwrap()
}

fn generated(fault: &str, name: &str) -> Output {
    let folder = folder(name);
    let _ = std::fs::remove_dir_all(&folder);
    // The number of cases is such that every fault has its occasion.
    replay(fault, &["--cases", "2300", "--differences", folder.to_str().unwrap()])
}

fn vector_files(fault: &str) -> Vec<PathBuf> {
    let files = std::fs::read_dir(folder(fault)).unwrap().map(|entry| entry.unwrap().path());
    files.filter(|path| path.extension().is_some_and(|extension| extension == "vec")).collect()
}

#[test]
fn a_right_library_has_no_difference() {
    let output = generated("", "right");
    let text = String::from_utf8_lossy(&output.stdout);
    assert_eq!(output.status.code(), Some(0), "{text}");
    assert!(text.contains("2,300 cases, 0 differences"), "{text}");
}

#[test]
fn every_fault_is_reported_with_a_file_that_replays_it() {
    for fault in [
        "place",
        "rules",
        "number for a later call",
        "work",
        "guard",
        "refused output",
        "output behind",
        "earlier contents",
        "frame",
        "frame behind",
        "state",
        "state behind",
        "state not ended with zeros",
        "state of another answer",
        "steps of a part",
        "genuine not tested",
        "crash",
        "crash at 22",
    ] {
        let output = generated(fault, fault);
        assert_eq!(output.status.code(), Some(1), "{fault}");
        let files = vector_files(fault);
        assert!(!files.is_empty(), "{fault}");
        let file = files[0].to_str().unwrap();
        assert_ne!(replay(fault, &["--file", file]).status.code(), Some(0), "{fault}");
        assert_eq!(replay("", &["--file", file]).status.code(), Some(0), "{fault}");
    }
}

#[test]
fn the_text_says_what_differed_and_how_to_replay_it() {
    let output = generated("refused output", "text");
    let text = String::from_utf8_lossy(&output.stdout);
    assert!(text.contains("output space: byte 0 is"), "{text}");
    assert!(text.contains("to replay it: boundary/replay --file"), "{text}");
}

#[test]
fn a_missing_library_is_no_success() {
    let output = Command::new(env!("CARGO_BIN_EXE_replay")).args(["--library", "no/library.so"]).output().unwrap();
    assert_eq!(output.status.code(), Some(3));
}
