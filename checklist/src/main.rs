//! The checklist: four lines that a field engineer runs against a built library.

mod alternatives;
mod counts;
mod foreign_proofs;
mod inspector;
mod labels;
mod prover;
mod torn;
mod tree;

use boundary::library::Library;
use boundary::options::Options;
use boundary::watch::{run_watched, Ended, IN_PROCESS};
use inspector::Inspector;
use std::path::{Path, PathBuf};
use std::process::ExitCode;

const HELP: &str = "\
checklist: the four lines of the checklist against a built library

  checklist [--library PATH] [--differences FOLDER]

Every call is compared with the second engine: the answer, and every byte of the
lent spaces, which are poisoned before the call. A call that differs is written to
FOLDER (target/differences) as a file that boundary/replay --file replays.

Exit status: 0 no difference; 1 a difference, or the library ended the process;
2 the command is not understood; 3 the library cannot be loaded.
";

/// Makes the calls of a line and gives its counts in words; an error if the line
/// did not come to everything that it is about.
type Inspect = fn(&mut Inspector) -> Result<String, String>;

const LINES: [(&str, Inspect); 4] = [
    ("torn files and foreign tables", torn::inspect),
    ("tactics with failing alternatives", alternatives::inspect),
    ("proofs made by another prover", foreign_proofs::inspect),
    ("labels added and removed", labels::inspect),
];

fn main() -> ExitCode {
    let arguments: Vec<String> = std::env::args().skip(1).collect();
    match Options::of(&arguments, &["--library", "--differences"], &["--help", IN_PROCESS]) {
        Ok(options) if options.has("--help") => {
            print!("{HELP}");
            ExitCode::SUCCESS
        }
        Ok(options) => perform(&options, &arguments).unwrap_or_else(|message| {
            eprintln!("checklist: {message}");
            ExitCode::from(3)
        }),
        Err(message) => {
            eprintln!("checklist: {message}; --help lists the options");
            ExitCode::from(2)
        }
    }
}

fn perform(options: &Options, arguments: &[String]) -> Result<ExitCode, String> {
    let path = PathBuf::from(options.text("--library").unwrap_or("target/library/libhitac.so"));
    let folder = PathBuf::from(options.text("--differences").unwrap_or("target/differences"));
    if options.has(IN_PROCESS) {
        return go_through(Library::load(&path)?, &folder);
    }
    match run_watched(arguments)? {
        Ended::Status(status) => Ok(ExitCode::from(status)),
        Ended::Signal(signal) => write_down_end(signal, &folder),
    }
}

fn go_through(library: Library, folder: &Path) -> Result<ExitCode, String> {
    let mut wrong = false;
    for (number, (name, inspect)) in (1..).zip(LINES) {
        let mut inspector = Inspector::new(library, number, folder)?;
        let counts = inspect(&mut inspector).unwrap_or_else(|missing| {
            wrong = true;
            format!("NOT COMPLETE: {missing}")
        });
        println!("{number} {name}: {counts}; {} differences", inspector.differences);
        wrong |= inspector.differences > 0;
    }
    println!("checklist: {}", if wrong { "FAILED" } else { "passed, no difference" });
    Ok(ExitCode::from(u8::from(wrong)))
}

/// The library ended the process: goes over that line again without the library
/// and writes down the call at which it happened.
fn write_down_end(signal: i32, folder: &Path) -> Result<ExitCode, String> {
    let (number, call) = Inspector::ended_at(folder)?;
    let (name, inspect) = LINES[number as usize - 1];
    println!("{number} {name}: signal {signal} ended the process in call {call}");
    // The counts do not matter any more.
    let _ = inspect(&mut Inspector::of_ended_process(number, call, folder));
    println!("checklist: FAILED");
    Ok(ExitCode::from(1))
}
