//! Replays generated cases against the built library and the second engine.

use boundary::compare::{name_of, Comparer, Comparison};
use boundary::exact::compare_exactly;
use boundary::lent::Poison;
use boundary::library::Library;
use boundary::mix::Mix;
use boundary::options::Options;
use boundary::record;
use boundary::tally::{with_commas, Tally};
use boundary::watch::{run_watched, Ended, PresentCall, IN_PROCESS};
use second::generate::case::Case;
use std::path::{Path, PathBuf};
use std::process::ExitCode;
use std::sync::atomic::{AtomicU64, Ordering::Relaxed};
use std::thread::Builder;
use std::time::Instant;

const HELP: &str = "\
replay: the built engine against the second engine, through the C functions

  replay [--cases N] [--seed S] [--library PATH] [--differences FOLDER]
         [--threads N] [--exact]
  replay --file VECTORS [--library PATH]
  replay --only NUMBER [--seed S] [--library PATH]

  --cases N             how many generated cases (20,000)
  --seed S              which ones (1)
  --only NUMBER         the generated case of that number alone
  --file VECTORS        the cases of a vector file, each with every poison; of a file of
                        over twenty cases only those that differ are named
  --library PATH        the library (target/library/libhitac.so)
  --differences FOLDER  where cases that differ are written (target/differences)
  --threads N           threads that call at the same time (1)
  --exact               heap blocks of exact size without contents, for a memory checker
  --in-process          do not watch over the calls from a second process

Exit status: 0 no difference; 1 a difference, or the library ended the process;
2 the command is not understood; 3 a file cannot be read or written.
";

const VALUED: [&str; 7] = ["--cases", "--seed", "--only", "--file", "--library", "--differences", "--threads"];
const FLAGS: [&str; 3] = ["--exact", IN_PROCESS, "--help"];

/// Generated cases to be replayed.
struct Job {
    first: u64,
    cases: u64,
    seed: u64,
    library: PathBuf,
    differences: PathBuf,
    exact: bool,
    threads: u64,
}

fn main() -> ExitCode {
    let arguments: Vec<String> = std::env::args().skip(1).collect();
    match Options::of(&arguments, &VALUED, &FLAGS) {
        Ok(options) if options.has("--help") => {
            print!("{HELP}");
            ExitCode::SUCCESS
        }
        Ok(options) => perform(&options, &arguments).unwrap_or_else(|message| {
            eprintln!("replay: {message}");
            ExitCode::from(3)
        }),
        Err(message) => {
            eprintln!("replay: {message}; --help lists the options");
            ExitCode::from(2)
        }
    }
}

fn perform(options: &Options, arguments: &[String]) -> Result<ExitCode, String> {
    let library = PathBuf::from(options.text("--library").unwrap_or("target/library/libhitac.so"));
    if let Some(file) = options.text("--file") {
        return replay_file(&Library::load(&library)?, Path::new(file));
    }
    let only = options.text("--only").is_some();
    let job = Job {
        first: options.number("--only", 0)?,
        cases: if only { 1 } else { options.number("--cases", 20_000)? },
        seed: options.number("--seed", 1)?,
        library,
        differences: PathBuf::from(options.text("--differences").unwrap_or("target/differences")),
        exact: options.has("--exact"),
        threads: options.number("--threads", 1)?.max(1),
    };
    if options.has(IN_PROCESS) {
        return replay_generated(&job);
    }
    watch_over(&job, arguments)
}

/// Makes the calls in a process of their own: if one of them ends it, its case
/// is written down like any other difference.
fn watch_over(job: &Job, arguments: &[String]) -> Result<ExitCode, String> {
    let signal = match run_watched(arguments)? {
        Ended::Status(status) => return Ok(ExitCode::from(status)),
        Ended::Signal(signal) => signal,
    };
    let number = PresentCall::read(&job.differences)?;
    let (_, case) = Mix::new(job.seed).case(number);
    let what = [format!("the call ended the process with signal {signal}")];
    print!("{}", record::write(&job.differences, &record_name(job, number), &case, &what)?);
    Ok(ExitCode::from(1))
}

fn record_name(job: &Job, number: u64) -> String {
    format!("seed-{}-case-{number}", job.seed)
}

/// What the threads of a replay share.
struct Shared<'a> {
    job: &'a Job,
    library: Library,
    mix: Mix,
    present_call: PresentCall,
    start: Instant,
    done: AtomicU64,
    differences: AtomicU64,
}

/// As much stack as a main thread has: a term may be 4,096 fields deep.
const STACK: usize = 8 << 20;

fn replay_generated(job: &Job) -> Result<ExitCode, String> {
    let shared = &Shared {
        job,
        library: Library::load(&job.library)?,
        mix: Mix::new(job.seed),
        present_call: PresentCall::open(&job.differences)?,
        start: Instant::now(),
        done: AtomicU64::new(0),
        differences: AtomicU64::new(0),
    };
    let tallies: Result<Vec<Tally>, String> = std::thread::scope(|scope| {
        let spawn = |thread| Builder::new().stack_size(STACK).spawn_scoped(scope, move || shared.replay_part(thread));
        let threads: Vec<_> = (0..job.threads).map(spawn).collect();
        threads.into_iter().map(|thread| thread.map_err(|error| error.to_string())?.join().expect("no panic")).collect()
    });
    let mut tally = Tally::default();
    tallies?.into_iter().for_each(|part| tally.add(part));
    Ok(conclude(job, &tally, shared.start))
}

impl Shared<'_> {
    /// Every case whose number falls to that thread.
    fn replay_part(&self, thread: u64) -> Result<Tally, String> {
        let job = self.job;
        let mut comparer = Comparer::new(self.library);
        let mut tally = Tally::default();
        let mut number = job.first + thread;
        while number < job.first + job.cases {
            let (kind, case) = self.mix.case(number);
            self.present_call.set(number);
            let comparison = if job.exact {
                compare_exactly(&self.library, &case)
            } else {
                comparer.compare(&case, Poison::ALL[(number % 3) as usize])
            };
            tally.count(case.entry, comparison.expected, !comparison.differences.is_empty());
            tally.count_kind(kind);
            if !comparison.differences.is_empty() {
                self.report(number, &case, &comparison)?;
            }
            self.show_progress();
            number += job.threads;
        }
        Ok(tally)
    }

    fn report(&self, number: u64, case: &Case, comparison: &Comparison) -> Result<(), String> {
        self.differences.fetch_add(1, Relaxed);
        let name = record_name(self.job, number);
        print!("difference in {}", record::write(&self.job.differences, &name, case, &comparison.differences)?);
        Ok(())
    }

    /// Long replays say twenty times how far they are.
    fn show_progress(&self) {
        let done = 1 + self.done.fetch_add(1, Relaxed);
        let cases = self.job.cases;
        if cases >= 50_000 && done.is_multiple_of(cases / 20) {
            eprintln!(
                "replay: {} of {} cases, {} differences, {} s",
                with_commas(done),
                with_commas(cases),
                self.differences.load(Relaxed),
                self.start.elapsed().as_secs()
            );
        }
    }
}

fn conclude(job: &Job, tally: &Tally, start: Instant) -> ExitCode {
    println!("{}", tally.table());
    println!("kinds: {}", tally.kinds_line());
    println!(
        "replay: seed {}, {} cases, {} differences, {:.1} s, {} {}{}",
        job.seed,
        with_commas(tally.cases),
        tally.differences,
        start.elapsed().as_secs_f64(),
        job.threads,
        if job.threads == 1 { "thread" } else { "threads" },
        if job.exact { ", blocks of exact size" } else { "" }
    );
    ExitCode::from(u8::from(tally.differences > 0))
}

/// A file of so many cases has a line for each of them.
const MOST_NAMED: usize = 20;

/// The cases of a vector file, each with every poison. The file's expectation is
/// compared, too: the second engine may have changed since.
fn replay_file(library: &Library, path: &Path) -> Result<ExitCode, String> {
    let mut comparer = Comparer::new(*library);
    let mut differences = 0;
    let cases = record::read(path)?;
    for (number, expected) in cases.iter().enumerate() {
        let case = &expected.case;
        let mut found = Vec::new();
        for poison in Poison::ALL {
            let comparison = comparer.compare(case, poison);
            if comparison.expected != expected.answer {
                found.push(format!("the file expects {:?}", expected.answer));
            }
            found.extend(comparison.differences.iter().map(|words| format!("{words} (poison {poison:?})")));
        }
        differences += u32::from(!found.is_empty());
        if cases.len() <= MOST_NAMED || !found.is_empty() {
            println!("case {number}, {}: {}", name_of(case.entry), if found.is_empty() { "agrees" } else { "differs" });
        }
        found.iter().for_each(|words| println!("  {words}"));
    }
    println!("replay: {}, {} cases, {differences} differences", path.display(), with_commas(cases.len() as u64));
    Ok(ExitCode::from(u8::from(differences > 0)))
}
