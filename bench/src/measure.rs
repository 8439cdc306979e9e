//! Times and instruction counts of one call, by either engine.

use crate::counting::Counting;
use crate::families::{Called, Family};
use boundary::library::{Call, Library};
use second::generate::case::{Case, Entry, FRAME_FILL};
use second::{Answer, Frame};
use std::path::{Path, PathBuf};
use std::process::Command;
use std::time::Instant;

/// Whose call is measured.
#[derive(Clone, Copy, PartialEq, Eq)]
pub enum Engine {
    Library,
    Second,
}

impl Engine {
    pub fn name(self) -> &'static str {
        match self {
            Engine::Library => "library",
            Engine::Second => "second",
        }
    }

    pub fn of_name(name: &str) -> Option<Engine> {
        [Engine::Library, Engine::Second].into_iter().find(|engine| engine.name() == name)
    }
}

/// Where the libraries are; the processes in which instructions are counted load them, too.
pub struct Libraries {
    /// The library of the entries.
    pub hitac: PathBuf,
    /// The count alone; it is loaded where a count is measured.
    pub counting: PathBuf,
}

/// A call to be made many times.
pub struct Measured {
    prepared: Prepared,
    /// What it must give: the number of the answer, or the count.
    expected: usize,
}

/// A call with all that it takes.
enum Prepared {
    Entry(Box<EntryCall>),
    Count(Counting),
}

/// What a call gives.
#[derive(Debug)]
pub enum Given {
    Answer(Answer),
    Count(usize),
}

impl Given {
    /// What is known of it beforehand.
    fn number(&self) -> usize {
        match self {
            Given::Answer(answer) => answer.number as usize,
            Given::Count(count) => *count,
        }
    }
}

impl Measured {
    pub fn new(libraries: &Libraries, family: &Family, size: usize) -> Result<Measured, String> {
        let call = EntryCall::new(Library::load(&libraries.hitac)?, family.case(size));
        match family.called {
            Called::Entry(_) => {
                Ok(Measured { prepared: Prepared::Entry(Box::new(call)), expected: family.number as usize })
            }
            Called::Count => Measured::count(&libraries.counting, call),
        }
    }

    /// The count of the term in a call of check; an error unless both engines count as many fields as both answer with.
    fn count(counting: &Path, mut check: EntryCall) -> Result<Measured, String> {
        let answered = [check.library_call(), check.second_call()].map(|answer| answer.fields as usize);
        let counting = Counting::load(counting, check.case.other)?;
        let counted = [counting.library_count(), counting.second_count()];
        let expected = answered[0];
        if [answered, counted] != [[expected; 2]; 2] {
            return Err(format!("the engines count {counted:?} term fields, and check answers with {answered:?}"));
        }
        Ok(Measured { prepared: Prepared::Count(counting), expected })
    }

    pub fn call(&mut self, engine: Engine) -> Given {
        self.poison();
        hitac_bench_call(self, engine)
    }

    /// Nanoseconds of one call.
    fn time(&mut self, engine: Engine) -> f64 {
        self.poison();
        let start = Instant::now();
        let given = hitac_bench_call(self, engine);
        let time = start.elapsed().as_nanos() as f64;
        assert_eq!(given.number(), self.expected, "the call was answered otherwise than its family says");
        time
    }

    /// A count is lent no space.
    fn poison(&mut self) {
        if let Prepared::Entry(call) = &mut self.prepared {
            call.work.fill(165);
            call.frames.fill(FRAME_FILL);
        }
    }
}

/// A case with its spaces.
struct EntryCall {
    library: Library,
    case: Case,
    work: Vec<u8>,
    frames: Vec<Frame>,
    output: Vec<u8>,
    state: Vec<u8>,
}

impl EntryCall {
    fn new(library: Library, case: Case) -> EntryCall {
        let (work, output) = (vec![165; case.work_length], vec![90; case.output_length]);
        let (frames, state) = (vec![FRAME_FILL; case.frames], vec![60; case.state_length]);
        EntryCall { library, case, work, frames, output, state }
    }

    fn library_call(&mut self) -> Answer {
        let call = Call {
            entry: self.case.entry,
            table: (self.case.table.as_ptr(), self.case.table.len()),
            other: (self.case.other.as_ptr(), self.case.other.len()),
            saved: (self.case.saved.as_ptr(), self.case.saved.len()),
            height: self.case.height,
            budget: self.case.budget,
            work: (self.work.as_mut_ptr(), self.work.len()),
            frames: (self.frames.as_mut_ptr(), self.frames.len()),
            output: (self.output.as_mut_ptr(), self.output.len()),
            state: (self.state.as_mut_ptr(), self.state.len()),
        };
        // SAFETY: buffers of their own, each as long as it is said.
        unsafe { self.library.call(&call) }
    }

    /// The second engine clears the work space and the frames, too.
    fn second_call(&mut self) -> Answer {
        let EntryCall { case, work, frames, output, state, .. } = self;
        let (table, other, budget) = (&case.table, &case.other, case.budget);
        match case.entry {
            Entry::Check => second::check(&case.table, &case.other, work),
            Entry::Run => second::run(&case.table, &case.other, case.budget, work, output),
            Entry::Flatten => second::flatten(&case.table, &case.other, work, output),
            Entry::CheckFlat => second::check_flat(&case.table, &case.other, work),
            Entry::WriteProof => second::write_proof(&case.table, &case.other, work, output),
            Entry::ReadText => second::read_text(&case.other, work, output),
            Entry::WriteText => second::write_text(&case.other, work, output),
            Entry::Search => second::search(&case.table, &case.other, case.height, case.budget, work, output),
            Entry::RunHalting => second::run_halting(table, other, budget, work, frames, output, state),
            Entry::Resume => second::resume(table, other, &case.saved, budget, work, frames, output, state),
        }
    }
}

/// The one function whose instructions are counted; its name is known to the
/// counter, so it is neither renamed nor taken into its caller.
#[no_mangle]
#[inline(never)]
extern "Rust" fn hitac_bench_call(measured: &mut Measured, engine: Engine) -> Given {
    match (&mut measured.prepared, engine) {
        (Prepared::Entry(call), Engine::Library) => Given::Answer(call.library_call()),
        (Prepared::Entry(call), Engine::Second) => Given::Answer(call.second_call()),
        (Prepared::Count(counting), Engine::Library) => Given::Count(counting.library_count()),
        (Prepared::Count(counting), Engine::Second) => Given::Count(counting.second_count()),
    }
}

/// Medians of a family's largest call.
pub struct Times {
    /// Our nanoseconds for one call.
    pub ours: f64,
    /// Our time to the second engine's.
    pub ratio: f64,
}

/// Both engines in turn, so that whatever else the machine does falls on both.
pub fn times(libraries: &Libraries, family: &Family, rounds: usize) -> Result<Times, String> {
    let mut measured = Measured::new(libraries, family, family.most)?;
    let pairs: Vec<(f64, f64)> =
        (0..rounds).map(|_| (measured.time(Engine::Library), measured.time(Engine::Second))).collect();
    let ratios = pairs.iter().map(|(ours, seconds)| ours / seconds).collect();
    Ok(Times { ours: median(pairs.iter().map(|pair| pair.0).collect()), ratio: median(ratios) })
}

fn median(mut values: Vec<f64>) -> f64 {
    values.sort_by(f64::total_cmp);
    values[values.len() / 2]
}

/// Callgrind counts a repeated string instruction once for each byte, though it
/// moves many at a time; this keeps the C library from using them to clear and
/// copy blocks, so that counts stay near to times.
const NO_STRING_INSTRUCTIONS: &str =
    "glibc.cpu.x86_rep_movsb_threshold=4294967295:glibc.cpu.x86_rep_stosb_threshold=4294967295";

/// Instructions of one call, counted by callgrind in a process of its own.
pub fn instructions(libraries: &Libraries, family: &Family, size: usize, engine: Engine) -> Result<u64, String> {
    let program = std::env::current_exe().map_err(|error| error.to_string())?;
    let counts = std::env::temp_dir().join(format!("hitac-bench-{}.callgrind", std::process::id()));
    let output = Command::new("valgrind")
        .env("GLIBC_TUNABLES", NO_STRING_INSTRUCTIONS)
        .args(["--tool=callgrind", "--toggle-collect=hitac_bench_call", "--main-stacksize=16777216"])
        .arg(format!("--callgrind-out-file={}", counts.display()))
        .arg(program)
        .args(["--once", &family.key, "--size", &size.to_string(), "--engine", engine.name()])
        .args([
            "--library".as_ref(),
            libraries.hitac.as_os_str(),
            "--counting".as_ref(),
            libraries.counting.as_os_str(),
        ])
        .output()
        .map_err(|error| format!("valgrind cannot be started: {error}"))?;
    if !output.status.success() {
        return Err(format!("{} {size}: {}", family.key, String::from_utf8_lossy(&output.stderr)));
    }
    let text = std::fs::read_to_string(&counts).map_err(|error| error.to_string())?;
    let _ = std::fs::remove_file(&counts);
    total_of(&text).ok_or_else(|| "callgrind gave no total".to_string())
}

/// The count in callgrind's file.
fn total_of(text: &str) -> Option<u64> {
    let line = text.lines().find_map(|line| line.strip_prefix("summary:").or(line.strip_prefix("totals:")))?;
    line.trim().parse().ok()
}

#[cfg(test)]
mod tests {
    use super::*;

    #[test]
    fn the_median_is_the_middle_one() {
        assert_eq!(median(vec![9.0, 1.0, 5.0]), 5.0);
    }

    #[test]
    fn the_total_is_found() {
        assert_eq!(total_of("events: Ir\nsummary: 1234\n"), Some(1234));
        assert_eq!(total_of("events: Ir\n"), None);
    }
}
