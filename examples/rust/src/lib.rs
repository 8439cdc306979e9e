//! The Hitac proof engine for Rust: a value that owns the space that the calls need, and results as `Result`.
#[rustfmt::skip]
mod raw;
mod refusal;

use std::fmt;

/// Machine stack that each call needs, in bytes, besides what this wrapper takes: for threads with small stacks.
pub use raw::{
    CHECK_FLAT_STACK, CHECK_STACK, FLATTEN_STACK, READ_TEXT_STACK, RESUME_STACK, RUN_HALTING_STACK, RUN_STACK,
    SEARCH_STACK, WRITE_PROOF_STACK, WRITE_TEXT_STACK,
};
pub use refusal::{Cause, File, Refusal};

/// Bytes of a saved state.
pub const STATE: usize = raw::STATE;

/// The version of the header that this wrapper follows.
pub const VERSION: Version = Version { major: raw::VERSION_MAJOR, minor: raw::VERSION_MINOR };

/// The minor number goes up with each new call, the major number when programs have to be compiled anew.
#[derive(Clone, Copy, Debug, PartialEq, Eq)]
pub struct Version {
    pub major: u32,
    pub minor: u32,
}

impl fmt::Display for Version {
    fn fmt(&self, f: &mut fmt::Formatter<'_>) -> fmt::Result {
        write!(f, "{}.{}", self.major, self.minor)
    }
}

/// The version of the library that is linked.
pub fn version() -> Version {
    let number = raw::version();
    Version { major: number / 65536, minor: number % 65536 }
}

/// What is counted in an accepted proof.
#[derive(Clone, Copy, Debug, PartialEq, Eq)]
pub struct Accepted {
    pub fields: u32,
    pub uses: u32,
    pub open: u32,
    /// Different rules that were used: rules of the table, so a name that was used on two goals counts twice.
    pub rules: u32,
}

/// As the check program prints it.
impl fmt::Display for Accepted {
    fn fmt(&self, f: &mut fmt::Formatter<'_>) -> fmt::Result {
        let Accepted { fields, uses, open, rules } = self;
        write!(f, "accepted fields {fields} uses {uses} open {open} rules {rules}")
    }
}

/// What is counted in a right derivation.
#[derive(Clone, Copy, Debug, PartialEq, Eq)]
pub struct Right {
    pub uses: u32,
    pub open: u32,
    /// Different rules that were used, as in an accepted proof.
    pub rules: u32,
}

/// The proof file that a run or a search gives, and the terms that it began.
#[derive(Clone, Debug, PartialEq, Eq)]
pub struct Ran {
    pub proof: Vec<u8>,
    pub steps: u32,
}

/// What a run that may halt comes to.
#[derive(Clone, Debug, PartialEq, Eq)]
pub enum Stepped {
    Ended(Ran),
    /// The budget is spent; the bytes are the saved state, for `Engine::resume` and for a debugger that shows it.
    Halted(Vec<u8>),
}

/// The space that is lent to the calls. One value serves any number of calls, one after the other.
pub struct Engine {
    work: Vec<u8>,
    frames: Vec<raw::Frame>,
    out: Vec<u8>,
    state: Vec<u8>,
}

impl Engine {
    /// # Panics
    /// If the library that is linked has another major version than this wrapper, or a smaller minor one.
    pub fn new() -> Engine {
        let Version { major, minor } = version();
        assert!(
            major == VERSION.major && minor >= VERSION.minor,
            "the library has version {major}.{minor}, not {VERSION}"
        );
        let longest = [raw::LONGEST_PROOF, raw::LONGEST_FLAT, raw::LONGEST_TERM, raw::LONGEST_TEXT];
        Engine {
            // The most demanding call is the search.
            work: vec![0; raw::SEARCH_WORK],
            frames: vec![raw::Frame::default(); raw::FRAMES],
            out: vec![0; longest.into_iter().fold(0, usize::max)],
            state: vec![0; raw::STATE],
        }
    }

    // Each call is lent no more work space than it needs, because it clears all that it was lent.

    /// Whether the proof is accepted in the table. Zero bytes are a proof, a blank document: no goals, the empty hiproof and none
    /// remaining. They are accepted, so do not pass `fs::read(path).unwrap_or_default()`: a missing file would be accepted.
    pub fn check(&mut self, table: &[u8], proof: &[u8]) -> Result<Accepted, Refusal> {
        let work = &mut self.work[..raw::CHECK_WORK];
        let answer = succeeded(raw::check(table, proof, work))?;
        Ok(Accepted { fields: answer.fields, uses: answer.uses, open: answer.remaining, rules: answer.rules })
    }

    /// Runs the tactic of the job in at most `budget` steps, of which 16,384 are the most.
    pub fn run(&mut self, table: &[u8], job: &[u8], budget: u32) -> Result<Ran, Refusal> {
        let work = &mut self.work[..raw::RUN_WORK];
        let answer = succeeded(raw::run(table, job, budget, work, &mut self.out))?;
        Ok(Ran { proof: self.result(answer), steps: answer.steps })
    }

    /// As `run`; a run whose budget is spent is halted, which is no refusal here. With a budget of 0 it halts before the first term.
    pub fn run_halting(&mut self, table: &[u8], job: &[u8], budget: u32) -> Result<Stepped, Refusal> {
        let answer = raw::run_halting(table, job, budget, self.lent(raw::RUN_HALTING_WORK));
        self.stepped(answer)
    }

    /// Goes on with a halted run of the same table and job for so many more steps, all together 16,384 at most; comes to what
    /// `run_halting` comes to with all of them.
    pub fn resume(&mut self, table: &[u8], job: &[u8], saved: &[u8], budget: u32) -> Result<Stepped, Refusal> {
        let answer = raw::resume(table, job, saved, budget, self.lent(raw::RESUME_WORK));
        self.stepped(answer)
    }

    /// Looks for an evaluation of the job's tactic that is at most so many rules high, 64 at most, in at most so many steps, of
    /// which 4,096 are the most.
    pub fn search(&mut self, table: &[u8], job: &[u8], height: u32, budget: u32) -> Result<Ran, Refusal> {
        let work = &mut self.work[..raw::SEARCH_WORK];
        let answer = succeeded(raw::search(table, job, height, budget, work, &mut self.out))?;
        Ok(Ran { proof: self.result(answer), steps: answer.steps })
    }

    /// The flat file of an accepted proof; of one of zero bytes, an empty goal list.
    pub fn flatten(&mut self, table: &[u8], proof: &[u8]) -> Result<Vec<u8>, Refusal> {
        let work = &mut self.work[..raw::FLATTEN_WORK];
        let answer = succeeded(raw::flatten(table, proof, work, &mut self.out))?;
        Ok(self.result(answer))
    }

    /// Whether the flat derivation is right in the table.
    pub fn check_flat(&mut self, table: &[u8], flat: &[u8]) -> Result<Right, Refusal> {
        let work = &mut self.work[..raw::CHECK_FLAT_WORK];
        let answer = succeeded(raw::check_flat(table, flat, work))?;
        Ok(Right { uses: answer.uses, open: answer.remaining, rules: answer.rules })
    }

    /// The proof file of a right derivation.
    pub fn write_proof(&mut self, table: &[u8], flat: &[u8]) -> Result<Vec<u8>, Refusal> {
        let work = &mut self.work[..raw::WRITE_PROOF_WORK];
        let answer = succeeded(raw::write_proof(table, flat, work, &mut self.out))?;
        Ok(self.result(answer))
    }

    /// The term file of a text in the notation.
    pub fn read_text(&mut self, text: impl AsRef<[u8]>) -> Result<Vec<u8>, Refusal> {
        let work = &mut self.work[..raw::READ_TEXT_WORK];
        let answer = succeeded(raw::read_text(text.as_ref(), work, &mut self.out))?;
        Ok(self.result(answer))
    }

    /// The text of a term file.
    pub fn write_text(&mut self, term: &[u8]) -> Result<String, Refusal> {
        let work = &mut self.work[..raw::WRITE_TEXT_WORK];
        let answer = succeeded(raw::write_text(term, work, &mut self.out))?;
        Ok(String::from_utf8(self.result(answer)).expect("the notation has bytes of ASCII only"))
    }

    fn lent(&mut self, work: usize) -> raw::Lent<'_> {
        let Engine { work: space, frames, out, state } = self;
        raw::Lent { work: &mut space[..work], frames, out, state }
    }

    fn stepped(&self, answer: raw::Answer) -> Result<Stepped, Refusal> {
        if answer.number == Cause::BudgetSpent as u32 {
            return Ok(Stepped::Halted(self.state.clone()));
        }
        let answer = succeeded(answer)?;
        Ok(Stepped::Ended(Ran { proof: self.result(answer), steps: answer.steps }))
    }

    fn result(&self, answer: raw::Answer) -> Vec<u8> {
        self.out[..answer.length as usize].to_vec()
    }
}

impl Default for Engine {
    fn default() -> Engine {
        Engine::new()
    }
}

fn succeeded(answer: raw::Answer) -> Result<raw::Answer, Refusal> {
    match answer.number {
        0 => Ok(answer),
        _ => Err(Refusal::of(answer)),
    }
}
