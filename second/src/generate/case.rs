//! A call of an entry with everything lent to it, and what came of it.

use super::halting;
use crate::answer::{Answer, Refusal};
use crate::engine::{self, HaltingRun};
use crate::entries::Frame;
use crate::limits;

/// What the spaces are filled with before a call, so that bytes that ought to
/// stay untouched can be told. Fixed in docs/VECTORS.md.
pub const WORK_FILL: u8 = 165;
pub const OUTPUT_FILL: u8 = 90;
pub const STATE_FILL: u8 = 60;

/// Every byte of a frame that is lent, as in the work space.
pub const FRAME_FILL: Frame = Frame {
    term: u32::from_be_bytes([WORK_FILL; 4]),
    goals: u32::from_be_bytes([WORK_FILL; 4]),
    count: u16::from_be_bytes([WORK_FILL; 2]),
    stage: u16::from_be_bytes([WORK_FILL; 2]),
};

#[derive(Clone, Copy, PartialEq, Eq, Hash, PartialOrd, Ord, Debug)]
pub enum Entry {
    Check,
    Run,
    Flatten,
    CheckFlat,
    WriteProof,
    ReadText,
    WriteText,
    Search,
    RunHalting,
    Resume,
}

impl Entry {
    pub const ALL: [Entry; 10] = [
        Entry::Check,
        Entry::Run,
        Entry::Flatten,
        Entry::CheckFlat,
        Entry::WriteProof,
        Entry::ReadText,
        Entry::WriteText,
        Entry::Search,
        Entry::RunHalting,
        Entry::Resume,
    ];

    /// The entries that take a table besides the other file.
    pub const WITH_TABLE: [Entry; 8] = [
        Entry::Check,
        Entry::Run,
        Entry::Flatten,
        Entry::CheckFlat,
        Entry::WriteProof,
        Entry::Search,
        Entry::RunHalting,
        Entry::Resume,
    ];

    /// Those whose other file is a proof.
    pub const WITH_PROOF: [Entry; 2] = [Entry::Check, Entry::Flatten];

    /// Those of P1, which may halt: they are lent frames and a second space.
    pub const THAT_HALT: [Entry; 2] = [Entry::RunHalting, Entry::Resume];

    /// The entry's number in vector files.
    pub fn code(self) -> u8 {
        match self {
            Entry::Check => 1,
            Entry::Run => 2,
            Entry::Flatten => 3,
            Entry::CheckFlat => 4,
            Entry::WriteProof => 5,
            Entry::ReadText => 6,
            Entry::WriteText => 7,
            Entry::Search => 8,
            Entry::RunHalting => 9,
            Entry::Resume => 10,
        }
    }

    pub fn of_code(code: u8) -> Option<Entry> {
        Entry::ALL.into_iter().find(|entry| entry.code() == code)
    }

    pub fn work_size(self) -> usize {
        match self {
            Entry::Check => limits::CHECK_WORK,
            Entry::Run => limits::RUN_WORK,
            Entry::Flatten => limits::FLATTEN_WORK,
            Entry::CheckFlat => limits::CHECK_FLAT_WORK,
            Entry::WriteProof => limits::WRITE_PROOF_WORK,
            Entry::ReadText => limits::READ_TEXT_WORK,
            Entry::WriteText => limits::WRITE_TEXT_WORK,
            Entry::Search => limits::SEARCH_WORK,
            Entry::RunHalting => limits::RUN_HALTING_WORK,
            Entry::Resume => limits::RESUME_WORK,
        }
    }

    pub fn takes_table(self) -> bool {
        Entry::WITH_TABLE.contains(&self)
    }

    /// Whether the other file is a proof.
    pub fn takes_proof(self) -> bool {
        Entry::WITH_PROOF.contains(&self)
    }

    /// Whether a run may halt and be taken up again (P1).
    pub fn may_halt(self) -> bool {
        Entry::THAT_HALT.contains(&self)
    }

    /// The largest budget that is not refused, for a resumed run together with the
    /// steps of its saved state; 0 for an entry that has none.
    pub fn most_budget(self) -> u32 {
        match self {
            Entry::Run | Entry::RunHalting | Entry::Resume => limits::MOST_BUDGET,
            Entry::Search => limits::MOST_SEARCH_BUDGET,
            _ => 0,
        }
    }

    pub fn has_output(self) -> bool {
        !matches!(self, Entry::Check | Entry::CheckFlat)
    }
}

/// One call. The budget counts only for a run or search, the height only for a
/// search, the table only for the entries that take one; the output length is 0
/// where the entry has no output space. The saved state counts only for a resumed
/// run, and the last two only for the entries that may halt; elsewhere there is
/// nothing in them.
#[derive(Clone, PartialEq, Eq, Debug)]
pub struct Case {
    pub entry: Entry,
    pub table: Vec<u8>,
    pub other: Vec<u8>,
    pub saved: Vec<u8>,
    pub budget: u32,
    pub height: u32,
    pub work_length: usize,
    pub output_length: usize,
    pub frames: usize,
    pub state_length: usize,
}

/// What a call did.
pub struct Outcome {
    pub answer: Answer,
    /// The whole output space afterwards.
    pub output: Vec<u8>,
    /// The whole second space afterwards (P1).
    pub state: Vec<u8>,
    /// All zero, or untouched after 29; the frames as well.
    pub work_space_as_promised: bool,
}

impl Case {
    /// A call with the largest budget and height, the named work space and an
    /// output space a few bytes longer than the result. For an entry that takes no table it is
    /// a file of no bytes, whatever is given. A run is resumed where it has made half of
    /// its steps.
    pub fn new(entry: Entry, table: &[u8], other: &[u8]) -> Case {
        let table = if entry.takes_table() { table.to_vec() } else { Vec::new() };
        let mut case = Case::bare(entry, table, other.to_vec());
        case.height = if entry == Entry::Search { limits::MOST_HEIGHT } else { 0 };
        case.budget = entry.most_budget();
        if entry == Entry::Resume {
            case.saved = halting::half_way(&case.table, other);
            case.budget -= engine::saved_state::step_count(&case.saved);
        }
        case.output_length = case.roomy_output();
        case
    }

    /// A call with no budget, height, output space or saved state, and the named sizes
    /// of everything else.
    pub fn bare(entry: Entry, table: Vec<u8>, other: Vec<u8>) -> Case {
        let (frames, state_length) = if entry.may_halt() { (limits::MOST_FRAMES, limits::STATE_SIZE) } else { (0, 0) };
        let work_length = entry.work_size();
        let (budget, height, output_length) = (0, 0, 0);
        Case { entry, table, other, saved: vec![], budget, height, work_length, output_length, frames, state_length }
    }

    /// A run that is taken up, with as many more steps as are allowed.
    pub fn resumed(table: &[u8], job: &[u8], saved: &[u8]) -> Case {
        let budget = limits::MOST_BUDGET.saturating_sub(engine::saved_state::step_count(saved));
        Case::bare(Entry::Resume, table.to_vec(), job.to_vec()).with_saved(saved).with_budget(budget)
    }

    pub fn with_budget(mut self, budget: u32) -> Case {
        self.budget = budget;
        self.output_length = self.roomy_output();
        self
    }

    pub fn with_height(mut self, height: u32) -> Case {
        self.height = height;
        self.output_length = self.roomy_output();
        self
    }

    pub fn with_saved(mut self, saved: &[u8]) -> Case {
        self.saved = saved.to_vec();
        self.output_length = self.roomy_output();
        self
    }

    pub fn with_frames(mut self, frames: usize) -> Case {
        self.frames = frames;
        self
    }

    /// Another length of the second space.
    pub fn with_state(mut self, state_length: usize) -> Case {
        self.state_length = state_length;
        self
    }

    pub fn with_work(mut self, work_length: usize) -> Case {
        self.work_length = work_length;
        self
    }

    pub fn with_output(mut self, output_length: usize) -> Case {
        self.output_length = output_length;
        self
    }

    fn roomy_output(&self) -> usize {
        if !self.entry.has_output() {
            return 0;
        }
        self.measured_result().map_or(20, |result| result.len() + 5)
    }

    /// The result that lent output spaces are measured by. The flat form of a proof
    /// of no bytes is left out: before P7 there was none, and the vectors that stood
    /// then keep the spaces they lend.
    pub fn measured_result(&self) -> Option<Vec<u8>> {
        if self.entry.takes_proof() && self.other.is_empty() {
            return None;
        }
        self.result()
    }

    /// The bytes a call gives if the spaces suffice; None if it refuses, or if
    /// the entry has no output.
    pub fn result(&self) -> Option<Vec<u8>> {
        match self.entry {
            Entry::Check | Entry::CheckFlat => None,
            Entry::Run => engine::run(&self.table, &self.other, self.budget).ok().map(|run| run.proof),
            Entry::Flatten => engine::flatten(&self.table, &self.other).ok(),
            Entry::WriteProof => engine::write_proof(&self.table, &self.other).ok(),
            Entry::ReadText => engine::read_text(&self.other).ok(),
            Entry::WriteText => engine::write_text(&self.other).ok(),
            Entry::Search => {
                engine::search(&self.table, &self.other, self.height, self.budget).ok().map(|found| found.proof)
            }
            Entry::RunHalting => proof_of(engine::run_halting(&self.table, &self.other, self.budget)),
            Entry::Resume => proof_of(engine::resume(&self.table, &self.other, &self.saved, self.budget)),
        }
    }

    /// Makes the call with spaces filled beforehand.
    pub fn outcome(&self) -> Outcome {
        let mut work = vec![WORK_FILL; self.work_length];
        let mut output = vec![OUTPUT_FILL; self.output_length];
        let mut frames = vec![FRAME_FILL; self.frames];
        let mut state = vec![STATE_FILL; self.state_length];
        let (table, other, budget) = (&self.table, &self.other, self.budget);
        let answer = match self.entry {
            Entry::Check => crate::check(table, other, &mut work),
            Entry::Run => crate::run(table, other, budget, &mut work, &mut output),
            Entry::Flatten => crate::flatten(table, other, &mut work, &mut output),
            Entry::CheckFlat => crate::check_flat(table, other, &mut work),
            Entry::WriteProof => crate::write_proof(table, other, &mut work, &mut output),
            Entry::ReadText => crate::read_text(other, &mut work, &mut output),
            Entry::WriteText => crate::write_text(other, &mut work, &mut output),
            Entry::Search => crate::search(table, other, self.height, budget, &mut work, &mut output),
            Entry::RunHalting => {
                crate::run_halting(table, other, budget, &mut work, &mut frames, &mut output, &mut state)
            }
            Entry::Resume => {
                let saved = &self.saved;
                crate::resume(table, other, saved, budget, &mut work, &mut frames, &mut output, &mut state)
            }
        };
        let (byte, frame) = if answer.number == 29 { (WORK_FILL, FRAME_FILL) } else { (0, Frame::default()) };
        let as_promised = all_equal(&work, byte) && frames.iter().all(|&is| is == frame);
        Outcome { answer, output, state, work_space_as_promised: as_promised }
    }
}

fn proof_of(ended: Result<HaltingRun, Refusal>) -> Option<Vec<u8>> {
    match ended {
        Ok(HaltingRun::Succeeded(success)) => Some(success.proof),
        _ => None,
    }
}

/// Whether every byte is that one; by blocks, since a work space has up to 8 MiB.
fn all_equal(bytes: &[u8], byte: u8) -> bool {
    let block = [byte; 4_096];
    bytes.chunks(block.len()).all(|chunk| chunk == &block[..chunk.len()])
}
