//! The ten public calls: answers, and every byte of the lent spaces.

use crate::answer::{Answer, Reason, Refusal};
use crate::engine::{self, HaltingRun};
use crate::limits;

/// P1: what the maker lends for one waiting term. This engine keeps its own memory: it
/// counts the frames and clears them.
#[derive(Clone, Copy, PartialEq, Eq, Debug, Default)]
#[repr(C)]
pub struct Frame {
    pub term: u32,
    pub goals: u32,
    pub count: u16,
    pub stage: u16,
}

/// Checks a proof file against a table.
pub fn check(table: &[u8], proof: &[u8], work: &mut [u8]) -> Answer {
    with_work_space(work, limits::CHECK_WORK, || {
        let accepted = engine::check(table, proof)?;
        Ok(Answer {
            fields: accepted.fields as u32,
            uses: accepted.uses as u32,
            open: accepted.open as u32,
            rules: accepted.rules as u32,
            ..Answer::default()
        })
    })
}

/// Runs the tactic of a job file; a success is written to `output` as a proof file.
pub fn run(table: &[u8], job: &[u8], budget: u32, work: &mut [u8], output: &mut [u8]) -> Answer {
    with_work_space(work, limits::RUN_WORK, || {
        let success = engine::run(table, job, budget)?;
        hand_over(&success.proof, success.steps, output)
    })
}

/// Runs as `run` does; a halt, 24, writes its state to the front of `state` (P1).
pub fn run_halting(
    table: &[u8],
    job: &[u8],
    budget: u32,
    work: &mut [u8],
    frames: &mut [Frame],
    output: &mut [u8],
    state: &mut [u8],
) -> Answer {
    with_halting_spaces(work, limits::RUN_HALTING_WORK, frames, state, |state| {
        let ended = engine::run_halting(table, job, budget)?;
        hand_over_run(ended, output, state)
    })
}

/// Takes up the run that `saved` is the state of, for `budget` more steps; ends as
/// `run_halting` would with all steps as its budget (P1).
#[allow(clippy::too_many_arguments)]
pub fn resume(
    table: &[u8],
    job: &[u8],
    saved: &[u8],
    budget: u32,
    work: &mut [u8],
    frames: &mut [Frame],
    output: &mut [u8],
    state: &mut [u8],
) -> Answer {
    with_halting_spaces(work, limits::RESUME_WORK, frames, state, |state| {
        let ended = engine::resume(table, job, saved, budget)?;
        hand_over_run(ended, output, state)
    })
}

/// Writes the flat derivation of an accepted proof to `output`.
pub fn flatten(table: &[u8], proof: &[u8], work: &mut [u8], output: &mut [u8]) -> Answer {
    with_work_space(work, limits::FLATTEN_WORK, || {
        let flat = engine::flatten(table, proof)?;
        hand_over(&flat, 0, output)
    })
}

/// Checks a flat file against a table.
pub fn check_flat(table: &[u8], flat: &[u8], work: &mut [u8]) -> Answer {
    with_work_space(work, limits::CHECK_FLAT_WORK, || {
        let right = engine::check_flat(table, flat)?;
        Ok(Answer { uses: right.uses as u32, open: right.open as u32, rules: right.rules as u32, ..Answer::default() })
    })
}

/// Writes the proof of a right flat file to `output`.
pub fn write_proof(table: &[u8], flat: &[u8], work: &mut [u8], output: &mut [u8]) -> Answer {
    with_work_space(work, limits::WRITE_PROOF_WORK, || {
        let proof = engine::write_proof(table, flat)?;
        hand_over(&proof, 0, output)
    })
}

/// Reads a term written in the notation of P8; the term file is written to `output`.
pub fn read_text(text: &[u8], work: &mut [u8], output: &mut [u8]) -> Answer {
    with_work_space(work, limits::READ_TEXT_WORK, || {
        let term = engine::read_text(text)?;
        hand_over(&term, 0, output)
    })
}

/// Writes the term of a term file to `output` in the notation of P8.
pub fn write_text(term: &[u8], work: &mut [u8], output: &mut [u8]) -> Answer {
    with_work_space(work, limits::WRITE_TEXT_WORK, || {
        let text = engine::write_text(term)?;
        hand_over(&text, 0, output)
    })
}

/// Looks for an evaluation of a job's term at most `height` rules high; the first
/// one found is written to `output` as a proof file.
pub fn search(table: &[u8], job: &[u8], height: u32, budget: u32, work: &mut [u8], output: &mut [u8]) -> Answer {
    with_work_space(work, limits::SEARCH_WORK, || {
        let success = engine::search(table, job, height, budget)?;
        hand_over(&success.proof, success.steps, output)
    })
}

/// "29: work space shorter than the size docs/ names for that entry", before
/// anything else. "Work space is all zero afterwards, except after 29, when it
/// is untouched": the whole of what was lent (READINGS A53). This engine keeps
/// its own memory and only clears the space.
fn with_work_space(work: &mut [u8], size: usize, call: impl FnOnce() -> Result<Answer, Refusal>) -> Answer {
    if work.len() < size {
        return Refusal::without_file(Reason::LentSpaceTooShort).into();
    }
    let answer = call().unwrap_or_else(Answer::from);
    work.fill(0);
    answer
}

/// P1: a work space, frames or a second space that is too short is 29, and nothing is
/// touched (B1.3). The frames are cleared as the work space is; the second space is no
/// work space (B1.18).
fn with_halting_spaces(
    work: &mut [u8],
    work_size: usize,
    frames: &mut [Frame],
    state: &mut [u8],
    call: impl FnOnce(&mut [u8]) -> Result<Answer, Refusal>,
) -> Answer {
    if work.len() < work_size || frames.len() < limits::MOST_FRAMES || state.len() < limits::STATE_SIZE {
        return Refusal::without_file(Reason::LentSpaceTooShort).into();
    }
    let answer = with_work_space(work, work_size, || call(state));
    frames.fill(Frame::default());
    answer
}

/// "A halt is 24 as before", its state written; "no other answer touches" the second
/// space.
fn hand_over_run(ended: HaltingRun, output: &mut [u8], state: &mut [u8]) -> Result<Answer, Refusal> {
    match ended {
        HaltingRun::Succeeded(success) => hand_over(&success.proof, success.steps, output),
        HaltingRun::Halted { steps, state: saved } => {
            saved.write_to(state);
            Err(Refusal::of_run(Reason::BudgetSpent, steps))
        }
    }
}

/// "26 last": the output space is written only if the result fits; "a success
/// leaves the bytes past its result untouched". The steps are those of the whole
/// run or search also when the result does not fit (READINGS A3, B13.10).
fn hand_over(result: &[u8], steps: u32, output: &mut [u8]) -> Result<Answer, Refusal> {
    match output.get_mut(..result.len()) {
        Some(front) => front.copy_from_slice(result),
        None => return Err(Refusal::of_run(Reason::OutputSpaceTooShort, steps)),
    }
    Ok(Answer { steps, length: result.len() as u32, ..Answer::default() })
}
