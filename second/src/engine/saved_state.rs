//! P1: the saved state of a halted run, and a run that is taken up from it.
//!
//! "its step count, the fields finished so far, and the waiting terms, each with its
//! goals still to come, innermost last". docs/FORMAT.md gives the layout; B1.11, B1.15
//! and B1.16 say what was decided.

use super::run::{self, Beginning, Ending, Waiting};
use super::HaltingRun;
use crate::answer::{Reason, Refusal};
use crate::format::job::Job;
use crate::format::table::Table;
use crate::format::terms::{TermNumber, Terms};
use crate::format::write::{write_hiproof, HiproofField};
use crate::limits::STATE_SIZE;
use crate::names::Goal;

/// A machine whose state can be saved.
type Machine<'a> = run::Machine<'a, true>;

/// Which file a term stands in.
const IN_TABLE: u8 = 0;
const IN_JOB: u8 = 1;

/// What the term of an entry does.
const TO_BEGIN: u8 = 0;
const LABEL: u8 = 1;
const SEQUENCE_LEFT: u8 = 2;
const SEQUENCE_RIGHT: u8 = 3;
const TENSOR_LEFT: u8 = 4;
const TENSOR_RIGHT: u8 = 5;
const ALTERNATION_LEFT: u8 = 6;

/// The step count of a saved state, of whatever size: its first two bytes, "b being 0
/// if the state is too short to hold it" (B1.10, B1.11).
pub fn step_count(saved: &[u8]) -> u32 {
    match saved {
        [high, low, ..] => u32::from(u16::from_be_bytes([*high, *low])),
        _ => 0,
    }
}

/// A saved state without the zeros at its end.
pub struct SavedState {
    contents: Vec<u8>,
}

impl SavedState {
    /// "its state fills the first bytes ... of a second space, zeros last and bytes past
    /// them untouched". The space is known to be long enough.
    pub fn write_to(&self, space: &mut [u8]) {
        let (contents, zeros) = space[..STATE_SIZE].split_at_mut(self.contents.len());
        contents.copy_from_slice(&self.contents);
        zeros.fill(0);
    }

    /// Whether these bytes are the whole state, zeros included; those by blocks.
    fn is(&self, saved: &[u8]) -> bool {
        const ZEROS: [u8; 4_096] = [0; 4_096];
        let is_zero = |block: &[u8]| block == &ZEROS[..block.len()];
        saved.len() == STATE_SIZE
            && saved.starts_with(&self.contents)
            && saved[self.contents.len()..].chunks(ZEROS.len()).all(is_zero)
    }
}

/// Runs the job as far as the budget allows.
pub fn run_halting(table: &Table, terms: &Terms, job: &Job, budget: u32) -> Result<HaltingRun, Refusal> {
    let mut machine = Machine::new(table, terms);
    let ending = machine.run(job.beginning(), budget)?;
    Ok(come_to(&machine, terms, job, ending))
}

/// Takes up a run where it was saved, for so many more steps.
///
/// "A saved state counts as genuine exactly if the same table and job, run for its step
/// count, halt with those bytes": so they are run, and what has then halted goes on. A
/// run that ends earlier is not genuine (B1.13).
pub fn resume(table: &Table, terms: &Terms, job: &Job, saved: &[u8], budget: u32) -> Result<HaltingRun, Refusal> {
    let not_genuine = Refusal::without_file(Reason::StateNotGenuine);
    if saved.len() != STATE_SIZE {
        return Err(not_genuine);
    }
    let mut machine = Machine::new(table, terms);
    let Ok(Ending::Halted(beginning)) = machine.run(job.beginning(), step_count(saved)) else {
        return Err(not_genuine);
    };
    if !state_of(&machine, terms, job, &beginning).is(saved) {
        return Err(not_genuine);
    }
    let ending = machine.run(beginning, step_count(saved) + budget)?;
    Ok(come_to(&machine, terms, job, ending))
}

fn come_to(machine: &Machine, terms: &Terms, job: &Job, ending: Ending) -> HaltingRun {
    match ending {
        Ending::Succeeded(remaining) => HaltingRun::Succeeded(machine.success(job, &remaining)),
        Ending::Halted(beginning) => {
            HaltingRun::Halted { steps: machine.steps, state: state_of(machine, terms, job, &beginning) }
        }
    }
}

/// The state of a machine that has halted before this beginning.
fn state_of(machine: &Machine, terms: &Terms, job: &Job, beginning: &Beginning) -> SavedState {
    let mut writer = EntryWriter { terms, first_of_job: job.tactic, bytes: Vec::new() };
    // At most 16,384 steps, as many entries and one, and 4,096 fields of five bytes (40):
    // all counts fit 16 bits.
    writer.value(machine.steps as usize);
    let finished = finished_fields(machine);
    let length_at = writer.bytes.len();
    writer.value(0);
    write_hiproof(&finished, &mut writer.bytes);
    let length = (writer.bytes.len() - length_at - 2) as u16;
    writer.bytes[length_at..length_at + 2].copy_from_slice(&length.to_be_bytes());
    writer.value(machine.waiting.len() + 1);
    let own_goals = own_goals_of_alternations(machine, beginning);
    for (waiting, own) in machine.waiting.iter().zip(own_goals) {
        match &waiting.term {
            Waiting::Label { inner, .. } => writer.entry(LABEL, *inner, &[]),
            Waiting::SequenceLeft { right, .. } => writer.entry(SEQUENCE_LEFT, *right, &[]),
            Waiting::SequenceRight { right, .. } => writer.entry(SEQUENCE_RIGHT, *right, &[]),
            Waiting::TensorLeft { right, others, .. } => writer.entry(TENSOR_LEFT, *right, others),
            Waiting::TensorRight { right, left_gave, .. } => writer.entry(TENSOR_RIGHT, *right, left_gave),
            Waiting::AlternationLeft { right, goals, .. } => writer.entry(ALTERNATION_LEFT, *right, &goals[..own]),
        }
    }
    writer.entry(TO_BEGIN, beginning.term, &beginning.goals);
    SavedState { contents: writer.bytes }
}

/// The fields of the terms that have ended, without those of the terms that wait. What
/// is left are whole terms: the left one of each sequence and tensor whose right one
/// runs. Those of a failed alternative were dropped when it failed (B1.15). They are the
/// held fields of P12, so their number need not stand in the state.
fn finished_fields(machine: &Machine) -> Vec<HiproofField> {
    let mut finished = Vec::with_capacity(machine.fields.len());
    let mut behind = 0;
    for waiting in &machine.waiting {
        let own_field = match &waiting.term {
            Waiting::Label { own_field, .. }
            | Waiting::SequenceLeft { own_field, .. }
            | Waiting::SequenceRight { own_field, .. }
            | Waiting::TensorLeft { own_field, .. }
            | Waiting::TensorRight { own_field, .. } => *own_field,
            Waiting::AlternationLeft { .. } => continue,
        };
        finished.extend_from_slice(&machine.fields[behind..own_field]);
        behind = own_field + 1;
    }
    finished.extend_from_slice(&machine.fields[behind..]);
    finished
}

/// For each waiting term how many of the first goals of its list stand in its own entry,
/// if it is an alternation: those that no entry inside it holds. A goal that still waits
/// for an inner term stands there; one that an inner term has used up, only here.
///
/// What the entries inside a term hold is always an end of the list on which the term
/// began, since left terms go first.
fn own_goals_of_alternations(machine: &Machine, beginning: &Beginning) -> Vec<usize> {
    let mut own_goals = vec![0; machine.waiting.len()];
    let mut held_inside = beginning.goals.len();
    for (waiting, own) in machine.waiting.iter().zip(&mut own_goals).rev() {
        held_inside = match &waiting.term {
            Waiting::Label { .. } | Waiting::SequenceLeft { .. } | Waiting::TensorRight { .. } => held_inside,
            Waiting::SequenceRight { .. } => 0,
            Waiting::TensorLeft { others, .. } => held_inside + others.len(),
            Waiting::AlternationLeft { goals, .. } => {
                *own = goals.len() - held_inside;
                goals.len()
            }
        };
    }
    own_goals
}

struct EntryWriter<'a> {
    terms: &'a Terms,
    /// The job's terms stand behind those of the table, its whole term first.
    first_of_job: TermNumber,
    bytes: Vec<u8>,
}

impl EntryWriter<'_> {
    fn value(&mut self, value: usize) {
        self.bytes.extend((value as u16).to_be_bytes());
    }

    fn entry(&mut self, stage: u8, term: TermNumber, goals: &[Goal]) {
        let file = if term.0 < self.first_of_job.0 { IN_TABLE } else { IN_JOB };
        self.bytes.extend([stage, file]);
        self.value(self.terms.place(term));
        self.value(goals.len());
        self.bytes.extend(goals.iter().flat_map(|goal| goal.0.to_be_bytes()));
    }
}
