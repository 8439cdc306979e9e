//! The runs that halt (document 02, P1), and those that are taken up half way. A size is
//! a number of steps, or of the goals or fields of which the state has so many.

use crate::files::Files;
use second::generate::build::*;
use second::generate::case::{Case, Entry};
use second::generate::halting::{state_at, steps_of};
use second::generate::{examples, limit_files};
use second::limits::{MOST_GOALS, STATE_SIZE};

/// A run with that budget.
fn halting((table, job): Files, budget: usize) -> Case {
    Case::new(Entry::RunHalting, &table, &job).with_budget(budget as u32)
}

/// A run halted one step before its end.
fn before_its_end(files: Files) -> Case {
    let steps = steps_of(&files.0, &files.1) as usize;
    halting(files, steps - 1)
}

/// A run of that budget, taken up half way.
fn resumed((table, job): Files, budget: usize) -> Case {
    let made = budget / 2;
    let saved = state_at(&table, &job, made as u32).expect("a run that halts half way");
    Case::resumed(&table, &job, &saved).with_budget((budget - made) as u32)
}

/// A run that ends by itself, taken up half way.
pub fn resumed_to_its_end(files: Files) -> Case {
    let steps = steps_of(&files.0, &files.1) as usize;
    resumed(files, steps)
}

/// T1, whose body has itself on one side: it never ends.
fn endless(body: Vec<u8>, goals: &[u16]) -> Files {
    (definition(1, &body), job(goals, &defined(1)))
}

/// Half as many alternations as steps wait on 256 goals.
fn alternations() -> Files {
    endless(alternation(&defined(1), &id()), &[1; MOST_GOALS])
}

/// Half as many sequences wait for their left terms.
fn sequences() -> Files {
    endless(sequence(&defined(1), &id()), &[1])
}

/// A third as many sequences wait for their right terms, each with a finished left one.
fn finished() -> Files {
    endless(sequence(&id(), &defined(1)), &[1])
}

/// The same with an alternation round each, all of whose goals are used up.
fn used_up() -> Files {
    endless(alternation(&sequence(&id(), &defined(1)), &empty()), &[1])
}

/// 63 labels round T1: all but one in 64 of the steps begin a label that waits.
fn ever_deeper() -> Files {
    endless(labels_around(63, &defined(1)), &[1])
}

/// Labels round an id.
fn labels(fields: usize) -> Files {
    (Vec::new(), job(&[1], &labels_around(fields - 1, &id())))
}

/// Ids in sequence, so that the fields of all but the last are finished before the end.
fn ids(count: usize) -> Files {
    (Vec::new(), job(&[1], &sequence_of(&vec![id(); count])))
}

/// Each goal is turned into 64, side by side: 64 goals and nine fields for each are held
/// when the last one begins, the most of both that was found.
fn eights(goals: usize) -> Files {
    let sixty_four = sequence(&atomic(4), &tensor_of(&vec![atomic(4); 8]));
    (examples::table_of_eight(), job(&vec![40; goals], &tensor_of(&vec![sixty_four; goals])))
}

/// T1 is (T2 | T2 | 1) ; T1, where T2 has no definition and rule 1 gives its goal back: a sequence that only grows.
fn ever_longer() -> Files {
    let late = alternation(&defined(2), &alternation(&defined(2), &atomic(1)));
    let (definition, job) = endless(sequence(&late, &defined(1)), &[1]);
    ([rule(1, 1, &[1]), definition].concat(), job)
}

/// A run of that budget that only goes deeper; taken up half way, if it is one that is.
pub fn deep_labels(entry: Entry, steps: usize) -> Case {
    of_budget(entry, ever_deeper(), steps)
}

/// The same with a sequence that only grows.
pub fn long_sequence(entry: Entry, steps: usize) -> Case {
    of_budget(entry, ever_longer(), steps)
}

fn of_budget(entry: Entry, (table, job): Files, steps: usize) -> Case {
    match entry {
        Entry::Resume => resumed((table, job), steps),
        _ => Case::new(entry, &table, &job).with_budget(steps as u32),
    }
}

/// Ids in sequence, one after the other, until more fields are held than may be: 40.
pub fn too_many_fields(entry: Entry) -> Case {
    let (table, job) = finished();
    Case::new(entry, &table, &job)
}

pub fn deep_alternations(steps: usize) -> Case {
    halting(alternations(), steps)
}

pub fn deep_sequences(steps: usize) -> Case {
    halting(sequences(), steps)
}

pub fn many_finished(steps: usize) -> Case {
    halting(finished(), steps)
}

pub fn many_used_up(steps: usize) -> Case {
    halting(used_up(), steps)
}

pub fn all_labels(fields: usize) -> Case {
    before_its_end(labels(fields))
}

pub fn all_ids(ids_in_sequence: usize) -> Case {
    before_its_end(ids(ids_in_sequence))
}

pub fn all_eights(goals: usize) -> Case {
    before_its_end(eights(goals))
}

pub fn resumed_alternations(steps: usize) -> Case {
    resumed(alternations(), steps)
}

pub fn resumed_sequences(steps: usize) -> Case {
    resumed(sequences(), steps)
}

pub fn resumed_finished(steps: usize) -> Case {
    resumed(finished(), steps)
}

pub fn resumed_used_up(steps: usize) -> Case {
    resumed(used_up(), steps)
}

pub fn resumed_labels(fields: usize) -> Case {
    resumed_to_its_end(labels(fields))
}

pub fn resumed_ids(ids_in_sequence: usize) -> Case {
    resumed_to_its_end(ids(ids_in_sequence))
}

/// Ends with 22: the last tensors join too many goals.
pub fn resumed_eights(goals: usize) -> Case {
    resumed_to_its_end(eights(goals))
}

/// The state of the last step, and no step more: all the steps are made again, and the
/// state is compared and written.
pub fn no_step_more(goals: usize) -> Case {
    let (table, job) = eights(goals);
    let saved = state_at(&table, &job, steps_of(&table, &job) - 1).expect("a run that halts");
    Case::resumed(&table, &job, &saved).with_budget(0)
}

/// Only the last byte of the state is another than that of the run.
pub fn forged(steps: usize) -> Case {
    let mut case = resumed(finished(), steps);
    case.saved[STATE_SIZE - 1] = 1;
    case
}

/// A job whose term is a defined tactic of 4,095 fields: the arities of all are found.
pub fn resumed_definition(fields: usize) -> Case {
    let table = limit_files::deep_definition(fields - 1);
    resumed_to_its_end((table, job(&[1], &defined(1))))
}
