//! What the ten entries do once the lent spaces are set aside.

pub mod arity;
pub mod check_flat;
pub mod forest;
pub mod goal_pool;
pub mod run;
pub mod saved_state;
pub mod search;
pub mod used_rules;
pub mod walk;
pub mod write_back;

use crate::answer::{InputFile, Reason, Refusal};
use crate::format::flat::Flat;
use crate::format::job::Job;
use crate::format::proof::Proof;
use crate::format::table::Table;
use crate::format::term_file::TermFile;
use crate::limits::{MOST_BUDGET, MOST_ENTRIES_WRITTEN_BACK, MOST_HEIGHT, MOST_SEARCH_BUDGET};
use crate::notation;
use saved_state::SavedState;
use used_rules::UsedRules;

/// The counts of an accepted proof.
pub struct AcceptedProof {
    pub fields: usize,
    pub uses: usize,
    pub open: usize,
    /// How many different rules were used (P6).
    pub rules: usize,
}

/// The counts of a right flat file.
pub struct RightFlatFile {
    pub uses: usize,
    pub open: usize,
    /// How many different rules were used (P6).
    pub rules: usize,
}

/// The proof file of a run or search that succeeded, and the terms it began.
pub struct SuccessfulRun {
    pub proof: Vec<u8>,
    pub steps: u32,
}

/// What a run that may halt comes to, if it does not end with 22, 23 or 40 (P1).
pub enum HaltingRun {
    Succeeded(SuccessfulRun),
    /// 24, with the state to be written to the second space.
    Halted {
        steps: u32,
        state: SavedState,
    },
}

pub fn check(table: &[u8], proof: &[u8]) -> Result<AcceptedProof, Refusal> {
    let table = Table::read(table)?;
    let proof = Proof::read(proof)?;
    let mut used = UsedRules::none();
    walk::walk_proof(&table, &proof, |rule| used.add(rule))?;
    Ok(AcceptedProof {
        fields: proof.term_fields(),
        uses: proof.atomic_fields(),
        open: proof.remaining.len(),
        rules: used.count(),
    })
}

/// A proof that is not accepted gets the checker's refusal (READINGS A32).
pub fn flatten(table: &[u8], proof: &[u8]) -> Result<Vec<u8>, Refusal> {
    let table = Table::read(table)?;
    let proof = Proof::read(proof)?;
    let forest = walk::walk_proof(&table, &proof, |_| ())?;
    Ok(forest.flat_file())
}

pub fn check_flat(table: &[u8], flat: &[u8]) -> Result<RightFlatFile, Refusal> {
    let table = Table::read(table)?;
    let flat = Flat::read(flat)?;
    let mut used = UsedRules::none();
    check_flat::follow_entries(&table, &flat, |rule| used.add(rule))?;
    let uses = flat.count_uses();
    Ok(RightFlatFile { uses, open: flat.entries.len() - uses, rules: used.count() })
}

/// "28 before 27" (READINGS A35); uses and opens together are the entries.
pub fn write_proof(table: &[u8], flat: &[u8]) -> Result<Vec<u8>, Refusal> {
    let table = Table::read(table)?;
    let flat = Flat::read(flat)?;
    if flat.entries.len() > MOST_ENTRIES_WRITTEN_BACK {
        return Err(Refusal::at(Reason::TooManyEntries, InputFile::Other, 0));
    }
    check_flat::follow_entries(&table, &flat, |_| ())?;
    Ok(write_back::proof_file_of(&table, &flat))
}

/// "29, then 25, come before any reading" (READINGS A52).
pub fn run(table: &[u8], job: &[u8], budget: u32) -> Result<SuccessfulRun, Refusal> {
    if budget > MOST_BUDGET {
        return Err(Refusal::without_file(Reason::BudgetTooLarge));
    }
    let mut table = Table::read(table)?;
    let mut terms = std::mem::take(&mut table.terms);
    let job = Job::read(job, &mut terms)?;
    run::run_job(&table, &terms, &job, budget)
}

/// P1: "29, 25, table, file 2, steps (22, 23, 24, from P12 40), 26".
pub fn run_halting(table: &[u8], job: &[u8], budget: u32) -> Result<HaltingRun, Refusal> {
    if budget > MOST_BUDGET {
        return Err(Refusal::without_file(Reason::BudgetTooLarge));
    }
    let mut table = Table::read(table)?;
    let mut terms = std::mem::take(&mut table.terms);
    let job = Job::read(job, &mut terms)?;
    saved_state::run_halting(&table, &terms, &job, budget)
}

/// P1: "29, 25 on b + c, table, file 2, 30, steps, 26". The sum has room in 64 bits
/// (B1.11).
pub fn resume(table: &[u8], job: &[u8], saved: &[u8], budget: u32) -> Result<HaltingRun, Refusal> {
    let whole_budget = u64::from(saved_state::step_count(saved)) + u64::from(budget);
    if whole_budget > u64::from(MOST_BUDGET) {
        return Err(Refusal::without_file(Reason::BudgetTooLarge));
    }
    let mut table = Table::read(table)?;
    let mut terms = std::mem::take(&mut table.terms);
    let job = Job::read(job, &mut terms)?;
    saved_state::resume(&table, &terms, &job, saved, budget)
}

/// "29, 25 (over 4,096), 42, table, file 2, search (0, 41, 24), 26" (B13.7).
pub fn search(table: &[u8], job: &[u8], height: u32, budget: u32) -> Result<SuccessfulRun, Refusal> {
    if budget > MOST_SEARCH_BUDGET {
        return Err(Refusal::without_file(Reason::BudgetTooLarge));
    }
    if !(1..=MOST_HEIGHT).contains(&height) {
        return Err(Refusal::without_file(Reason::HeightOutsideLimits));
    }
    let mut table = Table::read(table)?;
    let mut terms = std::mem::take(&mut table.terms);
    let job = Job::read(job, &mut terms)?;
    search::search_job(&table, &terms, &job, height, budget)
}

/// The term file of a text: "29, 1, then the first met of 36, 37, 5, then 26".
pub fn read_text(text: &[u8]) -> Result<Vec<u8>, Refusal> {
    notation::read::term_file_of(text)
}

/// The text of a term file: "29, file (1 to 5), 26".
pub fn write_text(term: &[u8]) -> Result<Vec<u8>, Refusal> {
    let file = TermFile::read(term)?;
    Ok(notation::write::text_of(&file.terms, file.term))
}
