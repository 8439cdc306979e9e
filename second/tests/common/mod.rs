//! Calls with spaces that suffice, for tests that look at answers.
#![allow(dead_code)]

use second::generate::case::{Case, Entry};
use second::Answer;

/// An answer with only number, file and place.
pub fn refused(number: u32, file: u32, place: u32) -> Answer {
    Answer { number, file, place, ..Answer::default() }
}

/// The answer of a run that ends with 22, 23, 24 or 40, or of a search that ends with
/// 24 or 41.
pub fn run_refused(number: u32, steps: u32) -> Answer {
    Answer { number, steps, ..Answer::default() }
}

/// The answer for an accepted proof; with no fields, that for a right flat file.
pub fn accepted(fields: u32, uses: u32, open: u32, rules: u32) -> Answer {
    Answer { fields, uses, open, rules, ..Answer::default() }
}

/// Answer and result of a call with spaces that suffice.
pub fn call(entry: Entry, table: &[u8], other: &[u8]) -> (Answer, Vec<u8>) {
    result_of(Case::new(entry, table, other))
}

pub fn result_of(case: Case) -> (Answer, Vec<u8>) {
    let outcome = case.outcome();
    assert!(outcome.work_space_as_promised);
    let mut output = outcome.output;
    output.truncate(outcome.answer.length as usize);
    (outcome.answer, output)
}

pub fn check(table: &[u8], proof: &[u8]) -> Answer {
    call(Entry::Check, table, proof).0
}

pub fn check_flat(table: &[u8], flat: &[u8]) -> Answer {
    call(Entry::CheckFlat, table, flat).0
}

pub fn flatten(table: &[u8], proof: &[u8]) -> (Answer, Vec<u8>) {
    call(Entry::Flatten, table, proof)
}

pub fn write_proof(table: &[u8], flat: &[u8]) -> (Answer, Vec<u8>) {
    call(Entry::WriteProof, table, flat)
}

pub fn run(table: &[u8], job: &[u8], budget: u32) -> (Answer, Vec<u8>) {
    result_of(Case::new(Entry::Run, table, job).with_budget(budget))
}

pub fn search(table: &[u8], job: &[u8], height: u32, budget: u32) -> (Answer, Vec<u8>) {
    result_of(Case::new(Entry::Search, table, job).with_height(height).with_budget(budget))
}

pub fn read_text(text: &[u8]) -> (Answer, Vec<u8>) {
    call(Entry::ReadText, &[], text)
}

pub fn write_text(term: &[u8]) -> (Answer, Vec<u8>) {
    call(Entry::WriteText, &[], term)
}

/// The term fields in these bytes: whole hiproof terms, one behind the other.
pub fn fields_in(terms: &[u8]) -> usize {
    let mut fields = 0;
    let mut at = 0;
    while at < terms.len() {
        fields += 1;
        at += match terms[at] {
            // An atomic has a value behind its header; a label too, then its inner term.
            16 | 18 => 5,
            _ => 3,
        };
    }
    fields
}
