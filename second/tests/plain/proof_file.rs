//! Proof files as plain definitions: what a file says, from P7 of document 02 on
//! also one of no bytes, and what check and flatten then give.

use super::reasons::walk;
use super::rules::rules_of_term;
use super::{build, end_of, entries_of, forest, give, goals_at, term_at, term_fields, without_labels};
use super::{Placed, Table, Term};

/// What a proof file says.
pub struct Proof {
    pub goals: Vec<u16>,
    pub hiproof: Placed,
    pub remaining: Vec<u16>,
    /// Where the list of the remaining goals stands.
    pub remaining_place: usize,
}

/// Number and place of a refusal of the proof.
pub type Refused = (u32, usize);

/// What a proof file says, or why it does not read. One of three bytes or more must
/// be known to read.
pub fn proof_of(file: &[u8]) -> Result<Proof, Refused> {
    match file.len() {
        // "Zero bytes now mean no goals, the empty hiproof and none remaining".
        0 => {
            let hiproof = Placed { place: 0, term: Term::Empty };
            Ok(Proof { goals: vec![], hiproof, remaining: vec![], remaining_place: 0 })
        }
        // "One or two bytes are still 2."
        1 | 2 => Err((2, 0)),
        _ => {
            let behind_goals = end_of(file, 0);
            let remaining_place = end_of(file, behind_goals);
            Ok(Proof {
                goals: goals_at(file, 0),
                hiproof: term_at(file, behind_goals),
                remaining: goals_at(file, remaining_place),
                remaining_place,
            })
        }
    }
}

/// Term fields, uses, remaining goals and different rules of an accepted proof.
pub type Counts = [usize; 4];

/// "A proof is accepted exactly when [...] every term in the walk on the stated goals
/// can take its goals, no joined list has more than 256, and the list given at the
/// end is that of the stated remaining goals."
pub fn check(table: &Table, file: &[u8]) -> Result<Counts, Refused> {
    let proof = proof_of(file)?;
    let given = walk(table, &proof.hiproof, &proof.goals).map_err(|ending| ending.number_and_place())?;
    if given != proof.remaining {
        return Err((21, proof.remaining_place));
    }
    let mut uses = Vec::new();
    give(table, &proof.hiproof, &proof.goals, &mut uses)?;
    let rules = rules_of_term(table, &proof.hiproof, &proof.goals);
    Ok([term_fields(&proof.hiproof), uses.len(), given.len(), rules.len()])
}

/// The flat file of an accepted proof: "Written with the stated goals as roots".
pub fn flatten(table: &Table, file: &[u8]) -> Result<Vec<u8>, Refused> {
    check(table, file)?;
    let proof = proof_of(file)?;
    let trees = forest(table, &proof.hiproof, &proof.goals);
    Ok(build::flat(&proof.goals, &entries_of(&trees)))
}

/// "Dropping every label [...] both goal lists stay." A file of no bytes has no field
/// that could change (B7.6). The file must read.
pub fn dropping_labels(file: &[u8]) -> Vec<u8> {
    match proof_of(file) {
        Ok(proof) if !file.is_empty() => build::proof(&proof.goals, &without_labels(&proof.hiproof), &proof.remaining),
        _ => file.to_vec(),
    }
}
