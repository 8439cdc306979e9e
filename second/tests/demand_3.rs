//! Demand 3, as document 01 speaks of it, in both directions on random inputs:
//! from an accepted proof to its flat derivation, and from a right derivation to
//! the proof written from it.

mod common;
mod plain;
use common::*;
use plain::proof_file::{dropping_labels, proof_of};
use plain::*;
use second::generate::build;
use second::generate::examples;
use second::generate::limit_files;
use second::generate::no_bytes;
use second::generate::random::Random;
use second::generate::random_file::{random_flat, random_proof};
use second::generate::random_table::{RandomTable, Size};
use second::Answer;

fn entries(flat: &[u8], tag: u8) -> Vec<Vec<u16>> {
    let mut place = end_of(flat, 0);
    let mut found = Vec::new();
    while place < flat.len() {
        if flat[place] == tag {
            found.push(goals_at(flat, place));
        }
        place = end_of(flat, place);
    }
    found
}

/// An accepted proof flattens to a right derivation of its goals, open at its
/// remaining goals, with uses one for one, so that its counts are the proof's; labels
/// make no difference.
fn from_proof(table_bytes: &[u8], proof: &[u8]) {
    let (answer, flat) = flatten(table_bytes, proof);
    assert_eq!(answer.number, 0);
    assert_eq!(check_flat(table_bytes, &flat), Answer { fields: 0, ..check(table_bytes, proof) });
    let says = proof_of(proof).unwrap();
    assert_eq!(goals_at(&flat, 0), says.goals);
    assert_eq!(entries(&flat, 33).concat(), says.remaining);
    let mut walked = Vec::new();
    give(&Table::of(table_bytes), &says.hiproof, &says.goals, &mut walked).unwrap();
    let mut used: Vec<(u16, u16)> = entries(&flat, 32).iter().map(|values| (values[0], values[1])).collect();
    walked.sort();
    used.sort();
    assert_eq!(used, walked);
    let unlabelled = dropping_labels(proof);
    let fields = check(table_bytes, &unlabelled).fields;
    assert_eq!(check(table_bytes, &unlabelled), Answer { fields, ..check(table_bytes, proof) });
    assert_eq!(flatten(table_bytes, &unlabelled).1, flat);
}

/// A right derivation of at most 2,048 entries is written as an accepted proof of
/// 2e − 1 term fields with the same counts, which flattens to the same bytes.
fn from_derivation(table_bytes: &[u8], flat: &[u8]) {
    let (answer, proof) = write_proof(table_bytes, flat);
    assert_eq!(answer.number, 0);
    let count = entries(flat, 32).len() + entries(flat, 33).len();
    let fields = (2 * count).max(2) as u32 - 1;
    assert_eq!(check(table_bytes, &proof), Answer { fields, ..check_flat(table_bytes, flat) });
    assert_eq!(flatten(table_bytes, &proof).1, flat);
}

#[test]
fn from_random_proofs() {
    let mut random = Random::new(201);
    let mut accepted_proofs = 0;
    for _ in 0..2_000 {
        let table = RandomTable::make(&mut random, Size::Small);
        let proof = random_proof(&mut random, &table);
        if check(&table.bytes(), &proof).number == 0 {
            accepted_proofs += 1;
            from_proof(&table.bytes(), &proof);
        }
    }
    assert!(accepted_proofs > 500);
}

#[test]
fn from_random_derivations() {
    let mut random = Random::new(202);
    let mut right = 0;
    for _ in 0..2_000 {
        let table = RandomTable::make(&mut random, Size::Small);
        let flat = random_flat(&mut random, &table);
        if check_flat(&table.bytes(), &flat).number == 0 {
            right += 1;
            from_derivation(&table.bytes(), &flat);
        }
    }
    assert!(right > 500);
}

#[test]
fn from_examples_and_limits() {
    for (table, proof) in examples::proofs() {
        if check(&table, &proof).number == 0 {
            from_proof(&table, &proof);
        }
    }
    let chain = limit_files::chain_table();
    from_derivation(&chain, &build::flat(&[], &[]));
    from_derivation(&chain, &limit_files::flat_chain(2_048));
    from_derivation(&examples::table_of_eight(), &limit_files::flat_of_eights(36));
    from_derivation(&examples::table_of_eight(), &limit_files::flat_of_roots(128, 128));
}

/// P7: the flat form of no bytes is written back as the proof of nine bytes that
/// says the same (B7.4), and that one has the same flat form.
#[test]
fn from_a_proof_of_no_bytes() {
    let mut random = Random::new(203);
    let mut tables = no_bytes::good_tables();
    tables.extend((0..200).map(|_| RandomTable::make(&mut random, Size::Small).bytes()));
    for table in tables {
        from_proof(&table, &[]);
        let (_, flat) = flatten(&table, &[]);
        from_derivation(&table, &flat);
        assert_eq!(write_proof(&table, &flat).1, build::proof(&[], &build::empty(), &[]));
    }
    assert_eq!(dropping_labels(&[]), []);
}

/// READINGS A31: a flattened accepted proof can be too long for the writer.
#[test]
fn an_accepted_proof_may_flatten_to_more_than_2048_entries() {
    let chain = limit_files::chain_table();
    let proof = limit_files::proof_of_most_uses();
    assert_eq!(check(&chain, &proof), accepted(4_095, 2_048, 2, 2));
    let (answer, flat) = flatten(&chain, &proof);
    assert_eq!(answer.number, 0);
    assert_eq!(check_flat(&chain, &flat), accepted(0, 2_048, 2, 2));
    assert_eq!(write_proof(&chain, &flat).0, refused(28, 2, 0));
}
