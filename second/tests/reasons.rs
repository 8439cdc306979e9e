//! P5 of document 02: finer reasons for a proof that does not validate.

mod common;
mod plain;
use common::*;
use plain::proof_file::{proof_of, Proof};
use plain::reasons::walk;
use plain::{end_of, give, term_at, Table};
use second::engine;
use second::generate::build::*;
use second::generate::case::Entry;
use second::generate::examples::table_a;
use second::generate::random::Random;
use second::generate::random_file::{random_miscounted_proof, random_proof};
use second::generate::random_table::{RandomTable, Size};
use second::generate::{reasons, vector_set};
use second::Answer;
use std::collections::{BTreeMap, BTreeSet};

/// How often each number was answered.
type Tally = BTreeMap<u32, usize>;

/// The answer of before P5: one number for all three reasons.
fn coarsened(answer: Answer) -> Answer {
    let number = if matches!(answer.number, 34 | 35) { 20 } else { answer.number };
    Answer { number, ..answer }
}

/// Number and place of a proof that reads: (0, 0) if it is accepted.
fn with_remaining(given: Result<Vec<u16>, (u32, usize)>, proof: &Proof) -> (u32, usize) {
    match given {
        Err(ending) => ending,
        Ok(goals) if goals != proof.remaining => (21, proof.remaining_place),
        Ok(_) => (0, 0),
    }
}

fn answer_of(result: Result<(), second::answer::Refusal>) -> Answer {
    result.map_or_else(Answer::from, |()| Answer::default())
}

/// Compares check and flatten with the plain definition of P5 and, coarsened, with
/// that of document 01. The table and the proof must read.
fn compare(table_bytes: &[u8], proof: &[u8], tally: &mut Tally) {
    let table = Table::of(table_bytes);
    let says = proof_of(proof).expect("a proof that reads");
    let finer = walk(&table, &says.hiproof, &says.goals).map_err(|ending| ending.number_and_place());
    let (number, place) = with_remaining(finer, &says);
    let file = if number == 0 { 0 } else { 2 };
    let checked = answer_of(engine::check(table_bytes, proof).map(drop));
    assert_eq!(checked, refused(number, file, place as u32), "{proof:?}");
    assert_eq!(answer_of(engine::flatten(table_bytes, proof).map(drop)), checked);
    let before = with_remaining(give(&table, &says.hiproof, &says.goals, &mut Vec::new()), &says);
    assert_eq!(coarsened(checked), refused(before.0, file, before.1 as u32));
    *tally.entry(number).or_default() += 1;
}

fn reads(table: &[u8], proof: &[u8]) -> bool {
    engine::check(table, proof).map_or_else(|refusal| refusal.reason.number() > 9, |_| true)
}

#[test]
fn the_lines_of_document_01() {
    let a = table_a();
    let two = tensor(&id(), &id());
    let lines = [(atomic(2), 20, 5), (two.clone(), 34, 11), (tensor(&two, &id()), 35, 5), (label(1, &empty()), 34, 10)];
    for (term, number, place) in lines {
        let file = proof(&[10], &term, &[]);
        assert_eq!(check(&a, &file), refused(number, 2, place));
        assert_eq!(flatten(&a, &file).0, refused(number, 2, place));
    }
}

#[test]
fn every_listed_proof_has_the_answer_it_is_listed_with() {
    let table = reasons::table();
    for one in reasons::listed() {
        let expected = refused(one.number, 2, one.place_in_proof() as u32);
        let file = one.proof(&[]);
        assert_eq!(check(&table, &file), expected, "{one:?}");
        assert_eq!(flatten(&table, &file).0, expected, "{one:?}");
    }
}

/// Number and kind of every term that encloses the refused one, from outside.
fn way_to(bytes: &[u8], place: usize, refused_at: usize, way: &mut Vec<(u8, usize)>) {
    if place == refused_at {
        return;
    }
    let first = place + if bytes[place] == 18 { 5 } else { 3 };
    let second = end_of(bytes, first);
    let (number, inner) = if refused_at < second { (0, first) } else { (1, second) };
    way.push((bytes[place], number));
    way_to(bytes, inner, refused_at, way);
}

/// Each reason is listed at the root, and one and two deep in each place of a
/// label, a sequence and a tensor.
#[test]
fn every_reason_is_listed_in_every_position() {
    let places = [(18, 0), (19, 0), (19, 1), (20, 0), (20, 1)];
    let mut ways: BTreeSet<(u32, Vec<(u8, usize)>)> = BTreeSet::new();
    for one in reasons::listed() {
        let mut way = Vec::new();
        way_to(&one.term, 0, one.place, &mut way);
        ways.insert((one.number, way));
    }
    for number in [20, 34, 35] {
        let listed = |way: &[(u8, usize)]| ways.iter().any(|(its, one)| *its == number && one.starts_with(way));
        assert!(ways.contains(&(number, vec![])));
        for outer in places {
            // Neither 34 nor 35 falls on a left part itself, which gets as many
            // goals as its arity: it stands behind a rule.
            let direct = number == 20 || outer != (20, 0);
            let way = if direct { vec![outer] } else { vec![outer, (19, 1)] };
            assert!(ways.contains(&(number, way.clone())), "{number} {way:?}");
            assert!(places.iter().all(|&inner| listed(&[outer, inner])), "{number} {outer:?}");
        }
    }
}

#[test]
fn the_fixed_vectors_are_as_the_plain_definition_says() {
    let mut tally = Tally::new();
    for (_, cases) in vector_set() {
        for case in cases.iter().filter(|case| matches!(case.entry, Entry::Check | Entry::Flatten)) {
            // The plain definition is recursive; the deepest files have 4,096 levels.
            if case.other.len() < 3_000 && reads(&case.table, &case.other) {
                compare(&case.table, &case.other, &mut tally);
            }
        }
    }
    for number in [0, 20, 21, 22, 34, 35] {
        assert!(tally.get(&number).is_some_and(|&count| count > 10), "{number}: {tally:?}");
    }
}

#[test]
fn random_proofs_are_as_the_plain_definition_says() {
    let mut random = Random::new(601);
    let mut tally = Tally::new();
    for number in 0..6_000 {
        let random_table = RandomTable::make(&mut random, Size::Small);
        let make = if number % 2 == 0 { random_proof } else { random_miscounted_proof };
        let (table, proof) = (random_table.bytes(), make(&mut random, &random_table));
        if reads(&table, &proof) {
            compare(&table, &proof, &mut tally);
        }
    }
    for number in [0, 20, 21, 34, 35] {
        assert!(tally.get(&number).is_some_and(|&count| count > 100), "{number}: {tally:?}");
    }
}

/// All terms of that many fields over two rules, id, empty and one label.
fn terms_of(fields: usize, smaller: &[Vec<Vec<u8>>]) -> Vec<Vec<u8>> {
    if fields == 1 {
        return vec![atomic(2), atomic(9), id(), empty()];
    }
    let mut terms: Vec<Vec<u8>> = smaller[fields - 2].iter().map(|inner| label(1, inner)).collect();
    for left_fields in 1..fields - 1 {
        for left in &smaller[left_fields - 1] {
            for right in &smaller[fields - 2 - left_fields] {
                terms.push(sequence(left, right));
                terms.push(tensor(left, right));
            }
        }
    }
    terms
}

/// Compares with no remaining goals stated, and with those that the term gives.
fn compare_on(table: &[u8], goals: usize, term: &[u8], tally: &mut Tally) {
    let goals = vec![reasons::GOAL; goals];
    compare(table, &proof(&goals, term, &[]), tally);
    if let Ok(given) = walk(&Table::of(table), &term_at(term, 0), &goals) {
        compare(table, &proof(&goals, term, &given), tally);
    }
}

#[test]
fn all_small_terms_are_as_the_plain_definition_says() {
    let table = reasons::table();
    let mut tally = Tally::new();
    let mut all: Vec<Vec<Vec<u8>>> = Vec::new();
    for fields in 1..=6 {
        all.push(terms_of(fields, &all));
        for term in &all[fields - 1] {
            for goals in 0..=4 {
                compare_on(&table, goals, term, &mut tally);
            }
        }
    }
    for number in [0, 20, 21, 34, 35] {
        assert!(tally.get(&number).is_some_and(|&count| count > 100), "{number}: {tally:?}");
    }
}

/// B5.4: runs keep 23, and searches 41.
#[test]
fn runs_and_searches_do_not_report_them() {
    let table = reasons::table();
    for one in reasons::listed().iter().filter(|one| one.goals < 9 && one.number != 22) {
        let job = job(&vec![reasons::GOAL; one.goals], &one.term);
        assert_eq!(run(&table, &job, 4_096).0.number, 23, "{one:?}");
        let searched = search(&table, &job, 64, 4_096).0.number;
        assert!(searched == 41 || searched == 24, "{searched} {one:?}");
    }
}

#[test]
fn the_walk_comes_before_the_remaining_goals() {
    let table = reasons::table();
    let numbers: Vec<u32> =
        reasons::proofs_with_remaining_goals().iter().map(|proof| check(&table, proof).number).collect();
    assert_eq!(numbers, [20, 20, 34, 34, 34, 34, 34, 34, 35, 35, 0, 21]);
}
