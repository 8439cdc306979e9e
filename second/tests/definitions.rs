//! The engine against plain recursive definitions, on random files.

mod common;
mod plain;
use common::*;
use plain::proof_file::proof_of;
use plain::rules::{rules_of_term, rules_of_trees};
use plain::*;
use second::generate::build;
use second::generate::random::Random;
use second::generate::random_file::{random_flat, random_job, random_proof};
use second::generate::random_table::{RandomTable, Size};

const CASES: usize = 3_000;

/// The plain definitions speak of files that read; a random file may have one
/// field too many.
fn is_reading_refusal(number: u32) -> bool {
    (1..=5).contains(&number)
}

#[test]
fn check_is_the_walk() {
    let mut random = Random::new(101);
    let mut accepted_proofs = 0;
    for _ in 0..CASES {
        let random_table = RandomTable::make(&mut random, Size::Small);
        let (table_bytes, proof) = (random_table.bytes(), random_proof(&mut random, &random_table));
        let answer = check(&table_bytes, &proof);
        if is_reading_refusal(answer.number) {
            continue;
        }
        let table = Table::of(&table_bytes);
        let says = proof_of(&proof).expect("a proof that reads");
        let mut uses = Vec::new();
        let given = give(&table, &says.hiproof, &says.goals, &mut uses);
        match given {
            // Which number it is instead of 20 is tested in reasons.rs.
            Err((20, place)) => {
                assert!(matches!(answer.number, 20 | 34 | 35));
                assert_eq!(answer, refused(answer.number, 2, place as u32));
            }
            Err((number, place)) => assert_eq!(answer, refused(number, 2, place as u32)),
            Ok(goals) if goals != says.remaining => {
                assert_eq!(answer, refused(21, 2, says.remaining_place as u32));
            }
            Ok(goals) => {
                accepted_proofs += 1;
                assert_eq!((answer.number, answer.open), (0, goals.len() as u32));
                assert_eq!(answer.uses, uses.len() as u32);
                assert_eq!(answer.rules as usize, rules_of_term(&table, &says.hiproof, &says.goals).len());
            }
        }
    }
    assert!(accepted_proofs > CASES / 4, "only {accepted_proofs} accepted");
}

#[test]
fn flatten_is_the_forest() {
    let mut random = Random::new(102);
    for _ in 0..CASES {
        let random_table = RandomTable::make(&mut random, Size::Small);
        let (table_bytes, proof) = (random_table.bytes(), random_proof(&mut random, &random_table));
        let (answer, flat) = flatten(&table_bytes, &proof);
        let checked = check(&table_bytes, &proof);
        if checked.number != 0 {
            assert_eq!(answer, checked);
            continue;
        }
        let table = Table::of(&table_bytes);
        let says = proof_of(&proof).expect("a proof that reads");
        let trees = forest(&table, &says.hiproof, &says.goals);
        assert_eq!(flat, build::flat(&says.goals, &entries_of(&trees)));
    }
}

#[test]
fn flat_check_and_writer_read_trees_back() {
    let mut random = Random::new(103);
    let mut right = 0;
    for _ in 0..CASES {
        let random_table = RandomTable::make(&mut random, Size::Small);
        let (table_bytes, flat) = (random_table.bytes(), random_flat(&mut random, &random_table));
        let checked = check_flat(&table_bytes, &flat);
        if is_reading_refusal(checked.number) {
            continue;
        }
        let (written, proof) = write_proof(&table_bytes, &flat);
        let table = Table::of(&table_bytes);
        match trees_of(&table, &flat) {
            Err(place) => {
                assert_eq!(checked, refused(27, 2, place as u32));
                assert_eq!(written, checked);
            }
            Ok(trees) => {
                right += 1;
                assert_eq!(checked.number, 0);
                assert_eq!(checked.rules as usize, rules_of_trees(&table, &trees).len());
                let goals = goals_at(&flat, 0);
                assert_eq!(proof, build::proof(&goals, &written_forest(&trees), &open_leaves(&trees)));
            }
        }
    }
    assert!(right > CASES / 3, "only {right} right");
}

/// The plain run is recursive and a run may be 16,384 terms deep, so it gets a
/// thread of its own.
#[test]
fn run_is_the_big_step_evaluation() {
    let thread = std::thread::Builder::new().stack_size(256 << 20);
    thread.spawn(compare_runs).unwrap().join().unwrap();
}

fn compare_runs() {
    let mut random = Random::new(104);
    let mut successes = 0;
    for number in 0..CASES {
        let random_table = RandomTable::make(&mut random, Size::Small);
        let (table_bytes, job) = (random_table.bytes(), random_job(&mut random, &random_table));
        let budget = if number % 50 == 0 { 16_384 } else { random.below(120) as u32 };
        let table = Table::of(&table_bytes);
        let goals = goals_at(&job, 0);
        let mut plain = Run::new(&table, budget);
        if second::format::job::Job::read(&job, &mut Default::default()).is_err() {
            continue;
        }
        let evaluated = plain.evaluate(&term_at(&job, end_of(&job, 0)), &goals);
        let answer = second::engine::run(&table_bytes, &job, budget);
        match (evaluated, answer) {
            (Ok(Some((hiproof, given))), Ok(run)) => {
                successes += 1;
                assert_eq!(run.steps, plain.steps);
                assert_eq!(run.proof, build::proof(&goals, &hiproof, &given));
                assert_eq!(check(&table_bytes, &run.proof).number, 0);
            }
            (Ok(None), Err(refusal)) => assert_eq!((refusal.reason.number(), refusal.steps), (23, plain.steps)),
            (Err(ending), Err(refusal)) => {
                assert_eq!((refusal.reason.number(), refusal.steps), (ending, plain.steps));
            }
            (_, answer) => panic!("the engine answers otherwise, success {}", answer.is_ok()),
        }
    }
    assert!(successes > CASES / 5, "only {successes} successes");
}
