//! Larger budgets keep every answer but 24.

mod common;
use common::*;
use second::engine;
use second::generate::build::*;
use second::generate::random::Random;
use second::generate::random_file::random_job;
use second::generate::random_table::{RandomTable, Size};

/// Number, steps and bytes of a run, without lent spaces.
fn outcome(table: &[u8], job: &[u8], budget: u32) -> (u32, u32, Vec<u8>) {
    match engine::run(table, job, budget) {
        Ok(run) => (0, run.steps, run.proof),
        Err(refusal) => (refusal.reason.number(), refusal.steps, vec![]),
    }
}

#[test]
fn on_random_jobs() {
    let mut random = Random::new(301);
    for _ in 0..1_500 {
        let table = RandomTable::make(&mut random, Size::Small);
        let (table, job) = (table.bytes(), random_job(&mut random, &table));
        let whole = outcome(&table, &job, 16_384);
        for budget in [0, 1, 2, 3, 5, 10, 30, 100, 1_000, 4_096, 4_097, whole.1.saturating_sub(1), whole.1] {
            let smaller = outcome(&table, &job, budget);
            if smaller.0 == 24 {
                assert_eq!(smaller.1, budget);
                assert!(whole.0 == 24 || budget < whole.1 || whole.1 == 16_384);
            } else {
                assert_eq!(smaller, whole);
            }
        }
    }
}

#[test]
fn every_budget_up_to_the_steps_of_a_run() {
    let table = second::generate::examples::table_a();
    let first_job = job(&[10], &defined(3));
    for budget in 0..19 {
        assert_eq!(run(&table, &first_job, budget).0, run_refused(24, budget));
    }
    let whole = run(&table, &first_job, 19);
    for budget in [20, 100, 4_096, 4_097, 16_384] {
        assert_eq!(run(&table, &first_job, budget), whole);
    }
}
