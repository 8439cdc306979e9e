//! The search against the plain definition of P13, on random tables, jobs,
//! heights and budgets; and what holds of every proof that it finds.

mod common;
mod plain;
use common::*;
use plain::search::{derives, Definition, Ending};
use plain::*;
use second::engine;
use second::format::job::Job;
use second::generate::build;
use second::generate::random::Random;
use second::generate::random_search::random_search_job;
use second::generate::random_table::{RandomTable, Size};

/// A random table and a random job that reads.
fn table_and_job(random: &mut Random) -> (Vec<u8>, Vec<u8>) {
    loop {
        let table = RandomTable::make(random, Size::Small);
        let job = random_search_job(random, &table);
        if Job::read(&job, &mut Default::default()).is_ok() {
            return (table.bytes(), job);
        }
    }
}

fn job_of(bytes: &[u8]) -> (Vec<u16>, Placed) {
    (goals_at(bytes, 0), term_at(bytes, end_of(bytes, 0)))
}

/// What the engine does, in the words of the definition.
fn ending_of(table: &[u8], job: &[u8], height: u32, budget: u32) -> Ending {
    match engine::search(table, job, height, budget) {
        Ok(found) => {
            let hiproof = end_of(&found.proof, 0);
            let remaining = end_of(&found.proof, hiproof);
            assert_eq!(found.proof[..hiproof], job[..end_of(job, 0)]);
            let found_proof = (found.proof[hiproof..remaining].to_vec(), goals_at(&found.proof, remaining));
            Ending { number: 0, steps: found.steps, found: Some(found_proof) }
        }
        Err(refusal) => {
            assert_eq!((refusal.file as u32, refusal.place), (0, 0));
            Ending { number: refusal.reason.number(), steps: refusal.steps, found: None }
        }
    }
}

/// "A found proof obeys the big-step rules, validates and flattens like any other."
fn hold_promises_of_found(table_bytes: &[u8], job: &[u8], height: u32, found: &(Vec<u8>, Vec<u16>)) {
    let (goals, term) = job_of(job);
    let hiproof = term_at(&found.0, 0);
    assert!(derives(&Table::of(table_bytes), height as usize, &goals, &term, &hiproof));
    let proof = build::proof(&goals, &found.0, &found.1);
    assert_eq!(check(table_bytes, &proof).number, 0);
    let (flattened, flat) = flatten(table_bytes, &proof);
    assert_eq!((flattened.number, check_flat(table_bytes, &flat).number), (0, 0));
}

fn compare(random: &mut Random, heights: &[usize], budgets: &[usize], cases: usize) {
    let mut endings = [0, 0, 0];
    for _ in 0..cases {
        let (table_bytes, job) = table_and_job(random);
        let table = Table::of(&table_bytes);
        let (goals, term) = job_of(&job);
        let (most_height, most_budget) = (*random.pick(heights), *random.pick(budgets));
        let height = 1 + random.below(most_height) as u32;
        let budget = random.below(1 + most_budget) as u32;
        let definition = Definition { table: &table, height: height as usize };
        let ending = ending_of(&table_bytes, &job, height, budget);
        assert_eq!(ending, definition.search(&term, &goals, budget), "height {height} budget {budget}");
        endings[[0, 24, 41].iter().position(|&number| number == ending.number).expect("0, 24 or 41")] += 1;
        if let Some(found) = ending.found {
            hold_promises_of_found(&table_bytes, &job, height, &found);
        }
    }
    assert!(endings.iter().all(|&count| count > cases / 25), "found, 24, 41: {endings:?}");
}

#[test]
fn search_is_the_list_of_events() {
    compare(&mut Random::new(601), &[3, 8, 14], &[20, 200, 2_000], 6_000);
}

#[test]
fn search_is_the_list_of_events_at_great_heights() {
    compare(&mut Random::new(602), &[20, 64], &[400, 4_096], 1_000);
}

/// Answer, steps and bytes under a smaller budget are those under a larger one,
/// unless the smaller one is spent (P14, at a fixed height).
#[test]
fn larger_budgets_keep_every_answer_but_24() {
    let mut random = Random::new(603);
    for _ in 0..600 {
        let (table, job) = table_and_job(&mut random);
        let height = 1 + random.below(14) as u32;
        let whole = ending_of(&table, &job, height, 4_096);
        for budget in [0, 1, 2, 5, 30, 300, whole.steps.saturating_sub(1), whole.steps] {
            let smaller = ending_of(&table, &job, height, budget);
            if smaller.number == 24 {
                assert_eq!(smaller.steps, budget);
                assert!(budget < whole.steps || whole.number == 24);
            } else {
                assert_eq!(smaller, whole);
            }
        }
    }
}

/// A run that succeeds has an evaluation no higher than its steps are many, so
/// that the search at that height does not say that there is none.
#[test]
fn what_the_machine_proves_has_an_evaluation() {
    let mut random = Random::new(604);
    let mut proved = 0;
    for _ in 0..2_000 {
        let (table_bytes, job) = table_and_job(&mut random);
        let Ok(run) = engine::run(&table_bytes, &job, 64) else {
            continue;
        };
        proved += 1;
        assert_ne!(ending_of(&table_bytes, &job, run.steps, 4_096).number, 41);
        if run.steps <= 16 {
            let (goals, term) = job_of(&job);
            let hiproof = term_at(&run.proof, end_of(&run.proof, 0));
            assert!(derives(&Table::of(&table_bytes), run.steps as usize, &goals, &term, &hiproof));
        }
    }
    assert!(proved > 400, "only {proved} proved");
}
