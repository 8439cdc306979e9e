//! P12: runs of up to 16,384 steps, and 40, case by case and against the plain definition,
//! which carries the count of the held fields.

mod common;
mod plain;
use common::*;
use plain::{end_of, goals_at, term_at};
use second::generate::build::*;
use second::generate::case::{Case, Entry, OUTPUT_FILL, STATE_FILL};
use second::generate::examples::table_a;
use second::generate::halting::{state_at, steps_of};
use second::generate::longer::{self, failing_after, of_fields, Run};
use second::generate::random::Random;
use second::generate::random_longer::random_long_run;
use second::limits::*;
use second::Answer;
use std::collections::BTreeMap;

/// Number, steps and bytes by the plain definition.
fn by_definition(table: &[u8], job: &[u8], budget: u32) -> (u32, u32, Vec<u8>) {
    let table = plain::Table::of(table);
    let goals = goals_at(job, 0);
    let mut run = plain::Run::new(&table, budget);
    match run.evaluate(&term_at(job, end_of(job, 0)), &goals) {
        Ok(Some((hiproof, given))) => (0, run.steps, proof(&goals, &hiproof, &given)),
        Ok(None) => (23, run.steps, vec![]),
        Err(number) => (number, run.steps, vec![]),
    }
}

/// The same by the engine, which answers nothing else.
fn by_engine(table: &[u8], job: &[u8], budget: u32) -> (u32, u32, Vec<u8>) {
    let (answer, bytes) = run(table, job, budget);
    assert_eq!(answer, Answer { length: bytes.len() as u32, ..run_refused(answer.number, answer.steps) });
    (answer.number, answer.steps, bytes)
}

/// The plain run is recursive and a run may be 16,384 terms deep, so it gets a thread of
/// its own.
fn with_much_stack(test: fn()) {
    let thread = std::thread::Builder::new().stack_size(256 << 20);
    thread.spawn(test).unwrap().join().unwrap();
}

fn on_one(term: &[u8], budget: u32) -> Answer {
    run(&longer::table(), &job(&[1], term), budget).0
}

/// "The budget goes up to 16,384 ..., and 25 starts at 16,385"; a search keeps 4,096.
#[test]
fn budgets() {
    let (table, first_job) = (table_a(), job(&[10], &defined(3)));
    for entry in [Entry::Run, Entry::RunHalting] {
        let answer = |budget: u32| Case::new(entry, &table, &first_job).with_budget(budget).outcome().answer;
        for budget in [19, 4_096, 4_097, 16_383, 16_384] {
            assert_eq!((answer(budget).number, answer(budget).steps), (0, 19));
        }
        for budget in [16_385, 32_768, 65_536 + 19, 1 << 31, u32::MAX] {
            assert_eq!(answer(budget), refused(25, 0, 0));
        }
    }
    assert_eq!(search(&table, &first_job, 64, 4_096).0.number, 0);
    for budget in [4_097, 16_384, 16_385] {
        assert_eq!(search(&table, &first_job, 64, budget).0, refused(25, 0, 0));
    }
}

/// "also for the sum in P1".
#[test]
fn sums() {
    let (table, first_job) = (table_a(), job(&[10], &defined(3)));
    for made in [0, 9, 18] {
        let saved = state_at(&table, &first_job, made).expect("a halt");
        let answer = |budget: u32| Case::resumed(&table, &first_job, &saved).with_budget(budget).outcome().answer;
        for sum in [19, 4_096, 4_097, 16_383, 16_384] {
            assert_eq!((answer(sum - made).number, answer(sum - made).steps), (0, 19));
        }
        for budget in [16_385 - made, 65_536 - made, u32::MAX - made, (u32::MAX - made).wrapping_add(1), u32::MAX] {
            let expected = if budget == 0 { run_refused(24, 0) } else { refused(25, 0, 0) };
            assert_eq!(answer(budget), expected, "{budget}");
        }
    }
}

/// The listed runs end as they are said to, and as the plain definition has it; with one
/// step fewer they halt.
#[test]
fn listed_runs() {
    with_much_stack(|| {
        for (number, (Run { table, job }, expected)) in longer::runs().iter().enumerate() {
            let whole = by_engine(table, job, MOST_BUDGET);
            assert_eq!(whole.0, *expected, "run {number}");
            assert_eq!(whole, by_definition(table, job, MOST_BUDGET), "run {number}");
            if *expected != 24 {
                assert_eq!(by_engine(table, job, whole.1), whole, "run {number}");
                assert_eq!(by_engine(table, job, whole.1 - 1), (24, whole.1 - 1, vec![]), "run {number}");
            }
            if *expected == 0 {
                assert!(check(table, &whole.2).fields <= 4_096);
            }
        }
    });
}

/// The blocks that the listed runs are made of are what they are said to be.
#[test]
fn the_blocks() {
    for fields in [1, 2, 3, 4, 7, 100, 1_022, 1_023, 1_024, 4_094, 4_095, 4_096] {
        let (answer, bytes) = run(&longer::table(), &job(&[1], &of_fields(fields)), MOST_BUDGET);
        assert_eq!(answer.number, 0);
        assert_eq!(check(&longer::table(), &bytes), accepted(fields as u32, 0, 1, 0));
    }
    for steps in [1, 2, 3, 4, 5, 6, 7, 100, 4_096, 4_097, 16_381, 16_382, 16_383, 16_384] {
        assert_eq!(on_one(&failing_after(steps), MOST_BUDGET), run_refused(23, steps));
    }
}

/// 4,096 fields held is fine, and the 4,097th is 40, whatever kind of term ends: the moment
/// shows in the steps.
#[test]
fn every_kind_of_term_that_ends() {
    for (kind, term, fields) in longer::of_every_kind() {
        let ends_behind = |held: usize| {
            let before = of_fields(held - fields);
            let term = alternation(&sequence(&before, &sequence(&term, &defined(99))), &id());
            let steps_before = steps_of(&longer::table(), &job(&[1], &before));
            (on_one(&term, MOST_BUDGET), steps_before)
        };
        let (answer, before) = ends_behind(4_096);
        let own = match kind {
            "label" | "defined tactic" | "empty" | "alternation" => 2,
            "sequence" | "tensor" | "right of an alternation" => 3,
            _ => 1,
        };
        // The alternation, two sequences, a T99 that fails, and the right id.
        assert_eq!((answer.number, answer.steps), (0, before + own + 5), "{kind}");
        let (answer, before) = ends_behind(4_097);
        assert_eq!(answer, run_refused(40, before + own + 3), "{kind}");
    }
}

/// "after 22 at the same term"; inside the tensor's right part 40 comes first.
#[test]
fn joined_lists() {
    for (Run { table, job }, number) in longer::joined_lists() {
        let (answer, _) = run(&table, &job, MOST_BUDGET);
        assert_eq!(answer.number, number);
        // All 33 or 32 atomics had begun.
        let ends_at_the_joining = run(&table, &job, answer.steps - 1).0;
        assert_eq!(ends_at_the_joining, run_refused(24, answer.steps - 1));
    }
}

/// Three times `(T ; fails) | id`: the proof would have five fields, and the third meets 40.
#[test]
fn the_third_alternative() {
    let again = alternation(&sequence(&of_fields(4_095), &defined(99)), &id());
    let of_times = |times: usize| on_one(&sequence_of(&vec![again.clone(); times]), MOST_BUDGET);
    assert_eq!((of_times(1).number, of_times(1).steps), (0, 4_106));
    assert_eq!((of_times(2).number, of_times(2).steps), (0, 8_213));
    assert_eq!(of_times(3), run_refused(40, 12_318));
}

/// "40 before 24": with just the steps begun when the field too many is left, the run ends
/// with 40, though a term is to begin next and the budget is used up.
#[test]
fn before_24() {
    let term = sequence(&of_fields(4_097), &id());
    let steps = on_one(&term, MOST_BUDGET).steps;
    assert_eq!(on_one(&term, steps), run_refused(40, steps));
    assert_eq!(on_one(&term, steps - 1), run_refused(24, steps - 1));
    // As many as may be held, and nothing that begins behind them.
    let full = of_fields(4_096);
    let steps = 1 + on_one(&full, MOST_BUDGET).steps;
    assert_eq!(on_one(&sequence(&full, &id()), steps), run_refused(24, steps));
    assert_eq!(on_one(&sequence(&full, &id()), steps + 1), run_refused(40, steps + 1));
}

/// 40 touches neither the output space nor the second space, and comes before 26.
#[test]
fn lent_spaces_after_40() {
    let (table, job) = (longer::table(), job(&[1], &of_fields(4_097)));
    let saved = state_at(&table, &job, 4_097).expect("a halt");
    let ways = [
        Case::new(Entry::Run, &table, &job),
        Case::new(Entry::RunHalting, &table, &job),
        Case::resumed(&table, &job, &saved),
    ];
    for case in ways {
        for length in [0, 100, 21_510] {
            let outcome = case.clone().with_output(length).outcome();
            assert_eq!(outcome.answer.number, 40);
            assert!(outcome.work_space_as_promised);
            assert!(outcome.output.iter().all(|&byte| byte == OUTPUT_FILL));
            assert!(outcome.state.iter().all(|&byte| byte == STATE_FILL));
        }
    }
}

/// A run that has met 40 has ended: there is no state behind it.
#[test]
fn no_state_behind_40() {
    let (table, job) = (longer::table(), job(&[1], &of_fields(4_097)));
    let steps = steps_of(&table, &job);
    assert_eq!(state_at(&table, &job, steps), None);
    let mut later = state_at(&table, &job, steps - 1).expect("a halt");
    assert_eq!(Case::resumed(&table, &job, &later).outcome().answer, run_refused(40, steps));
    later[..2].copy_from_slice(&(steps as u16).to_be_bytes());
    assert_eq!(Case::resumed(&table, &job, &later).outcome().answer, refused(30, 0, 0));
}

/// For runs of at most 4,096 steps 40 never occurs; longer ones end in every way.
#[test]
fn random_long_runs_are_the_plain_ones() {
    with_much_stack(|| {
        let mut random = Random::new(801);
        let mut counts: BTreeMap<u32, usize> = BTreeMap::new();
        for _ in 0..1_500 {
            let (table, job) = random_long_run(&mut random);
            let whole = by_engine(&table, &job, MOST_BUDGET);
            assert_eq!(whole, by_definition(&table, &job, MOST_BUDGET));
            assert!(whole.0 != 40 || whole.1 > 4_096);
            *counts.entry(whole.0).or_default() += 1;
            // P14: any answer other than 24 is that of every larger budget.
            let some = 1 + random.below(whole.1 as usize) as u32;
            for budget in [some, whole.1 - 1, whole.1, (whole.1 + 1).min(MOST_BUDGET)] {
                let smaller = by_engine(&table, &job, budget);
                assert!(smaller == whole || smaller == (24, budget, vec![]), "{budget}");
                assert!(smaller == whole || budget < whole.1);
            }
        }
        for number in [0, 23, 24, 40] {
            assert!(counts.get(&number).is_some_and(|&count| count > 100), "{counts:?}");
        }
    });
}

/// Everything that a run leaves behind is the same when it is halted anywhere and taken up:
/// halts past 4,096 steps as well, and 40 behind them.
#[test]
fn long_runs_taken_up() {
    let mut random = Random::new(802);
    let mut late = 0;
    for _ in 0..300 {
        let (table, job) = random_long_run(&mut random);
        let steps = steps_of(&table, &job);
        let made = random.below(steps as usize) as u32;
        late += u32::from(made > 4_096);
        let saved = state_at(&table, &job, made).expect("a halt");
        let of = |case: Case| {
            let outcome = case.with_output(21_510).outcome();
            (outcome.answer, outcome.output, outcome.state)
        };
        for budget in [0, (steps - made) / 2, steps - made, MOST_BUDGET - made] {
            let single = of(Case::new(Entry::RunHalting, &table, &job).with_budget(made + budget));
            assert_eq!(of(Case::resumed(&table, &job, &saved).with_budget(budget)), single);
        }
    }
    assert!(late > 50, "only {late} halts past 4,096 steps");
}
