//! P1 against its plain definition, on random tables, jobs and budgets; and the laws of
//! going on.

mod common;
mod plain;
use plain::halting::{InFile, Run, Stop};
use plain::*;
use second::engine::saved_state::step_count;
use second::format::job::Job;
use second::generate::build;
use second::generate::case::{Case, Entry, STATE_FILL};
use second::generate::halting::{state_at, steps_of};
use second::generate::random::Random;
use second::generate::random_case_of;
use second::generate::random_halting::random_halting_job;
use second::generate::random_longer::random_long_run;
use second::generate::random_table::{RandomTable, Size};
use second::limits::*;
use second::Answer;

/// A random table and a random job that reads.
fn table_and_job(random: &mut Random) -> (Vec<u8>, Vec<u8>) {
    loop {
        let table = RandomTable::make(random, Size::Small);
        let job = random_halting_job(random, &table);
        if Job::read(&job, &mut Default::default()).is_ok() {
            return (table.bytes(), job);
        }
    }
}

/// Everything that a call leaves behind: the answer, the output space, the second space.
fn whole(case: &Case) -> (Answer, Vec<u8>, Vec<u8>) {
    let outcome = case.outcome();
    assert!(outcome.work_space_as_promised);
    (outcome.answer, outcome.output, outcome.state)
}

/// A call with an output space for every proof and a second space that is longer than
/// it must be.
fn roomy(case: Case) -> Case {
    case.with_output(21_510).with_state(STATE_SIZE + 5)
}

fn run_for(table: &[u8], job: &[u8], budget: u32) -> Case {
    roomy(Case::new(Entry::RunHalting, table, job).with_budget(budget))
}

fn resumed_for(table: &[u8], job: &[u8], saved: &[u8], budget: u32) -> Case {
    roomy(Case::resumed(table, job, saved).with_budget(budget))
}

/// What the plain definition says of a run with that budget.
fn by_definition(table_bytes: &[u8], job: &[u8], budget: u32) -> (Answer, Vec<u8>, Vec<u8>) {
    let table = Table::of(table_bytes);
    let (goals, term) = (goals_at(job, 0), term_at(job, end_of(job, 0)));
    let mut run = Run::new(&table, budget);
    let evaluated = run.evaluate(InFile { file: 1, term: &term }, &goals);
    let mut output = vec![90; 21_510];
    let mut state = vec![STATE_FILL; STATE_SIZE + 5];
    let steps = run.steps;
    let answer = match evaluated {
        Ok(Some((hiproof, given))) => {
            let proof = build::proof(&goals, &hiproof, &given);
            output[..proof.len()].copy_from_slice(&proof);
            Answer { steps, length: proof.len() as u32, ..Answer::default() }
        }
        Ok(None) => common::run_refused(23, steps),
        Err(Stop::ListTooLong) => common::run_refused(22, steps),
        Err(Stop::TooManyFields) => common::run_refused(40, steps),
        Err(Stop::Halted(halt)) => {
            state[..STATE_SIZE].copy_from_slice(&halt.state(steps));
            common::run_refused(24, steps)
        }
    };
    (answer, output, state)
}

/// The plain run is recursive and a run may be 16,384 terms deep, so it gets a thread of
/// its own.
fn with_much_stack(test: fn()) {
    let thread = std::thread::Builder::new().stack_size(256 << 20);
    thread.spawn(test).unwrap().join().unwrap();
}

#[test]
fn a_halt_is_the_plain_one() {
    with_much_stack(|| {
        let mut random = Random::new(701);
        let mut halts = 0;
        for number in 0..3_000 {
            let (table, job) = table_and_job(&mut random);
            let steps = steps_of(&table, &job);
            let budget = match number % 4 {
                0 => random.below(120) as u32,
                1 if number % 80 == 1 => MOST_BUDGET,
                _ => random.below(steps as usize + 2).min(600) as u32,
            };
            let expected = by_definition(&table, &job, budget);
            halts += usize::from(expected.0.number == 24);
            assert_eq!(whole(&run_for(&table, &job, budget)), expected);
        }
        assert!(halts > 1_500, "only {halts} halts");
    });
}

/// P12: halts past 4,096 steps, and what comes behind them.
#[test]
fn a_halt_of_a_long_run_is_the_plain_one() {
    with_much_stack(|| {
        let mut random = Random::new(706);
        let mut late = 0;
        for _ in 0..400 {
            let (table, job) = random_long_run(&mut random);
            let budget = random.below(steps_of(&table, &job) as usize + 2).min(MOST_BUDGET as usize) as u32;
            let expected = by_definition(&table, &job, budget);
            late += usize::from(expected.0.number == 24 && budget > 4_096);
            assert_eq!(whole(&run_for(&table, &job, budget)), expected);
        }
        assert!(late > 50, "only {late} halts past 4,096 steps");
    });
}

#[test]
fn the_halts_of_the_fixed_set_are_the_plain_ones() {
    with_much_stack(|| {
        let set = second::generate::vector_set();
        let cases = &set.iter().find(|file| file.0 == "halting.vec").expect("the file").1;
        let mut halts = 0;
        for case in cases {
            let answer = case.outcome().answer;
            if case.entry == Entry::Resume && [0, 22, 23, 24, 40].contains(&answer.number) {
                halts += 1;
                // The state of a run must be the one of its steps, and what comes of it
                // what comes of a single run.
                let made = step_count(&case.saved);
                let saved = by_definition(&case.table, &case.other, made).2;
                assert_eq!(saved[..STATE_SIZE], case.saved);
                let single = by_definition(&case.table, &case.other, made + case.budget);
                let taken_up = resumed_for(&case.table, &case.other, &case.saved, case.budget);
                assert_eq!(whole(&taken_up), single);
            }
        }
        assert!(halts > 700, "only {halts} runs taken up");
    });
}

/// "Going on with budget c after a halt at b gives the answer of a single run with
/// b + c, step count included, as long as b + c is at most" 16,384 (P12).
#[test]
fn going_on_is_a_single_run() {
    let mut random = Random::new(702);
    for _ in 0..1_500 {
        let (table, job) = table_and_job(&mut random);
        let steps = steps_of(&table, &job);
        let made = random.below(steps as usize) as u32;
        let saved = state_at(&table, &job, made).expect("a halt");
        let rest = steps - made;
        for budget in [0, 1, rest / 2, rest.saturating_sub(1), rest, MOST_BUDGET - made] {
            let budget = budget.min(MOST_BUDGET - made);
            let single = whole(&run_for(&table, &job, made + budget));
            assert_eq!(whole(&resumed_for(&table, &job, &saved, budget)), single);
        }
        let over = resumed_for(&table, &job, &saved, MOST_BUDGET + 1 - made);
        assert_eq!(over.outcome().answer, common::refused(25, 0, 0));
    }
}

#[test]
fn halting_again_and_again_comes_to_the_same_end() {
    let mut random = Random::new(703);
    for _ in 0..400 {
        let (table, job) = table_and_job(&mut random);
        let budget = steps_of(&table, &job).min(200);
        let single = whole(&run_for(&table, &job, budget));
        let mut made = 0;
        let mut last = whole(&run_for(&table, &job, 0));
        while made < budget {
            assert_eq!((last.0.number, last.0.steps), (24, made));
            let more = (1 + random.below(9) as u32).min(budget - made);
            last = whole(&resumed_for(&table, &job, &last.2[..STATE_SIZE], more));
            made += more;
        }
        assert_eq!(last, single);
    }
}

/// A state is genuine if it is the one of its step count, and not otherwise: whatever the
/// bytes, 30 is answered exactly if neither 25 nor a file is refused and they are not
/// those of the run.
#[test]
fn genuine_is_what_a_run_halts_with() {
    let mut random = Random::new(704);
    let mut counts = [0, 0];
    for _ in 0..4_000 {
        let case = random_case_of(Entry::Resume, Size::Small, &mut random);
        let answer = case.outcome().answer;
        if [25, 29].contains(&answer.number) || answer.file != 0 {
            continue;
        }
        let genuine = state_at(&case.table, &case.other, step_count(&case.saved)) == Some(case.saved.clone());
        assert_eq!(answer.number == 30, !genuine);
        counts[usize::from(genuine)] += 1;
        if answer.number == 30 {
            assert_eq!(answer, common::refused(30, 0, 0));
        }
    }
    assert!(counts[0] > 300 && counts[1] > 1_500, "30 and genuine: {counts:?}");
}

/// Only 24 touches the second space.
#[test]
fn no_other_answer_touches_the_second_space() {
    let mut random = Random::new(705);
    for number in 0..4_000 {
        let case = random_case_of(Entry::THAT_HALT[number % 2], Size::Small, &mut random);
        let outcome = case.outcome();
        let halted = outcome.answer.number == 24;
        assert_eq!(outcome.state.iter().all(|&byte| byte == STATE_FILL), !halted || case.state_length == 0);
        if halted {
            assert!(outcome.state[STATE_SIZE..].iter().all(|&byte| byte == STATE_FILL));
            assert_eq!(u32::from(outcome.state[0]) * 256 + u32::from(outcome.state[1]), outcome.answer.steps);
        }
    }
}

/// Every answer but 24 stays under a larger budget (P14); 24 has as many steps as the
/// budget.
#[test]
fn larger_budgets_keep_every_answer_but_24() {
    let mut random = Random::new(706);
    for _ in 0..600 {
        let (table, job) = table_and_job(&mut random);
        let steps = steps_of(&table, &job);
        let saved = state_at(&table, &job, steps / 2).expect("a halt");
        let largest = whole(&resumed_for(&table, &job, &saved, MOST_BUDGET - steps / 2));
        for budget in [0, 1, 5, steps - steps / 2] {
            let smaller = whole(&resumed_for(&table, &job, &saved, budget.min(MOST_BUDGET - steps / 2)));
            if smaller.0.number != 24 {
                assert_eq!(smaller, largest);
            }
        }
    }
}
