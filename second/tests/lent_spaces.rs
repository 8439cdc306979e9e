//! Work and output spaces: 29, 26, zeroing and untouched bytes; and no input
//! whatever brings an entry down.

use second::generate::build::*;
use second::generate::case::{Case, Entry, OUTPUT_FILL, STATE_FILL};
use second::generate::random::Random;
use second::generate::{examples, random_case};
use second::limits::{MOST_BUDGET, STATE_SIZE};

fn good_case(entry: Entry) -> Case {
    let other = match entry {
        Entry::Check | Entry::Flatten => examples::first_proof(),
        Entry::Run | Entry::Search | Entry::RunHalting | Entry::Resume => job(&[10], &defined(3)),
        Entry::CheckFlat | Entry::WriteProof => examples::first_flat(),
        Entry::ReadText => b"[1]a1 ; a2 * id".to_vec(),
        Entry::WriteText => label(1, &sequence(&atomic(1), &id())),
    };
    Case::new(entry, &examples::table_a(), &other)
}

#[test]
fn work_space_one_byte_short_is_29() {
    for entry in Entry::ALL {
        let size = entry.work_size();
        for (length, number) in [(0, 29), (size - 1, 29), (size, 0), (size + 1, 0), (size + 1_000, 0)] {
            let outcome = good_case(entry).with_work(length).outcome();
            assert_eq!(outcome.answer.number, number, "{entry:?} {length}");
            assert!(outcome.work_space_as_promised);
        }
    }
}

#[test]
fn output_space_one_byte_short_is_26() {
    for entry in Entry::ALL.into_iter().filter(|entry| entry.has_output()) {
        let case = good_case(entry);
        let result = case.result().unwrap();
        let short = case.clone().with_output(result.len() - 1).outcome();
        assert_eq!((short.answer.number, short.answer.file, short.answer.place), (26, 0, 0));
        assert_eq!(short.answer.length, 0);
        assert!(short.output.iter().all(|&byte| byte == OUTPUT_FILL));
        assert!(short.work_space_as_promised);
        let exact = case.with_output(result.len()).outcome();
        assert_eq!((exact.answer.number, exact.output), (0, result));
    }
}

/// What holds of every call.
fn hold_promises(case: &Case) {
    let outcome = case.outcome();
    let answer = outcome.answer;
    assert!(outcome.work_space_as_promised, "{case:?}");
    let written = answer.length as usize;
    assert!(outcome.output[written..].iter().all(|&byte| byte == OUTPUT_FILL), "{case:?}");
    let file_length = match answer.file {
        0 => 0,
        1 => case.table.len(),
        _ => case.other.len(),
    };
    assert!(answer.place as usize <= file_length, "{case:?}");
    if answer.number == 0 {
        assert_eq!((answer.file, answer.place), (0, 0));
        assert_eq!(answer.length > 0, case.entry.has_output());
    } else {
        assert_eq!((answer.length, answer.fields, answer.uses, answer.open), (0, 0, 0, 0));
    }
    let counts_rules = answer.number == 0 && !case.entry.has_output();
    assert!(answer.rules <= answer.uses && (counts_rules || answer.rules == 0), "{case:?}");
    assert_eq!((answer.goals, answer.longest, answer.tactic), (0, 0, 0));
    let made = second::engine::saved_state::step_count(&case.saved);
    assert!(answer.steps <= case.budget.saturating_add(made).min(MOST_BUDGET));
    // Only a halt touches the second space.
    let touched = if answer.number == 24 && case.entry.may_halt() { STATE_SIZE } else { 0 };
    assert!(outcome.state[touched..].iter().all(|&byte| byte == STATE_FILL), "{case:?}");
}

#[test]
fn promises_hold_on_random_cases() {
    let mut random = Random::new(401);
    for _ in 0..3_000 {
        hold_promises(&random_case(&mut random));
    }
}

#[test]
fn promises_hold_on_arbitrary_bytes() {
    let mut random = Random::new(402);
    let mut bytes = |most: usize| -> Vec<u8> {
        let small = random.chance(70);
        (0..random.below(most)).map(|_| if small { random.byte() % 36 } else { random.byte() }).collect()
    };
    for number in 0..2_000 {
        let entry = Entry::ALL[number % Entry::ALL.len()];
        let table = if number % 2 == 0 { bytes(12) } else { vec![] };
        let other = bytes(60);
        hold_promises(&Case::new(entry, &table, &other));
    }
}
