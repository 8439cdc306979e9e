//! P1's runs that halt, case by case: the bytes of states, every refusal in its order,
//! and what is lent.

mod common;
use common::*;
use second::generate::build::*;
use second::generate::case::{Case, Entry, OUTPUT_FILL, STATE_FILL};
use second::generate::examples::*;
use second::generate::halting::{self, state_at, steps_of};
use second::generate::longer;
use second::generate::random::Random;
use second::generate::random_case_of;
use second::generate::random_table::Size;
use second::generate::searches::term;
use second::limits::*;
use second::Answer;
use std::collections::{BTreeMap, BTreeSet};

/// An entry of a saved state.
#[derive(Clone, PartialEq, Debug)]
struct Waits {
    stage: u8,
    file: u8,
    place: u16,
    goals: Vec<u16>,
}

/// A saved state as a debugger reads it, from its bytes alone.
#[derive(PartialEq, Debug)]
struct Shown {
    steps: u16,
    finished: Vec<u8>,
    entries: Vec<Waits>,
}

struct Bytes<'a>(&'a [u8]);

impl Bytes<'_> {
    fn take(&mut self, count: usize) -> Vec<u8> {
        let (front, rest) = self.0.split_at(count);
        self.0 = rest;
        front.to_vec()
    }

    fn value(&mut self) -> u16 {
        let two = self.take(2);
        u16::from_be_bytes([two[0], two[1]])
    }
}

impl Shown {
    fn of(state: &[u8]) -> Shown {
        let mut bytes = Bytes(state);
        let steps = bytes.value();
        let length = bytes.value();
        let finished = bytes.take(length.into());
        let count = bytes.value();
        let entries = (0..count)
            .map(|_| {
                let two = bytes.take(2);
                let place = bytes.value();
                let count = bytes.value();
                Waits { stage: two[0], file: two[1], place, goals: (0..count).map(|_| bytes.value()).collect() }
            })
            .collect();
        assert!(bytes.0.iter().all(|&byte| byte == 0));
        Shown { steps, finished, entries }
    }

    /// The list of each alternation, outermost first, put together again.
    fn lists_of_alternations(&self) -> Vec<Vec<u16>> {
        let mut lists = Vec::new();
        let mut inside: Vec<u16> = Vec::new();
        for entry in self.entries.iter().rev() {
            inside = match entry.stage {
                0 => entry.goals.clone(),
                3 => vec![],
                4 => [inside, entry.goals.clone()].concat(),
                6 => {
                    let whole = [entry.goals.clone(), inside].concat();
                    lists.insert(0, whole.clone());
                    whole
                }
                _ => inside,
            };
        }
        lists
    }
}

fn waits(stage: u8, file: u8, place: u16, goals: &[u16]) -> Waits {
    Waits { stage, file, place, goals: goals.to_vec() }
}

fn shown(table: &[u8], job: &[u8], steps: u32) -> Shown {
    Shown::of(&state_at(table, job, steps).expect("a halt"))
}

fn first_job() -> Vec<u8> {
    job(&[10], &defined(3))
}

fn run_halting(table: &[u8], job: &[u8], budget: u32) -> Case {
    Case::new(Entry::RunHalting, table, job).with_budget(budget)
}

fn answer(case: &Case) -> Answer {
    let outcome = case.outcome();
    assert!(outcome.work_space_as_promised);
    outcome.answer
}

/// T3 on 10, step by step; the places are those of docs/FORMAT.md's worked example.
#[test]
fn every_halt_of_the_first_run() {
    let (table, job) = (table_a(), first_job());
    let a1 = atomic(1);
    let with_a2 = [atomic(1), atomic(2)].concat();
    let boxed = label(1, &sequence(&atomic(1), &tensor(&atomic(2), &id())));
    let with_id = [boxed.clone(), id()].concat();
    let (alternation, left) = (waits(6, 0, 90, &[]), waits(2, 0, 85, &[]));
    let (then, in_box) = (waits(2, 0, 98, &[]), waits(1, 0, 35, &[]));
    let (second, on_right) = (waits(3, 0, 98, &[]), waits(3, 0, 43, &[]));
    let used_up = waits(6, 0, 90, &[30]);
    let begin = |file: u8, place: u16, goals: &[u16]| waits(0, file, place, goals);
    let expected: Vec<(&[u8], Vec<Waits>)> = vec![
        (&[], vec![begin(1, 5, &[10])]),
        (&[], vec![begin(0, 74, &[10])]),
        (&[], vec![alternation.clone(), begin(0, 77, &[10])]),
        (&[], vec![alternation.clone(), left.clone(), begin(0, 80, &[10])]),
        (&[], vec![begin(0, 90, &[10])]),
        (&[], vec![then.clone(), begin(0, 93, &[10])]),
        (&[], vec![then.clone(), begin(0, 30, &[10])]),
        (&[], vec![then.clone(), in_box.clone(), begin(0, 35, &[10])]),
        (&[], vec![then.clone(), in_box.clone(), waits(2, 0, 43, &[]), begin(0, 38, &[10])]),
        (&a1, vec![then.clone(), in_box.clone(), on_right.clone(), begin(0, 43, &[20, 30])]),
        (&a1, vec![then.clone(), in_box.clone(), on_right.clone(), waits(4, 0, 51, &[30]), begin(0, 46, &[20])]),
        (&with_a2, vec![then, in_box, on_right, waits(5, 0, 51, &[]), begin(0, 51, &[30])]),
        (&boxed, vec![second.clone(), begin(0, 98, &[30])]),
        (&boxed, vec![second.clone(), begin(0, 74, &[30])]),
        (&boxed, vec![second.clone(), alternation.clone(), begin(0, 77, &[30])]),
        (&boxed, vec![second.clone(), alternation, left, begin(0, 80, &[30])]),
        (&with_id, vec![second.clone(), used_up.clone(), waits(3, 0, 85, &[]), begin(0, 85, &[30])]),
        (&with_id, vec![second.clone(), used_up.clone(), waits(3, 0, 85, &[]), begin(0, 59, &[30])]),
        (&with_id, vec![second, used_up, waits(3, 0, 85, &[]), waits(1, 0, 64, &[]), begin(0, 64, &[30])]),
    ];
    assert_eq!(expected.len(), 19);
    for (steps, (finished, entries)) in expected.into_iter().enumerate() {
        let steps = steps as u16;
        assert_eq!(shown(&table, &job, steps.into()), Shown { steps, finished: finished.to_vec(), entries });
    }
    assert_eq!(state_at(&table, &job, 19), None);
}

/// The bytes of docs/FORMAT.md's worked state.
#[test]
fn the_worked_state_in_bytes() {
    let bytes: [u8; 61] = [
        0, 16, 0, 27, 18, 0, 21, 0, 1, 19, 0, 16, 16, 0, 2, 0, 1, 20, 0, 8, 16, 0, 2, 0, 2, 17, 0, 0, 17, 0, 0, 0, 4,
        3, 0, 0, 98, 0, 0, 6, 0, 0, 90, 0, 1, 0, 30, 3, 0, 0, 85, 0, 0, 0, 0, 0, 85, 0, 1, 0, 30,
    ];
    let state = state_at(&table_a(), &first_job(), 16).expect("a halt");
    assert_eq!(state.len(), 160_268);
    assert_eq!(state[..61], bytes);
    assert!(state[61..].iter().all(|&byte| byte == 0));
}

#[test]
fn a_budget_of_0_halts_before_the_first_term() {
    for (goals, text) in [(&[20][..], "id"), (&[], "<>"), (&[20, 30], "T99"), (&[7; 256], "a1 * id")] {
        let job = job(goals, &term(text));
        let place = 3 + 2 * goals.len() as u16;
        assert_eq!(answer(&run_halting(&[], &job, 0)), run_refused(24, 0));
        let expected = Shown { steps: 0, finished: vec![], entries: vec![waits(0, 1, place, goals)] };
        assert_eq!(shown(&[], &job, 0), expected);
    }
    // Only once both files have been read.
    assert_eq!(answer(&run_halting(&[1], &first_job(), 0)), refused(2, 1, 0));
    assert_eq!(answer(&run_halting(&[], &[3], 0)), refused(2, 2, 0));
}

/// A tensor's right goals wait with it, then those that its left gave; an alternation
/// around it keeps what is used up, and the rest is found inside.
#[test]
fn goals_of_tensors_and_alternations() {
    let table = halting::table();
    let job = job(halting::USED_UP.0, &term(halting::USED_UP.1));
    let alternation = |own: &[u16]| waits(6, 1, 39, own);
    let sequence = waits(2, 1, 34, &[]);
    let states = [
        (3, vec![alternation(&[]), sequence.clone(), waits(4, 1, 23, &[30, 20]), waits(0, 1, 18, &[20])]),
        (4, vec![alternation(&[20]), sequence.clone(), waits(5, 1, 23, &[]), waits(0, 1, 23, &[30, 20])]),
        (
            5,
            vec![
                alternation(&[20]),
                sequence.clone(),
                waits(5, 1, 23, &[]),
                waits(4, 1, 29, &[20]),
                waits(0, 1, 26, &[30]),
            ],
        ),
        (
            6,
            vec![
                alternation(&[20, 30]),
                sequence,
                waits(5, 1, 23, &[]),
                waits(5, 1, 29, &[30]),
                waits(0, 1, 29, &[20]),
            ],
        ),
        (7, vec![alternation(&[20, 30, 20]), waits(3, 1, 34, &[]), waits(0, 1, 34, &[30])]),
        (8, vec![waits(0, 1, 39, &[20, 30, 20])]),
    ];
    for (steps, entries) in states {
        let shown = shown(&table, &job, steps);
        assert_eq!(shown.entries, entries, "after {steps}");
        if steps < 8 {
            assert_eq!(shown.lists_of_alternations(), [[20, 30, 20]]);
        }
    }
}

/// The lists of alternations can be put together again wherever a run halts: each is the
/// list that the right term begins on, if everything inside fails.
#[test]
fn every_list_of_an_alternation_is_whole() {
    let table = halting::table();
    let job = job(&[20, 30, 20], &defined(8));
    for steps in 0..steps_of(&table, &job) {
        for list in shown(&table, &job, steps).lists_of_alternations() {
            assert!([20, 30, 20].ends_with(&list), "after {steps}: {list:?}");
        }
    }
    // The alternations of T8 wait on all goals, on all but one, and so on.
    let most = (0..steps_of(&table, &job)).map(|steps| shown(&table, &job, steps).lists_of_alternations());
    assert!(most.into_iter().any(|lists| lists == [&[20, 30, 20][..], &[30, 20], &[20], &[]]));
}

/// "only what would still be part of the proof" (B1.15).
#[test]
fn a_failed_alternative_leaves_no_field() {
    let table = halting::table();
    let job = job(halting::USED_UP.0, &term(halting::USED_UP.1));
    assert_eq!(shown(&table, &job, 7).finished, tensor(&atomic(2), &tensor(&id(), &atomic(2))));
    assert_eq!(shown(&table, &job, 8).finished, []);
}

/// A run that ends exactly at its budget does not halt; a left alternative that fails
/// there does, since the right term is to begin (A42).
#[test]
fn runs_that_end_at_their_budget() {
    let table = halting::table();
    let ended = |text: &str, goals: &[u16], budget: u32| answer(&run_halting(&table, &job(goals, &term(text)), budget));
    assert_eq!(answer(&run_halting(&table, &first_job(), 19)).number, 0);
    assert_eq!(answer(&run_halting(&table, &first_job(), 18)), run_refused(24, 18));
    assert_eq!(ended("a3", &[20], 1), run_refused(23, 1));
    assert_eq!(ended("a3 | a2", &[20], 2), run_refused(24, 2));
    assert_eq!(ended("a3 | a2", &[20], 3).number, 0);
    assert_eq!(ended("id ; a3", &[20], 3), run_refused(23, 3));
    let eights = tensor_of(&vec![atomic(4); 33]);
    let too_long = job(&[40; 33], &eights);
    assert_eq!(answer(&run_halting(&table, &too_long, 65)), run_refused(22, 65));
    assert_eq!(answer(&run_halting(&table, &too_long, 64)), run_refused(24, 64));
    let saved = state_at(&table, &too_long, 64).expect("a halt");
    assert_eq!(answer(&Case::resumed(&table, &too_long, &saved)), run_refused(22, 65));
    assert_eq!(answer(&Case::resumed(&table, &too_long, &saved).with_budget(0)), run_refused(24, 64));
}

#[test]
fn going_on_after_a_halt() {
    let (table, job) = (table_a(), first_job());
    let proof = first_proof();
    for steps in 0..19 {
        let saved = state_at(&table, &job, steps).expect("a halt");
        let case = Case::resumed(&table, &job, &saved);
        for budget in [19 - steps, 20 - steps, MOST_BUDGET - steps] {
            let (answer, bytes) = result_of(case.clone().with_budget(budget));
            assert_eq!((answer.number, answer.steps, &bytes), (0, 19, &proof));
        }
        let again = case.clone().with_budget(0).outcome();
        assert_eq!((again.answer, &again.state[..]), (run_refused(24, steps), &saved[..]));
        let short = case.clone().with_output(50).outcome();
        assert_eq!(short.answer, run_refused(26, 19));
        assert!(short.output.iter().all(|&byte| byte == OUTPUT_FILL));
        assert!(short.state.iter().all(|&byte| byte == STATE_FILL));
        assert_eq!(case.with_budget(MOST_BUDGET + 1 - steps).outcome().answer, refused(25, 0, 0));
    }
}

/// The sum of the steps made and the steps to come does not wrap (B1.11), and is looked at
/// before the state (B1.10, B1.14).
#[test]
fn budgets_and_step_counts() {
    let (table, job) = (table_a(), first_job());
    for budget in [16_385, 65_536, 65_536 + 19, 1 << 31, u32::MAX] {
        assert_eq!(answer(&run_halting(&table, &job, budget)), refused(25, 0, 0));
    }
    let saved = state_at(&table, &job, 9).expect("a halt");
    let number = |saved: &[u8], budget: u32| {
        let answer = answer(&Case::resumed(&table, &job, saved).with_budget(budget));
        assert!(answer.number == 0 || answer == refused(answer.number, 0, 0));
        answer.number
    };
    for budget in [4_087, 4_088, 16_375] {
        assert_eq!(number(&saved, budget), 0);
    }
    for budget in [16_376, 65_527, 65_536, 65_546, u32::MAX - 9, u32::MAX - 8, u32::MAX] {
        assert_eq!(number(&saved, budget), 25);
    }
    for short in [&[][..], &[0], &[255]] {
        assert_eq!((number(short, 16_384), number(short, 16_385)), (30, 25));
    }
    for of_two in [&[64, 0][..], &[64, 0, 7]] {
        assert_eq!((number(of_two, 0), number(of_two, 1)), (30, 25));
    }
    assert_eq!((number(&[16, 1], 0), number(&[64, 1], 0)), (30, 25));
    // One byte too few, and as many as before P12.
    for length in [160_267, 86_540] {
        assert_eq!((number(&saved[..length], 16_375), number(&saved[..length], 16_376)), (30, 25));
    }
    let longer = [&saved[..], &[0]].concat();
    assert_eq!((number(&longer, 16_375), number(&longer, 16_376)), (30, 25));
}

#[test]
fn the_order_of_refusals() {
    let (table, job) = (table_a(), first_job());
    let mut forged = state_at(&table, &job, 9).expect("a halt");
    forged[160_267] = 1;
    let case = Case::resumed(&table, &job, &forged).with_budget(16_376).with_output(0);
    let torn = Case { table: vec![1], other: vec![3], ..case };
    for short in
        [torn.clone().with_work(RESUME_WORK - 1), torn.clone().with_frames(16_383), torn.clone().with_state(160_267)]
    {
        assert_eq!(answer(&short), refused(29, 0, 0));
    }
    assert_eq!(answer(&torn), refused(25, 0, 0));
    let within = torn.with_budget(16_375).with_output(0);
    assert_eq!(answer(&within), refused(2, 1, 0));
    let of_table = Case { table: table.clone(), ..within };
    assert_eq!(answer(&of_table), refused(2, 2, 0));
    let of_both = Case { other: job.clone(), ..of_table };
    assert_eq!(answer(&of_both), refused(30, 0, 0));
    assert_eq!(answer(&of_both.clone().with_budget(0).with_output(0)), refused(30, 0, 0));
    forged[160_267] = 0;
    let genuine = of_both.with_saved(&forged).with_output(0);
    assert_eq!(answer(&genuine.clone().with_budget(9).with_output(0)), run_refused(24, 18));
    assert_eq!(answer(&genuine), run_refused(26, 19));
    let all_wrong = Case { table: vec![1], other: vec![3], ..run_halting(&table, &job, 16_385) };
    assert_eq!(answer(&all_wrong.clone().with_state(0)), refused(29, 0, 0));
    assert_eq!(answer(&all_wrong), refused(25, 0, 0));
}

/// Any of the three spaces that is too short is 29, also for a run that would not halt;
/// nothing is touched then (B1.1, B1.3).
#[test]
fn lent_spaces() {
    for case in halting::lent_spaces() {
        let outcome = case.outcome();
        let short = case.work_length < RUN_HALTING_WORK || case.frames < MOST_FRAMES || case.state_length < STATE_SIZE;
        assert_eq!(outcome.answer.number == 29, short);
        assert!(outcome.work_space_as_promised);
        if short {
            assert_eq!(outcome.answer, refused(29, 0, 0));
            assert!(outcome.output.iter().all(|&byte| byte == OUTPUT_FILL));
            assert!(outcome.state.iter().all(|&byte| byte == STATE_FILL));
        }
    }
}

/// Of all the forged states only the first, which is not forged, is taken up.
#[test]
fn forged_states_are_not_genuine() {
    let table = halting::table();
    let job = job(halting::USED_UP.0, &term(halting::USED_UP.1));
    let states = halting::forged_states();
    assert_eq!(state_at(&table, &job, 5).as_ref(), Some(&states[0]));
    for (number, state) in states.iter().enumerate() {
        let expected = match number {
            0 => 0,
            _ if number == states.len() - 1 => 25,
            _ => 30,
        };
        assert_eq!(answer(&Case::resumed(&table, &job, state)).number, expected, "state {number}");
    }
}

#[test]
fn a_state_changed_in_any_byte_is_not_genuine() {
    let (table, job) = (table_a(), first_job());
    let state = state_at(&table, &job, 16).expect("a halt");
    for at in (0..70).chain([1_000, 50_000, 160_266, 160_267]) {
        for change in [1, 128] {
            let mut changed = state.clone();
            changed[at] ^= change;
            let answer = answer(&Case::resumed(&table, &job, &changed).with_budget(3));
            // Changed in its first byte the step count is over 16,384.
            let expected = if at == 0 && change == 128 { 25 } else { 30 };
            assert_eq!(answer, refused(expected, 0, 0), "byte {at}");
        }
    }
}

/// "two different jobs can have the same state bytes": genuine for both (B1.12).
#[test]
fn the_same_bytes_count_for_every_job_that_has_them() {
    let table = halting::table();
    let job_of = |text: &str| job(&[20], &term(text));
    let saved = state_at(&table, &job_of("id"), 0).expect("a halt");
    for (text, expected) in [("id", 0), ("<>", 23), ("[1]id", 0), ("a2", 0), ("a3", 23), ("T3", 23), ("id ; <>", 23)] {
        assert_eq!(answer(&Case::resumed(&table, &job_of(text), &saved)).number, expected, "{text}");
    }
    let other_goals = job(&[30], &id());
    assert_eq!(answer(&Case::resumed(&table, &other_goals, &saved)), refused(30, 0, 0));
    let more_goals = job(&[20, 20], &id());
    assert_eq!(answer(&Case::resumed(&table, &more_goals, &saved)), refused(30, 0, 0));
    // A step later the two differ.
    let saved = state_at(&table, &job_of("id ; id"), 1).expect("a halt");
    assert_eq!(answer(&Case::resumed(&table, &job_of("id ; <>"), &saved)).number, 23);
    assert_eq!(answer(&Case::resumed(&table, &job_of("[1]id"), &saved)), refused(30, 0, 0));
}

/// A run that has ended before its step count is not genuine, though it comes to the same
/// terms (B1.13).
#[test]
fn there_is_no_state_behind_the_end() {
    let (table, job) = (table_a(), first_job());
    let state = state_at(&table, &job, 18).expect("a halt");
    for steps in [19u16, 20, 4_096, 16_384] {
        let mut later = state.clone();
        later[..2].copy_from_slice(&steps.to_be_bytes());
        assert_eq!(answer(&Case::resumed(&table, &job, &later).with_budget(0)), refused(30, 0, 0));
    }
}

/// No state is longer than the size, also where a run holds the most: the bound is six for
/// the counts, 518 for a term to begin on 256 goals, six for each step and 15 for each
/// field that is held (P12).
#[test]
fn the_largest_states() {
    assert_eq!(STATE_SIZE, 6 + 6 + 512 + 6 * 16_384 + 15 * 4_096);
    let mut longest = 0;
    for case in [halting::at_limits(), longer::halting_cases()].concat() {
        let outcome = case.outcome();
        if outcome.answer.number == 24 {
            let state = &outcome.state[..STATE_SIZE];
            let shown = Shown::of(state);
            let goals: usize = shown.entries.iter().map(|entry| entry.goals.len()).sum();
            let length = 6 + shown.finished.len() + 6 * shown.entries.len() + 2 * goals;
            assert!(state[length..].iter().all(|&byte| byte == 0));
            let held = fields_in(&shown.finished);
            assert!(held <= 4_096 && length <= 524 + 6 * usize::from(shown.steps) + 15 * held);
            longest = longest.max(length);
        }
    }
    assert_eq!(longest, 6 + 8 + 4_096 * (5 + 6 + 20));
}

/// The vectors halt at every stage in both files, with alternations in one another whose
/// goals are partly used up, and take up states of each.
#[test]
fn the_vectors_halt_everywhere() {
    let set = second::generate::vector_set();
    let cases = &set.iter().find(|file| file.0 == "halting.vec").expect("the file").1;
    let goes_on = |case: &&Case| [0, 22, 23, 24].contains(&case.outcome().answer.number);
    let states = cases.iter().filter(|case| case.entry == Entry::Resume).filter(goes_on);
    let shown: Vec<Shown> = states.map(|case| Shown::of(&case.saved)).collect();
    let pairs: BTreeSet<(u8, u8)> =
        shown.iter().flat_map(|state| state.entries.iter().map(|entry| (entry.stage, entry.file))).collect();
    let all: BTreeSet<(u8, u8)> = (0..=6).flat_map(|stage| [(stage, 0), (stage, 1)]).collect();
    assert_eq!(pairs, all);
    let own_goals =
        |state: &Shown| state.entries.iter().filter(|entry| entry.stage == 6 && !entry.goals.is_empty()).count();
    assert!(shown.iter().filter(|state| own_goals(state) > 1).count() > 30);
    assert!(shown.iter().any(|state| own_goals(state) > 100));
    assert!(shown.iter().any(|state| state.entries.len() > 4_000));
    assert!(shown.iter().any(|state| state.finished.len() > 5_000));
}

/// Random calls end in every way there is.
#[test]
fn random_calls_are_mixed() {
    for (seed, entry) in [(707, Entry::RunHalting), (708, Entry::Resume)] {
        let random = &mut Random::new(seed);
        let mut counts: BTreeMap<u32, usize> = BTreeMap::new();
        for _ in 0..3_000 {
            let answer = random_case_of(entry, Size::Small, random).outcome().answer;
            *counts.entry(answer.number).or_default() += 1;
        }
        for (number, least) in [(0, 150), (23, 100), (24, 500), (25, 100), (26, 50), (29, 100), (2, 50), (3, 50)] {
            assert!(counts.get(&number).is_some_and(|&count| count >= least), "{entry:?}: {number} in {counts:?}");
        }
        assert_eq!(counts.contains_key(&30), entry == Entry::Resume);
    }
}
