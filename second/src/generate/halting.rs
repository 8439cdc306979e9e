//! P1: runs that halt, and runs that are taken up. Each is halted at every step or
//! near a border; saved states are forged in every part; and what is refused comes in
//! every order.

use super::build::*;
use super::case::{Case, Entry};
use super::searches::{term, without_repetitions};
use super::{examples, limit_files, positions};
use crate::engine::saved_state::step_count;
use crate::engine::{self, HaltingRun};
use crate::limits::{MOST_BUDGET, MOST_FRAMES, MOST_GOALS, STATE_SIZE};

/// The goals and the term of a run, in P8's notation.
type Ran = (&'static [u16], &'static str);

const FIRST: Ran = (&[10], "T3");
const LABELS: Ran = (&[10], "[1]([2]a1) ; ([3]id) * a3");
const SIDE_BY_SIDE: Ran = (&[10, 10], "(a1 ; a2 * id) * (a1 ; id * a3)");
/// Halted after 5 steps: the alternation's first goal is used up.
pub const USED_UP: Ran = (&[20, 30, 20], "(a2 * id * a2 ; T99) | T4");
const INSIDE_A_SEQUENCE: Ran = (&[10], "(a1 ; (a2 * id ; T99) | id * a3) | id");
const NESTED: Ran = (&[20, 30, 20], "(id * (T8 | T4) ; T99) | T4");
const NESTED_IN_SEQUENCES: Ran = (&[20, 30], "((id ; a2) * (((id ; ?20) | id) ; a2) | id) * a3 | id * id");

/// Runs of a few dozen steps, which are halted at every one.
const RUNS: [Ran; 38] = [
    // Document 01's edges.
    FIRST,
    (&[], "T4"),
    (&[20, 20], "T4"),
    (&[20], "(id | a2) ; <>"),
    (&[20, 20, 30], "T5 * T6"),
    (&[20, 30, 20], "T7"),
    // Terms alone.
    (&[20], "id"),
    (&[], "<>"),
    (&[20], "a2"),
    (&[40], "a4"),
    (&[20], "?30"),
    (&[20], "T99"),
    // Labels, and what they leave behind.
    LABELS,
    (&[10], "([1][2]a1) ; ([3]a2) * [4]a3"),
    // Sequences that lean left and right: fields finished outside and inside.
    (&[20], "((id ; id) ; id) ; a2"),
    (&[20], "id ; id ; id ; a2"),
    (&[10], "a1 ; a2 * id ; ?30 ; a3"),
    (&[10], "(a1 ; (a2 * id ; id)) ; a3"),
    // Tensors: goals still to come, and goals that the left gave.
    (&[20, 30, 20], "a2 * id * a2"),
    (&[20, 30, 20], "(a2 * id) * a2"),
    (&[40, 20], "a4 * id"),
    (&[20, 40, 30], "(id * a4) * id ; T4"),
    SIDE_BY_SIDE,
    (&[10, 20], "(<> * a1) * <> * a2"),
    // Alternations whose goals are used up one by one; the left fails late or works.
    USED_UP,
    (&[20, 30, 20], "((a2 * a3) * id ; T99) | id * a3 * id"),
    (&[20, 30], "(a2 * (id | a3) ; <>) | T4"),
    INSIDE_A_SEQUENCE,
    (&[10, 20], "((a1 ; a2 * a3) * a2) | T4"),
    // Alternations inside alternations, with tensors and sequences between them.
    (&[20, 30], "T8"),
    NESTED,
    (&[20, 20, 30], "((id * (a2 * (a3 | id) | T4)) ; T99) | (a2 * (id * a2 | id * id))"),
    NESTED_IN_SEQUENCES,
    (&[20, 20], "(((id * id ; T4) | T4) ; (a2 * T99 | T4)) | T4"),
    (&[20], "(((a3 | a3) | ?30) | [5]a3 | <>) | a2"),
    (&[20, 30], "T4 ; (a2 * (?20 | a3)) | T4"),
    // Bodies inside bodies.
    (&[10], "T9"),
    (&[20, 10, 30], "T10"),
];

/// The tactics of `table` behind those of the examples, numbered from 8 on. T8 nests an
/// alternation for each goal, and each has used up one goal when the next begins.
const TACTICS: [&str; 3] = ["((id * T8) ; T99) | T4", "[8]T1 ; (T2 | id)", "T5 * T9 * T6 | (id * [9]T3) * T2"];

/// The examples' table with ALL, and tactics to halt in; rule 4 on 40 gives eight times
/// 40.
pub fn table() -> Vec<u8> {
    let definitions = TACTICS.iter().zip(8..).flat_map(|(body, tactic)| definition(tactic, &term(body)));
    [rule(4, 40, &[40; 8]), examples::table_a_with_all(), definitions.collect()].concat()
}

fn job_of((goals, text): &Ran) -> Vec<u8> {
    job(goals, &term(text))
}

/// The steps of a run that is given all it can be given.
pub fn steps_of(table: &[u8], job: &[u8]) -> u32 {
    match engine::run(table, job, MOST_BUDGET) {
        Ok(success) => success.steps,
        Err(refusal) => refusal.steps,
    }
}

/// The state of a run that has made so many steps; None if it does not halt then.
pub fn state_at(table: &[u8], job: &[u8], steps: u32) -> Option<Vec<u8>> {
    match engine::run_halting(table, job, steps) {
        Ok(HaltingRun::Halted { state, .. }) => {
            let mut bytes = vec![0; STATE_SIZE];
            state.write_to(&mut bytes);
            Some(bytes)
        }
        _ => None,
    }
}

/// The state of a run that has made half of its steps; zeros if a file is refused.
pub fn half_way(table: &[u8], job: &[u8]) -> Vec<u8> {
    state_at(table, job, steps_of(table, job) / 2).unwrap_or_else(|| vec![0; STATE_SIZE])
}

pub fn run_halting(table: &[u8], job: &[u8], budget: u32) -> Case {
    Case::new(Entry::RunHalting, table, job).with_budget(budget)
}

/// A run that is taken up after so many steps, with so many more.
pub fn resumed_at(table: &[u8], job: &[u8], steps: u32, budget: u32) -> Option<Case> {
    state_at(table, job, steps).map(|saved| Case::resumed(table, job, &saved).with_budget(budget))
}

/// A run that halts after so many steps, and is then taken up: to its very end, to one
/// step before it, and with all the budget there is.
fn halted_at(table: &[u8], job: &[u8], steps: u32) -> Vec<Case> {
    let rest = steps_of(table, job) - steps;
    let mut cases = vec![run_halting(table, job, steps)];
    let budgets = [rest, rest - 1, MOST_BUDGET - steps];
    cases.extend(budgets.into_iter().filter_map(|budget| resumed_at(table, job, steps, budget)));
    without_repetitions(cases)
}

/// Each listed run, halted at every step, and with just the budget that it needs.
pub fn halted_everywhere() -> Vec<Case> {
    let table = table();
    let mut cases = Vec::new();
    for job in RUNS.iter().map(job_of) {
        let steps = steps_of(&table, &job);
        cases.push(run_halting(&table, &job, steps));
        for halt in 0..steps {
            cases.push(run_halting(&table, &job, halt));
            let budget = if halt % 3 == 0 { steps - halt } else { (steps - halt) / 2 };
            cases.extend(resumed_at(&table, &job, halt, budget));
        }
    }
    cases
}

/// Runs that are halted again and again, each time from the state of the time before.
pub fn again_and_again() -> Vec<Case> {
    let table = table();
    let mut cases = Vec::new();
    for (run, stride) in [(FIRST, 1), (INSIDE_A_SEQUENCE, 1), (NESTED, 7), (NESTED_IN_SEQUENCES, 2)] {
        let job = job_of(&run);
        let steps = steps_of(&table, &job);
        cases.extend((0..steps).step_by(stride).filter_map(|halt| resumed_at(&table, &job, halt, stride as u32)));
    }
    cases
}

/// Alternations that fail, first or last or not at all, in every place of a tactic, half
/// way.
pub fn in_every_place() -> Vec<Case> {
    let half = |case: &Case| halted_at(&case.table, &case.other, steps_of(&case.table, &case.other) / 2);
    positions::halting_cases().iter().flat_map(|case| half(case).into_iter().take(2)).collect()
}

/// Budgets on both sides of every border, and sums with a saved state's steps that would
/// be small if only 16 or 32 bits of them were looked at.
pub fn numbers() -> Vec<Case> {
    let (table, first_job) = (examples::table_a(), job(&[10], &defined(3)));
    let most = MOST_BUDGET;
    let mut cases: Vec<Case> =
        [0, 1, 18, 19, 20, 4_096, 4_097, most - 1, most, most + 1, 65_536, 65_536 + 19, 1 << 31, u32::MAX]
            .map(|budget| run_halting(&table, &first_job, budget))
            .to_vec();
    for steps in [0, 9, 18] {
        let to_the_end = [0, 1, 18 - steps, 19 - steps, 20 - steps];
        let to_the_limit = [4_096 - steps, 4_097 - steps, most - 1 - steps, most - steps, most + 1 - steps];
        let around_16_bits = [65_535 - steps, 65_536 - steps, 65_536, 65_536 + 19 - steps];
        let around_32_bits = [1 << 31, u32::MAX - steps, (u32::MAX - steps).wrapping_add(1), u32::MAX - 1, u32::MAX];
        for budget in [&to_the_end[..], &to_the_limit, &around_16_bits, &around_32_bits].concat() {
            cases.extend(resumed_at(&table, &first_job, steps, budget));
        }
    }
    cases
}

/// Saved states of every interesting size, with sums on both sides of 16,384: those that
/// are too short to hold a step count have none.
pub fn sizes() -> Vec<Case> {
    let (table, first_job) = (examples::table_a(), job(&[10], &defined(3)));
    let mut states: Vec<Vec<u8>> = Vec::new();
    for steps in [0, 9] {
        let state = state_at(&table, &first_job, steps).unwrap_or_default();
        let mut longer = state.clone();
        longer.push(0);
        states.extend([0, 1, 2, 3, 6, 20, STATE_SIZE - 1, STATE_SIZE].map(|length| state[..length].to_vec()));
        states.push(longer);
    }
    let most = MOST_BUDGET as u16;
    states.extend([vec![255], vec![64], vec![64, 0], vec![64, 1], vec![63, 255], vec![255, 255], vec![64, 0, 9]]);
    // One of the size that a state had before P12.
    states.push(state_at(&table, &first_job, 9).unwrap_or_default()[..86_540].to_vec());
    states.push(vec![16, 1]);
    states.push([&most.to_be_bytes(), &[0; STATE_SIZE - 3][..]].concat());
    states.push([&(most + 1).to_be_bytes(), &[0; STATE_SIZE - 3][..]].concat());
    let mut cases = Vec::new();
    for state in states {
        let steps = step_count(&state);
        for budget in [0, MOST_BUDGET.saturating_sub(steps), (MOST_BUDGET + 1).saturating_sub(steps)] {
            cases.push(Case::resumed(&table, &first_job, &state).with_budget(budget));
        }
    }
    without_repetitions(cases)
}

/// Work spaces, frames and second spaces on both sides of their sizes, for a run that
/// halts, one that ends and one that fails, begun and taken up.
pub fn lent_spaces() -> Vec<Case> {
    let table = table();
    let (first_job, failing) = (job(&[10], &defined(3)), job(&[20], &term("id ; a3")));
    let mut ways = vec![
        run_halting(&table, &first_job, 18),
        run_halting(&table, &first_job, 19),
        run_halting(&table, &failing, 19),
    ];
    ways.extend(resumed_at(&table, &first_job, 9, 9));
    ways.extend(resumed_at(&table, &first_job, 9, 10));
    ways.extend(resumed_at(&table, &failing, 1, 10));
    let mut cases = Vec::new();
    for case in ways {
        let size = case.entry.work_size();
        cases.extend(
            [0, STATE_SIZE - 1, STATE_SIZE, STATE_SIZE + 1, STATE_SIZE + 5].map(|n| case.clone().with_state(n)),
        );
        cases.extend([0, 1, MOST_FRAMES - 1, MOST_FRAMES, MOST_FRAMES + 1].map(|n| case.clone().with_frames(n)));
        cases.extend([0, size - 1, size, size + 1].map(|n| case.clone().with_work(n)));
        cases.push(case.with_work(size + 1).with_frames(MOST_FRAMES + 1).with_state(STATE_SIZE + 5));
    }
    without_repetitions(cases)
}

/// "29, 25, table, file 2, 30, steps, 26": each with what comes behind it.
pub fn order_of_refusals() -> Vec<Case> {
    let (table, first_job) = (examples::table_a(), job(&[10], &defined(3)));
    let state = state_at(&table, &first_job, 9).unwrap_or_default();
    let torn: [u8; 2] = [1, 0];
    let over = MOST_BUDGET + 1;
    let mut cases = Vec::new();
    for good in [run_halting(&table, &first_job, 10), Case::resumed(&table, &first_job, &state).with_budget(10)] {
        let size = good.entry.work_size();
        let of_files = |table: &[u8], job: &[u8]| {
            let (table, other) = (table.to_vec(), job.to_vec());
            Case { table, other, ..good.clone() }
        };
        let wrong = of_files(&torn, &torn).with_budget(over).with_output(0);
        cases.extend([
            wrong.clone().with_work(size - 1),
            wrong.clone().with_frames(MOST_FRAMES - 1),
            wrong.clone().with_state(STATE_SIZE - 1),
            wrong.clone().with_work(size - 1).with_frames(MOST_FRAMES - 1).with_state(STATE_SIZE - 1),
            wrong.clone(),
            of_files(&torn, &torn),
            of_files(&torn, &first_job),
            of_files(&table, &torn),
            good.clone().with_budget(over),
            good.clone().with_budget(0).with_output(0),
            good.clone().with_output(0),
            good.clone().with_budget(18).with_output(0),
        ]);
    }
    cases.extend(order_with_forged_states(&table, &first_job, &state));
    cases
}

/// The same with saved states that are not genuine: 30 behind the files, before any step
/// and before 26.
fn order_with_forged_states(table: &[u8], job: &[u8], state: &[u8]) -> Vec<Case> {
    let torn: [u8; 2] = [1, 0];
    let mut forged = state.to_vec();
    forged[STATE_SIZE - 1] = 1;
    let mut cases = Vec::new();
    for saved in [&forged[..], &[], &state[..STATE_SIZE - 1], &[0; STATE_SIZE]] {
        let bad = Case::resumed(table, job, saved).with_budget(10);
        cases.extend([
            Case { table: torn.to_vec(), ..bad.clone() },
            Case { other: torn.to_vec(), ..bad.clone() },
            bad.clone().with_budget(MOST_BUDGET + 1).with_output(0),
            bad.clone().with_state(STATE_SIZE - 1),
            bad.clone().with_budget(0),
            bad.clone().with_output(0),
            bad,
        ]);
    }
    cases
}

/// How a run that is taken up ends with an output space of every interesting length.
pub fn outputs() -> Vec<Case> {
    let table = table();
    let mut cases = Vec::new();
    for (run, steps) in [(FIRST, 9), (FIRST, 18), (SIDE_BY_SIDE, 5), (LABELS, 3)] {
        let job = job_of(&run);
        let Some(case) = resumed_at(&table, &job, steps, MOST_BUDGET - steps) else {
            continue;
        };
        if let Some(result) = case.result() {
            let length = result.len();
            cases.extend([0, 1, length - 1, length, length + 1].map(|n| case.clone().with_output(n)));
        }
        cases.push(case.with_budget(0).with_output(0));
    }
    cases
}

/// States in which each byte of the contents is another, the first two zeros behind them
/// and the last of all.
fn changed_in_one_byte(state: &[u8]) -> Vec<Vec<u8>> {
    let contents = state.iter().rposition(|&byte| byte != 0).map_or(0, |last| last + 1);
    let places = (0..contents + 2).chain([STATE_SIZE - 1]);
    let changed = |at: usize| {
        let mut bytes = state.to_vec();
        bytes[at] = bytes[at].wrapping_add(1);
        bytes
    };
    places.map(changed).collect()
}

/// An entry of a state that is built from its parts.
#[derive(Clone)]
struct StateEntry {
    stage: u8,
    file: u8,
    place: u16,
    goals: Vec<u16>,
}

/// A state of these parts, whether a run comes to it or not.
fn built_state(steps: u16, finished: &[u8], entries: &[StateEntry]) -> Vec<u8> {
    let mut bytes = values(&[steps, finished.len() as u16]);
    bytes.extend(finished);
    bytes.extend(values(&[entries.len() as u16]));
    for entry in entries {
        bytes.extend([entry.stage, entry.file]);
        bytes.extend(values(&[entry.place, entry.goals.len() as u16]));
        bytes.extend(values(&entry.goals));
    }
    bytes.resize(STATE_SIZE, 0);
    bytes
}

fn entry(stage: u8, place: u16, goals: &[u16]) -> StateEntry {
    StateEntry { stage, file: 1, place, goals: goals.to_vec() }
}

fn entries_in(file: u8, entries: &[StateEntry]) -> Vec<StateEntry> {
    entries.iter().map(|entry| StateEntry { file, ..entry.clone() }).collect()
}

/// Well-formed states for USED_UP after 5 steps; only the first is genuine. Each of the
/// others is what another layout would be, or a machine that goes wrong in one way.
///
/// The run has then begun the tensor in the right part of a tensor whose left has used up
/// the first goal. The fields of the job: goals at 0, alternation at 9, sequence at 12,
/// tensor at 15, a2 at 18, tensor at 23, id at 26, a2 at 29, T99 at 34, T4 at 39.
pub fn forged_states() -> Vec<Vec<u8>> {
    [forged_counts_and_goals(), forged_fields(), forged_terms()].concat()
}

/// The terms of the genuine state: what the alternation has used up, what the outer
/// tensor's left gave, what waits in the inner tensor, and the goals of the term to begin.
fn waiting(own: &[u16], given: &[u16], others: &[u16], goals: &[u16]) -> Vec<StateEntry> {
    vec![entry(6, 39, own), entry(2, 34, &[]), entry(5, 23, given), entry(4, 29, others), entry(0, 26, goals)]
}

fn genuine_terms() -> Vec<StateEntry> {
    waiting(&[20], &[], &[20], &[30])
}

/// The terms after five steps, with the field that is finished then.
fn after_five(entries: &[StateEntry]) -> Vec<u8> {
    built_state(5, &atomic(2), entries)
}

fn forged_counts_and_goals() -> Vec<Vec<u8>> {
    let counted = |steps: u16| built_state(steps, &atomic(2), &genuine_terms());
    let of =
        |own: &[u16], given: &[u16], others: &[u16], goals: &[u16]| after_five(&waiting(own, given, others, goals));
    let both = [atomic(2), id()].concat();
    vec![
        after_five(&genuine_terms()),
        // Another step count: the run halts elsewhere then, or has ended, or not begun.
        counted(4),
        counted(6),
        counted(0),
        counted(12),
        counted(4_096),
        // The states before and after this one, with its step count.
        after_five(&[entry(6, 39, &[20]), entry(2, 34, &[]), entry(5, 23, &[]), entry(0, 23, &[30, 20])]),
        built_state(
            5,
            &both,
            &[entry(6, 39, &[20, 30]), entry(2, 34, &[]), entry(5, 23, &[]), entry(5, 29, &[30]), entry(0, 29, &[20])],
        ),
        // The alternation with all of its goals, with none, and with another.
        of(&[20, 30, 20], &[], &[20], &[30]),
        of(&[], &[], &[20], &[30]),
        of(&[30], &[], &[20], &[30]),
        // Goals exchanged, lost, and given twice.
        of(&[20], &[], &[30], &[20]),
        of(&[20], &[], &[], &[30]),
        of(&[20], &[], &[20, 20], &[30]),
        of(&[20], &[20], &[20], &[30]),
        of(&[20], &[], &[20], &[20, 30]),
    ]
}

/// Another field finished, none, one too many, and one around it.
fn forged_fields() -> Vec<Vec<u8>> {
    let finished = |fields: &[u8]| built_state(5, fields, &genuine_terms());
    vec![
        finished(&atomic(3)),
        finished(&id()),
        finished(&[]),
        finished(&[atomic(2), id()].concat()),
        finished(&tensor(&atomic(2), &id())),
    ]
}

fn forged_terms() -> Vec<Vec<u8>> {
    let genuine = genuine_terms();
    let [alternation, sequence, outer, inner, to_begin] = &genuine[..] else { unreachable!("five terms") };
    let of = |terms: [&StateEntry; 5]| after_five(&terms.map(Clone::clone));
    let backwards: Vec<StateEntry> = genuine.iter().rev().cloned().collect();
    vec![
        // A term missing, one too many, two exchanged, the innermost first, none at all.
        after_five(&genuine[1..]),
        after_five(&[&[entry(6, 39, &[])], &genuine[..]].concat()),
        of([alternation, outer, sequence, inner, to_begin]),
        after_five(&backwards),
        after_five(&[]),
        // Other stages of the same terms, and another term to begin.
        of([alternation, &entry(3, 34, &[]), outer, inner, to_begin]),
        of([alternation, sequence, &entry(4, 23, &[]), inner, to_begin]),
        of([alternation, sequence, outer, inner, &entry(0, 29, &[30])]),
        // The terms' own places, and the other files.
        of([&entry(6, 9, &[20]), &entry(2, 12, &[]), &entry(5, 15, &[]), &entry(4, 23, &[20]), to_begin]),
        after_five(&entries_in(0, &genuine)),
        after_five(&entries_in(2, &genuine)),
        built_state(0, &[], &[]),
        vec![255; STATE_SIZE],
    ]
}

/// States that are forged, and states of other runs.
pub fn forgeries() -> Vec<Case> {
    let table = table();
    let (used_up, inside) = (job_of(&USED_UP), job_of(&INSIDE_A_SEQUENCE));
    let resumed = |job: &[u8], saved: &[u8]| {
        let allowed = MOST_BUDGET.saturating_sub(step_count(saved));
        Case::resumed(&table, job, saved).with_budget(allowed.min(3))
    };
    let mut cases: Vec<Case> = forged_states().iter().map(|state| resumed(&used_up, state)).collect();
    for (job, steps) in [(&used_up, 5), (&inside, 9)] {
        let state = state_at(&table, job, steps).unwrap_or_default();
        cases.extend(changed_in_one_byte(&state).iter().map(|state| resumed(job, state)));
    }
    cases.extend(of_other_runs());
    cases
}

/// States under tables and jobs other than their own. "genuine is a matter of bytes": at
/// the first step `id`, `empty` and `[1]id` have the same, and so has a job under another
/// table (B1.12).
fn of_other_runs() -> Vec<Case> {
    let table = table();
    let jobs =
        ["id", "<>", "a2", "[1]id", "id ; id", "id | a2", "T3", "(id ; id) ; id"].map(|text| job(&[20], &term(text)));
    let tables = [table.clone(), examples::table_a(), vec![], examples::table_of_eight()];
    let mut cases = Vec::new();
    for steps in [0, 1, 2] {
        for (own, other) in jobs.iter().flat_map(|own| jobs.iter().map(move |other| (own, other))) {
            let state = state_at(&table, own, steps);
            cases.extend(state.map(|saved| Case::resumed(&table, other, &saved).with_budget(5)));
        }
    }
    let job = job_of(&FIRST);
    for (steps, of_table) in [0, 1, 2, 6].into_iter().flat_map(|steps| tables.iter().map(move |of| (steps, of))) {
        let state = state_at(&table, &job, steps);
        cases.extend(state.map(|saved| Case::resumed(of_table, &job, &saved).with_budget(5)));
    }
    without_repetitions(cases)
}

/// The largest states, the most waiting terms, the most goals and the most fields, near
/// the budgets at which they are so.
pub fn at_limits() -> Vec<Case> {
    let eights = examples::table_of_eight();
    let goals = [1; MOST_GOALS];
    let itself = defined(1);
    let runs: Vec<(Vec<u8>, Vec<u8>)> = vec![
        // Nothing waits, and more and more of each kind.
        (definition(1, &itself), job(&[], &itself)),
        (definition(1, &alternation(&itself, &id())), job(&goals, &itself)),
        (definition(1, &sequence(&itself, &id())), job(&goals, &itself)),
        (definition(1, &sequence(&id(), &itself)), job(&[1], &itself)),
        (definition(1, &label(1, &itself)), job(&[1], &itself)),
        (definition(1, &tensor(&empty(), &itself)), job(&goals, &itself)),
        (definition(1, &tensor(&sequence(&empty(), &itself), &id())), job(&[], &itself)),
        (vec![], job(&goals, &tensor_of(&vec![id(); MOST_GOALS]))),
        (vec![], job(&goals, &left_leaning_tensor_of(&vec![id(); MOST_GOALS]))),
        // Goals that are used up under alternations as many as there are goals.
        (table(), job(&[20; MOST_GOALS], &defined(8))),
        (table(), job(&[20; MOST_GOALS], &defined(4))),
        // An alternation around each label, each sequence, and both.
        (definition(1, &alternation(&sequence(&id(), &itself), &empty())), job(&[1], &itself)),
        (definition(1, &sequence(&alternation(&itself, &id()), &id())), job(&goals, &itself)),
        // A list of 256 given, and one of more.
        (eights.clone(), job(&[40; 32], &sequence(&tensor_of(&vec![atomic(4); 32]), &defined(4)))),
        (eights.clone(), job(&[40; 33], &tensor_of(&vec![atomic(4); 33]))),
        (eights.clone(), job(&[40; 33], &alternation(&tensor_of(&vec![atomic(4); 33]), &id()))),
    ];
    let mut cases = Vec::new();
    for (table, job) in &runs {
        let steps = steps_of(table, job);
        for halt in [steps / 2, steps - 1] {
            cases.extend(halted_at(table, job, halt));
        }
        cases.push(run_halting(table, job, steps));
        cases.extend(resumed_at(table, job, MOST_BUDGET, 0));
        cases.extend(resumed_at(table, job, MOST_BUDGET, 1));
    }
    cases.extend(as_deep_as_can_be());
    cases.extend(of_most_goals());
    without_repetitions(cases)
}

/// The most terms that can wait, and the most sequences with a finished left term. The
/// states are long, so each is taken up at one step only.
fn as_deep_as_can_be() -> Vec<Case> {
    let mut cases = Vec::new();
    for term in [labels_around(4_095, &id()), sequence_of(&vec![id(); 2_048])] {
        let job = job(&[1], &term);
        let steps = steps_of(&[], &job);
        cases.extend([steps / 2, steps].map(|budget| run_halting(&[], &job, budget)));
        cases.extend(halted_at(&[], &job, steps - 1));
    }
    cases
}

/// A run with 14,464 goals waiting, halted near its end; its state is taken up once only,
/// since it is long.
fn of_most_goals() -> Vec<Case> {
    let (table, job) = (examples::table_of_eight(), job(&[40; 227], &limit_files::term_of_most_waiting_goals()));
    let steps = steps_of(&table, &job);
    let mut cases: Vec<Case> = [1_000, steps - 2, steps - 1, steps].map(|n| run_halting(&table, &job, n)).to_vec();
    cases.extend(resumed_at(&table, &job, 1_000, steps - 1_000));
    cases.extend(resumed_at(&table, &job, 1_000, steps - 1_001));
    cases
}
