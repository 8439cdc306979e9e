//! P12: runs of up to 16,384 steps, and 40. A file has at most 4,096 term fields, so
//! long runs come from definitions that name one another.

use super::build::*;
use super::case::{Case, Entry};
use super::halting::{resumed_at, run_halting, steps_of};
use super::searches::without_repetitions;
use super::{examples, topics};
use crate::limits::{MOST_BUDGET, MOST_HELD_FIELDS, RUN_WORK};

/// A tactic without a definition.
const FAILS: u16 = 99;
/// The first of the tactics that leave fields, and how many there are.
const LEAVES: u16 = 0;
const LEAVING: u16 = 12;
/// The first of the tactics that fail, and how many there are.
const FAILING: u16 = 20;
const ALL_FAILING: u16 = 13;
/// The tactic that goes along a chain of goals, and the one with labels.
const ALONG: u16 = 40;
const ALONG_LABELS: u16 = 41;
/// How often the chain's rule can be applied, beginning with goal 0.
const LONGEST_CHAIN: u16 = 2_048;

/// Rule 4 on 40 gives eight times 40, rule 5 takes goal 1 to itself. Tactic n from 0 to
/// 11 leaves 2^(n+1) − 1 fields, all ids and sequences; tactic 20 + n from 0 to 12 fails
/// after 2^(n+2) − 2 steps.
pub fn table() -> Vec<u8> {
    let twice = |tactic: u16, join: fn(&[u8], &[u8]) -> Vec<u8>| join(&defined(tactic - 1), &defined(tactic - 1));
    let mut bytes = [rule(4, 40, &[40; 8]), rule(5, 1, &[1])].concat();
    for tactic in LEAVES..LEAVES + LEAVING {
        let body = if tactic < 10 { sequence_of(&vec![id(); 1 << tactic]) } else { twice(tactic, sequence) };
        bytes.extend(definition(tactic, &body));
    }
    bytes.extend(definition(FAILING, &defined(FAILS)));
    for tactic in FAILING + 1..FAILING + ALL_FAILING {
        bytes.extend(definition(tactic, &twice(tactic, alternation)));
    }
    bytes
}

/// Rule 7 on each goal below 2,048 gives the next one. Tactic 40 applies it as often as it
/// can, `(a7 ; T40) | id`, and tactic 41 the same with a label around each use.
pub fn chain_table() -> Vec<u8> {
    let rules = (0..LONGEST_CHAIN).flat_map(|goal| rule(7, goal, &[goal + 1]));
    let link = |tactic: u16| sequence(&atomic(7), &defined(tactic));
    let along = definition(ALONG, &alternation(&link(ALONG), &id()));
    let along_labels = definition(ALONG_LABELS, &alternation(&label(1, &link(ALONG_LABELS)), &id()));
    rules.chain(along).chain(along_labels).collect()
}

/// A job over `chain_table` whose chain has so many links, and so many fields for each
/// and one: 2, with labels 3.
pub fn along(links: u16, labels: bool) -> Vec<u8> {
    job(&[LONGEST_CHAIN - links], &defined(if labels { ALONG_LABELS } else { ALONG }))
}

/// A term over `table` that leaves so many fields on one goal, which it gives again.
pub fn of_fields(fields: usize) -> Vec<u8> {
    let left_by = |tactic: u16| (2 << (tactic - LEAVES)) - 1;
    let most = (LEAVES..LEAVES + LEAVING).rev().find(|&tactic| left_by(tactic) <= fields).unwrap_or(LEAVES);
    match fields - left_by(most) {
        0 => defined(most),
        1 => label(1, &defined(most)),
        others => sequence(&defined(most), &of_fields(others - 1)),
    }
}

/// A term over `table` that fails after so many steps, on any goals.
pub fn failing_after(steps: u32) -> Vec<u8> {
    let needed_by = |tactic: u16| (4 << (tactic - FAILING)) - 2;
    let most = (FAILING..FAILING + ALL_FAILING)
        .rev()
        .find(|&tactic| needed_by(tactic) == steps || needed_by(tactic) + 2 <= steps);
    match most {
        _ if steps == 1 => defined(FAILS),
        Some(tactic) if needed_by(tactic) == steps => defined(tactic),
        Some(tactic) => alternation(&defined(tactic), &failing_after(steps - 1 - needed_by(tactic))),
        None => alternation(&defined(FAILS), &failing_after(steps - 2)),
    }
}

/// The term after so many steps have failed: with an alternation's, one step more.
fn after_failing(steps: u32, term: &[u8]) -> Vec<u8> {
    alternation(&failing_after(steps), term)
}

/// `(first ; second) ...`, which fails at the end; then the other term.
fn fails_then(first: &[u8], other: &[u8]) -> Vec<u8> {
    alternation(&sequence(first, &defined(FAILS)), other)
}

/// A left alternative that holds so many fields and fails, and then one field.
fn gives_back(fields: usize) -> Vec<u8> {
    fails_then(&of_fields(fields), &id())
}

/// A run in this module: its table, its goals and its term.
pub struct Run {
    pub table: Vec<u8>,
    pub job: Vec<u8>,
}

fn on_one(term: &[u8]) -> Run {
    Run { table: table(), job: job(&[1], term) }
}

/// Terms that end on goal 1 with as many fields as stand beside them. The last of these
/// fields is left by the kind of term of its name; alternation and defined tactic leave
/// none of their own. `empty` gives no goal to go on with, so it stands in a tensor that
/// fails behind it.
pub fn of_every_kind() -> Vec<(&'static str, Vec<u8>, usize)> {
    vec![
        ("atomic", atomic(5), 1),
        ("id", id(), 1),
        ("assert", assert_goal(1), 1),
        ("empty", tensor(&empty(), &defined(FAILS)), 1),
        ("label", label(1, &id()), 2),
        ("sequence", sequence(&id(), &id()), 3),
        ("tensor", tensor(&id(), &empty()), 3),
        ("alternation", alternation(&id(), &id()), 1),
        ("right of an alternation", alternation(&defined(FAILS), &id()), 1),
        ("defined tactic", defined(LEAVES), 1),
    ]
}

/// Each kind of term makes the last field that may be held, then one too many. Behind it
/// a term fails, so that no other field comes; without 40 the right alternative succeeds.
pub fn held_by_every_kind() -> Vec<(Run, u32)> {
    let mut runs = Vec::new();
    for (_, term, fields) in of_every_kind() {
        for (held, number) in [(MOST_HELD_FIELDS, 0), (MOST_HELD_FIELDS + 1, 40)] {
            let before = of_fields(held - fields);
            let both = sequence(&before, &sequence(&term, &defined(FAILS)));
            runs.push((on_one(&alternation(&both, &id())), number));
        }
    }
    runs
}

/// Proofs of 4,095 and 4,096 fields, and what would be one of more.
pub fn whole_proofs() -> Vec<(Run, u32)> {
    let most = MOST_HELD_FIELDS;
    let (full, over) = (of_fields(most), of_fields(most + 1));
    let one = |term: &[u8], number: u32| (on_one(term), number);
    vec![
        one(&of_fields(most - 1), 0),
        one(&full, 0),
        one(&over, 40),
        one(&of_fields(most + 1_000), 40),
        // No alternative is tried, at any depth.
        one(&alternation(&full, &id()), 0),
        one(&alternation(&over, &id()), 40),
        one(&alternation(&sequence(&alternation(&over, &id()), &id()), &id()), 40),
        // Not even where the left one would have failed later.
        one(&fails_then(&over, &id()), 40),
        one(&sequence(&full, &id()), 40),
        one(&sequence(&id(), &full), 40),
        one(&label(1, &full), 40),
        one(&tensor(&full, &empty()), 40),
        one(&tensor(&of_fields(most - 2), &empty()), 0),
        one(&tensor(&empty(), &of_fields(most - 2)), 0),
        one(&tensor(&empty(), &of_fields(most - 1)), 40),
        // An alternation and a defined tactic leave no field.
        one(&alternation(&defined(FAILS), &alternation(&full, &full)), 0),
        // Once the left has succeeded its fields stay.
        one(&sequence(&alternation(&of_fields(4_000), &id()), &of_fields(95)), 0),
        one(&sequence(&alternation(&of_fields(4_000), &id()), &of_fields(96)), 40),
    ]
}

/// "fields of a failed alternative are no longer held"; those held outside stay.
pub fn given_back() -> Vec<(Run, u32)> {
    let most = MOST_HELD_FIELDS;
    let three = |fields: usize| sequence_of(&vec![gives_back(fields); 3]);
    let left_leaning = |fields: usize| {
        let again = gives_back(fields);
        sequence(&sequence(&again, &again), &again)
    };
    let inside = |outside: usize, fields: usize| sequence(&of_fields(outside), &gives_back(fields));
    let nested = |fields: usize| fails_then(&sequence(&of_fields(1_000), &gives_back(fields)), &of_fields(most));
    let one = |term: &[u8], number: u32| (on_one(term), number);
    vec![
        one(&fails_then(&of_fields(most), &of_fields(most)), 0),
        one(&fails_then(&of_fields(most), &of_fields(most + 1)), 40),
        // The third of three, with two fields held outside it; then three, one a sequence's.
        one(&three(most - 2), 0),
        one(&three(most - 1), 40),
        one(&left_leaning(most - 3), 0),
        one(&left_leaning(most - 2), 40),
        one(&inside(2_000, most - 2_000), 0),
        one(&inside(2_000, most - 1_999), 40),
        // An alternative that fails inside one that fails.
        one(&nested(most - 1_000), 0),
        one(&nested(most - 999), 40),
        one(&fails_then(&fails_then(&of_fields(2_000), &of_fields(2_000)), &of_fields(most)), 0),
        one(&alternation(&sequence(&of_fields(2_000), &gives_back(2_000)), &id()), 0),
        // Some 15,000 fields, of which few are held at a time.
        one(&sequence_of(&vec![gives_back(1_023); 15]), 0),
        one(&alternation(&sequence_of(&vec![gives_back(1_023); 15]), &id()), 0),
    ]
}

/// A sequence or label counts when it ends, not when it begins: thousands are open at once,
/// and end together.
pub fn ending_together() -> Vec<(Run, u32)> {
    let chain = |links: u16, labels: bool| Run { table: chain_table(), job: along(links, labels) };
    vec![
        (chain(2_047, false), 0),
        (chain(2_048, false), 40),
        (chain(1_365, true), 0),
        (chain(1_366, true), 40),
        (chain(2_048, true), 40),
    ]
}

/// Goals 40 side by side, the first of which leaves that many fields; then rule 4 on each.
/// The outermost tensor joins eight times as many.
fn eights(goals: usize, fields: usize) -> Run {
    let mut parts = vec![id(); goals];
    parts[0] = of_fields(fields);
    let term = sequence(&tensor_of(&parts), &tensor_of(&vec![atomic(4); goals]));
    Run { table: table(), job: job(&vec![40; goals], &term) }
}

/// "after 22 at the same term": 33 tensors in one another join 264 goals at the outermost,
/// 32 just 256. Of the fields 4·n − 4 are not those of the first goal's term and not of the
/// outermost tensor; the sequence around all ends last.
pub fn joined_lists() -> Vec<(Run, u32)> {
    let before_the_last_tensor = |goals: usize, held: usize| eights(goals, held - (4 * goals - 4));
    let most = MOST_HELD_FIELDS;
    vec![
        (before_the_last_tensor(33, most - 1), 22),
        (before_the_last_tensor(33, most), 22),
        (before_the_last_tensor(33, most + 1), 40),
        (before_the_last_tensor(32, most - 2), 0),
        (before_the_last_tensor(32, most - 1), 40),
        (before_the_last_tensor(32, most), 40),
        (before_the_last_tensor(32, most + 1), 40),
    ]
}

/// Every ending at the last step that is allowed, one before it, and one behind it, which
/// is 24: at success, 23, 22 and 40, with an alternative that is not tried.
pub fn at_the_last_step() -> Vec<(Run, u32)> {
    let joined = tensor_of(&vec![atomic(4); 33]);
    let over = of_fields(MOST_HELD_FIELDS + 1);
    let endings: [(&[u16], &[u8], u32); 4] =
        [(&[1], &id(), 0), (&[1], &defined(FAILS), 23), (&[40; 33], &joined, 22), (&[1], &over, 40)];
    let mut runs = Vec::new();
    for (goals, term, number) in endings {
        let own = steps_of(&table(), &job(goals, term));
        for (all, number) in [(MOST_BUDGET - 1, number), (MOST_BUDGET, number), (MOST_BUDGET + 1, 24)] {
            let job = job(goals, &after_failing(all - 1 - own, term));
            runs.push((Run { table: table(), job }, number));
        }
    }
    runs
}

/// All runs of this module with what they end with, each with the largest budget.
pub fn runs() -> Vec<(Run, u32)> {
    let mut runs = held_by_every_kind();
    runs.extend(whole_proofs());
    runs.extend(given_back());
    runs.extend(ending_together());
    runs.extend(joined_lists());
    runs.extend(at_the_last_step());
    runs
}

/// Budgets on both sides of the old limit and of the new one, and what comes before 25 and
/// behind it.
fn numbers() -> Vec<Case> {
    let (table, first_job) = (examples::table_a(), job(&[10], &defined(3)));
    let case = Case::new(Entry::Run, &table, &first_job);
    let budgets =
        [4_095, 4_096, 4_097, 8_192, 16_383, 16_384, 16_385, 16_386, 32_768, 65_536, 65_536 + 16_384, u32::MAX];
    let mut cases: Vec<Case> = budgets.map(|budget| case.clone().with_budget(budget)).to_vec();
    let torn = Case { table: vec![1, 0], ..case.clone() };
    for budget in [MOST_BUDGET, MOST_BUDGET + 1] {
        cases.extend([RUN_WORK - 1, RUN_WORK, RUN_WORK + 1].map(|n| torn.clone().with_budget(budget).with_work(n)));
        cases.push(case.clone().with_budget(budget).with_output(0));
    }
    cases
}

/// A run with the largest budget, with just the steps that it needs, with one fewer, which
/// is 24, and with one more.
fn around_its_steps(run: &Run) -> Vec<Case> {
    let whole = Case::new(Entry::Run, &run.table, &run.job);
    let steps = steps_of(&run.table, &run.job);
    let budgets = [steps, steps - 1, (steps + 1).min(MOST_BUDGET)];
    let mut cases = vec![whole.clone()];
    cases.extend(budgets.map(|budget| whole.clone().with_budget(budget)));
    cases.push(whole.with_output(0));
    without_repetitions(cases)
}

/// The cases of run.
pub fn cases() -> Vec<Case> {
    let mut cases = numbers();
    cases.extend(runs().iter().flat_map(|(run, _)| around_its_steps(run)));
    cases.extend(
        whole_proofs()
            .iter()
            .take(2)
            .flat_map(|(run, _)| topics::with_output_lengths(&Case::new(Entry::Run, &run.table, &run.job))),
    );
    cases
}

/// Rule 4 on 40 gives so many, and the first of them is taken up by the same tactic again:
/// at every fourth step one more field is held, and one goal fewer than the rule gives waits.
fn growing(premises: usize) -> Run {
    let others = tensor_of(&vec![id(); premises - 1]);
    let body = sequence(&atomic(4), &tensor(&defined(1), &others));
    Run { table: [rule(4, 40, &vec![40; premises]), definition(1, &body)].concat(), job: job(&[40], &defined(1)) }
}

/// Labels around a tactic that names itself: of the steps all but one in `labels + 1` leave
/// a term that waits.
fn ever_deeper(labels: usize) -> Run {
    Run { table: definition(1, &labels_around(labels, &defined(1))), job: job(&[1], &defined(1)) }
}

/// The longest states, the most terms that wait, and 4,096 fields held at the last step.
/// Those are taken up whose bytes repeat, so that they take little room.
fn largest_states() -> Vec<Case> {
    let most = MOST_BUDGET;
    let mut cases = Vec::new();
    for Run { table, job } in [growing(8), ever_deeper(4_000)] {
        cases.extend([most - 1, most].map(|budget| run_halting(&table, &job, budget)));
    }
    for Run { table, job } in [growing(7), ever_deeper(3)] {
        for (halt, budget) in [(most, 0), (most, 1), (most - 4, 3), (most - 4, 4), (most - 4, 5)] {
            cases.extend(resumed_at(&table, &job, halt, budget));
        }
    }
    cases
}

/// The same runs halted, and some of them taken up; the state of a long run is long, so
/// few are.
pub fn halting_cases() -> Vec<Case> {
    let mut cases = largest_states();
    for (number, (run, _)) in runs().iter().enumerate() {
        let (table, job) = (&run.table, &run.job);
        let steps = steps_of(table, job);
        for budget in [steps / 2, steps - 1, steps] {
            cases.push(run_halting(table, job, budget));
        }
        if number % 5 == 0 {
            let halt = if number % 2 == 0 { steps - 1 } else { steps / 2 };
            let rest = steps - halt;
            let budgets = [rest, rest - 1, MOST_BUDGET - halt, MOST_BUDGET + 1 - halt];
            cases.extend(budgets.iter().filter_map(|&budget| resumed_at(table, job, halt, budget)));
        }
    }
    without_repetitions(cases)
}
