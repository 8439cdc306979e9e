//! Searches: ways back, splits, heights, joined lists and budgets, each with the
//! heights and budgets on both sides of where its answer changes.

use super::build::*;
use super::case::{Case, Entry};
use super::examples;
use super::random_search::{deciding_height, REFUSED_HEIGHTS};
use crate::engine;
use crate::limits::{MOST_HEIGHT, MOST_SEARCH_BUDGET};

/// The goals and the term of a search, in P8's notation.
type Searched = (&'static [u16], &'static str);

/// The tactics of `table` behind those of the examples, numbered from 8 on.
const TACTICS: [&str; 7] =
    ["T8", "T9 | T9", "id | a2", "T11 | id", "id | T12", "(T13 ; T13) | id", "(T14 * T14) | id | <>"];

/// Terms without inner terms, and labels and tactics that have nothing to begin:
/// one step, whatever the goals.
const SINGLE_TERMS: [&str; 12] = ["a2", "a3", "a99", "id", "<>", "?20", "?30", "T99", "[9]a2", "[9]<>", "[9]T99", "T5"];

/// Searches that go back into what has finished.
const WAYS_BACK: [Searched; 30] = [
    // Into the left part of a sequence; the machine fails on the first.
    (&[20], "(id | a2) ; <>"),
    (&[20], "(a2 | id) ; <>"),
    (&[20], "(a3 | id | a2) ; <>"),
    (&[20], "((id | a2) | a2) ; <>"),
    (&[20], "(id | a3 | a2) ; <>"),
    (&[20], "(id | a3) ; <>"),
    // Into the right part, and past it into the left one.
    (&[20], "(id ; id | a2) ; <>"),
    (&[20], "((id | a2) ; id) ; <>"),
    (&[20], "((id | a2) ; T4) ; <>"),
    (&[20], "((id | id) ; id | id) ; a3"),
    // Into both parts of a tensor, the right one first.
    (&[20, 30], "(id | a2) * (id | a3) ; <>"),
    (&[20, 30], "(id | a2) * (id | a3) ; ?30"),
    (&[20, 30], "(id | a2) * (id | a3) ; ?20"),
    (&[20, 30], "(id | a2) * (id | a3) ; T4 ; ?10"),
    (&[20, 20], "(id | a2) * id ; id"),
    (&[20, 20], "id * (id | a2) ; id"),
    // Into a label, a defined tactic, and one inside the other.
    (&[20], "([1]id | a2) ; <>"),
    (&[20], "T10 ; <>"),
    (&[20], "([1]T10) ; <>"),
    (&[20, 20], "T10 * T10 ; <>"),
    (&[10], "(id | a1) ; a2 * a3"),
    (&[10], "(id | a1) ; T10 * (id | a3) ; <>"),
    // The same evaluation met again is tried again.
    (&[20], "(id | id) ; a3"),
    (&[20], "(id | id | a2) ; a3 | <>"),
    (&[20, 20], "(id | id) * (id | id) ; <>"),
    (&[20], "T12 ; a3"),
    // All of the left alternative before any of the right.
    (&[20], "((id | a2) ; <>) | id"),
    (&[20], "((id | a3) ; <>) | a2"),
    (&[20], "(T10 ; <>) | T10"),
    (&[20], "[1](T10 | id) ; <>"),
];

/// Searches whose tensors can be split in several ways, or in none.
const SPLITS: [Searched; 27] = [
    (&[20, 20, 30], "T5 * T6"),
    (&[20, 20], "T5 * T6"),
    (&[30, 20], "T5 * T6"),
    (&[], "T5 * T6"),
    // The shortest left part that goes on: none, though both parts could take all.
    (&[20, 20], "T4 * T4"),
    (&[20, 20], "T5 * T4"),
    (&[20, 20], "T4 * T5"),
    (&[20, 20], "(T5 * T4) ; <>"),
    (&[20, 20, 20], "(T5 * T4) ; id * id"),
    (&[20, 20], "([1]a2 | id) * T4"),
    (&[20, 30, 20], "T7 * T4 ; ?20"),
    // A split that gives the left none, all, and every number between.
    (&[20], "id * <>"),
    (&[20], "<> * id"),
    (&[20], "<> * <>"),
    (&[20], "id * id"),
    (&[], "id * <>"),
    (&[], "<> * <>"),
    (&[20, 20], "id * id"),
    (&[20, 20, 20], "id * id"),
    (&[20, 20, 20], "id * id * id"),
    (&[20, 20, 20], "(id * id) * id"),
    (&[20, 30], "(a2 * id) | (id * a3) ; <>"),
    (&[20, 30], "(<> * a2) * a3 * <>"),
    (&[20, 20], "T99 * id"),
    (&[20, 20], "id * T99"),
    (&[20, 20, 20], "T14"),
    (&[10, 20], "T3 * T5"),
];

/// Searches whose steps grow with the height.
const GROWING: [Searched; 9] = [
    (&[20], "T8"),
    (&[20], "T8 | id"),
    (&[20], "T9"),
    (&[20], "T9 | id"),
    (&[20], "T11"),
    (&[20], "T11 ; a3"),
    (&[20], "T12"),
    (&[20], "T13"),
    (&[20], "T13 ; a3"),
];

/// The term of a text; no bytes if it is refused.
pub fn term(text: &str) -> Vec<u8> {
    engine::read_text(text.as_bytes()).unwrap_or_default()
}

/// The examples' table with ALL, and tactics to search with; rule 4 on 40 gives
/// eight times 40.
pub fn table() -> Vec<u8> {
    let definitions = TACTICS.iter().zip(8..).flat_map(|(body, tactic)| definition(tactic, &term(body)));
    [rule(4, 40, &[40; 8]), examples::table_a_with_all(), definitions.collect()].concat()
}

fn search(goals: &[u16], term: &[u8], height: u32) -> Case {
    Case::new(Entry::Search, &table(), &job(goals, term)).with_height(height)
}

/// A search with the largest budget, the one that it just needs, and one less.
pub fn around_its_steps(case: &Case) -> Vec<Case> {
    let whole = case.clone().with_budget(MOST_SEARCH_BUDGET);
    let steps = whole.outcome().answer.steps;
    let just = [steps, steps.saturating_sub(1)].map(|budget| case.clone().with_budget(budget));
    without_repetitions([vec![whole], just.to_vec()].concat())
}

/// A search at the least height that decides it, with the budgets around its steps;
/// at one less, with just the steps that takes; and at the greatest height.
pub fn around_the_borders(case: &Case) -> Vec<Case> {
    let deciding = deciding_height(case);
    let lower = case.clone().with_height(deciding.max(2) - 1);
    let steps = lower.outcome().answer.steps;
    let mut cases = vec![lower.with_budget(steps)];
    cases.extend(around_its_steps(&case.clone().with_height(deciding)));
    cases.push(case.clone().with_height(MOST_HEIGHT));
    without_repetitions(cases)
}

/// The cases in their order, each once.
pub fn without_repetitions(cases: Vec<Case>) -> Vec<Case> {
    let mut different: Vec<Case> = Vec::new();
    for case in cases {
        if !different.contains(&case) {
            different.push(case);
        }
    }
    different
}

/// The listed searches, and the examples that the machine runs.
pub fn listed() -> Vec<Case> {
    let searched = WAYS_BACK.iter().chain(&SPLITS).chain(&GROWING);
    let mut cases: Vec<Case> = searched.map(|(goals, text)| search(goals, &term(text), MOST_HEIGHT)).collect();
    let examples = examples::run_cases().into_iter();
    cases.extend(examples.map(|run| Case::new(Entry::Search, &run.table, &run.other)));
    cases
}

/// Terms that evaluate or fail at once, on none, one and two goals.
pub fn single_terms() -> Vec<Case> {
    let mut cases = Vec::new();
    for text in SINGLE_TERMS {
        for goals in [&[][..], &[20], &[20, 20]] {
            cases.extend([1, 2].map(|height| search(goals, &term(text), height)));
        }
    }
    cases
}

/// Heights and budgets on both sides of their limits, and around what T5 ⊗ T6 on
/// 20, 20, 30 needs.
pub fn numbers() -> Vec<Case> {
    let case = |height: u32| search(&[20, 20, 30], &term("T5 * T6"), height);
    let most = MOST_SEARCH_BUDGET;
    let mut cases: Vec<Case> = [1, 2, 3, 8, 9, 10, 11, 12, 63, 64].map(case).to_vec();
    cases.extend(REFUSED_HEIGHTS.map(case));
    for budget in [0, 1, 2, 55, 56, 57, most - 1, most, most + 1, 65_536 + 56, 1 << 31, u32::MAX] {
        cases.push(case(10).with_budget(budget));
    }
    cases.extend([63, 64, 65].map(|budget| case(9).with_budget(budget)));
    cases
}

/// "29, 25, 42, table, file 2, search, 26": each with the one behind it.
pub fn order_of_refusals() -> Vec<Case> {
    let good = search(&[20, 20, 30], &term("T5 * T6"), 10);
    let failing = search(&[20], &term("a3"), 1);
    let (over, size) = (MOST_SEARCH_BUDGET + 1, Entry::Search.work_size());
    let with_table = |table: &[u8]| Case { table: table.to_vec(), ..good.clone() };
    let torn_job = Case { other: vec![3, 0], ..good.clone() };
    vec![
        good.clone().with_budget(over).with_work(size - 1),
        good.clone().with_height(0).with_work(size - 1),
        good.clone().with_budget(over).with_height(0),
        good.clone().with_budget(u32::MAX).with_height(u32::MAX),
        with_table(&[1, 0]).with_budget(over),
        with_table(&[1, 0]).with_height(0),
        with_table(&[1, 0]).with_height(65),
        good.clone().with_height(65).with_budget(0),
        with_table(&[1, 0]).with_budget(0),
        Case { other: vec![3, 0], ..with_table(&[1, 0]) },
        torn_job.clone().with_height(0),
        torn_job.with_budget(0),
        good.clone().with_budget(0).with_output(0),
        good.clone().with_budget(55).with_output(0),
        failing.clone().with_output(0),
        failing.with_budget(0).with_output(0),
        good.with_budget(56).with_output(0),
    ]
}

/// Joined lists of 256 and of more: "no evaluation", and the search goes on.
pub fn joined_lists() -> Vec<Case> {
    let of = |goals: usize, terms: &[Vec<u8>]| search(&vec![40; goals], &tensor_of(terms), MOST_HEIGHT);
    let eights = |count: usize| vec![atomic(4); count];
    let with_ids = |count: usize, ids: usize| [eights(count), vec![id(); ids]].concat();
    let either = || vec![alternation(&atomic(4), &id())];
    let over = tensor_of(&eights(33));
    vec![
        of(32, &eights(32)),
        of(33, &eights(33)),
        of(39, &with_ids(31, 8)),
        of(40, &with_ids(31, 9)),
        of(33, &[eights(31), either(), vec![id()]].concat()),
        of(33, &[either(), eights(31), vec![id()]].concat()),
        of(33, &[vec![tensor_of(&eights(32))], vec![id()]].concat()),
        search(&[40; 33], &alternation(&over, &tensor_of(&vec![id(); 33])), MOST_HEIGHT),
        search(&[40; 33], &sequence(&over, &defined(4)), MOST_HEIGHT),
        search(&[40; 34], &tensor(&over, &id()), MOST_HEIGHT),
    ]
}

/// Terms of each kind inside one another up to height 64 and one beyond.
pub fn at_the_greatest_height() -> Vec<Case> {
    let enclosing =
        |enclose: &dyn Fn(&[u8]) -> Vec<u8>, times: usize| (0..times).fold(id(), |inner, _| enclose(&inner));
    let mut terms = Vec::new();
    for times in [63, 64] {
        terms.extend([
            labels_around(times, &id()),
            enclosing(&|inner| sequence(&id(), inner), times),
            enclosing(&|inner| sequence(inner, &id()), times),
            enclosing(&|inner| tensor(&empty(), inner), times),
            enclosing(&|inner| tensor(inner, &empty()), times),
            enclosing(&|inner| alternation(&atomic(3), inner), times),
            enclosing(&|inner| alternation(inner, &atomic(3)), times),
        ]);
    }
    terms.iter().map(|term| search(&[20], term, MOST_HEIGHT)).chain(named_at_the_greatest_height()).collect()
}

/// Tactics that are the next one, as many as height 64 has room for.
fn named_at_the_greatest_height() -> Vec<Case> {
    let next = |tactic: u16| definition(tactic, &defined(tactic + 1));
    let links: Vec<u8> = (0..63).flat_map(next).collect();
    let chain = [links, definition(63, &id())].concat();
    [0, 1, 2].map(|first| Case::new(Entry::Search, &chain, &job(&[20], &defined(first)))).to_vec()
}

/// Searches of 4,096 steps, one less and one more, found and not; and the longest
/// lists of goals.
pub fn at_other_limits() -> Vec<Case> {
    let one = |text: &str, height: u32| search(&[20], &term(text), height);
    let wide = |text: &str, height: u32| search(&[20; 256], &term(text), height);
    vec![
        one("T9", 22),
        one("[1]T9", 23),
        one("[1][2]T9", 24),
        one("[1][2]T9", 24).with_budget(4_095),
        one("[1][2][3]T9", 25),
        one("T9 | id", 23),
        one("T9 | id", 23).with_budget(4_095),
        one("[1]T9 | id", 24),
        // A tensor at the last level has 257 splits and no step for them.
        wide("id * id", 1),
        wide("id * id", 1).with_budget(1),
        wide("id * id", 2),
        wide("id * id * id", 3),
        wide("<> * T4", MOST_HEIGHT),
        wide("T4", MOST_HEIGHT),
        wide("T5 * T6", MOST_HEIGHT),
        wide("T9", MOST_HEIGHT),
        wide("T14", MOST_HEIGHT),
        wide("T14", 12),
        search(&[20; 63], &tensor_of(&vec![id(); 63]), MOST_HEIGHT),
        search(&[20; 62], &left_leaning_tensor_of(&vec![id(); 62]), MOST_HEIGHT),
        search(&[20; 21], &defined(5), MOST_HEIGHT),
        search(&[20; 20], &defined(5), MOST_HEIGHT),
    ]
}

/// The longest proofs: every step of the search makes a field, or nearly every one.
pub fn longest_proofs() -> Vec<Case> {
    let balanced = |levels: usize| (0..levels).fold(id(), |half, _| sequence(&half, &half));
    vec![
        search(&[20], &label(1, &balanced(11)), MOST_HEIGHT),
        search(&[20], &balanced(9), MOST_HEIGHT),
        doubled_labels(),
    ]
}

/// A small table whose tactics write 28 labels 128 times, in 4,096 steps.
fn doubled_labels() -> Case {
    let twice = |tactic: u16| definition(tactic, &sequence(&defined(tactic + 1), &defined(tactic + 1)));
    let doubling: Vec<u8> = (1..8).flat_map(twice).collect();
    let table = [doubling, definition(8, &labels_around(28, &id()))].concat();
    Case::new(Entry::Search, &table, &job(&[20], &label(1, &label(2, &defined(1)))))
}
