//! P13's search, case by case: what is found, what is not, and after how many steps.

mod common;
use common::*;
use second::generate::build::*;
use second::generate::case::{Case, Entry};
use second::generate::examples::*;
use second::generate::random::Random;
use second::generate::random_case_of;
use second::generate::random_table::Size;
use second::generate::searches::{self, term};
use second::limits::*;
use second::text::{show, FileKind};
use std::collections::BTreeMap;

/// The search of a text's term in the table of searches.
fn searched(goals: &[u16], text: &str, height: u32, budget: u32) -> (second::Answer, Vec<u8>) {
    search(&searches::table(), &job(goals, &term(text)), height, budget)
}

/// Asserts that the term is found after so many steps, with the least budget and
/// with the largest, and not with one less.
fn found(goals: &[u16], text: &str, height: u32, steps: u32, hiproof: &str) {
    for budget in [steps, MOST_SEARCH_BUDGET] {
        let (answer, bytes) = searched(goals, text, height, budget);
        assert_eq!((answer.number, answer.steps), (0, steps), "{text}");
        let shown = show(FileKind::Proof, &bytes).unwrap();
        assert!(shown.contains(&format!("\nterm {hiproof}\n")), "{text}: {shown}");
        assert_eq!(check(&searches::table(), &bytes).number, 0);
    }
    assert_eq!(searched(goals, text, height, steps - 1).0, run_refused(24, steps - 1), "{text}");
}

/// Asserts that there is no evaluation, known after so many steps.
fn none(goals: &[u16], text: &str, height: u32, steps: u32) {
    for budget in [steps, MOST_SEARCH_BUDGET] {
        assert_eq!(searched(goals, text, height, budget).0, run_refused(41, steps), "{text}");
    }
    assert_eq!(searched(goals, text, height, steps - 1).0, run_refused(24, steps - 1), "{text}");
}

#[test]
fn at_height_10_it_finds_what_the_machine_does_not() {
    let side_by_side = job(&[20, 20, 30], &tensor(&defined(5), &defined(6)));
    let table = table_a_with_all();
    assert_eq!(run(&table, &side_by_side, 4_096).0, run_refused(23, 1));
    for budget in [56, 57, 4_096] {
        let (answer, bytes) = search(&table, &side_by_side, 10, budget);
        assert_eq!((answer.number, answer.steps), (0, 56));
        let left = tensor_of(&[atomic(2), atomic(2), empty()]);
        assert_eq!(bytes, proof(&[20, 20, 30], &tensor(&left, &tensor(&atomic(3), &empty())), &[]));
        assert_eq!(check(&table, &bytes), accepted(9, 3, 0, 2));
        let flat_bytes = flatten(&table, &bytes).1;
        assert_eq!(flat_bytes, flat(&[20, 20, 30], &[use_entry(2, 20), use_entry(2, 20), use_entry(3, 30)]));
    }
    assert_eq!(search(&table, &side_by_side, 10, 55).0, run_refused(24, 55));
    assert_eq!(search(&table, &side_by_side, 9, 4_096).0, run_refused(41, 64));
    assert_eq!(search(&table, &side_by_side, 9, 64).0, run_refused(41, 64));
    assert_eq!(search(&table, &side_by_side, 9, 63).0, run_refused(24, 63));
}

#[test]
fn a_leaf_is_one_rule_high() {
    found(&[20], "a2", 1, 1, "a2");
    found(&[20], "id", 1, 1, "id");
    found(&[20], "?20", 1, 1, "id");
    found(&[], "<>", 1, 1, "<>");
    for text in ["a3", "a99", "<>", "?30", "T99", "[1]id", "id ; id", "id * <>", "id | id", "T10"] {
        none(&[20], text, 1, 1);
    }
}

#[test]
fn every_rule_counts_one() {
    none(&[20], "[1]id", 1, 1);
    found(&[20], "[1]id", 2, 2, "[1]id");
    found(&[20], "id ; id", 2, 3, "id ; id");
    found(&[20], "id | a2", 2, 2, "id");
    found(&[20], "a3 | a2", 2, 3, "a2");
    // The tactic, its alternation, then the tensor on the way to empty.
    none(&[], "T4", 2, 2);
    found(&[], "T4", 3, 4, "<>");
    // 63 terms around id fit; one more does not, and id is then no step.
    let labels = |count: usize| job(&[20], &labels_around(count, &id()));
    assert_eq!(search(&[], &labels(63), 64, 4_096).0.steps, 64);
    assert_eq!(search(&[], &labels(63), 63, 4_096).0, run_refused(41, 63));
    assert_eq!(search(&[], &labels(64), 64, 4_096).0, run_refused(41, 64));
}

/// B13.2: a term that may not begin is not "to begin", so that the budget is not
/// what ends the search.
#[test]
fn what_is_too_deep_is_no_step_and_no_24() {
    none(&[20], "[1]id", 1, 1);
    none(&[20; 256], "id * id", 1, 1);
    none(&[20], "T8", 64, 64);
    // Too deep on the left, yet found on the right.
    found(&[20], "(id ; id) | id", 2, 3, "id");
}

#[test]
fn terms_that_fail_cost_one_step() {
    none(&[20, 20], "[1]id", 64, 1);
    none(&[], "[1]<>", 64, 1);
    none(&[20], "T99", 64, 1);
    none(&[20], "?30", 64, 1);
    none(&[20, 20], "?20", 64, 1);
    none(&[], "a2", 64, 1);
    // The label takes its goal, its inner term does not.
    none(&[20], "[1]<>", 64, 2);
}

#[test]
fn it_goes_back_into_finished_terms() {
    // Sequence, alternation, id, empty; taken up: a2, empty. The machine is 23.
    found(&[20], "(id | a2) ; <>", 3, 6, "a2 ; <>");
    let machine = run(&searches::table(), &job(&[20], &term("(id | a2) ; <>")), 4_096);
    assert_eq!(machine.0, run_refused(23, 4));
    found(&[20], "(id ; id | a2) ; <>", 4, 8, "(id ; a2) ; <>");
    found(&[20], "([1]id | a2) ; <>", 4, 7, "([1]a2) ; <>");
    found(&[20], "T10 ; <>", 4, 7, "a2 ; <>");
    // The right part of a tensor first, then the left with all of the right again.
    found(&[20, 30], "(id | a2) * (id | a3) ; ?20", 4, 12, "id * a3 ; id");
    found(&[20, 30], "(id | a2) * (id | a3) ; ?30", 4, 16, "a2 * id ; id");
    found(&[20, 30], "(id | a2) * (id | a3) ; <>", 4, 18, "a2 * a3 ; <>");
}

#[test]
fn the_same_evaluation_is_tried_again() {
    // a3 begins once for each id.
    none(&[20], "(id | id) ; a3", 3, 6);
    none(&[20], "(id | id | id) ; a3", 4, 9);
}

#[test]
fn all_of_the_left_alternative_comes_before_the_right() {
    found(&[20], "((id | a2) ; <>) | id", 64, 7, "a2 ; <>");
    found(&[20], "((id | a3) ; <>) | id", 64, 7, "id");
    found(&[20], "id | a2", 64, 2, "id");
}

#[test]
fn the_shortest_left_part_comes_first() {
    let rest = "id * id * <>";
    let goals = [20, 20];
    let (answer, bytes) = searched(&goals, "T4 * T4", 64, 4_096);
    assert_eq!(answer.number, 0);
    assert!(show(FileKind::Proof, &bytes).unwrap().contains(&format!("term <> * {rest}\n")));
    let (_, bytes) = searched(&goals, "T5 * T4", 64, 4_096);
    assert!(show(FileKind::Proof, &bytes).unwrap().contains(&format!("term <> * {rest}\n")));
    // With nothing to be left over the left part has to take both.
    let (_, bytes) = searched(&goals, "(T5 * T4) ; <>", 64, 4_096);
    assert!(show(FileKind::Proof, &bytes).unwrap().contains("term (a2 * a2 * <>) * <> ; <>\n"));
    // Tensor; id on none; id on the goal and empty on none.
    found(&[20], "id * <>", 2, 4, "id * <>");
    // Tensor; empty on none and id.
    found(&[20], "<> * id", 2, 3, "<> * id");
    // Tensor; id on none; id on one and id on none.
    none(&[20], "id * id", 2, 4);
    // One step for each of the 257 splits, and one for the right id.
    none(&[20; 256], "id * id", 2, 259);
}

#[test]
fn a_joined_list_over_256_is_no_evaluation() {
    let answers: Vec<(u32, u32)> = searches::joined_lists()
        .iter()
        .map(|case| case.outcome().answer)
        .map(|answer| (answer.number, answer.steps))
        .collect();
    // 256 goals; 264; 256; 257.
    assert_eq!(answers[..4], [(0, 94), (41, 625), (0, 115), (41, 898)]);
    // 257 goals, then 250 by another evaluation of a part; the machine is 22.
    assert_eq!(answers[4..6], [(0, 102), (0, 691)]);
    let eights = tensor_of(&vec![atomic(4); 33]);
    let either = job(&[40; 33], &alternation(&eights, &tensor_of(&vec![id(); 33])));
    assert_eq!(run(&searches::table(), &either, 4_096).0.number, 22);
    assert_eq!(search(&searches::table(), &either, 64, 4_096).0.number, 0);
}

#[test]
fn searches_of_4096_steps() {
    none(&[20], "T9", 22, 4_094);
    none(&[20], "[1][2]T9", 24, 4_096);
    assert_eq!(searched(&[20], "[1][2][3]T9", 25, 4_096).0, run_refused(24, 4_096));
    found(&[20], "T9 | id", 23, 4_096, "id");
    assert_eq!(searched(&[20], "[1]T9 | id", 24, 4_096).0, run_refused(24, 4_096));
}

/// The result is accepted also where it is as long as a search can make it.
#[test]
fn the_longest_proofs() {
    let expected = [(4_096, 4_096), (1_023, 1_023), (4_096, 3_841)];
    for (case, (steps, fields)) in searches::longest_proofs().into_iter().zip(expected) {
        let table = case.table.clone();
        let (answer, bytes) = result_of(case.clone());
        assert_eq!((answer.number, answer.steps), (0, steps));
        assert_eq!(check(&table, &bytes), accepted(fields, 0, 1, 0));
        assert_eq!(case.with_budget(steps - 1).outcome().answer, run_refused(24, steps - 1));
    }
}

#[test]
fn heights_and_budgets_outside_their_limits() {
    let answer = |height: u32, budget: u32| searched(&[20], "id", height, budget).0;
    assert_eq!(answer(1, 1).number, 0);
    assert_eq!(answer(64, 4_096).number, 0);
    for height in [0, 65, 257, 65_537, u32::MAX] {
        assert_eq!(answer(height, 4_096), refused(42, 0, 0));
        assert_eq!(answer(height, 0), refused(42, 0, 0));
        assert_eq!(answer(height, 4_097), refused(25, 0, 0));
    }
    for budget in [4_097, 65_536, u32::MAX] {
        assert_eq!(answer(1, budget), refused(25, 0, 0));
    }
    assert_eq!(answer(1, 0), run_refused(24, 0));
}

#[test]
fn the_order_of_refusals() {
    let good = Case::new(Entry::Search, &table_a(), &job(&[10], &defined(3)));
    let torn = Case { table: vec![1], other: vec![3], ..good.clone() };
    let answer = |case: Case| case.outcome().answer;
    let all_wrong = torn.clone().with_budget(4_097).with_height(0);
    assert_eq!(answer(all_wrong.clone().with_work(SEARCH_WORK - 1)), refused(29, 0, 0));
    assert_eq!(answer(all_wrong), refused(25, 0, 0));
    assert_eq!(answer(torn.clone().with_height(0).with_budget(0)), refused(42, 0, 0));
    assert_eq!(answer(torn.with_budget(0)), refused(2, 1, 0));
    let torn_job = Case { other: vec![3], ..good.clone() };
    assert_eq!(answer(torn_job.with_budget(0)), refused(2, 2, 0));
    assert_eq!(answer(good.clone().with_budget(0).with_output(0)), run_refused(24, 0));
    assert_eq!(answer(good.clone().with_height(1).with_output(0)), run_refused(41, 1));
    // B13.10: the steps of the whole search.
    let steps = answer(good.clone()).steps;
    assert_eq!(answer(good.with_output(50)), run_refused(26, steps));
}

/// The lists of the generator are read as they are meant.
#[test]
fn every_listed_search_is_one() {
    for case in searches::listed().iter().chain(&searches::at_other_limits()) {
        assert!([0, 24, 41].contains(&case.outcome().answer.number), "{case:?}");
    }
}

/// Random searches end in every way there is, and often in each that tells much.
#[test]
fn random_searches_are_mixed() {
    let random = &mut Random::new(605);
    let mut counts: BTreeMap<u32, usize> = BTreeMap::new();
    for _ in 0..2_000 {
        let answer = random_case_of(Entry::Search, Size::Small, random).outcome().answer;
        *counts.entry(answer.number).or_default() += 1;
    }
    for (number, least) in [(0, 200), (24, 150), (25, 100), (26, 50), (29, 50), (41, 300), (42, 50), (2, 50), (3, 50)] {
        assert!(counts.get(&number).is_some_and(|&count| count >= least), "{number} in {counts:?}");
    }
}
