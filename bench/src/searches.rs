//! The searches of the families. A size is a number of steps: where no other number is said, the search is given the largest
//! budget and height.

use crate::files::{last_rules, one_sum, rising, Files, Keys};
use second::generate::build::*;
use second::generate::case::{Case, Entry};
use second::generate::examples;

fn search((table, job): Files) -> Case {
    Case::new(Entry::Search, &table, &job)
}

/// A search that goes on for longer than so many steps, and ends with its budget.
fn spent(files: Files, steps: usize) -> Case {
    search(files).with_budget(steps as u32)
}

/// Terms joined two by two, the results two by two, and so on: as low as they can stand.
fn balanced(join: fn(&[u8], &[u8]) -> Vec<u8>, terms: &[Vec<u8>]) -> Vec<u8> {
    match terms {
        [term] => term.clone(),
        _ => {
            let (left, right) = terms.split_at(terms.len() / 2);
            join(&balanced(join, left), &balanced(join, right))
        }
    }
}

/// T5 ⊗ T6 on 20, 20, 30, where T5 is (2 ⊗ T5) | empty and T6 is (3 ⊗ T6) | empty.
pub fn split_by_demand() -> Case {
    let all =
        |tactic: u16, name: u16| definition(tactic, &alternation(&tensor(&atomic(name), &defined(tactic)), &empty()));
    let table = [examples::table_a(), all(5, 2), all(6, 3)].concat();
    search((table, job(&[20, 20, 30], &tensor(&defined(5), &defined(6))))).with_height(10)
}

/// id | id, whose two evaluations are the same.
fn either() -> Vec<u8> {
    alternation(&id(), &id())
}

/// So many choices of two, then a term that fails after four steps: 8 · 2^choices − 4 steps in all.
fn failing_choices(choices: usize) -> Vec<u8> {
    let end = sequence(&label(1, &id()), &assert_goal(2));
    (0..choices).fold(end, |rest, _| sequence(&either(), &rest))
}

fn choices_for(steps: usize) -> usize {
    (steps / 8).ilog2() as usize
}

/// Every choice fails late; there is no evaluation.
pub fn failing_alternatives(steps: usize) -> Case {
    search((Vec::new(), job(&[1], &failing_choices(choices_for(steps)))))
}

/// The same in the left alternative; the right one is id.
pub fn found_late(steps: usize) -> Case {
    search((Vec::new(), job(&[1], &alternation(&failing_choices(choices_for(steps)), &id()))))
}

/// The choices stand in left parts that have ended when the last term fails, and are gone back into.
pub fn back_into_the_left(steps: usize) -> Case {
    let left = (0..12).fold(id(), |left, _| sequence(&left, &either()));
    spent((Vec::new(), job(&[1], &sequence(&left, &assert_goal(2)))), steps)
}

/// A proof of as many fields as steps: ids in sequence.
pub fn large_proof(steps: usize) -> Case {
    search((Vec::new(), job(&[1], &balanced(sequence, &vec![id(); steps / 2]))))
}

/// Alternatives that fail on 256 goals.
pub fn alternatives_on_many_goals(steps: usize) -> Case {
    search((Vec::new(), job(&[1; 256], &balanced(alternation, &vec![id(); steps / 2]))))
}

/// Tensors that are tried with each of the 257 splits of 256 goals.
pub fn splits_of_many_goals(steps: usize) -> Case {
    let tensors = vec![tensor(&id(), &assert_goal(2)); steps / 256];
    spent((Vec::new(), job(&[1; 256], &balanced(alternation, &tensors))), steps)
}

/// ((id ⊗ id) ⊗ id) ⊗ .. on one goal fewer than ids: the splits of each tensor within those of the one around it.
pub fn splits_in_splits(steps: usize) -> Case {
    spent((Vec::new(), job(&[1; 19], &left_leaning_tensor_of(&vec![id(); 20]))), steps)
}

/// A rule that gives eight goals on each of 32: lists of 256 goals are joined, and then the last term fails.
pub fn long_joins(steps: usize) -> Case {
    let many = tensor_of(&vec![alternation(&atomic(4), &atomic(4)); 32]);
    spent((examples::table_of_eight(), job(&[40; 32], &sequence(&many, &id()))), steps)
}

/// T1 is (1 ; T1) | (1 ; T1): sequences down to the largest height.
pub fn high_sequences(steps: usize) -> Case {
    let again = sequence(&atomic(1), &defined(1));
    let table = [rule(1, 1, &[1]), definition(1, &alternation(&again, &again))].concat();
    spent((table, job(&[1], &defined(1))), steps)
}

/// So many rules, and the last 32 of them as alternatives.
fn last_rules_as_alternatives(keys: Keys, count: usize) -> (Vec<u8>, Vec<u8>) {
    let (table, _) = last_rules(Entry::Check, keys, count);
    let names: Vec<Vec<u8>> = (count - 32..count).map(|number| atomic(keys(number).0)).collect();
    (table, balanced(alternation, &names))
}

/// As many rules as steps; the last 32 of them are tried one after the other, for each of them again, and for each two of
/// them once more, before a term that fails.
pub fn last_rules_tried(steps: usize) -> Case {
    let (table, tried) = last_rules_as_alternatives(rising, steps);
    spent((table, job(&[1], &sequence_of(&[tried.clone(), tried.clone(), tried, assert_goal(2)]))), steps)
}

/// As many rules as steps, each with a name and a goal of its own; the names of the last 32 of them are tried on a goal for
/// which one of them has a rule, after each of 128 choices.
pub fn missing_rules(steps: usize) -> Case {
    let (table, tried) = last_rules_as_alternatives(one_sum, steps);
    let tried = sequence(&tried, &assert_goal(1));
    let term = (0..7).fold(tried, |rest, _| sequence(&either(), &rest));
    spent((table, job(&[one_sum(steps - 1).1], &term)), steps)
}

/// A definition for every sixteen steps; the last is a choice of itself and itself.
pub fn last_definition(steps: usize) -> Case {
    let last = (steps / 16 - 1) as u16;
    let others: Vec<u8> = (0..last).flat_map(|tactic| definition(tactic, &id())).collect();
    let table = [others, definition(last, &alternation(&defined(last), &defined(last)))].concat();
    spent((table, job(&[1], &defined(last))), steps)
}
