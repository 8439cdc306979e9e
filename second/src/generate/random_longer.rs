//! P12: random runs of thousands of steps. Each tactic of the table names the next one,
//! mostly twice, so that some of them come to more than 4,096 held fields.

use super::build::*;
use super::case::{Case, Entry};
use super::random::Random;
use super::vary_lent_spaces;

/// A tactic without a definition.
const FAILS: u16 = 99;
/// The goal of every job.
const GOAL: u16 = 1;

/// A table and a job. Rule 5 gives the goal again, rule 6 gives it twice, and rule 7 eight
/// times.
pub fn random_long_run(random: &mut Random) -> (Vec<u8>, Vec<u8>) {
    let levels = 7 + random.below(7) as u16;
    let mut table = [rule(5, GOAL, &[GOAL]), rule(6, GOAL, &[GOAL; 2]), rule(7, GOAL, &[GOAL; 8])].concat();
    for level in 0..levels {
        let next = if random.chance(2) { level } else { level + 1 };
        table.extend(definition(level, &body(random, level, &defined(next))));
    }
    table.extend(definition(levels, &last_body(random)));
    let first = defined(random.below(4) as u16);
    let term = match random.below(6) {
        0 => alternation(&first, &id()),
        1 => sequence_of(&vec![alternation(&sequence(&first, &defined(FAILS)), &id()); 3]),
        2 => sequence(&first, &defined(FAILS)),
        _ => first,
    };
    (table, job(&[GOAL], &term))
}

/// The body of a tactic over the next one. The label is the level's own: no other
/// definition has it.
fn body(random: &mut Random, level: u16, next: &[u8]) -> Vec<u8> {
    let failing = sequence(next, &defined(FAILS));
    match random.below(40) {
        0..=23 => sequence(next, next),
        24..=27 => alternation(&failing, next),
        28 => alternation(&failing, &id()),
        29..=32 => sequence(&alternation(&failing, &leaf(random)), next),
        33 => alternation(next, next),
        34 => label(level, next),
        35 => tensor(next, &empty()),
        36 => tensor(&empty(), next),
        37 => sequence(&leaf(random), next),
        38 => sequence(&atomic(6), &tensor(next, &sequence(next, &leaf(random)))),
        _ => sequence(next, &leaf(random)),
    }
}

/// A term that takes one goal and mostly gives it again.
fn leaf(random: &mut Random) -> Vec<u8> {
    match random.below(400) {
        0..=149 => id(),
        150..=269 => atomic(5),
        270..=389 => assert_goal(GOAL),
        390..=398 => alternation(&defined(FAILS), &id()),
        _ => atomic(7),
    }
}

/// So many labels, numbered from the first on, around a term.
fn labels_from(first: u16, count: usize, term: &[u8]) -> Vec<u8> {
    (first..).take(count).fold(term.to_vec(), |inner, number| label(number, &inner))
}

fn last_body(random: &mut Random) -> Vec<u8> {
    let leaves: Vec<Vec<u8>> = (0..1 + random.below(60)).map(|_| leaf(random)).collect();
    match random.below(16) {
        0 => defined(FAILS),
        1 => labels_from(100, random.below(8), &sequence_of(&leaves)),
        _ => sequence_of(&leaves),
    }
}

/// Of the calls that run a job one in five gets a long run; every other call is left as it
/// is. That choice is made last, so that the others stay as they were before P12.
pub fn with_long_run(random: &mut Random, case: Case) -> Case {
    if ![Entry::Run, Entry::RunHalting, Entry::Resume].contains(&case.entry) || !random.chance(20) {
        return case;
    }
    let (table, job) = random_long_run(random);
    let case = Case::new(case.entry, &table, &job);
    vary_lent_spaces(random, case)
}
