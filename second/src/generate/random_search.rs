//! Jobs for searches, with many ways to go back to, and heights, most of them near
//! the borders where the answer changes.

use super::build;
use super::case::{Case, Entry};
use super::random::Random;
use super::random_file::{random_job, term_for};
use super::random_table::{RandomTable, Size};
use crate::answer::Reason;
use crate::engine;
use crate::limits::{MOST_HEIGHT, MOST_SEARCH_BUDGET};

/// Heights that are refused; some are allowed ones if only 8 or 16 bits of them
/// are looked at.
pub const REFUSED_HEIGHTS: [u32; 8] = [0, 65, 66, 256 + 10, 256 + 64, 65_536 + 10, 1 << 31, u32::MAX];

/// A job as for a run, one that is found on a way back, or one whose term has many
/// evaluations.
pub fn random_search_job(random: &mut Random, table: &RandomTable) -> Vec<u8> {
    let kind = random.below(10);
    if table.size == Size::Large || kind < 3 {
        return random_job(random, table);
    }
    let goals = table.random_goals(random);
    let term = if kind < 8 { with_a_way_back(random, table, &goals) } else { with_many_ways(random, table) };
    build::job(&goals, &term)
}

/// A sequence that fits the goals, with something else to be tried in front of its
/// left part: what that gives, the right part mostly cannot take.
fn with_a_way_back(random: &mut Random, table: &RandomTable, goals: &[u16]) -> Vec<u8> {
    let (left, between) = term_for(random, table, goals);
    let (right, _) = term_for(random, table, &between);
    let first = if random.chance(50) { table.any_tactic(random, 3) } else { all_or_nothing(random, table) };
    build::sequence(&build::alternation(&first, &left), &right)
}

fn with_many_ways(random: &mut Random, table: &RandomTable) -> Vec<u8> {
    let many = if random.chance(50) { table.any_tactic(random, 5) } else { all_or_nothing(random, table) };
    let few = table.any_tactic(random, 1);
    match random.below(4) {
        0 => many,
        1 => build::tensor(&many, &few),
        2 => build::tensor(&few, &many),
        _ => build::sequence(&many, &few),
    }
}

/// Alternations side by side, each of which takes a goal, leaves it or does
/// something else with it; mostly by names.
fn all_or_nothing(random: &mut Random, table: &RandomTable) -> Vec<u8> {
    let terms: Vec<Vec<u8>> = (0..1 + random.below(5))
        .map(|_| match random.below(4) {
            0 => build::alternation(&build::id(), &table.any_tactic(random, 2)),
            1 => build::alternation(&build::atomic(*random.pick(&table.names)), &build::id()),
            _ => build::defined(table.random_tactic_number(random)),
        })
        .collect();
    build::tensor_of(&terms)
}

/// Gives a search another height; leaves every other call as it is.
pub fn vary_height(random: &mut Random, case: Case) -> Case {
    if case.entry != Entry::Search {
        return case;
    }
    let height = match random.below(20) {
        0 => *random.pick(&REFUSED_HEIGHTS),
        1..=2 => 1 + random.below(MOST_HEIGHT as usize) as u32,
        3..=6 => 1 + random.below(12) as u32,
        7..=10 => MOST_HEIGHT,
        11..=12 => deciding_height(&case).saturating_sub(1).max(1),
        _ => deciding_height(&case),
    };
    case.with_height(height)
}

/// The least height at which an evaluation is found or the largest budget is
/// spent; where both never come, the least one that every term fits into.
pub fn deciding_height(case: &Case) -> u32 {
    let mut steps_before = 0;
    for height in 1..=MOST_HEIGHT {
        match engine::search(&case.table, &case.other, height, MOST_SEARCH_BUDGET) {
            // As many steps as with one less: no term was begun this deep.
            Err(refusal) if refusal.reason == Reason::NoEvaluation && refusal.steps > steps_before => {
                steps_before = refusal.steps;
            }
            _ => return height,
        }
    }
    MOST_HEIGHT
}
