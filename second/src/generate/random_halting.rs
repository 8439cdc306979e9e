//! Random calls of P1: jobs with alternations around terms that use up goals, states of
//! their runs at any step, forged and genuine, and what only such calls are lent.

use super::build;
use super::case::{Case, Entry};
use super::halting::{state_at, steps_of};
use super::random::Random;
use super::random_file::{random_job, term_for, TermAndGoals};
use super::random_table::{RandomTable, Size};
use crate::engine::saved_state::step_count;
use crate::limits::{MOST_BUDGET, MOST_FRAMES, STATE_SIZE};

/// A job as for a run, or one that often has alternations waiting while its goals are
/// used up.
pub fn random_halting_job(random: &mut Random, table: &RandomTable) -> Vec<u8> {
    if table.size == Size::Large || random.chance(50) {
        return random_job(random, table);
    }
    let goals = table.random_goals(random);
    let (term, _) = with_ways_out(random, table, &goals, 3);
    build::job(&goals, &term)
}

/// A term that mostly fits the goals, in alternations whose other side may be needed.
fn with_ways_out(random: &mut Random, table: &RandomTable, goals: &[u16], depth: usize) -> TermAndGoals {
    if depth == 0 {
        return term_for(random, table, goals);
    }
    match random.below(8) {
        0 | 1 => {
            let (left, between) = with_ways_out(random, table, goals, depth - 1);
            let (right, given) = with_ways_out(random, table, &between, depth - 1);
            (build::sequence(&left, &right), given)
        }
        2 | 3 => {
            let (first, others) = goals.split_at(random.below(goals.len() + 1));
            let (left, left_gives) = with_ways_out(random, table, first, depth - 1);
            let (right, right_gives) = with_ways_out(random, table, others, depth - 1);
            (build::tensor(&left, &right), [left_gives, right_gives].concat())
        }
        4 if goals.len() == 1 => {
            let (inner, given) = with_ways_out(random, table, goals, depth - 1);
            (build::label(random.below(5) as u16, &inner), given)
        }
        4 | 5 => {
            let (left, given) = with_ways_out(random, table, goals, depth - 1);
            (build::alternation(&left, &table.any_tactic(random, 2)), given)
        }
        // The left uses up its goals, and then fails.
        _ => {
            let (left, _) = with_ways_out(random, table, goals, depth - 1);
            let (right, given) = with_ways_out(random, table, goals, depth - 1);
            let failing = build::sequence(&left, &table.any_tactic(random, 1));
            (build::alternation(&failing, &right), given)
        }
    }
}

/// Gives a run that is taken up another saved state; leaves every other call as it is.
/// Most states are those that the files come to, some of these then forged.
pub fn vary_saved(random: &mut Random, case: Case) -> Case {
    if case.entry != Entry::Resume {
        return case;
    }
    let steps = steps_of(&case.table, &case.other).max(1);
    let halt = match random.below(6) {
        0 => 0,
        1 => steps - 1,
        _ => random.below(steps as usize) as u32,
    };
    // Files that are refused come to none; a state from before the damage is kept then.
    let state = state_at(&case.table, &case.other, halt);
    let state = if random.chance(90) { state } else { None };
    let mut saved = state.unwrap_or_else(|| case.saved.clone());
    if random.chance(25) {
        forge(random, &mut saved);
    }
    case.with_saved(&saved)
}

/// Changes a byte or two, mostly among the contents, or the size, or the step count.
fn forge(random: &mut Random, saved: &mut Vec<u8>) {
    if saved.is_empty() {
        saved.resize(*random.pick(&[1, 2, STATE_SIZE]), 0);
    }
    let contents = saved.iter().rposition(|&byte| byte != 0).map_or(1, |last| last + 1);
    let at = random.below(contents);
    match random.below(12) {
        0 => saved.truncate(*random.pick(&[0, 1, 2, 3, STATE_SIZE - 1])),
        1 => saved.push(random.byte()),
        2 => saved.truncate(random.below(saved.len())),
        3 => {
            let last = saved.len() - 1;
            saved[last] ^= 1 << random.below(8);
        }
        4 => {
            let behind = random.below(saved.len());
            saved[behind] = saved[behind].wrapping_add(1);
        }
        5 if saved.len() > 1 => {
            let steps = *random.pick(&[0, 1, 2, 3, 5, 10, 30, MOST_BUDGET as u16, MOST_BUDGET as u16 + 1, u16::MAX]);
            saved[..2].copy_from_slice(&steps.to_be_bytes());
        }
        6 => {
            let other = random.below(contents);
            saved.swap(at, other);
        }
        7 => saved[at] = random.byte(),
        8 => saved[at] = saved[at].wrapping_sub(1),
        _ => saved[at] = saved[at].wrapping_add(1),
    }
}

/// The budget of a run that may halt: mostly one that it halts with.
pub fn random_budget(random: &mut Random, case: &Case) -> u32 {
    let steps = steps_of(&case.table, &case.other);
    match random.below(20) {
        0 => 0,
        1 | 2 => steps,
        3 | 4 => steps.saturating_sub(1),
        5..=11 => random.below(steps as usize + 1) as u32,
        12 => random.below(40) as u32,
        13 => MOST_BUDGET + 1,
        14 => random.number() as u32,
        _ => MOST_BUDGET,
    }
}

/// So many more steps: to the end of the run, just before it, none, some, to the limit
/// and over it.
pub fn random_more_steps(random: &mut Random, case: &Case) -> u32 {
    let made = step_count(&case.saved);
    let rest = steps_of(&case.table, &case.other).saturating_sub(made);
    let allowed = MOST_BUDGET.saturating_sub(made);
    match random.below(20) {
        0 | 1 => 0,
        2 => 1,
        3..=5 => rest,
        6..=8 => rest.saturating_sub(1),
        9..=11 => random.below(rest as usize + 1) as u32,
        12 => random.below(40) as u32,
        13 => allowed + 1,
        14 => *random.pick(&[u32::MAX, u32::MAX - made, (u32::MAX - made).wrapping_add(1), 65_536 - made.min(65_536)]),
        15 => random.number() as u32,
        _ => allowed,
    }
}

/// Gives a call that may halt other frames and another second space; leaves every other
/// call as it is.
pub fn vary_spaces(random: &mut Random, case: Case) -> Case {
    if !case.entry.may_halt() {
        return case;
    }
    let frames = match random.below(80) {
        0 => MOST_FRAMES - 1,
        1 => random.below(MOST_FRAMES),
        2..=7 => MOST_FRAMES + 1,
        _ => MOST_FRAMES,
    };
    let state_length = match random.below(80) {
        0 => STATE_SIZE - 1,
        1 => random.below(STATE_SIZE),
        2..=11 => STATE_SIZE + 1 + random.below(5),
        _ => STATE_SIZE,
    };
    case.with_frames(frames).with_state(state_length)
}
