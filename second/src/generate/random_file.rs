//! Random proofs, jobs and flat files that fit a table, unless a mistake is made
//! on purpose.

use super::build;
use super::random::Random;
use super::random_table::{RandomRule, RandomTable, Size};
use crate::limits::MOST_GOALS;

/// A term and the goals it gives, as far as the maker can tell.
pub type TermAndGoals = (Vec<u8>, Vec<u16>);

/// Makes terms for given goals.
struct TermMaker<'a> {
    random: &'a mut Random,
    table: &'a RandomTable,
    /// How many more terms may be made before only `id` follows.
    terms_left: usize,
    /// The chance, in percent, that a term is one that need not fit.
    mistakes: usize,
    /// The chance, in percent, of an alternation, assert or defined tactic.
    tactics: usize,
    /// At how many terms left one is made that mostly takes another number of
    /// goals than there are; never if None.
    miscount_at: Option<usize>,
}

pub fn random_proof(random: &mut Random, table: &RandomTable) -> Vec<u8> {
    let goals = table.random_goals(random);
    let made = make_term(random, table, &goals, 0);
    proof_of(random, &goals, made)
}

/// A proof with a term somewhere that mostly takes another number of goals than
/// there are: 34 and 35 of P5, deep in terms that fit otherwise.
pub fn random_miscounted_proof(random: &mut Random, table: &RandomTable) -> Vec<u8> {
    let goals = table.random_goals(random);
    let terms_left = 1 + random_terms_left(random, table);
    // A term uses up few of those it may have, so most places are near the root.
    let miscount_at = Some(terms_left - 1 - random.below(terms_left.min(12)));
    let made = TermMaker { random, table, terms_left, mistakes: 0, tactics: 0, miscount_at }.term_for(&goals);
    proof_of(random, &goals, made)
}

fn proof_of(random: &mut Random, goals: &[u16], (term, mut given): TermAndGoals) -> Vec<u8> {
    given.truncate(MOST_GOALS);
    if random.chance(5) {
        given.pop();
    }
    build::proof(goals, &term, &given)
}

pub fn random_job(random: &mut Random, table: &RandomTable) -> Vec<u8> {
    let goals = table.random_goals(random);
    let (any_tactic, tactics) = if table.size == Size::Small { (25, 30) } else { (5, 2) };
    if random.chance(any_tactic) {
        return build::job(&goals, &table.any_tactic(random, 4));
    }
    let (term, _) = make_term(random, table, &goals, tactics);
    build::job(&goals, &term)
}

/// A tactic for these goals, and the goals it gives if nothing goes otherwise.
pub fn term_for(random: &mut Random, table: &RandomTable, goals: &[u16]) -> TermAndGoals {
    let terms_left = *random.pick(&[0, 2, 5, 10, 20]);
    TermMaker { random, table, terms_left, mistakes: 0, tactics: 20, miscount_at: None }.term_for(goals)
}

fn make_term(random: &mut Random, table: &RandomTable, goals: &[u16], tactics: usize) -> TermAndGoals {
    let terms_left = random_terms_left(random, table);
    let mistakes = *random.pick(&[0, 0, 0, 2, 5]);
    TermMaker { random, table, terms_left, mistakes, tactics, miscount_at: None }.term_for(goals)
}

fn random_terms_left(random: &mut Random, table: &RandomTable) -> usize {
    match table.size {
        Size::Small => *random.pick(&[2, 5, 10, 20, 40, 40, 120]),
        Size::Large => random.below(1_200),
    }
}

impl TermMaker<'_> {
    fn term_for(&mut self, goals: &[u16]) -> TermAndGoals {
        if self.terms_left == 0 {
            return (build::tensor_of(&vec![build::id(); goals.len()]), goals.to_vec());
        }
        self.terms_left -= 1;
        if self.miscount_at == Some(self.terms_left) {
            return self.miscount(goals);
        }
        if self.random.chance(self.mistakes) {
            return self.mistake(goals);
        }
        if self.random.chance(self.tactics) {
            return self.tactic_for(goals);
        }
        match goals {
            [] => self.term_for_none(),
            [goal] => self.term_for_one(*goal),
            _ if self.random.chance(75) => {
                let split = if self.random.chance(60) { 1 } else { self.random.below(goals.len() + 1) };
                self.tensor_for(goals, split)
            }
            _ => self.sequence_for(goals),
        }
    }

    fn term_for_none(&mut self) -> TermAndGoals {
        match self.random.below(6) {
            0 => self.sequence_for(&[]),
            1 => self.tensor_for(&[], 0),
            _ => (build::empty(), Vec::new()),
        }
    }

    fn term_for_one(&mut self, goal: u16) -> TermAndGoals {
        match self.random.below(10) {
            0 => (build::id(), vec![goal]),
            1 => {
                let (inner, given) = self.term_for(&[goal]);
                (build::label(self.random.below(5) as u16, &inner), given)
            }
            2..=4 => self.sequence_for(&[goal]),
            5 => {
                let split = self.random.below(2);
                self.tensor_for(&[goal], split)
            }
            _ => match self.table.rule_for(self.random, goal) {
                Some(rule) => (build::atomic(rule.name), rule.premises.clone()),
                None => (build::id(), vec![goal]),
            },
        }
    }

    fn sequence_for(&mut self, goals: &[u16]) -> TermAndGoals {
        let (left, between) = self.term_for(goals);
        let (right, given) = self.term_for(&between);
        (build::sequence(&left, &right), given)
    }

    fn tensor_for(&mut self, goals: &[u16], split: usize) -> TermAndGoals {
        let (left, left_gives) = self.term_for(&goals[..split]);
        let (right, right_gives) = self.term_for(&goals[split..]);
        (build::tensor(&left, &right), [left_gives, right_gives].concat())
    }

    fn tactic_for(&mut self, goals: &[u16]) -> TermAndGoals {
        match (self.random.below(4), goals) {
            (0, [goal]) => (build::assert_goal(*goal), vec![*goal]),
            (1, _) => {
                let (left, given) = self.term_for(goals);
                let right = self.table.any_tactic(self.random, 2);
                (build::alternation(&left, &right), given)
            }
            (2, _) => {
                let left = self.table.any_tactic(self.random, 3);
                let (right, given) = self.term_for(goals);
                (build::alternation(&left, &right), given)
            }
            _ => (build::defined(self.table.random_tactic_number(self.random)), goals.to_vec()),
        }
    }

    fn mistake(&mut self, goals: &[u16]) -> TermAndGoals {
        let name = self.random.value() % 25;
        let term = match self.random.below(6) {
            0 => build::atomic(name),
            1 => build::id(),
            2 => build::empty(),
            3 => build::label(1, &build::empty()),
            4 => build::tensor(&build::tensor(&build::id(), &build::id()), &build::empty()),
            _ => build::sequence(&build::id(), &build::atomic(name)),
        };
        (term, goals.to_vec())
    }

    /// A single term on whatever goals there are, a tensor whose left part takes
    /// more than there are, or one whose right part is left with too many.
    fn miscount(&mut self, goals: &[u16]) -> TermAndGoals {
        let ids = |count: usize| build::tensor_of(&vec![build::id(); count]);
        let one_or_more = 1 + self.random.below(3);
        let term = match self.random.below(9) {
            0 => build::atomic(*self.random.pick(&self.table.names)),
            1 => build::atomic(self.random.value()),
            2 => build::id(),
            3 => build::label(1, &ids(goals.len())),
            4 => build::empty(),
            5 => build::tensor(&ids(goals.len() + one_or_more), &build::empty()),
            6 => build::sequence(&build::tensor(&ids(goals.len() + one_or_more), &build::id()), &build::id()),
            7 => ids(goals.len() + one_or_more),
            _ => ids(goals.len().saturating_sub(one_or_more)),
        };
        (term, goals.to_vec())
    }
}

/// A flat file that is right, or nearly so.
pub fn random_flat(random: &mut Random, table: &RandomTable) -> Vec<u8> {
    let roots = table.random_goals(random);
    let mut uses_left = match table.size {
        Size::Small => *random.pick(&[0, 3, 10, 10, 30, 100]),
        Size::Large => random.below(4_200),
    };
    let mistakes = *random.pick(&[0, 0, 0, 2, 10]);
    let mut pending: Vec<u16> = roots.iter().rev().copied().collect();
    let mut entries = Vec::new();
    while let Some(goal) = pending.pop() {
        match next_rule(random, table, goal, uses_left, pending.len()) {
            Some(rule) => {
                uses_left -= 1;
                entries.push(build::use_entry(rule.name, goal));
                pending.extend(rule.premises.iter().rev());
            }
            None => entries.push(build::open_entry(goal)),
        }
        if random.chance(mistakes) {
            make_flat_mistake(random, &mut entries);
        }
    }
    build::flat(&roots, &entries)
}

/// A rule for the goal, if it is not to stay open: one that closes it when many
/// goals are pending, since only 256 may stay open.
fn next_rule<'a>(
    random: &mut Random,
    table: &'a RandomTable,
    goal: u16,
    uses_left: usize,
    pending: usize,
) -> Option<&'a RandomRule> {
    let chance_of_use = if table.size == Size::Small { 80 } else { 98 };
    if uses_left == 0 || !random.chance(chance_of_use) {
        return None;
    }
    if pending > 100 {
        if let Some(rule) = table.rules.iter().find(|rule| rule.goal == goal && rule.premises.is_empty()) {
            return Some(rule);
        }
    }
    table.rule_for(random, goal)
}

fn make_flat_mistake(random: &mut Random, entries: &mut Vec<Vec<u8>>) {
    match random.below(4) {
        0 => {
            entries.pop();
        }
        1 => entries.push(build::open_entry(random.below(20) as u16)),
        2 => entries.push(build::use_entry(random.below(20) as u16, random.below(20) as u16)),
        _ => {
            let at = random.below(entries.len());
            let to = random.below(entries.len());
            entries.swap(at, to);
        }
    }
}
