//! Checking a hiproof: the walk of document 01, which is the paper's Fig. 2
//! read from left to right.
//!
//! The walk carries open leaves of a forest instead of bare goals; the checker
//! only looks at their goals, and the flattener writes the forest in the end.

use super::forest::{Forest, TreeNumber};
use crate::answer::{InputFile, Reason, Refusal};
use crate::format::proof::Proof;
use crate::format::table::{RuleNumber, Table};
use crate::format::terms::{Term, TermNumber};
use crate::limits::MOST_GOALS;
use crate::names::{Goal, RuleName};

/// A list of goals, each the goal of an open leaf.
type Leaves = Vec<TreeNumber>;

/// What has still to be done when the present term has given its goals.
enum Waiting {
    SequenceRight(TermNumber),
    TensorRight { tensor: TermNumber, right: TermNumber, others: Leaves },
    TensorJoin { tensor: TermNumber, left_gave: Leaves },
}

struct Walk<'a, OnUse> {
    table: &'a Table,
    proof: &'a Proof<'a>,
    arities: Vec<usize>,
    forest: Forest,
    waiting: Vec<Waiting>,
    on_use: OnUse,
}

/// Walks the hiproof on the stated goals and compares what it gives with the
/// stated remaining goals. Gives the forest of an accepted proof; `on_use` is told
/// of the rule of every use.
pub fn walk_proof(table: &Table, proof: &Proof, on_use: impl FnMut(RuleNumber)) -> Result<Forest, Refusal> {
    let mut walk = Walk {
        table,
        proof,
        arities: hiproof_arities(proof),
        forest: Forest::of_open_leaves(&proof.goals),
        waiting: Vec::new(),
        on_use,
    };
    let given = walk.walk()?;
    let given_goals: Vec<Goal> = given.iter().map(|&leaf| walk.forest.goal(leaf)).collect();
    // "21: stated remaining goals differ; place of that list", after the whole
    // walk; order and number matter (READINGS A28).
    if given_goals != proof.remaining {
        return Err(Refusal::at(Reason::RemainingGoalsDiffer, InputFile::Other, proof.remaining_place));
    }
    Ok(walk.forest)
}

/// "Input arity: atomic, id and label 1; empty 0; a sequence that of its left
/// term; a tensor the sum." Inner terms have higher numbers than the term around
/// them, so going down from the last one meets them first. There is no ceiling
/// (READINGS A29).
fn hiproof_arities(proof: &Proof) -> Vec<usize> {
    let mut arities = vec![0; proof.terms.count()];
    for number in proof.terms.numbers().rev() {
        let of = |inner: TermNumber| arities[inner.0 as usize];
        arities[number.0 as usize] = match proof.terms.get(number) {
            Term::Atomic(_) | Term::Id | Term::Label(_, _) => 1,
            Term::Sequence(left, _) => of(left),
            Term::Tensor(left, right) => of(left) + of(right),
            // A proof file has no tags 22 to 24.
            Term::Empty | Term::Alternation(_, _) | Term::Assert(_) | Term::DefinedTactic(_) => 0,
        };
    }
    arities
}

impl<OnUse: FnMut(RuleNumber)> Walk<'_, OnUse> {
    /// "Left terms go first."
    fn walk(&mut self) -> Result<Leaves, Refusal> {
        let mut goals = self.take(self.proof.hiproof, self.forest.roots())?;
        while let Some(waiting) = self.waiting.pop() {
            goals = self.resume(waiting, goals)?;
        }
        Ok(goals)
    }

    /// Gives `goals` to a term, going down its left terms until one gives a list.
    fn take(&mut self, mut term: TermNumber, mut goals: Leaves) -> Result<Leaves, Refusal> {
        loop {
            match self.proof.terms.get(term) {
                Term::Atomic(name) => return self.take_atomic(term, name, goals),
                Term::Id if goals.len() == 1 => return Ok(goals),
                Term::Empty if goals.is_empty() => return Ok(goals),
                // A label asks for one goal, whatever its inner term's arity.
                Term::Label(_, inner) if goals.len() == 1 => term = inner,
                Term::Sequence(left, right) => {
                    self.waiting.push(Waiting::SequenceRight(right));
                    term = left;
                }
                Term::Tensor(left, right) => {
                    let arity = self.arities[left.0 as usize];
                    // Tested before the left is walked. Too many goals fall on a
                    // term of the right part (READINGS A26, B5.3).
                    if goals.len() < arity {
                        return Err(self.cannot_take(Reason::GoalsTooFew, term));
                    }
                    let others = goals.split_off(arity);
                    self.waiting.push(Waiting::TensorRight { tensor: term, right, others });
                    term = left;
                }
                // An id or label without exactly one goal, an empty with any. A
                // proof file has no tags 22 to 24.
                _ => return Err(self.cannot_take(Reason::GoalCountWrong, term)),
            }
        }
    }

    /// "atomic: exactly one goal, with a rule of that name for it; gives the
    /// premises in order." The count comes first: "34 before 20".
    fn take_atomic(&mut self, term: TermNumber, name: RuleName, mut goals: Leaves) -> Result<Leaves, Refusal> {
        let [leaf] = goals[..] else {
            return Err(self.cannot_take(Reason::GoalCountWrong, term));
        };
        let Some(rule) = self.table.look_up(name, self.forest.goal(leaf)) else {
            return Err(self.cannot_take(Reason::RuleMissing, term));
        };
        (self.on_use)(rule.number);
        goals.clear();
        goals.extend(self.forest.grow(leaf, name, rule.premises));
        Ok(goals)
    }

    /// Goes on with what waited for `goals`.
    fn resume(&mut self, waiting: Waiting, goals: Leaves) -> Result<Leaves, Refusal> {
        match waiting {
            Waiting::SequenceRight(right) => self.take(right, goals),
            Waiting::TensorRight { tensor, right, others } => {
                self.waiting.push(Waiting::TensorJoin { tensor, left_gave: goals });
                self.take(right, others)
            }
            Waiting::TensorJoin { tensor, left_gave } => self.join(tensor, left_gave, goals),
        }
    }

    /// "A tensor whose joined list has more than 256 goals ends the walk with
    /// 22", tested when both parts have given theirs (READINGS A27).
    fn join(&self, tensor: TermNumber, mut left_gave: Leaves, right_gave: Leaves) -> Result<Leaves, Refusal> {
        left_gave.extend(right_gave);
        if left_gave.len() > MOST_GOALS {
            let place = self.proof.terms.place(tensor);
            return Err(Refusal::at(Reason::JoinedListTooLong, InputFile::Other, place));
        }
        Ok(left_gave)
    }

    /// 20, 34 or 35 of P5, all at the "place of the first term in the walk that
    /// cannot take its goals".
    fn cannot_take(&self, reason: Reason, term: TermNumber) -> Refusal {
        Refusal::at(reason, InputFile::Other, self.proof.terms.place(term))
    }
}
