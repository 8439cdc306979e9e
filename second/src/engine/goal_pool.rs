//! Lists of goals that share one store. A list is never changed once it is there,
//! so parts of it can be taken without copying, and the store can be cut back to
//! what it held at an earlier moment.

use crate::limits::MOST_GOALS;
use crate::names::Goal;

/// A list of goals in the pool: where it begins, and how many goals it has.
#[derive(Clone, Copy, PartialEq, Eq, Debug)]
pub struct GoalList {
    start: u32,
    count: u32,
}

impl GoalList {
    pub fn count(self) -> u32 {
        self.count
    }

    /// The first so many goals, and the others.
    pub fn split_at(self, first: u32) -> (GoalList, GoalList) {
        let others = GoalList { start: self.start + first, count: self.count - first };
        (GoalList { start: self.start, count: first }, others)
    }

    fn end(self) -> u32 {
        self.start + self.count
    }
}

#[derive(Default)]
pub struct GoalPool {
    goals: Vec<Goal>,
}

impl GoalPool {
    pub fn add(&mut self, goals: &[Goal]) -> GoalList {
        let start = self.goals.len() as u32;
        self.goals.extend_from_slice(goals);
        GoalList { start, count: goals.len() as u32 }
    }

    pub fn get(&self, list: GoalList) -> &[Goal] {
        &self.goals[list.start as usize..list.end() as usize]
    }

    /// The one goal of a list that has exactly one.
    pub fn only_goal(&self, list: GoalList) -> Option<Goal> {
        (list.count == 1).then(|| self.goals[list.start as usize])
    }

    /// The two lists as one; None if it would have over 256 goals. Lists that
    /// stand side by side, as those of a tensor's parts often do, are not copied.
    pub fn join(&mut self, left: GoalList, right: GoalList) -> Option<GoalList> {
        let count = left.count + right.count;
        if count as usize > MOST_GOALS {
            return None;
        }
        if left.count == 0 {
            return Some(right);
        }
        if right.count == 0 || left.end() == right.start {
            return Some(GoalList { start: left.start, count });
        }
        let start = self.goals.len() as u32;
        for list in [left, right] {
            self.goals.extend_from_within(list.start as usize..list.end() as usize);
        }
        Some(GoalList { start, count })
    }

    /// How much the pool holds now, to cut it back to later.
    pub fn mark(&self) -> usize {
        self.goals.len()
    }

    /// Drops every list that came since.
    pub fn cut_back(&mut self, mark: usize) {
        self.goals.truncate(mark);
    }
}
