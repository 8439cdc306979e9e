//! "The forest of a hiproof on its goals".

use crate::format::write::{write_goal_list, write_open, write_use};
use crate::names::{Goal, RuleName};

/// The number of a tree in the forest's list.
#[derive(Clone, Copy, PartialEq, Eq, Debug)]
pub struct TreeNumber(u32);

/// Trees that grow at their open leaves. The first `roots` of the list are the
/// roots; the premises of a use stand side by side.
pub struct Forest {
    trees: Vec<Tree>,
    roots: usize,
}

#[derive(Clone, Copy)]
struct Tree {
    goal: Goal,
    step: TreeStep,
}

#[derive(Clone, Copy)]
enum TreeStep {
    Open,
    Use { name: RuleName, first_premise: u32, premises: u32 },
}

impl Forest {
    /// Every goal as an open leaf.
    pub fn of_open_leaves(goals: &[Goal]) -> Forest {
        let trees = goals.iter().map(|&goal| Tree { goal, step: TreeStep::Open }).collect();
        Forest { trees, roots: goals.len() }
    }

    pub fn roots(&self) -> Vec<TreeNumber> {
        (0..self.roots as u32).map(TreeNumber).collect()
    }

    pub fn goal(&self, tree: TreeNumber) -> Goal {
        self.trees[tree.0 as usize].goal
    }

    /// "atomic is a use whose premises are open leaves": turns an open leaf into
    /// a use and gives the new open leaves.
    pub fn grow(&mut self, leaf: TreeNumber, name: RuleName, premises: &[Goal]) -> impl Iterator<Item = TreeNumber> {
        let first_premise = self.trees.len() as u32;
        let count = premises.len() as u32;
        self.trees.extend(premises.iter().map(|&goal| Tree { goal, step: TreeStep::Open }));
        self.trees[leaf.0 as usize].step = TreeStep::Use { name, first_premise, premises: count };
        (first_premise..first_premise + count).map(TreeNumber)
    }

    /// "Written with the stated goals as roots, then depth first, left first."
    pub fn flat_file(&self) -> Vec<u8> {
        let mut bytes = Vec::with_capacity(3 + 9 * self.trees.len());
        let root_goals: Vec<Goal> = self.trees[..self.roots].iter().map(|tree| tree.goal).collect();
        write_goal_list(&root_goals, &mut bytes);
        // The trees still to be written, the first of them last.
        let mut to_write: Vec<u32> = (0..self.roots as u32).rev().collect();
        while let Some(number) = to_write.pop() {
            let tree = self.trees[number as usize];
            match tree.step {
                TreeStep::Open => write_open(tree.goal, &mut bytes),
                TreeStep::Use { name, first_premise, premises } => {
                    write_use(name, tree.goal, &mut bytes);
                    to_write.extend((first_premise..first_premise + premises).rev());
                }
            }
        }
        bytes
    }
}
