//! P6 of document 02 as plain definitions: the set of rule fields that a hiproof or
//! a forest uses, each named by its number.

use super::reasons::walk;
use super::{hiproof_arity, Placed, Table, Term, Tree};
use std::collections::BTreeSet;

/// Rule fields by number.
pub type Rules = BTreeSet<usize>;

/// "its number in the table, counting from 0": how many rule fields stand before it.
pub fn number_of(table: &Table, name: u16, goal: u16) -> Option<usize> {
    table.rules.iter().position(|rule| (rule.0, rule.1) == (name, goal))
}

/// The rules that a hiproof uses on goals on which it validates.
pub fn rules_of_term(table: &Table, term: &Placed, goals: &[u16]) -> Rules {
    match &term.term {
        Term::Atomic(name) => number_of(table, *name, goals[0]).into_iter().collect(),
        Term::Label(_, inner) => rules_of_term(table, inner, goals),
        Term::Sequence(left, right) => {
            let Ok(between) = walk(table, left, goals) else {
                panic!("a hiproof that does not validate");
            };
            &rules_of_term(table, left, goals) | &rules_of_term(table, right, &between)
        }
        Term::Tensor(left, right) => {
            let (first, others) = goals.split_at(hiproof_arity(left));
            &rules_of_term(table, left, first) | &rules_of_term(table, right, others)
        }
        _ => Rules::new(),
    }
}

/// The rules that the uses of a forest name.
pub fn rules_of_trees(table: &Table, trees: &[Tree]) -> Rules {
    let mut rules = Rules::new();
    for tree in trees {
        if let Tree::Use(name, goal, premises) = tree {
            rules.extend(number_of(table, *name, *goal));
            rules.extend(rules_of_trees(table, premises));
        }
    }
    rules
}
