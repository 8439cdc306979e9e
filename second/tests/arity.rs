//! The arity of tactics, seen from outside: a tensor fails after one step if its
//! left has no arity or more than there are goals.

use second::generate::build::*;
use second::generate::examples::*;
use second::generate::limit_files;
use second::Reason;

/// The fewest goals, from 0 to `most`, on which the left of a tensor begins.
fn arity(table: &[u8], tactic: u16, most: usize) -> Option<usize> {
    (0..=most).find(|&goals| {
        let job = job(&vec![1; goals], &tensor(&defined(tactic), &id()));
        let refusal = second::engine::run(table, &job, 1).err().expect("one step is too few");
        assert_eq!(refusal.steps, 1);
        match refusal.reason {
            Reason::BudgetSpent => true,
            Reason::TacticFailed => false,
            reason => panic!("{reason:?}"),
        }
    })
}

#[test]
fn readings_of_arity() {
    let table = arity_table();
    for (tactic, (_, expected)) in tactics_and_arities().into_iter().enumerate() {
        assert_eq!(arity(&table, tactic as u16, 6), expected, "tactic {tactic}");
    }
}

#[test]
fn an_arity_over_256_counts_as_none() {
    let table = limit_files::powers_of_arity();
    assert_eq!(arity(&table, 0, 256), Some(256));
    assert_eq!(arity(&table, 9, 256), None);
}

#[test]
fn long_chains_and_doubling_are_no_trouble() {
    assert_eq!(arity(&limit_files::chain_of_definitions(256), 0, 2), Some(1));
    assert_eq!(arity(&limit_files::doubling_definitions(256), 0, 2), Some(1));
}
