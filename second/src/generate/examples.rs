//! Document 01's Table A and the paper's examples, as files.

use super::build::*;
use super::case::{Case, Entry};

/// [1](1 ; (2 ⊗ id))
fn first_box() -> Vec<u8> {
    label(1, &sequence(&atomic(1), &tensor(&atomic(2), &id())))
}

/// [2]3
fn second_box() -> Vec<u8> {
    label(2, &atomic(3))
}

/// ALL t as tactic number `tactic`: (t ⊗ T) | empty.
pub fn all(tactic: u16, inner: &[u8]) -> Vec<u8> {
    definition(tactic, &alternation(&tensor(inner, &defined(tactic)), &empty()))
}

/// REPEAT t as tactic number `tactic`: (t ; T) | ID, where ID has its own number.
pub fn repeat(tactic: u16, inner: &[u8], identity: u16) -> Vec<u8> {
    definition(tactic, &alternation(&sequence(inner, &defined(tactic)), &defined(identity)))
}

fn rules_of_table_a() -> Vec<u8> {
    [rule(1, 10, &[20, 30]), rule(2, 20, &[]), rule(3, 30, &[])].concat()
}

/// Document 01, "Table A".
pub fn table_a() -> Vec<u8> {
    let third = alternation(&sequence(&assert_goal(30), &defined(2)), &sequence(&defined(1), &defined(3)));
    [
        rules_of_table_a(),
        definition(1, &first_box()),
        definition(2, &second_box()),
        definition(3, &third),
        all(4, &id()),
    ]
    .concat()
}

/// Table A with tactics 5 = ALL 2, 6 = ALL 3 and 7 = ALL (2 | 3).
pub fn table_a_with_all() -> Vec<u8> {
    let either = alternation(&atomic(2), &atomic(3));
    [table_a(), all(5, &atomic(2)), all(6, &atomic(3)), all(7, &either)].concat()
}

/// Table A's rules with rule 4 on 40 giving eight times 40.
pub fn table_of_eight() -> Vec<u8> {
    [rules_of_table_a(), rule(4, 40, &[40; 8])].concat()
}

/// ([1](1 ; (2 ⊗ id))) ; (id ; [2]3) on 10: the file of 51 bytes.
pub fn first_proof() -> Vec<u8> {
    proof(&[10], &sequence(&first_box(), &sequence(&id(), &second_box())), &[])
}

/// The flat derivation of `first_proof`.
pub fn first_flat() -> Vec<u8> {
    flat(&[10], &[use_entry(1, 10), use_entry(2, 20), use_entry(3, 30)])
}

/// `first_flat` written back: 1 ; (2 ⊗ 3).
pub fn first_written_back() -> Vec<u8> {
    proof(&[10], &sequence(&atomic(1), &tensor(&atomic(2), &atomic(3))), &[])
}

/// Rule 4 side by side `count` times, on as many goals 40.
pub fn eights(count: usize) -> Vec<u8> {
    let remaining = vec![40; (8 * count).min(256)];
    proof(&vec![40; count], &tensor_of(&vec![atomic(4); count]), &remaining)
}

/// Example 1: ([l] a ; b ⊗ id) ; [m] c on γ1 = 10.
pub fn example_1() -> Vec<u8> {
    proof(&[10], &sequence(&first_box(), &second_box()), &[])
}

/// Example 3, minimal propositional logic. Names: 1 ax, 2 impI, 3 impE, 4 wk.
/// Goals: 1 is ⊢ A ⇒ (B ⇒ A), 2 is A ⊢ B ⇒ A, 3 is A, B ⊢ A, 4 is A, B ⊢ B ⇒ A,
/// 5 is A, B ⊢ B, 6 is A ⊢ A. Tactic 1 is ID, tactic 2 is stripImp.
pub fn propositional_table() -> Vec<u8> {
    [
        rule(1, 3, &[]),
        rule(1, 5, &[]),
        rule(1, 6, &[]),
        rule(2, 1, &[2]),
        rule(2, 2, &[3]),
        rule(3, 3, &[4, 5]),
        rule(4, 3, &[6]),
        rule(4, 4, &[2]),
        all(1, &id()),
        repeat(2, &atomic(2), 1),
    ]
    .concat()
}

/// A proof with all four rules of Example 3: impI ; (impI ; (impE ; ((wk ; (impI
/// ; (wk ; ax))) ⊗ ax))) on ⊢ A ⇒ (B ⇒ A).
pub fn propositional_proof() -> Vec<u8> {
    let first = sequence_of(&[atomic(4), atomic(2), atomic(4), atomic(1)]);
    let both = tensor(&first, &atomic(1));
    proof(&[1], &sequence_of(&[atomic(2), atomic(2), atomic(3), both]), &[])
}

/// Example 4, minimal equational logic. Names: 1 refl, 2 trans, 3 sym, 4 subst.
/// Goals: 10 is f(a1, a2) = f(b1, b2), 11 is f(a1, x) = f(b1, x), 12 is a2 = b2,
/// 13 is f(y, x) = f(y, x), 14 is a1 = b1, 20 is a[c/x] = b[c/x], 21 is a = b,
/// 22 is c = c, 23 is b = a.
pub fn equational_table() -> Vec<u8> {
    [
        rule(1, 13, &[]),
        rule(1, 22, &[]),
        rule(2, 22, &[22, 22]),
        rule(3, 21, &[23]),
        rule(4, 10, &[11, 12]),
        rule(4, 11, &[13, 14]),
        rule(4, 20, &[21, 22]),
    ]
    .concat()
}

/// h1 = subst ; id ⊗ refl leaves a = b.
pub fn equational_h1() -> Vec<u8> {
    proof(&[20], &sequence(&atomic(4), &tensor(&id(), &atomic(1))), &[21])
}

/// h2 = subst ; (subst ; refl ⊗ id) ⊗ id leaves a1 = b1 and a2 = b2.
pub fn equational_h2() -> Vec<u8> {
    let inner = sequence(&atomic(4), &tensor(&atomic(1), &id()));
    proof(&[10], &sequence(&atomic(4), &tensor(&inner, &id())), &[14, 12])
}

/// Jobs of document 01's "A table and its edges" and of the paper's Example 5,
/// section 4 and section 4.1.
pub fn run_cases() -> Vec<Case> {
    let run = |table: &[u8], goals: &[u16], term: &[u8]| Case::new(Entry::Run, table, &job(goals, term));
    let a = table_a();
    let with_all = table_a_with_all();
    let side_by_side = tensor(&defined(5), &defined(6));
    vec![
        run(&a, &[10], &defined(3)).with_budget(19),
        run(&a, &[10], &defined(3)).with_budget(18),
        run(&a, &[10], &defined(3)).with_budget(4096),
        run(&a, &[10], &defined(3)).with_budget(4097),
        run(&a, &[], &defined(4)),
        run(&a, &[10, 10], &defined(4)),
        run(&a, &[20], &sequence(&alternation(&id(), &atomic(2)), &empty())),
        run(&with_all, &[20, 20, 30], &side_by_side),
        run(&with_all, &[20, 20, 30], &defined(7)),
        run(&with_all, &[20, 20], &defined(5)),
        run(&a, &[10], &sequence(&first_box(), &second_box())),
        run(&propositional_table(), &[1], &defined(2)),
        run(&propositional_table(), &[1], &sequence(&defined(2), &atomic(1))),
        run(&propositional_table(), &[1, 2, 3], &defined(1)),
        run(&equational_table(), &[10], &sequence(&atomic(4), &tensor(&id(), &id()))),
    ]
}

/// Tactics with and without an arity (READINGS A45), each with the arity it has.
pub fn tactics_and_arities() -> Vec<(Vec<u8>, Option<usize>)> {
    let itself = |tactic: u16| defined(tactic);
    let two = tensor(&id(), &assert_goal(1));
    vec![
        (alternation(&itself(0), &id()), None),
        (alternation(&tensor(&id(), &itself(1)), &empty()), None),
        (tensor(&empty(), &itself(2)), None),
        (sequence(&id(), &itself(3)), Some(1)),
        (label(4, &itself(4)), Some(1)),
        (defined(999), None),
        (alternation(&id(), &empty()), None),
        // Two that name each other.
        (sequence(&defined(8), &id()), Some(1)),
        (alternation(&atomic(1), &sequence(&id(), &defined(7))), Some(1)),
        (alternation(&defined(10), &id()), None),
        (sequence(&defined(9), &id()), None),
        (label(11, &empty()), Some(1)),
        (label(12, &tensor(&id(), &id())), Some(1)),
        (sequence(&empty(), &id()), Some(0)),
        (two.clone(), Some(2)),
        (sequence(&two, &defined(999)), Some(2)),
        (alternation(&two, &tensor(&defined(3), &defined(7))), Some(2)),
        (tensor(&defined(16), &defined(14)), Some(4)),
        (tensor(&defined(0), &id()), None),
        (tensor(&id(), &defined(999)), None),
        (alternation(&sequence(&two, &id()), &defined(20)), None),
        (sequence(&defined(999), &id()), None),
    ]
}

/// The tactics of `tactics_and_arities`, numbered from 0.
pub fn arity_table() -> Vec<u8> {
    let bodies = tactics_and_arities().into_iter().map(|(body, _)| body);
    bodies.enumerate().flat_map(|(tactic, body)| definition(tactic as u16, &body)).collect()
}

/// Each tactic of `arity_table` as the left of a tensor on 0 to 5 goals. With
/// budget 1 the run is 23 if the tensor fails and 24 if its left is to begin.
pub fn arity_cases() -> Vec<Case> {
    let table = arity_table();
    let mut cases = Vec::new();
    for tactic in 0..tactics_and_arities().len() as u16 {
        for goals in 0..=5 {
            let job = job(&vec![1; goals], &tensor(&defined(tactic), &id()));
            cases.push(Case::new(Entry::Run, &table, &job).with_budget(1));
        }
    }
    cases
}

/// Table and proof of every example that is a hiproof.
pub fn proofs() -> Vec<(Vec<u8>, Vec<u8>)> {
    let a = table_a();
    let three_ids = tensor(&tensor(&id(), &id()), &id());
    vec![
        (a.clone(), first_proof()),
        (a.clone(), first_written_back()),
        (a.clone(), example_1()),
        (a.clone(), proof(&[10], &atomic(2), &[])),
        (a.clone(), proof(&[10], &tensor(&id(), &id()), &[10, 10])),
        (a.clone(), proof(&[10], &three_ids, &[10, 10, 10])),
        (a.clone(), proof(&[10], &label(1, &empty()), &[])),
        (a.clone(), proof(&[10], &id(), &[20])),
        (a, proof(&[], &empty(), &[])),
        (table_of_eight(), eights(32)),
        (table_of_eight(), eights(33)),
        (propositional_table(), propositional_proof()),
        (equational_table(), equational_h1()),
        (equational_table(), equational_h2()),
    ]
}
