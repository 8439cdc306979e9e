//! The paper's examples, as far as document 01 covers them.

mod common;
use common::*;
use second::generate::build::*;
use second::generate::examples::*;

#[test]
fn examples_1_and_2() {
    // ([l] a ; b ⊗ id) ; [m] c ⊢ γ1 → ⟨⟩
    assert_eq!(check(&table_a(), &example_1()), accepted(9, 3, 0, 3));
}

#[test]
fn example_2_in_pieces() {
    let a = table_a();
    let left = label(1, &sequence(&atomic(1), &tensor(&atomic(2), &id())));
    assert_eq!(check(&a, &proof(&[10], &left, &[30])), accepted(6, 2, 1, 2));
    assert_eq!(check(&a, &proof(&[30], &label(2, &atomic(3)), &[])), accepted(2, 1, 0, 1));
}

#[test]
fn example_3_every_rule() {
    assert_eq!(check(&propositional_table(), &propositional_proof()), accepted(15, 8, 0, 7));
}

#[test]
fn example_4_derived_rules() {
    assert_eq!(check(&equational_table(), &equational_h1()), accepted(5, 2, 1, 2));
    assert_eq!(check(&equational_table(), &equational_h2()), accepted(9, 3, 2, 3));
}

#[test]
fn example_5_keeps_the_id_of_the_assertion() {
    // The paper's result is ([l]a ; b ⊗ id) ; [m]c; document 01 keeps the id
    // that the assertion leaves (READINGS A61).
    let (answer, bytes) = run(&table_a(), &job(&[10], &defined(3)), 4096);
    assert_eq!(answer.number, 0);
    assert_eq!(bytes, first_proof());
    assert_eq!(flatten(&table_a(), &bytes).1, flatten(&table_a(), &example_1()).1);
}

#[test]
fn strip_implications() {
    // ⊢ A ⇒ (B ⇒ A) ; stripImp leaves A, B ⊢ A; nothing is simplified.
    let (answer, bytes) = run(&propositional_table(), &job(&[1], &defined(2)), 4096);
    assert_eq!((answer.number, answer.steps), (0, 20));
    let rest = tensor(&id(), &empty());
    assert_eq!(bytes, proof(&[1], &sequence_of(&[atomic(2), atomic(2), rest]), &[3]));
    // "The last goal is easily proven with the atomic tactic ax."
    let (answer, bytes) = run(&propositional_table(), &job(&[1], &sequence(&defined(2), &atomic(1))), 4096);
    assert_eq!(answer.number, 0);
    assert_eq!(check(&propositional_table(), &bytes), accepted(9, 3, 0, 3));
}

#[test]
fn polymorphic_identity() {
    for count in [0usize, 1, 2, 3, 100] {
        let goals: Vec<u16> = (0..count as u16).collect();
        let (answer, bytes) = run(&propositional_table(), &job(&goals, &defined(1)), 4096);
        // Each goal costs tactic, alternation, tensor and id; the end costs
        // tactic, alternation, the tensor that fails, and empty.
        assert_eq!((answer.number, answer.steps as usize), (0, 4 * count + 4));
        let mut terms = vec![id(); count];
        terms.push(empty());
        assert_eq!(bytes, proof(&goals, &tensor_of(&terms), &goals));
    }
}

#[test]
fn all_of_either_where_all_beside_all_fails() {
    let table = table_a_with_all();
    let goals = [20, 20, 30];
    let beside = tensor(&defined(5), &defined(6));
    assert_eq!(run(&table, &job(&goals, &beside), 4096).0, run_refused(23, 1));
    let (answer, bytes) = run(&table, &job(&goals, &defined(7)), 4096);
    assert_eq!(answer.number, 0);
    let term = tensor_of(&[atomic(2), atomic(2), atomic(3), empty()]);
    assert_eq!(bytes, proof(&goals, &term, &[]));
}

#[test]
fn example_6_reads_a_b_as_the_definition_has_it() {
    // With b, c as Example 6 prints it the box would not validate.
    let misprint = label(1, &sequence(&atomic(2), &tensor(&atomic(3), &id())));
    assert_eq!(check(&table_a(), &proof(&[10], &misprint, &[30])), refused(20, 2, 13));
}
