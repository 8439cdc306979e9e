//! Every line of document 01's "A table and its edges", starred or not.

mod common;
use common::*;
use second::generate::build::*;
use second::generate::examples::*;
use second::generate::limit_files;
use second::text::{show, FileKind};

#[test]
fn first_proof_takes_19_steps_and_51_bytes() {
    let (answer, bytes) = run(&table_a(), &job(&[10], &defined(3)), 19);
    assert_eq!((answer.number, answer.steps, answer.length), (0, 19, 51));
    assert_eq!(bytes, first_proof());
    let text = show(FileKind::Proof, &bytes).unwrap();
    assert!(text.contains("term ([1]a1 ; a2 * id) ; id ; [2]a3\n"));
    assert!(text.contains("remaining none\n"));
}

#[test]
fn budget_18_is_spent_after_18() {
    let (answer, _) = run(&table_a(), &job(&[10], &defined(3)), 18);
    assert_eq!(answer, run_refused(24, 18));
}

#[test]
fn first_proof_is_flattened_and_written_back() {
    let (_, flat_bytes) = flatten(&table_a(), &first_proof());
    assert_eq!(flat_bytes, flat(&[10], &[use_entry(1, 10), use_entry(2, 20), use_entry(3, 30)]));
    let (_, proof_bytes) = write_proof(&table_a(), &flat_bytes);
    let term = sequence(&atomic(1), &tensor(&atomic(2), &atomic(3)));
    assert_eq!(proof_bytes, proof(&[10], &term, &[]));
    assert_eq!(check(&table_a(), &proof_bytes), accepted(5, 3, 0, 3));
}

#[test]
fn tactic_4_on_no_goals_and_on_two() {
    let (answer, bytes) = run(&table_a(), &job(&[], &defined(4)), 4096);
    assert_eq!((answer.number, answer.steps), (0, 4));
    assert_eq!(bytes, proof(&[], &empty(), &[]));
    let (answer, bytes) = run(&table_a(), &job(&[10, 20], &defined(4)), 4096);
    assert_eq!((answer.number, answer.steps), (0, 12));
    assert_eq!(bytes, proof(&[10, 20], &tensor(&id(), &tensor(&id(), &empty())), &[10, 20]));
}

#[test]
fn a_choice_stands() {
    let term = sequence(&alternation(&id(), &atomic(2)), &empty());
    assert_eq!(run(&table_a(), &job(&[20], &term), 4096).0, run_refused(23, 4));
}

#[test]
fn a_tensor_whose_left_has_no_arity_fails() {
    let term = tensor(&defined(5), &defined(6));
    assert_eq!(run(&table_a_with_all(), &job(&[20, 20, 30], &term), 4096).0, run_refused(23, 1));
}

/// With the numbers of P5.
#[test]
fn proofs_that_do_not_validate() {
    let a = table_a();
    let two = tensor(&id(), &id());
    assert_eq!(check(&a, &proof(&[10], &atomic(2), &[])), refused(20, 2, 5));
    assert_eq!(check(&a, &proof(&[10], &two, &[])), refused(34, 2, 11));
    assert_eq!(check(&a, &proof(&[10], &tensor(&two, &id()), &[])), refused(35, 2, 5));
    assert_eq!(check(&a, &proof(&[10], &label(1, &empty()), &[])), refused(34, 2, 10));
}

#[test]
fn eight_times_32_pass_and_33_do_not() {
    assert_eq!(check(&table_of_eight(), &eights(32)), accepted(63, 32, 256, 1));
    // The outermost tensor joins all 264; it stands behind the list of 33 goals.
    assert_eq!(check(&table_of_eight(), &eights(33)), refused(22, 2, 3 + 66));
    let term = tensor_of(&vec![atomic(4); 33]);
    assert_eq!(run(&table_of_eight(), &job(&[40; 33], &term), 4096).0, run_refused(22, 65));
}

#[test]
fn budget_16384_runs_and_16385_does_not() {
    let first_job = job(&[10], &defined(3));
    for budget in [4_096, 4_097, 16_384] {
        assert_eq!(run(&table_a(), &first_job, budget).0.number, 0);
    }
    assert_eq!(run(&table_a(), &first_job, 16_385).0, run_refused(25, 0));
    assert_eq!(run(&table_a(), &first_job, u32::MAX).0, run_refused(25, 0));
}

#[test]
fn entries_2048_are_written_back_and_2049_are_not() {
    let table = limit_files::chain_table();
    let (answer, bytes) = write_proof(&table, &limit_files::flat_chain(2_048));
    assert_eq!(answer.number, 0);
    assert_eq!(check(&table, &bytes), accepted(2 * 2_048 - 1, 2_048, 0, 2));
    assert_eq!(write_proof(&table, &limit_files::flat_chain(2_049)).0, refused(28, 2, 0));
}

#[test]
fn the_check_of_the_first_proof() {
    assert_eq!(check(&table_a(), &first_proof()), accepted(11, 3, 0, 3));
    assert_eq!(check_flat(&table_a(), &first_flat()), accepted(0, 3, 0, 3));
}

#[test]
fn no_goal_list_is_searched_or_split_by_luck() {
    // "searching pending goals instead of taking the first"
    let swapped = flat(&[10], &[use_entry(1, 10), use_entry(3, 30), use_entry(2, 20)]);
    assert_eq!(check_flat(&table_a(), &swapped), refused(27, 2, 12));
    // "giving a label an arity of its contents": [1]empty has arity 1.
    let term = tensor(&label(1, &empty()), &id());
    assert_eq!(check(&table_a(), &proof(&[10], &term, &[10])), refused(34, 2, 13));
}
