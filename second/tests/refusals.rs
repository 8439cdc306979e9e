//! Every refusal with its place, and the order in which refusals come.

mod common;
use common::*;
use second::generate::build::*;
use second::generate::case::{Case, Entry};
use second::generate::examples::*;
use second::generate::limit_files;
use second::limits::*;
use second::Answer;

fn table_answer(table: &[u8]) -> Answer {
    check(table, &proof(&[], &empty(), &[]))
}

fn proof_answer(proof: &[u8]) -> Answer {
    check(&table_a(), proof)
}

#[test]
fn number_1() {
    let long = vec![0; MOST_INPUT_BYTES + 1];
    assert_eq!(check(&long, &long), refused(1, 1, 0));
    assert_eq!(check(&[], &long), refused(1, 2, 0));
    assert_eq!(table_answer(&limit_files::longest_table()), accepted(1, 0, 0, 0));
    assert_eq!(table_answer(&[limit_files::longest_table(), vec![1]].concat()), refused(1, 1, 0));
}

#[test]
fn number_2_in_tables() {
    assert_eq!(table_answer(&[]), accepted(1, 0, 0, 0));
    assert_eq!(table_answer(&[1]), refused(2, 1, 0));
    assert_eq!(table_answer(&[99, 0]), refused(2, 1, 0));
    assert_eq!(table_answer(&[1, 0, 4, 0, 1, 0]), refused(2, 1, 0));
    assert_eq!(table_answer(&[rule(1, 1, &[]), vec![1, 0]].concat()), refused(2, 1, 7));
    // Contents past the end come before a wrong length.
    assert_eq!(table_answer(&[1, 0, 5]), refused(2, 1, 0));
}

#[test]
fn number_2_where_a_field_must_begin() {
    // P7: a proof of no bytes reads.
    assert_eq!(proof_answer(&[]), accepted(1, 0, 0, 0));
    assert_eq!(proof_answer(&[3]), refused(2, 2, 0));
    assert_eq!(proof_answer(&[3, 0]), refused(2, 2, 0));
    assert_eq!(proof_answer(&goal_list(&[10])), refused(2, 2, 5));
    assert_eq!(proof_answer(&job(&[10], &id())), refused(2, 2, 8));
    assert_eq!(run(&[], &[], 1).0, refused(2, 2, 0));
    assert_eq!(check_flat(&[], &[]), refused(2, 2, 0));
}

#[test]
fn number_2_for_missing_inner_terms() {
    // READINGS A8 and A9: measured against the enclosing field.
    assert_eq!(proof_answer(&proof(&[10], &field(19, &[]), &[])), refused(2, 2, 8));
    assert_eq!(proof_answer(&proof(&[10], &field(19, &[17, 0]), &[])), refused(2, 2, 8));
    assert_eq!(proof_answer(&proof(&[10], &field(19, &id()), &[])), refused(2, 2, 11));
    assert_eq!(proof_answer(&proof(&[10], &field(18, &[0, 1]), &[])), refused(2, 2, 10));
    assert_eq!(proof_answer(&proof(&[10], &field(18, &[0, 1, 17, 0]), &[])), refused(2, 2, 10));
    // The inner field's contents reach past the field around it.
    assert_eq!(proof_answer(&proof(&[10], &field(18, &[0, 1, 16, 0, 2, 0]), &[])), refused(2, 2, 10));
    assert_eq!(table_answer(&field(2, &[0, 1])), refused(2, 1, 5));
}

#[test]
fn number_3() {
    assert_eq!(table_answer(&[0, 0, 0]), refused(3, 1, 0));
    assert_eq!(table_answer(&id()), refused(3, 1, 0));
    // READINGS A15: a rule behind a definition.
    assert_eq!(table_answer(&[definition(1, &id()), rule(1, 1, &[])].concat()), refused(3, 1, 8));
    // A tag comes before a torn field.
    assert_eq!(table_answer(&[99, 255, 255]), refused(3, 1, 0));
    // READINGS A17: tags 22 to 24 in a proof, at the inner term.
    for term in [alternation(&id(), &id()), assert_goal(10), defined(1)] {
        assert_eq!(proof_answer(&proof(&[10], &label(1, &term), &[])), refused(3, 2, 10));
        assert_eq!(run(&[], &job(&[10], &label(1, &term)), 100).0.file, 0);
    }
    assert_eq!(proof_answer(&[goal_list(&[]), empty(), id()].concat()), refused(3, 2, 6));
    assert_eq!(check_flat(&[], &[goal_list(&[]), id()].concat()), refused(3, 2, 3));
    assert_eq!(check_flat(&[], &id()), refused(3, 2, 0));
}

#[test]
fn number_4_for_lengths() {
    // READINGS A7: nine premises are a wrong length.
    assert_eq!(table_answer(&rule(1, 1, &[0; 8])), accepted(1, 0, 0, 0));
    assert_eq!(table_answer(&rule(1, 1, &[0; 9])), refused(4, 1, 0));
    assert_eq!(table_answer(&field(1, &[0, 1])), refused(4, 1, 0));
    assert_eq!(table_answer(&field(1, &[0, 1, 0, 1, 0])), refused(4, 1, 0));
    assert_eq!(table_answer(&field(2, &[0])), refused(4, 1, 0));
    let with_term = |term: &[u8]| proof_answer(&proof(&[10], term, &[]));
    assert_eq!(with_term(&field(16, &[0])), refused(4, 2, 5));
    assert_eq!(with_term(&field(16, &[0, 1, 2])), refused(4, 2, 5));
    assert_eq!(with_term(&field(17, &[0])), refused(4, 2, 5));
    assert_eq!(with_term(&field(18, &[0])), refused(4, 2, 5));
    assert_eq!(with_term(&field(21, &[0])), refused(4, 2, 5));
    assert_eq!(check_flat(&[], &flat(&[], &[field(32, &[0, 1])])), refused(4, 2, 3));
    assert_eq!(check_flat(&[], &flat(&[], &[field(33, &[0, 1, 0, 1])])), refused(4, 2, 3));
}

#[test]
fn number_4_for_leftovers() {
    let three = |inner: &[u8]| field(19, &[id(), id(), inner.to_vec()].concat());
    let with_term = |term: &[u8]| proof_answer(&proof(&[10], term, &[]));
    // READINGS A10: at the field, before the next sibling is looked at.
    assert_eq!(with_term(&three(&id())), refused(4, 2, 5));
    assert_eq!(with_term(&three(&[9])), refused(4, 2, 5));
    assert_eq!(with_term(&sequence(&three(&id()), &field(99, &[]))), refused(4, 2, 8));
    assert_eq!(with_term(&field(18, &[&[0, 1][..], &id(), &[0]].concat())), refused(4, 2, 5));
    assert_eq!(table_answer(&field(2, &[&[0, 1][..], &id(), &id()].concat())), refused(4, 1, 0));
    // READINGS A11: at the file's end the place is the first byte left.
    assert_eq!(proof_answer(&[proof(&[], &empty(), &[]), vec![0]].concat()), refused(4, 2, 9));
    assert_eq!(proof_answer(&[proof(&[], &empty(), &[]), id()].concat()), refused(4, 2, 9));
    assert_eq!(run(&[], &[job(&[], &empty()), vec![3, 0]].concat(), 1).0, refused(4, 2, 6));
}

#[test]
fn number_5_for_field_limits() {
    let rules = limit_files::equal_rules(MOST_RULES);
    assert_eq!(table_answer(&limit_files::different_rules(MOST_RULES)), accepted(1, 0, 0, 0));
    let end = rules.len() as u32;
    // READINGS A12: the header's tests come first, the contents' tests later.
    assert_eq!(table_answer(&[rules.clone(), vec![1, 0]].concat()), refused(2, 1, end));
    assert_eq!(table_answer(&[rules.clone(), vec![3, 0, 0]].concat()), refused(3, 1, end));
    assert_eq!(table_answer(&[rules.clone(), vec![1, 0, 3]].concat()), refused(5, 1, end));
    assert_eq!(table_answer(&[rules, vec![1, 0, 0]].concat()), refused(5, 1, end));
    assert_eq!(table_answer(&limit_files::definitions(256)), accepted(1, 0, 0, 0));
    assert_eq!(table_answer(&limit_files::definitions(257)), refused(5, 1, 256 * 8));
    assert_eq!(table_answer(&limit_files::deep_definition(4_096)), accepted(1, 0, 0, 0));
    assert_eq!(table_answer(&limit_files::deep_definition(4_097)), refused(5, 1, 5 + 5 * 4_096));
    // READINGS A13: over all definitions together.
    let over = limit_files::fields_over_definitions(4_097);
    assert_eq!(table_answer(&limit_files::fields_over_definitions(4_096)), accepted(1, 0, 0, 0));
    assert_eq!(table_answer(&over), refused(5, 1, over.len() as u32 - 3));
}

#[test]
fn number_5_in_other_files() {
    let deep = |fields: usize| proof(&[10], &labels_around(fields - 1, &id()), &[10]);
    assert_eq!(proof_answer(&deep(4_096)), accepted(4_096, 0, 1, 0));
    assert_eq!(proof_answer(&deep(4_097)), refused(5, 2, 5 + 5 * 4_096));
    let table = limit_files::chain_table();
    assert_eq!(check_flat(&table, &limit_files::flat_chain(4_096)), accepted(0, 4_096, 0, 2));
    assert_eq!(check_flat(&table, &limit_files::flat_chain(4_097)), refused(5, 2, 5 + 7 * 4_096));
    let opens = |count: usize| flat(&[50; 256], &vec![open_entry(50); count]);
    assert_eq!(check_flat(&table, &opens(256)), accepted(0, 0, 256, 0));
    assert_eq!(check_flat(&table, &opens(257)), refused(5, 2, 515 + 5 * 256));
}

#[test]
fn number_5_for_goal_lists() {
    assert_eq!(proof_answer(&proof(&[1; 257], &id(), &[])), refused(5, 2, 0));
    assert_eq!(proof_answer(&proof(&[1], &id(), &[1; 257])), refused(5, 2, 8));
    // READINGS A14: torn before odd before too many.
    assert_eq!(proof_answer(&field(3, &[0; 515])), refused(4, 2, 0));
    assert_eq!(proof_answer(&field(3, &[0; 515])[..400]), refused(2, 2, 0));
}

#[test]
fn numbers_6_to_9() {
    assert_eq!(table_answer(&[rule(1, 1, &[]), rule(1, 1, &[])].concat()), refused(6, 1, 7));
    // READINGS A20: 6 also with another count of premises.
    assert_eq!(table_answer(&[rule(1, 1, &[]), rule(1, 1, &[2])].concat()), refused(6, 1, 7));
    assert_eq!(table_answer(&[rule(1, 1, &[]), rule(1, 2, &[2])].concat()), refused(7, 1, 7));
    // READINGS A21: any earlier rule of that name, here not the neighbour.
    let late = [rule(1, 1, &[2]), rule(2, 1, &[]), rule(1, 2, &[3]), rule(1, 3, &[])].concat();
    assert_eq!(table_answer(&late), refused(7, 1, 9 + 7 + 9));
    let twice = [definition(1, &id()), definition(2, &id()), definition(1, &empty())].concat();
    assert_eq!(table_answer(&twice), refused(8, 1, 16));
    // READINGS A22: the later label field, also within one body.
    let one_body = definition(1, &sequence(&label(4, &id()), &label(4, &id())));
    assert_eq!(table_answer(&one_body), refused(9, 1, 16));
    let two_bodies = [definition(1, &label(4, &id())), definition(2, &label(4, &id()))].concat();
    assert_eq!(table_answer(&two_bodies), refused(9, 1, 13 + 5));
    // Labels of proofs are free.
    let labels = label(1, &label(1, &id()));
    assert_eq!(proof_answer(&proof(&[10], &labels, &[10])), accepted(3, 0, 1, 0));
}

#[test]
fn numbers_6_to_9_come_one_after_the_other() {
    let seven = [rule(1, 1, &[]), rule(1, 2, &[5])].concat();
    let six = [rule(9, 9, &[]), rule(9, 9, &[])].concat();
    let eight = [definition(1, &id()), definition(1, &id())].concat();
    let nine = [definition(2, &label(1, &id())), definition(3, &label(1, &id()))].concat();
    let all = [seven.clone(), six, nine.clone(), eight.clone()].concat();
    assert_eq!(table_answer(&all), refused(6, 1, 7 + 9 + 7));
    assert_eq!(table_answer(&[seven, nine.clone(), eight.clone()].concat()), refused(7, 1, 7));
    assert_eq!(table_answer(&[nine.clone(), eight].concat()), refused(8, 1, 26 + 8));
    assert_eq!(table_answer(&nine), refused(9, 1, 18));
    // READINGS A18, A19: a reading refusal of the table wins, the other file waits.
    let torn = [rule(1, 1, &[]), rule(1, 1, &[]), vec![1]].concat();
    assert_eq!(check(&torn, &[]), refused(2, 1, 14));
    assert_eq!(check(&rule(1, 1, &[]).repeat(2), &vec![0; 70_000]), refused(6, 1, 7));
}

#[test]
fn numbers_20_and_34_and_35_name_the_first_term() {
    let a = table_a();
    let at = |term: Vec<u8>, goals: &[u16]| check(&a, &proof(goals, &term, &[]));
    assert_eq!(at(atomic(9), &[10]), refused(20, 2, 5));
    assert_eq!(at(atomic(2), &[10]), refused(20, 2, 5));
    assert_eq!(at(id(), &[]), refused(34, 2, 3));
    assert_eq!(at(id(), &[10, 10]), refused(34, 2, 7));
    assert_eq!(at(atomic(1), &[]), refused(34, 2, 3));
    assert_eq!(at(empty(), &[10]), refused(34, 2, 5));
    assert_eq!(at(label(1, &id()), &[10, 10]), refused(34, 2, 7));
    // B5.2: 34 before 20.
    assert_eq!(at(atomic(9), &[10, 10]), refused(34, 2, 7));
    // A sequence never refuses by itself, and a tensor not for too many goals.
    assert_eq!(at(sequence(&id(), &empty()), &[10]), refused(34, 2, 11));
    assert_eq!(at(tensor(&id(), &id()), &[10, 10, 10]), refused(34, 2, 15));
    // READINGS A26: tested before the left part is walked.
    assert_eq!(at(tensor(&tensor(&atomic(9), &id()), &id()), &[10]), refused(35, 2, 5));
    // READINGS A29: no list is as long as this arity.
    assert_eq!(at(tensor(&tensor_of(&vec![id(); 257]), &empty()), &[10; 256]), refused(35, 2, 515));
    // READINGS A30: a left part of arity 0 takes no goals.
    let left = sequence(&empty(), &empty());
    assert_eq!(check(&a, &proof(&[10], &tensor(&left, &id()), &[10])), accepted(5, 0, 1, 0));
}

#[test]
fn number_21_after_the_whole_walk() {
    let a = table_a();
    assert_eq!(check(&a, &proof(&[10], &atomic(1), &[30, 20])), refused(21, 2, 10));
    assert_eq!(check(&a, &proof(&[10], &atomic(1), &[20])), refused(21, 2, 10));
    assert_eq!(check(&a, &proof(&[10], &atomic(1), &[20, 30])), accepted(1, 1, 2, 1));
    // READINGS A32: the flattener refuses what the checker refuses.
    assert_eq!(flatten(&a, &proof(&[10], &atomic(1), &[20])).0, refused(21, 2, 10));
}

#[test]
fn number_22_at_the_tensor() {
    let table = table_of_eight();
    let full = tensor_of(&vec![atomic(4); 32]);
    // READINGS A27: the right part's 20 comes before the tensor's 22.
    let wrong_right = tensor(&full, &tensor(&id(), &empty()));
    assert_eq!(check(&table, &proof(&[40; 33], &wrong_right, &[])).number, 22);
    let wrong_right = tensor(&full, &atomic(9));
    let place = 3 + 66 + 3 + full.len() as u32;
    assert_eq!(check(&table, &proof(&[40; 33], &wrong_right, &[])), refused(20, 2, place));
    // Many lists wait for the innermost tensors to join; the fourth of these has
    // 5 times 64 goals.
    let waiting = proof(&[40; 227], &limit_files::term_of_most_waiting_goals(), &[]);
    assert_eq!(check(&table, &waiting), refused(22, 2, 3 + 454 + 222 * 72));
    // 22 ends a run, also inside a left alternative.
    let job = job(&[40; 33], &alternation(&tensor_of(&vec![atomic(4); 33]), &id()));
    assert_eq!(run(&table, &job, 4096).0, run_refused(22, 66));
}

#[test]
fn numbers_23_and_24() {
    let a = table_a();
    assert_eq!(run(&a, &job(&[10], &atomic(2)), 1).0, run_refused(23, 1));
    // READINGS A41: budget 0 is always 24; at a spent budget a failing term is 24.
    assert_eq!(run(&a, &job(&[10], &atomic(2)), 0).0, run_refused(24, 0));
    let either = alternation(&atomic(2), &id());
    assert_eq!(run(&a, &job(&[10], &either), 2).0, run_refused(24, 2));
    assert_eq!(run(&a, &job(&[10], &either), 3).0.number, 0);
    assert_eq!(run(&a, &job(&[10], &defined(99)), 4096).0, run_refused(23, 1));
}

#[test]
fn number_27() {
    let a = table_a();
    // READINGS A33: nothing pending, or no rule.
    assert_eq!(check_flat(&a, &flat(&[], &[open_entry(1)])), refused(27, 2, 3));
    assert_eq!(check_flat(&a, &flat(&[10], &[use_entry(2, 10)])), refused(27, 2, 5));
    // READINGS A34: pending at the end is the file's length.
    assert_eq!(check_flat(&a, &flat(&[10], &[])), refused(27, 2, 5));
    assert_eq!(check_flat(&a, &flat(&[10], &[use_entry(1, 10)])), refused(27, 2, 12));
    let opened = flat(&[10], &[use_entry(1, 10), open_entry(20), open_entry(30)]);
    assert_eq!(check_flat(&a, &opened), accepted(0, 1, 2, 1));
    assert_eq!(write_proof(&a, &flat(&[10], &[])).0, refused(27, 2, 5));
    // READINGS A37: pending goals have no limit.
    for most_pending in limit_files::flats_of_most_pending_goals() {
        assert_eq!(check_flat(&table_of_eight(), &most_pending), refused(27, 2, most_pending.len() as u32));
    }
}

#[test]
fn number_28_before_27() {
    let table = limit_files::chain_table();
    let wrong = |count: usize| flat(&[50], &vec![use_entry(9, 50); count]);
    assert_eq!(write_proof(&table, &wrong(2_049)).0, refused(28, 2, 0));
    assert_eq!(write_proof(&table, &wrong(2_048)).0, refused(27, 2, 5));
    // READINGS A35: 5 before 28; A36: 28 is not the checker's.
    assert_eq!(write_proof(&table, &wrong(4_097)).0.number, 5);
    assert_eq!(check_flat(&table, &limit_files::flat_chain(2_049)).number, 0);
}

#[test]
fn order_of_29_and_25_and_26() {
    let case = Case::new(Entry::Run, &[1], &[]).with_budget(16_385);
    assert_eq!(case.clone().with_work(RUN_WORK - 1).outcome().answer, refused(29, 0, 0));
    assert_eq!(case.outcome().answer, refused(25, 0, 0));
    let first = Case::new(Entry::Run, &table_a(), &job(&[10], &defined(3)));
    // READINGS A3: the steps of the whole run.
    assert_eq!(first.with_output(50).outcome().answer, run_refused(26, 19));
}

#[test]
fn reading_comes_before_the_walk() {
    // READINGS A35b: a bad remaining list beats a term that does not validate.
    let bad_list = [goal_list(&[10]), atomic(2), field(3, &[0])].concat();
    assert_eq!(proof_answer(&bad_list), refused(4, 2, 10));
}
