//! Files that put the reader's tests in every order.

use super::build::*;
use super::damage::field_places;

/// Tags tried in the place of every field: all fourteen, and their neighbours.
const TAGS_TRIED: [u8; 18] = [0, 1, 2, 3, 4, 15, 16, 17, 18, 19, 20, 21, 22, 23, 24, 25, 32, 33];

/// Every truncation of a file, every tag in the place of every field's, and every
/// length made a little shorter and longer.
pub fn systematic_damage(file: &[u8]) -> Vec<Vec<u8>> {
    let mut files: Vec<Vec<u8>> = (0..file.len()).map(|length| file[..length].to_vec()).collect();
    for place in field_places(file) {
        for tag in TAGS_TRIED {
            let mut changed = file.to_vec();
            changed[place] = tag;
            files.push(changed);
        }
        let length = u16::from_be_bytes([file[place + 1], file[place + 2]]);
        for change in [-5i16, -3, -2, -1, 1, 2, 3, 5] {
            let mut changed = file.to_vec();
            let new_length = length.wrapping_add_signed(change).to_be_bytes();
            changed[place + 1..place + 3].copy_from_slice(&new_length);
            files.push(changed);
        }
    }
    for tail in [&[0][..], &[17], &[17, 0], &[0, 0], &[17, 0, 0], &[3, 0, 0], &[1, 0, 4], &[33, 0, 2, 0, 1]] {
        files.push([file, tail].concat());
    }
    files
}

/// A small table with every sort of field.
pub fn table_with_every_field() -> Vec<u8> {
    let body = alternation(&sequence(&atomic(1), &label(7, &assert_goal(2))), &tensor(&defined(2), &empty()));
    [rule(1, 1, &[2, 3]), rule(2, 2, &[]), definition(1, &body), definition(2, &id())].concat()
}

/// A small job with every sort of term that only a tactic has; a run of it
/// succeeds with `table_with_every_field`.
pub fn job_with_tactic_terms() -> Vec<u8> {
    let left = label(1, &sequence(&assert_goal(1), &id()));
    job(&[2], &alternation(&left, &tensor(&defined(2), &empty())))
}

/// A small proof with every sort of term; accepted with `table_with_every_field`.
pub fn proof_with_every_term() -> Vec<u8> {
    let left = sequence(&label(1, &atomic(1)), &tensor(&atomic(2), &id()));
    proof(&[1], &tensor(&left, &empty()), &[3])
}

/// A small flat file; right with `table_with_every_field`.
pub fn flat_with_every_entry() -> Vec<u8> {
    flat(&[2, 1], &[use_entry(2, 2), use_entry(1, 1), open_entry(2), open_entry(3)])
}

/// Tables for each refusal from 1 to 9, in order, each also with a later or
/// lower fault that must not win.
pub fn refused_tables() -> Vec<Vec<u8>> {
    let fault_of_7 = [rule(1, 1, &[]), rule(1, 2, &[5])].concat();
    let fault_of_8 = [definition(1, &id()), definition(1, &id())].concat();
    let fault_of_9 = [definition(2, &label(1, &id())), definition(3, &label(1, &id()))].concat();
    vec![
        vec![0; 65_536],
        vec![1, 0],
        vec![17, 0, 0],
        field(1, &values(&[1, 1])[..3]),
        field(1, &values(&[1, 1, 0, 0, 0, 0, 0, 0, 0, 0, 0])),
        rule(1, 1, &[]).repeat(4_097),
        [fault_of_7.clone(), rule(9, 9, &[]), rule(9, 9, &[]), fault_of_8.clone()].concat(),
        [rule(1, 1, &[]), rule(1, 1, &[5])].concat(),
        [fault_of_7, fault_of_9.clone(), fault_of_8.clone()].concat(),
        [fault_of_9.clone(), fault_of_8].concat(),
        fault_of_9,
        definition(1, &sequence(&label(4, &id()), &label(4, &id()))),
        [definition(1, &id()), rule(1, 1, &[])].concat(),
    ]
}

/// The faults that every other file can have, behind a good goal list where there
/// is one: refusals 1 to 5. No bytes are among them; of a proof they are no fault
/// from P7 on.
pub fn refused_others() -> Vec<Vec<u8>> {
    vec![
        vec![0; 65_536],
        vec![],
        vec![3],
        vec![3, 0],
        vec![3, 0, 2, 0],
        vec![1, 0, 0],
        field(3, &[0, 1, 0]),
        field(3, &[0; 514]),
        field(3, &[0; 515]),
        [goal_list(&[1]), vec![33, 0, 3, 0, 1, 1]].concat(),
        [goal_list(&[1]), vec![17, 0, 1, 9]].concat(),
        [goal_list(&[1]), vec![34, 0, 0]].concat(),
        vec![255; 65_535],
    ]
}
