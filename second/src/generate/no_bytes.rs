//! P7: a proof file of no bytes, and what stands next to it: files of one to ten
//! bytes, no bytes where another kind of file belongs, tables that are refused
//! first, and lent spaces on both sides of their borders.

use super::build::*;
use super::case::{Case, Entry};
use super::{examples, reading};
use crate::limits::{MOST_BUDGET, MOST_HEIGHT};

/// The entries that take another kind of file: for them no bytes are refused as
/// before.
const TAKE_OTHER_FILE: [Entry; 6] =
    [Entry::Run, Entry::Search, Entry::CheckFlat, Entry::WriteProof, Entry::ReadText, Entry::WriteText];

/// A table of which only the header of the first field is there.
const TORN_TABLE: [u8; 3] = [1, 0, 4];

/// What a proof of no bytes means, in fields: nine bytes.
pub fn written_out() -> Vec<u8> {
    proof(&[], &empty(), &[])
}

/// Tables that read, of every sort.
pub fn good_tables() -> Vec<Vec<u8>> {
    vec![
        vec![],
        examples::table_a(),
        reading::table_with_every_field(),
        rule(0, 0, &[]),
        definition(0, &empty()),
        definition(0, &defined(0)),
    ]
}

/// Files of one and two bytes that are no beginning of the nine: tags and other
/// bytes, and beginnings of other headers.
fn shortest_files() -> Vec<Vec<u8>> {
    let one_byte = [0, 1, 2, 16, 17, 18, 19, 20, 21, 22, 32, 33, 255].map(|byte| vec![byte]);
    let two_bytes = [[0, 0], [3, 2], [17, 0], [21, 0], [0, 3], [0, 21], [1, 0], [33, 0], [255, 255]];
    one_byte.into_iter().chain(two_bytes.map(|bytes| bytes.to_vec())).collect()
}

/// Every beginning of the nine bytes, none and all of them included, and the nine
/// with one or more bytes behind them.
fn around_nine_bytes() -> Vec<Vec<u8>> {
    let nine = written_out();
    let mut files: Vec<Vec<u8>> = (0..=nine.len()).map(|length| nine[..length].to_vec()).collect();
    let behind: [&[u8]; 7] = [&[0], &[3], &[21], &[3, 0], &[3, 0, 0], &[21, 0, 0], &nine];
    files.extend(behind.map(|tail| [&nine, tail].concat()));
    files
}

/// Files near the nine bytes: proofs with one or two other fields, and zeros. Some
/// are accepted, and some would be if no bytes were taken too widely.
fn next_to_nine_bytes() -> Vec<Vec<u8>> {
    vec![
        proof(&[], &sequence(&empty(), &empty()), &[]),
        proof(&[], &tensor(&empty(), &empty()), &[]),
        proof(&[], &id(), &[]),
        proof(&[], &atomic(0), &[]),
        proof(&[], &label(0, &empty()), &[]),
        proof(&[0], &empty(), &[]),
        proof(&[], &empty(), &[0]),
        proof(&[0], &empty(), &[0]),
        vec![0; 3],
        vec![0; 9],
    ]
}

/// No bytes, and the shortest files that no entry reads.
fn none_one_and_two_bytes() -> [Vec<u8>; 3] {
    [vec![], vec![3], vec![3, 0]]
}

fn cases_of(entries: &[Entry], table: &[u8], others: &[Vec<u8>]) -> Vec<Case> {
    let mut cases = Vec::new();
    for other in others {
        cases.extend(entries.iter().map(|&entry| Case::new(entry, table, other)));
    }
    cases
}

/// What each of these files is as a proof.
fn as_proofs() -> Vec<Case> {
    let files = [around_nine_bytes(), shortest_files(), next_to_nine_bytes()].concat();
    let mut cases = cases_of(&Entry::WITH_PROOF, &examples::table_a(), &files);
    cases.extend(good_tables().iter().flat_map(|table| cases_of(&Entry::WITH_PROOF, table, &none_one_and_two_bytes())));
    cases
}

/// Each of 1 to 9 in the table comes before anything in the proof.
fn behind_refused_tables() -> Vec<Case> {
    let proofs = [vec![], vec![3], written_out()];
    let mut cases: Vec<Case> =
        reading::refused_tables().iter().flat_map(|table| cases_of(&Entry::WITH_PROOF, table, &proofs)).collect();
    cases.push(Case::new(Entry::Flatten, &TORN_TABLE, &[]).with_output(0));
    cases
}

/// The flat form has three bytes; one and two bytes are 2 before 26.
fn output_spaces() -> Vec<Case> {
    let mut cases = Vec::new();
    for file in none_one_and_two_bytes().into_iter().chain([written_out()]) {
        let case = Case::new(Entry::Flatten, &examples::table_a(), &file);
        cases.extend([0, 1, 2, 3, 4, 300].map(|length| case.clone().with_output(length)));
    }
    cases
}

/// 29 comes before everything else.
fn work_spaces() -> Vec<Case> {
    let mut cases = Vec::new();
    for entry in Entry::WITH_PROOF {
        let size = entry.work_size();
        for file in none_one_and_two_bytes().into_iter().chain([written_out()]) {
            let case = Case::new(entry, &examples::table_a(), &file);
            cases.extend([0, size - 1, size, size + 1].map(|length| case.clone().with_work(length)));
        }
        cases.push(Case::new(entry, &TORN_TABLE, &[]).with_work(size - 1));
    }
    let flatten = Case::new(Entry::Flatten, &[], &[]).with_output(2);
    let size = Entry::Flatten.work_size();
    cases.extend([size - 1, size, size + 1].map(|length| flatten.clone().with_work(length)));
    cases
}

/// No bytes as a job, a flat file, a text and a term file, and the nine bytes, which
/// are none of these.
fn as_other_files() -> Vec<Case> {
    let mut files = none_one_and_two_bytes().to_vec();
    files.push(written_out());
    let mut cases = cases_of(&TAKE_OTHER_FILE, &[], &files);
    cases.extend(cases_of(&TAKE_OTHER_FILE[..4], &examples::table_a(), &files));
    cases.extend(cases_of(&TAKE_OTHER_FILE[..4], &TORN_TABLE, &[vec![]]));
    for entry in TAKE_OTHER_FILE {
        let case = Case::new(entry, &[], &[]);
        cases.push(case.clone().with_work(entry.work_size() - 1));
        if entry.has_output() {
            cases.push(case.with_output(0));
        }
    }
    cases
}

/// A job of no bytes does not begin, so its budget is never spent; budgets and
/// heights over their limits come first.
fn budgets_and_heights() -> Vec<Case> {
    let run = Case::new(Entry::Run, &[], &[]);
    let search = Case::new(Entry::Search, &[], &[]);
    let mut cases = Vec::new();
    for budget in [0, 1, MOST_BUDGET, MOST_BUDGET + 1] {
        cases.push(run.clone().with_budget(budget));
        cases.push(search.clone().with_budget(budget));
    }
    cases.extend([0, 1, MOST_HEIGHT, MOST_HEIGHT + 1].map(|height| search.clone().with_height(height)));
    cases
}

/// What is written for no goals: the flat form of three bytes gives a proof of nine
/// bytes, never of none, and so do a run and a search.
fn written_for_no_goals() -> Vec<Case> {
    let flat_form = flat(&[], &[]);
    let job = job(&[], &empty());
    let mut cases = Vec::new();
    for table in [vec![], examples::table_a()] {
        cases.push(Case::new(Entry::CheckFlat, &table, &flat_form));
        for (entry, file) in [(Entry::WriteProof, &flat_form), (Entry::Run, &job), (Entry::Search, &job)] {
            let case = Case::new(entry, &table, file);
            cases.extend([0, 3, 8, 9, 10].map(|length| case.clone().with_output(length)));
        }
    }
    cases
}

pub fn cases() -> Vec<Case> {
    let mut cases = as_proofs();
    cases.extend(behind_refused_tables());
    cases.extend(output_spaces());
    cases.extend(work_spaces());
    cases.extend(as_other_files());
    cases.extend(budgets_and_heights());
    cases.extend(written_for_no_goals());
    cases
}
