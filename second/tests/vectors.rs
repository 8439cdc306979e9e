//! The fixed set of vectors: coverage, the format, and the files in
//! crates/replay_vectors/data.

use second::generate::build;
use second::generate::case::{Case, Entry};
use second::generate::random::Random;
use second::generate::{examples, random_case, vector_set};
use second::limits::{MOST_FRAMES, RESUME_WORK, SEARCH_WORK, STATE_SIZE};
use second::vectors::{self, Expected};
use second::Answer;
use std::collections::BTreeSet;
use std::sync::OnceLock;

/// Every number with its file that an entry can answer.
fn possible_answers(entry: Entry) -> BTreeSet<(u32, u32)> {
    let mut answers: BTreeSet<(u32, u32)> = BTreeSet::from([(0, 0), (29, 0)]);
    if entry.takes_table() {
        answers.extend((1..=9).map(|number| (number, 1)));
    }
    if entry != Entry::ReadText {
        answers.extend((1..=5).map(|number| (number, 2)));
    }
    answers.extend(match entry {
        Entry::Check => vec![(20, 2), (21, 2), (22, 2), (34, 2), (35, 2)],
        Entry::Flatten => vec![(20, 2), (21, 2), (22, 2), (34, 2), (35, 2), (26, 0)],
        Entry::Run => vec![(22, 0), (23, 0), (24, 0), (25, 0), (26, 0), (40, 0)],
        Entry::CheckFlat => vec![(27, 2)],
        Entry::WriteProof => vec![(27, 2), (28, 2), (26, 0)],
        Entry::ReadText => vec![(1, 2), (5, 2), (36, 2), (37, 2), (26, 0)],
        Entry::WriteText => vec![(26, 0)],
        Entry::Search => vec![(24, 0), (25, 0), (26, 0), (41, 0), (42, 0)],
        Entry::RunHalting => vec![(22, 0), (23, 0), (24, 0), (25, 0), (26, 0), (40, 0)],
        Entry::Resume => vec![(22, 0), (23, 0), (24, 0), (25, 0), (26, 0), (30, 0), (40, 0)],
    });
    answers
}

/// The two entries of P1 share one file; every other has its own.
const ENTRIES_WITH_A_FILE: [Entry; 8] = [
    Entry::Check,
    Entry::Run,
    Entry::Flatten,
    Entry::CheckFlat,
    Entry::WriteProof,
    Entry::ReadText,
    Entry::WriteText,
    Entry::Search,
];

/// The files of the fixed set, made once for all tests.
fn vector_files() -> &'static [(&'static str, Vec<u8>)] {
    static FILES: OnceLock<Vec<(&'static str, Vec<u8>)>> = OnceLock::new();
    FILES.get_or_init(|| vector_set().iter().map(|(name, cases)| (*name, vectors::write(cases))).collect())
}

fn cases_of(bytes: &[u8]) -> Vec<Expected> {
    vectors::read(bytes).expect("a vector file")
}

fn cases_in(name: &str) -> Vec<Expected> {
    cases_of(&vector_files().iter().find(|file| file.0 == name).expect("the file").1)
}

#[test]
fn every_number_occurs_at_every_entry_where_it_can() {
    let cases: Vec<Expected> = vector_files().iter().flat_map(|(_, bytes)| cases_of(bytes)).collect();
    for entry in Entry::ALL {
        let answered: BTreeSet<(u32, u32)> = cases
            .iter()
            .filter(|one| one.case.entry == entry)
            .map(|one| (one.answer.number, one.answer.file))
            .collect();
        assert_eq!(answered, possible_answers(entry), "{entry:?}");
    }
}

#[test]
fn each_entry_has_a_file_with_all_its_numbers() {
    let names = [
        "check.vec",
        "run.vec",
        "flatten.vec",
        "check-flat.vec",
        "write-proof.vec",
        "read-text.vec",
        "write-text.vec",
        "search.vec",
    ];
    for (name, entry) in names.into_iter().zip(ENTRIES_WITH_A_FILE) {
        let cases = cases_in(name);
        assert!(cases.iter().all(|one| one.case.entry == entry));
        let answered: BTreeSet<(u32, u32)> = cases.iter().map(|one| (one.answer.number, one.answer.file)).collect();
        assert_eq!(answered, possible_answers(entry), "{name}");
    }
    let cases = cases_in("halting.vec");
    for entry in Entry::THAT_HALT {
        let of_entry = cases.iter().filter(|one| one.case.entry == entry);
        let answered: BTreeSet<(u32, u32)> = of_entry.map(|one| (one.answer.number, one.answer.file)).collect();
        assert_eq!(answered, possible_answers(entry), "{entry:?}");
    }
    assert!(cases.iter().all(|one| one.case.entry.may_halt()));
}

#[test]
fn sizes_stay_as_documented() {
    let mut total = 0;
    for (name, bytes) in vector_files() {
        assert!(bytes.len() <= 1_000_000, "{name}");
        for Expected { case, .. } in cases_of(bytes) {
            assert!(case.table.len() <= 70_000 && case.other.len() <= 70_000, "{name}");
            assert!(case.table.is_empty() || case.entry.takes_table(), "{name}");
            assert!(case.work_length <= SEARCH_WORK + 1 && case.output_length <= 32_768, "{name}");
            assert!(case.frames <= MOST_FRAMES + 1 && case.saved.len() <= STATE_SIZE + 1, "{name}");
            assert!(case.state_length <= STATE_SIZE + 5, "{name}");
            assert!(!case.entry.may_halt() || case.work_length <= RESUME_WORK + 1, "{name}");
        }
        total += bytes.len();
    }
    assert!(total <= 3_900_000, "{total} bytes in all");
}

/// The committed files answer as this engine does. That they are also, byte for
/// byte, what the generator writes is tested by the script second/ci.
#[test]
fn committed_files_agree() {
    let folder = concat!(env!("CARGO_MANIFEST_DIR"), "/../crates/replay_vectors/data");
    for (name, generated) in vector_files() {
        let bytes = std::fs::read(format!("{folder}/{name}")).expect("a committed vector file");
        assert_eq!(vectors::replay(&bytes), Ok(cases_of(generated).len()), "{name}");
    }
}

#[test]
fn cases_read_as_they_were_written() {
    let mut random = Random::new(501);
    let cases: Vec<_> = (0..200).map(|_| random_case(&mut random)).collect();
    let read = vectors::read(&vectors::write(&cases)).expect("a vector file");
    assert!(cases.iter().eq(read.iter().map(|one| &one.case)));
}

/// The answer's twelve numbers stand in the order of its fields, in a record of 66
/// bytes, of search 70.
#[test]
fn case_records_have_the_documented_form() {
    let table_and_proof = (examples::table_a(), build::proof(&[10], &build::atomic(1), &[20, 30]));
    let case = Case::new(Entry::Check, &table_and_proof.0, &table_and_proof.1);
    let bytes = vectors::write(&[case.clone(), case.clone()]);
    let record = &bytes[bytes.len() - 1 - 66..bytes.len() - 1];
    assert_eq!(bytes.len(), vectors::write(&[case]).len() + 66);
    assert_eq!(record[..2], [3, Entry::Check.code()]);
    let number = |place: usize| u32::from_be_bytes(record[place..place + 4].try_into().unwrap());
    let numbers: Vec<u32> = (0..12).map(|at| number(14 + 4 * at)).collect();
    assert_eq!(numbers, [0, 0, 0, 0, 0, 1, 1, 2, 1, 0, 0, 0]);
    assert_eq!(number(62), vectors::digest(&[]));
    let search = Case::new(Entry::Search, &[], &build::job(&[20], &build::id()));
    let two = vectors::write(&[search.clone(), search.clone()]);
    assert_eq!(two.len(), vectors::write(&[search]).len() + 70);
}

/// A case of P1 is twelve bytes longer than the same one of a run: the frames and the
/// second space that are lent, and the digest of what that holds. The saved state stands
/// in a record of its own, once for all cases that have it.
#[test]
fn cases_that_may_halt_have_the_documented_form() {
    let job = build::job(&[20], &build::id());
    let length = |cases: &[Case]| vectors::write(cases).len();
    let run = Case::new(Entry::RunHalting, &[], &job).with_budget(0).with_frames(16_385).with_state(160_273);
    assert_eq!(length(std::slice::from_ref(&run)), length(&[Case::new(Entry::Run, &[], &job)]) + 12);
    let bytes = vectors::write(std::slice::from_ref(&run));
    let mut state = vec![60; 160_273];
    state[..160_268].fill(0);
    state[..14].copy_from_slice(&[0, 0, 0, 0, 0, 1, 0, 1, 0, 5, 0, 1, 0, 20]);
    let last = [16_385u32.to_be_bytes(), 160_273u32.to_be_bytes(), vectors::digest(&state).to_be_bytes()].concat();
    assert!(bytes.ends_with(&[last, vec![0]].concat()));
    // Fourteen bytes of contents, in two pieces with the zeros behind them.
    let taken_up = Case::resumed(&[], &job, &state[..160_268]);
    assert_eq!(length(std::slice::from_ref(&taken_up)), length(&[run]) + 7 + (6 + 14) + (6 + 1));
    assert_eq!(length(&[taken_up.clone(), taken_up.clone()]), length(&[taken_up]) + 78);
}

#[test]
fn answers_are_their_numbers() {
    let numbers = [1, 2, 3, 4, 5, 6, 7, 8, 9, 10, 11, 12];
    let answer = Answer::of_numbers(numbers);
    assert_eq!(answer.numbers(), numbers);
    assert_eq!((answer.number, answer.place, answer.open, answer.rules, answer.tactic), (1, 3, 8, 9, 12));
}

/// A case of a search is four bytes longer than the same one of a run: its height
/// stands last.
#[test]
fn the_height_stands_behind_the_digest() {
    let job = build::job(&[20], &build::id());
    let length = |entry: Entry| vectors::write(&[Case::new(entry, &[], &job)]).len();
    assert_eq!(length(Entry::Search), length(Entry::Run) + 4);
    let bytes = vectors::write(&[Case::new(Entry::Search, &[], &job).with_height(7)]);
    assert!(bytes.ends_with(&[0, 0, 0, 7, 0]));
}

#[test]
fn the_digest_is_the_documented_one() {
    assert_eq!(vectors::digest(&[]), 1);
    assert_eq!(vectors::digest(&[0]), 16_777_620);
    assert_eq!(vectors::digest(&[90; 20]), vectors::digest(&[90; 20]));
    assert_ne!(vectors::digest(&[90; 20]), vectors::digest(&[90; 21]));
}

#[test]
fn damaged_vector_files_are_told() {
    let mut random = Random::new(502);
    let bytes = vectors::write(&[random_case(&mut random), random_case(&mut random)]);
    assert!(vectors::read(&bytes).is_some());
    for length in 0..bytes.len() {
        assert!(vectors::read(&bytes[..length]).is_none());
    }
}
