//! P7 of document 02: a proof file of no bytes.

mod common;
mod plain;
use common::*;
use plain::{proof_file, Table};
use second::engine;
use second::generate::build::*;
use second::generate::case::{Case, Entry, OUTPUT_FILL};
use second::generate::examples::*;
use second::generate::random::Random;
use second::generate::random_table::{RandomTable, Size};
use second::generate::{limit_files, no_bytes, random_case, reading, vector_set};
use second::text::{show, FileKind};
use second::{Answer, Refusal};
use std::collections::BTreeSet;

/// The fields that no bytes mean, and the flat form, as bytes.
const NINE_BYTES: &[u8] = &[3, 0, 0, 21, 0, 0, 3, 0, 0];
const FLAT_FORM: &[u8] = &[3, 0, 0];

const TAKE_PROOF: [Entry; 2] = [Entry::Check, Entry::Flatten];

/// Tables that read: of no bytes, of document 01, at the limits, and random ones.
fn tables_that_read() -> Vec<Vec<u8>> {
    let mut random = Random::new(701);
    let mut tables = no_bytes::good_tables();
    tables.extend([table_a_with_all(), table_of_eight(), propositional_table(), equational_table()]);
    tables.extend([limit_files::longest_table(), limit_files::different_rules(4_096)]);
    tables.extend([limit_files::definitions(256), limit_files::deep_definition(4_096)]);
    tables.extend((0..200).map(|_| RandomTable::make(&mut random, Size::Small).bytes()));
    tables
}

fn written(length: u32) -> Answer {
    Answer { length, ..Answer::default() }
}

#[test]
fn it_is_accepted_in_every_table_that_reads() {
    for table in tables_that_read() {
        assert_eq!(check(&table, &[]), accepted(1, 0, 0, 0));
        assert_eq!(flatten(&table, &[]), (written(3), FLAT_FORM.to_vec()));
    }
}

/// "the table's refusals coming first": 1 to 9, whatever the proof.
#[test]
fn a_refused_table_comes_first() {
    let mut numbers = BTreeSet::new();
    for table in reading::refused_tables() {
        let expected = check(&table, &first_proof());
        assert_eq!(expected.file, 1);
        numbers.insert(expected.number);
        for proof in [&[][..], &[3], &[3, 0], NINE_BYTES] {
            assert_eq!(check(&table, proof), expected);
            assert_eq!(flatten(&table, proof), (expected, vec![]));
        }
    }
    assert_eq!(numbers, (1..=9).collect());
}

fn counted(counts: [usize; 4]) -> Answer {
    let [fields, uses, open, rules] = counts.map(|count| count as u32);
    accepted(fields, uses, open, rules)
}

/// Check's and flatten's answers, with spaces that suffice.
fn engine_answers(table: &[u8], proof: &[u8]) -> [Answer; 2] {
    let counts = engine::check(table, proof);
    let flat = engine::flatten(table, proof);
    [
        counts.map_or_else(Answer::from, |one| counted([one.fields, one.uses, one.open, one.rules])),
        flat.map_or_else(Answer::from, |bytes| written(bytes.len() as u32)),
    ]
}

/// The same by the plain definitions, for a table and a proof that read or a proof
/// of fewer than three bytes.
fn plain_answers(table: &Table, proof: &[u8]) -> [Answer; 2] {
    let refusal = |(number, place): (u32, usize)| refused(number, 2, place as u32);
    [
        proof_file::check(table, proof).map_or_else(refusal, counted),
        proof_file::flatten(table, proof).map_or_else(refusal, |bytes| written(bytes.len() as u32)),
    ]
}

#[test]
fn no_bytes_and_all_of_one_or_two_are_as_the_plain_definition_says() {
    let one_byte = (0..=255).map(|byte| vec![byte]);
    let two_bytes = (0..=65_535).map(|bytes: u16| bytes.to_be_bytes().to_vec());
    let files: Vec<Vec<u8>> = [vec![]].into_iter().chain(one_byte).chain(two_bytes).collect();
    assert_eq!(files.len(), 1 + 256 + 65_536);
    for table_bytes in [vec![], table_a()] {
        let table = Table::of(&table_bytes);
        for file in &files {
            let answers = engine_answers(&table_bytes, file);
            assert_eq!(answers, plain_answers(&table, file), "{file:?}");
            let expected = if file.is_empty() { [accepted(1, 0, 0, 0), written(3)] } else { [refused(2, 2, 0); 2] };
            assert_eq!(answers, expected, "{file:?}");
        }
    }
}

#[test]
fn no_bytes_in_random_tables_are_as_the_plain_definition_says() {
    for table_bytes in tables_that_read().iter().filter(|table| table.len() < 3_000) {
        let table = Table::of(table_bytes);
        for proof in [&[][..], NINE_BYTES] {
            assert_eq!(engine_answers(table_bytes, proof), plain_answers(&table, proof));
            assert_eq!(engine::flatten(table_bytes, proof), Ok(proof_file::flatten(&table, proof).unwrap()));
        }
    }
}

/// The nine bytes say the same, so every answer and every byte is the same.
#[test]
fn the_nine_bytes_have_the_same_answers() {
    assert_eq!(no_bytes::written_out(), NINE_BYTES);
    let tables = tables_that_read().into_iter().chain(reading::refused_tables());
    for table in tables {
        for entry in TAKE_PROOF {
            let [none, nine] = [&[][..], NINE_BYTES].map(|proof| Case::new(entry, &table, proof).with_output(20));
            let (none, nine) = (none.outcome(), nine.outcome());
            assert_eq!((none.answer, none.output), (nine.answer, nine.output));
            assert!(none.work_space_as_promised);
        }
    }
}

/// Eight and ten bytes are refused, and so is every other beginning of the nine.
#[test]
fn no_other_beginning_of_the_nine_bytes_is_accepted() {
    let place_of_torn_field = |length: usize| 3 * (length as u32 / 3);
    for length in 1..9 {
        let expected = refused(2, 2, place_of_torn_field(length));
        assert_eq!(check(&table_a(), &NINE_BYTES[..length]), expected, "{length}");
        assert_eq!(flatten(&table_a(), &NINE_BYTES[..length]).0, expected, "{length}");
    }
    for byte in 0..=255 {
        let ten_bytes = [NINE_BYTES, &[byte]].concat();
        assert_eq!(engine_answers(&table_a(), &ten_bytes), [refused(4, 2, 9); 2]);
    }
}

/// "Flattening it writes an empty goal list": three bytes, and 26 if they do not fit.
#[test]
fn output_spaces_under_three_bytes_are_26() {
    for table in no_bytes::good_tables() {
        for length in [0, 1, 2, 3, 4, 1_000] {
            let outcome = Case::new(Entry::Flatten, &table, &[]).with_output(length).outcome();
            assert!(outcome.work_space_as_promised);
            let written_bytes = if length < 3 { 0 } else { 3 };
            let expected = if length < 3 { refused(26, 0, 0) } else { written(3) };
            assert_eq!(outcome.answer, expected, "{length}");
            assert_eq!(outcome.output[..written_bytes], FLAT_FORM[..written_bytes]);
            assert!(outcome.output[written_bytes..].iter().all(|&byte| byte == OUTPUT_FILL));
            assert_eq!(outcome.output.len(), length);
        }
    }
    let short = Case::new(Entry::Flatten, &[], &[3]).with_output(0).outcome();
    assert_eq!(short.answer, refused(2, 2, 0));
    let table_first = Case::new(Entry::Flatten, &[1], &[]).with_output(0).outcome();
    assert_eq!(table_first.answer, refused(2, 1, 0));
}

#[test]
fn too_short_a_work_space_is_29_first() {
    for entry in TAKE_PROOF {
        let size = entry.work_size();
        for table in [vec![], table_a(), vec![1], vec![0; 65_536]] {
            let reads = table != [1] && table.len() < 65_536;
            for (length, suffices) in [(0, false), (size - 1, false), (size, true), (size + 1, true)] {
                let outcome = Case::new(entry, &table, &[]).with_work(length).with_output(0).outcome();
                assert!(outcome.work_space_as_promised);
                match (suffices, entry) {
                    (false, _) => assert_eq!(outcome.answer, refused(29, 0, 0)),
                    (true, _) if !reads => assert_eq!(outcome.answer.file, 1),
                    (true, Entry::Flatten) => assert_eq!(outcome.answer, refused(26, 0, 0)),
                    (true, _) => assert_eq!(outcome.answer, accepted(1, 0, 0, 0)),
                }
            }
        }
    }
}

/// B7.1: not jobs, flat files and term files; and a text of no bytes is 36.
#[test]
fn no_bytes_are_no_other_file_but_a_table() {
    for table in tables_that_read() {
        assert_eq!(run(&table, &[], 4_096), (refused(2, 2, 0), vec![]));
        assert_eq!(search(&table, &[], 64, 4_096), (refused(2, 2, 0), vec![]));
        assert_eq!(check_flat(&table, &[]), refused(2, 2, 0));
        assert_eq!(write_proof(&table, &[]), (refused(2, 2, 0), vec![]));
    }
    assert_eq!(write_text(&[]), (refused(2, 2, 0), vec![]));
    assert_eq!(read_text(&[]), (refused(36, 2, 0), vec![]));
    assert_eq!(check(&[], NINE_BYTES), accepted(1, 0, 0, 0));
}

/// B7.4: the proof of no roots has nine bytes. Runs and searches write fields, too.
#[test]
fn no_bytes_are_never_written() {
    for table in no_bytes::good_tables() {
        assert_eq!(check_flat(&table, FLAT_FORM), accepted(0, 0, 0, 0));
        assert_eq!(write_proof(&table, FLAT_FORM), (written(9), NINE_BYTES.to_vec()));
        assert_eq!(flatten(&table, NINE_BYTES), (written(3), FLAT_FORM.to_vec()));
        let job = job(&[], &empty());
        assert_eq!(run(&table, &job, 4_096).1, NINE_BYTES);
        assert_eq!(search(&table, &job, 64, 4_096).1, NINE_BYTES);
    }
    let mut random = Random::new(702);
    for case in (0..1_000).map(|_| random_case(&mut random)) {
        assert_ne!(case.result(), Some(vec![]), "{case:?}");
    }
}

#[test]
fn show_takes_no_bytes_for_a_table_unless_told_otherwise() {
    assert_eq!(FileKind::recognise(&[]), FileKind::Table);
    let as_proof = "proof: term fields 1\ngoals none\nterm <>\nremaining none\n";
    assert_eq!(show(FileKind::Proof, &[]), Ok(as_proof.to_string()));
    assert_eq!(show(FileKind::Proof, NINE_BYTES), Ok(as_proof.to_string()));
    for kind in [FileKind::Job, FileKind::Flat, FileKind::Term] {
        let refused_at = show(kind, &[]).map_err(|Refusal { reason, place, .. }| (reason.number(), place));
        assert_eq!(refused_at, Err((2, 0)));
    }
}

fn cases_of_the_vector_file() -> Vec<Case> {
    let files = vector_set();
    files.into_iter().find(|(name, _)| *name == "no-bytes.vec").expect("the vector file").1
}

/// What the proof or other file alone is answered with, by entry and bytes, for the
/// files of the vector file: None if it is not one of those of P7's sentences.
fn expected_of_file(case: &Case) -> Option<Answer> {
    let file = &case.other[..];
    let result = |length: usize| {
        let fits = case.output_length >= length;
        if fits {
            written(length as u32)
        } else {
            refused(26, 0, 0)
        }
    };
    Some(match (case.entry, file) {
        (Entry::Check, [] | NINE_BYTES) => accepted(1, 0, 0, 0),
        (Entry::Flatten, [] | NINE_BYTES) => result(3),
        (Entry::CheckFlat, FLAT_FORM) => accepted(0, 0, 0, 0),
        (Entry::WriteProof, FLAT_FORM) => result(9),
        (Entry::ReadText, _) => refused(36, 2, 0),
        (_, [] | [_] | [_, _]) => refused(2, 2, 0),
        // The beginnings of the nine bytes, and the nine with more behind them.
        (Entry::Check | Entry::Flatten, _) if NINE_BYTES.starts_with(file) => {
            refused(2, 2, 3 * (file.len() as u32 / 3))
        }
        (Entry::Check | Entry::Flatten, _) if file.starts_with(NINE_BYTES) => refused(4, 2, 9),
        _ => return None,
    })
}

/// The whole order: 29, 25, 42, the table, the file, 26.
fn expected(case: &Case) -> Option<Answer> {
    if case.work_length < case.entry.work_size() {
        return Some(refused(29, 0, 0));
    }
    if case.budget > case.entry.most_budget() {
        return Some(refused(25, 0, 0));
    }
    if case.entry == Entry::Search && !(1..=64).contains(&case.height) {
        return Some(refused(42, 0, 0));
    }
    let of_table = check(&case.table, &first_proof());
    if of_table.file == 1 {
        return Some(of_table);
    }
    expected_of_file(case)
}

#[test]
fn the_vector_file_has_the_answers_of_the_sentences() {
    let cases = cases_of_the_vector_file();
    let mut told = 0;
    for case in &cases {
        if let Some(answer) = expected(case) {
            told += 1;
            assert_eq!(case.outcome().answer, answer, "{case:?}");
        }
    }
    assert!(10 * told > 8 * cases.len(), "{told} of {}", cases.len());
}

/// Each border of P7 on both sides.
#[test]
fn the_vector_file_has_every_border() {
    let cases = cases_of_the_vector_file();
    let has = |entry: Entry, file: &[u8], number: u32, in_file: u32| {
        let fits = |case: &&Case| case.entry == entry && case.other == file;
        cases.iter().filter(fits).any(|case| {
            let answer = case.outcome().answer;
            (answer.number, answer.file) == (number, in_file)
        })
    };
    for entry in TAKE_PROOF {
        assert!((1..=9).all(|number| has(entry, &[], number, 1)));
        assert!(has(entry, &[], 0, 0) && has(entry, &[], 29, 0) && has(entry, NINE_BYTES, 0, 0));
        assert!(has(entry, &[3], 2, 2) && has(entry, &[3, 0], 2, 2) && has(entry, &NINE_BYTES[..8], 2, 2));
        assert!(has(entry, &[NINE_BYTES, &[0]].concat(), 4, 2));
        let lent: BTreeSet<usize> = cases
            .iter()
            .filter(|case| case.entry == entry && case.other.is_empty())
            .map(|case| case.work_length)
            .collect();
        let size = entry.work_size();
        assert!([size - 1, size, size + 1].iter().all(|length| lent.contains(length)));
    }
    assert!(has(Entry::Flatten, &[], 26, 0));
    for entry in [Entry::Run, Entry::Search, Entry::CheckFlat, Entry::WriteProof, Entry::WriteText] {
        assert!(has(entry, &[], 2, 2), "{entry:?}");
    }
    assert!(has(Entry::ReadText, &[], 36, 2));
}

/// One in fifty of the random calls that take a proof, and as many of one or two
/// bytes, each with all that can come of it.
#[test]
fn random_cases_have_proofs_of_no_bytes() {
    let mut random = Random::new(703);
    let cases: Vec<Case> = (0..6_000).map(|_| random_case(&mut random)).collect();
    let with_proof: Vec<&Case> = cases.iter().filter(|case| TAKE_PROOF.contains(&case.entry)).collect();
    for length in [0, 1, 2] {
        let short: Vec<&&Case> = with_proof.iter().filter(|case| case.other.len() == length).collect();
        let wanted = if length == 0 { with_proof.len() / 70 } else { with_proof.len() / 140 };
        assert!(short.len() > wanted, "{} of {length} bytes", short.len());
        let numbers: BTreeSet<u32> = short.iter().map(|case| case.outcome().answer.number).collect();
        let needed = if length == 0 { vec![0, 26] } else { vec![2] };
        assert!(needed.iter().all(|number| numbers.contains(number)), "{length}: {numbers:?}");
    }
}
