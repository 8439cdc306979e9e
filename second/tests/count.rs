//! P3: term fields counted in one loop over the bytes, compared with the plain
//! count of the parsed term.

mod common;
mod plain;
use common::*;
use plain::{end_of, inner_terms, term_at, term_fields, Placed, Table};
use second::format::count::count_fields;
use second::format::term_file::TermFile;
use second::generate::build::*;
use second::generate::examples::*;
use second::generate::random::Random;
use second::generate::random_file::random_proof;
use second::generate::random_table::{RandomTable, Size};
use second::generate::{random_case, texts, vector_set};
use second::text::{show, FileKind};
use std::collections::{BTreeMap, BTreeSet};

/// A term and how many fields it has.
type Counted = (Vec<u8>, usize);

/// How many terms were compared in files of each kind, inner ones among them.
type Tally = BTreeMap<&'static str, usize>;

/// Compares the counts of a term of a file that reads, and of every term in it.
/// Gives the number of terms compared.
fn compare(bytes: &[u8], term: &Placed) -> usize {
    let end = end_of(bytes, term.place);
    assert_eq!(count_fields(bytes, term.place, end), term_fields(term), "{:?}", &bytes[term.place..end]);
    1 + inner_terms(term).into_iter().map(|inner| compare(bytes, inner)).sum::<usize>()
}

/// Compares every term of a file, whichever kind it reads as.
fn compare_file(bytes: &[u8], tally: &mut Tally) {
    let Some(kind) = FileKind::ALL.into_iter().find(|&kind| show(kind, bytes).is_ok()) else {
        return;
    };
    let terms = match kind {
        FileKind::Table => Table::of(bytes).definitions.into_iter().map(|one| one.1).collect(),
        FileKind::Job | FileKind::Proof => vec![term_at(bytes, end_of(bytes, 0))],
        FileKind::Flat => vec![],
        FileKind::Term => vec![term_at(bytes, 0)],
    };
    *tally.entry(kind.name()).or_default() += terms.iter().map(|term| compare(bytes, term)).sum::<usize>();
}

/// The plain count is recursive and a term may be 4,096 fields deep, so what
/// compares such terms gets a thread of its own.
fn with_deep_stack(test: impl FnOnce() + Send + 'static) {
    std::thread::Builder::new().stack_size(64 << 20).spawn(test).unwrap().join().unwrap();
}

/// Reads the term as a file, counts it there, and counts it between two goal lists
/// that are no part of it.
fn has_fields(term: &[u8], fields: usize) {
    assert_eq!(TermFile::read(term).unwrap().terms.count(), fields);
    assert_eq!(count_fields(term, 0, term.len()), fields, "{term:?}");
    let goals = [16, 17, 0x1213];
    let file = proof(&goals, term, &goals);
    assert_eq!(count_fields(&file, 9, 9 + term.len()), fields, "{term:?}");
}

#[test]
fn the_terms_of_document_01() {
    let bodies: Vec<usize> = Table::of(&table_a()).definitions.iter().map(|one| term_fields(&one.1)).collect();
    assert_eq!(bodies, [6, 2, 7, 5]);
    let mut tally = Tally::new();
    compare_file(&table_a(), &mut tally);
    assert_eq!(tally["table"], 6 + 2 + 7 + 5);
    assert_eq!(first_proof().len(), 51);
    assert_eq!(count_fields(&first_proof(), 5, 48), 11);
    assert_eq!(check(&table_a(), &first_proof()), accepted(11, 3, 0, 3));
    assert_eq!(check(&table_a(), &first_written_back()), accepted(5, 3, 0, 3));
    assert_eq!(check(&table_of_eight(), &eights(32)), accepted(63, 32, 256, 1));
    has_fields(&tensor(&id(), &tensor(&id(), &empty())), 5);
    has_fields(&sequence(&alternation(&id(), &atomic(2)), &empty()), 5);
    has_fields(&label(1, &empty()), 2);
}

/// A small term of each kind. Values are made of bytes that could be tags.
fn kinds() -> Vec<Counted> {
    vec![
        (atomic(0x1011), 1),
        (id(), 1),
        (label(0x1213, &id()), 2),
        (sequence(&id(), &empty()), 3),
        (tensor(&atomic(0x1310), &id()), 3),
        (empty(), 1),
        (alternation(&empty(), &atomic(0x1516)), 3),
        (assert_goal(0x1718), 1),
        (defined(0x1812), 1),
    ]
}

/// Each term in a label, and beside each of the others on both sides of each sign.
fn one_deeper(terms: &[Counted], others: &[Counted]) -> Vec<Counted> {
    let mut deeper: Vec<Counted> = terms.iter().map(|(term, fields)| (label(0x1617, term), 1 + fields)).collect();
    for (term, fields) in terms {
        for (other, other_fields) in others {
            for join in [sequence, tensor, alternation] {
                deeper.push((join(term, other), 1 + fields + other_fields));
                deeper.push((join(other, term), 1 + fields + other_fields));
            }
        }
    }
    deeper
}

#[test]
fn every_kind_of_term_alone_and_inside_every_other() {
    let two_deep = one_deeper(&kinds(), &kinds());
    let three_deep = one_deeper(&two_deep, &kinds());
    for (term, fields) in kinds().iter().chain(&two_deep).chain(&three_deep) {
        has_fields(term, *fields);
        assert_eq!(compare(term, &term_at(term, 0)), *fields);
    }
}

/// Files that fit, damaged ones that read all the same, and files at the limits.
#[test]
fn every_term_of_random_files() {
    with_deep_stack(|| {
        let mut random = Random::new(301);
        let mut tally = Tally::new();
        for _ in 0..1_500 {
            let case = random_case(&mut random);
            compare_file(&case.table, &mut tally);
            compare_file(&case.other, &mut tally);
        }
        for kind in ["table", "job", "proof", "term"] {
            assert!(tally.get(kind).is_some_and(|&terms| terms > 10_000), "{kind}: {tally:?}");
        }
    });
}

#[test]
fn every_term_of_the_fixed_vectors() {
    with_deep_stack(|| {
        let cases = vector_set().into_iter().flat_map(|(_, cases)| cases);
        let files: BTreeSet<Vec<u8>> = cases.flat_map(|case| [case.table, case.other]).collect();
        let mut tally = Tally::new();
        for file in &files {
            compare_file(file, &mut tally);
        }
        for kind in ["table", "job", "proof", "term"] {
            assert!(tally.get(kind).is_some_and(|&terms| terms > 10_000), "{kind}: {tally:?}");
        }
    });
}

#[test]
fn the_deepest_and_longest_terms() {
    let leaning = |join: fn(&[u8], &[u8]) -> Vec<u8>| {
        let left = (1..2_048).fold(atomic(0x1213), |left, _| join(&left, &atomic(0x1213)));
        let right = (1..2_048).fold(atomic(0x1213), |right, _| join(&atomic(0x1213), &right));
        [(left, 4_095), (right, 4_095)]
    };
    let mut terms: Vec<Counted> = [sequence, tensor, alternation].into_iter().flat_map(leaning).collect();
    terms.push((labels_around(4_095, &id()), 4_096));
    terms.push((label(1, &sequence_of(&vec![id(); 2_048])), 4_096));
    with_deep_stack(move || {
        for (term, fields) in terms {
            has_fields(&term, fields);
            assert_eq!(compare(&term, &term_at(&term, 0)), fields);
        }
        let mut tally = Tally::new();
        for file in texts::limit_terms() {
            compare_file(&file, &mut tally);
        }
        assert!(tally["term"] > 8 * 4_000, "{tally:?}");
    });
}

#[test]
fn check_answers_the_count() {
    let mut random = Random::new(302);
    let mut accepted_proofs = 0;
    for _ in 0..1_500 {
        let table = RandomTable::make(&mut random, Size::Small);
        let proof = random_proof(&mut random, &table);
        let answer = check(&table.bytes(), &proof);
        let accepted = answer.number == 0;
        accepted_proofs += usize::from(accepted);
        let fields = if accepted { term_fields(&term_at(&proof, end_of(&proof, 0))) } else { 0 };
        assert_eq!(answer.fields as usize, fields);
    }
    assert!(accepted_proofs > 400, "only {accepted_proofs} accepted");
}

/// Each byte is counted once at most in three, whatever the bytes, and nothing
/// outside of them or behind the end.
#[test]
fn the_loop_ends_on_any_bytes() {
    let mut random = Random::new(303);
    let mut files: Vec<Vec<u8>> = (0..=255).map(|byte| vec![byte; 20]).collect();
    files.extend((0..300).map(|_| (0..random.below(30)).map(|_| random.byte() % 40).collect()));
    for bytes in &files {
        for at in [0, 1, 2, 3, 10, 19, 20, 21, 40, usize::MAX] {
            for end in [0, 1, 2, 3, 10, 19, 20, 21, 40, usize::MAX] {
                let count = count_fields(bytes, at, end);
                let length = end.min(bytes.len()).saturating_sub(at);
                assert!(count <= length.div_ceil(3) && 7 * count >= length, "{at} {end} {bytes:?}");
            }
        }
    }
}
