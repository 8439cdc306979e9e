//! P6 of document 02: which rules carried the proof.

mod common;
mod plain;
use common::*;
use plain::proof_file::proof_of;
use plain::rules::{number_of, rules_of_term, rules_of_trees};
use plain::{end_of, give, goals_at, trees_of, Table};
use second::generate::build::*;
use second::generate::case::{Case, Entry};
use second::generate::examples::*;
use second::generate::random::Random;
use second::generate::random_file::{random_flat, random_proof};
use second::generate::random_rules::{RandomUses, Sizes};
use second::generate::random_table::{RandomTable, Size};
use second::generate::rules::{chain_by_goal, chain_by_name, name_of};
use second::generate::{no_bytes, random_case, vector_set};
use second::names::{Goal, RuleName};
use second::Answer;
use std::collections::BTreeSet;

/// The entries that count rules.
const COUNT_RULES: [Entry; 2] = [Entry::Check, Entry::CheckFlat];

/// The plain definitions are recursive and files may be 4,096 terms or trees deep.
fn with_deep_stack(test: impl FnOnce() + Send + 'static) {
    std::thread::Builder::new().stack_size(256 << 20).spawn(test).unwrap().join().unwrap();
}

/// The rules of these numbers one after the other, in a `chain_by_name`.
fn chain_proof(numbers: &[usize]) -> Vec<u8> {
    let uses: Vec<Vec<u8>> = numbers.iter().map(|&number| atomic(name_of(number))).collect();
    proof(&[1], &sequence_of(&uses), &[1])
}

fn chain_flat(numbers: &[usize]) -> Vec<u8> {
    let uses = numbers.iter().map(|&number| use_entry(name_of(number), 1));
    flat(&[1], &uses.chain([open_entry(1)]).collect::<Vec<_>>())
}

/// The count for a chain, from the proof and from its flat form.
fn rules_of_chain(table: &[u8], numbers: &[usize]) -> [u32; 2] {
    let answers = [check(table, &chain_proof(numbers)), check_flat(table, &chain_flat(numbers))];
    assert!(answers.iter().all(|answer| (answer.number, answer.uses) == (0, numbers.len() as u32)));
    answers.map(|answer| answer.rules)
}

#[test]
fn looking_up_a_rule_gives_its_number() {
    let mut random = Random::new(801);
    let mut tables = vec![table_a(), propositional_table(), chain_by_name(4_096), chain_by_goal(300)];
    tables.extend((0..200).map(|_| RandomTable::make(&mut random, Size::Small).bytes()));
    for bytes in tables {
        let Ok(table) = second::format::table::Table::read(&bytes) else {
            panic!("a table that is refused");
        };
        let plain = Table::of(&bytes);
        for (number, (name, goal, premises)) in plain.rules.iter().enumerate() {
            let found = table.look_up(RuleName(*name), Goal(*goal)).expect("a rule");
            assert_eq!(usize::from(found.number.0), number);
            assert_eq!(number_of(&plain, *name, *goal), Some(number));
            assert!(found.premises.iter().map(|goal| goal.0).eq(premises.iter().copied()));
        }
        assert!(table.look_up(RuleName(1), Goal(64_000)).is_none());
    }
}

#[test]
fn the_examples_of_document_01() {
    assert_eq!(check(&table_a(), &first_proof()), accepted(11, 3, 0, 3));
    assert_eq!(check_flat(&table_a(), &first_flat()), accepted(0, 3, 0, 3));
    assert_eq!(check(&table_a(), &[]), accepted(1, 0, 0, 0));
    assert_eq!(check_flat(&table_a(), &flat(&[], &[])), accepted(0, 0, 0, 0));
    // Rule 4 side by side 32 times is one rule.
    assert_eq!(check(&table_of_eight(), &eights(32)), accepted(63, 32, 256, 1));
    // Four names on seven goals, and impI on one of them twice.
    assert_eq!(check(&propositional_table(), &propositional_proof()), accepted(15, 8, 0, 7));
}

#[test]
fn a_rule_counts_once_whatever_stands_between() {
    let table = chain_by_name(10);
    let orders: [(&[usize], u32); 8] = [
        (&[0], 1),
        (&[0, 0, 0, 0, 0], 1),
        (&[0, 1, 0, 1], 2),
        (&[0, 0, 1, 1], 2),
        (&[0, 1, 1, 0], 2),
        (&[0, 1, 2, 0, 1, 2], 3),
        (&[9, 8, 7, 6, 5, 4, 3, 2, 1, 0], 10),
        (&[0, 9, 0, 9, 0, 9, 5], 3),
    ];
    for (numbers, rules) in orders {
        assert_eq!(rules_of_chain(&table, numbers), [rules; 2], "{numbers:?}");
    }
}

/// B6.1: "not different names: name 1 on two goals counts two".
#[test]
fn one_name_on_two_goals_is_two_rules() {
    let rules = [rule(1, 10, &[]), rule(1, 11, &[]), rule(2, 10, &[])].concat();
    // B6.5: definitions with the same names, goals and numbers are no rules.
    let definitions = [definition(1, &atomic(1)), definition(10, &assert_goal(11)), definition(2, &defined(1))];
    for table in [rules.clone(), [rules, definitions.concat()].concat()] {
        let both = tensor(&atomic(1), &atomic(1));
        assert_eq!(check(&table, &proof(&[10, 11], &both, &[])), accepted(3, 2, 0, 2));
        assert_eq!(check(&table, &proof(&[10, 10], &both, &[])), accepted(3, 2, 0, 1));
        let two_names = tensor(&atomic(1), &atomic(2));
        assert_eq!(check(&table, &proof(&[10, 10], &two_names, &[])), accepted(3, 2, 0, 2));
        let entries = [use_entry(1, 10), use_entry(1, 11), use_entry(2, 10), use_entry(1, 10)];
        assert_eq!(check_flat(&table, &flat(&[10, 11, 10, 10], &entries)), accepted(0, 4, 0, 3));
    }
    let many = chain_by_goal(300);
    for (uses, rules) in [(299, 299), (300, 300), (301, 300), (2_048, 300)] {
        let term = sequence_of(&vec![atomic(5); usize::from(uses)]);
        let answer = check(&many, &proof(&[0], &term, &[uses % 300]));
        assert_eq!((answer.number, answer.rules), (0, rules));
    }
}

#[test]
fn numbers_from_the_first_to_the_last() {
    let table = chain_by_name(4_096);
    for number in [0, 7, 8, 9, 15, 16, 63, 64, 255, 256, 2_047, 2_048, 4_094, 4_095] {
        assert_eq!(rules_of_chain(&table, &[number, number]), [1; 2]);
        assert_eq!(rules_of_chain(&table, &[number, (number + 1) % 4_096, number]), [2; 2]);
    }
    let all: Vec<usize> = (0..4_096).collect();
    for half in [&all[..2_048], &all[2_048..]] {
        assert_eq!(rules_of_chain(&table, half), [2_048; 2]);
    }
    assert_eq!(check_flat(&table, &chain_flat(&all)), accepted(0, 4_096, 1, 4_096));
    assert_eq!(check_flat(&table, &chain_flat(&[4_095; 4_096])), accepted(0, 4_096, 1, 1));
}

/// "counting look-ups of a walk that is refused later" would be wrong.
#[test]
fn refusals_count_no_rule() {
    let a = table_a();
    let term = |last: u16| sequence(&atomic(1), &tensor(&atomic(2), &atomic(last)));
    assert_eq!(check(&a, &proof(&[10], &term(3), &[])).rules, 3);
    assert_eq!(check(&a, &proof(&[10], &term(9), &[])), refused(20, 2, 21));
    assert_eq!(check(&a, &proof(&[10], &term(3), &[30])), refused(21, 2, 26));
    assert_eq!(check(&table_of_eight(), &eights(33)).number, 22);
    assert_eq!(check(&table_of_eight(), &eights(33)).rules, 0);
    let entries = [use_entry(1, 10), use_entry(2, 20)];
    assert_eq!(check_flat(&a, &flat(&[10], &entries)), refused(27, 2, 19));
}

#[test]
fn only_the_two_checkers_count() {
    let a = table_a();
    let written = |length: u32| Answer { length, ..Answer::default() };
    assert_eq!(flatten(&a, &first_proof()).0, written(26));
    assert_eq!(write_proof(&a, &first_flat()).0, written(29));
    assert_eq!(run(&a, &job(&[10], &defined(3)), 19).0, Answer { steps: 19, ..written(51) });
    assert_eq!(search(&a, &job(&[10], &defined(3)), 64, 20).0, Answer { steps: 20, ..written(51) });
}

/// One use: the number of its rule, the name, the goal.
type Use = (usize, u16, u16);

/// The uses of a proof or flat file that reads, in the order of the walk, as far as
/// it goes.
fn uses_of(table: &Table, case: &Case) -> Vec<Use> {
    let mut keys = Vec::new();
    if case.entry == Entry::Check {
        let says = proof_of(&case.other).expect("a proof that reads");
        let _ = give(table, &says.hiproof, &says.goals, &mut keys);
    } else {
        let mut place = end_of(&case.other, 0);
        while place < case.other.len() {
            if let [name, goal] = goals_at(&case.other, place)[..] {
                keys.push((name, goal));
            }
            place = end_of(&case.other, place);
        }
    }
    let numbered = |(name, goal): (u16, u16)| Some((number_of(table, name, goal)?, name, goal));
    keys.into_iter().filter_map(numbered).collect()
}

/// The plain count for an accepted proof or a right flat file.
fn plain_count(table: &Table, case: &Case) -> usize {
    if case.entry == Entry::Check {
        let says = proof_of(&case.other).expect("a proof that reads");
        return rules_of_term(table, &says.hiproof, &says.goals).len();
    }
    rules_of_trees(table, &trees_of(table, &case.other).expect("a right flat file")).len()
}

/// Compares a call with the plain definition. Gives the answer.
fn compare(case: &Case) -> Answer {
    let answer = case.outcome().answer;
    let counts = answer.number == 0 && COUNT_RULES.contains(&case.entry);
    if !counts {
        assert_eq!(answer.rules, 0, "{case:?}");
        return answer;
    }
    let table = Table::of(&case.table);
    assert_eq!(answer.rules as usize, plain_count(&table, case), "{case:?}");
    assert!(answer.rules <= answer.uses && answer.rules as usize <= table.rules.len());
    assert_eq!(answer.rules == 0, answer.uses == 0);
    answer
}

#[test]
fn the_fixed_vectors_are_as_the_plain_definition_says() {
    with_deep_stack(|| {
        let mut counted = 0;
        for case in vector_set().iter().flat_map(|(_, cases)| cases) {
            counted += usize::from(compare(case).rules > 0);
        }
        assert!(counted > 1_000, "only {counted} with rules");
    });
}

#[test]
fn random_files_are_as_the_plain_definition_says() {
    with_deep_stack(|| {
        let mut random = Random::new(802);
        let mut counted = 0;
        for _ in 0..3_000 {
            let table = RandomTable::make(&mut random, Size::Small);
            let (proof, flat) = (random_proof(&mut random, &table), random_flat(&mut random, &table));
            for (entry, file) in COUNT_RULES.into_iter().zip([proof, flat]) {
                let answer = compare(&Case::new(entry, &table.bytes(), &file));
                counted += usize::from(answer.rules > 1);
            }
        }
        assert!(counted > 800, "only {counted} with two rules or more");
        for _ in 0..4_000 {
            compare(&random_case(&mut random));
        }
    });
}

/// B6.2: the flat check gives the count of the proof, for its flat form; and the
/// proof written back has that count, too.
#[test]
fn proof_flat_form_and_proof_written_back_have_one_count() {
    let mut random = Random::new(803);
    let mut again = 0;
    for _ in 0..600 {
        let sizes = Sizes { goals: 12, uses_of_each: 10, goals_of_name: 30, rules_in_front: 40 };
        let uses = RandomUses::make(&mut random, &sizes);
        let (table, proof) = (uses.table(), uses.proof());
        let answer = check(&table, &proof);
        assert_eq!(answer.number, 0);
        let (_, flat) = flatten(&table, &proof);
        assert_eq!(flat, uses.flat());
        assert_eq!(check_flat(&table, &flat), Answer { fields: 0, ..answer });
        let back = check(&table, &write_proof(&table, &flat).1);
        assert_eq!(back, Answer { fields: back.fields, ..answer });
        again += usize::from(answer.rules < answer.uses);
    }
    assert!(again > 200, "only {again} with a rule used again");
}

fn different<Value: Ord>(values: impl Iterator<Item = Value>) -> usize {
    values.collect::<BTreeSet<Value>>().len()
}

/// Whether the bit of a number is set in a byte 165, which lent spaces are full of.
fn set_beforehand(number: usize) -> bool {
    165 >> (number % 8) & 1 == 1
}

/// Wrong counts, each for a list of uses.
type WrongCount = (&'static str, fn(&[Use]) -> usize);

const WRONG_COUNTS: [WrongCount; 16] = [
    ("uses", |uses| uses.len()),
    ("names", |uses| different(uses.iter().map(|one| one.1))),
    ("goals", |uses| different(uses.iter().map(|one| one.2))),
    ("changes between neighbours", |uses| {
        usize::from(!uses.is_empty()) + uses.windows(2).filter(|pair| pair[0] != pair[1]).count()
    }),
    ("sums of name and goal", |uses| different(uses.iter().map(|one| u32::from(one.1) + u32::from(one.2)))),
    ("the last byte of the number", |uses| different(uses.iter().map(|one| one.0 % 256))),
    ("the last eleven bits of the number", |uses| different(uses.iter().map(|one| one.0 % 2_048))),
    ("the bit in its byte", |uses| different(uses.iter().map(|one| one.0 % 8))),
    ("the byte of the set", |uses| different(uses.iter().map(|one| one.0 / 8))),
    ("up to the highest number", |uses| uses.iter().map(|one| one.0 + 1).max().unwrap_or(0)),
    ("without number 0", |uses| different(uses.iter().map(|one| one.0).filter(|&number| number > 0))),
    ("without the last number", |uses| different(uses.iter().map(|one| one.0).filter(|&number| number < 4_095))),
    ("a set that was not empty", |uses| {
        different(uses.iter().map(|one| one.0).filter(|&number| !set_beforehand(number)))
    }),
    ("the last byte of the count", |uses| different(uses.iter()) % 256),
    ("at most 255", |uses| different(uses.iter()).min(255)),
    ("no rule", |_| 0),
];

fn cases_of_the_vector_file() -> Vec<Case> {
    vector_set().into_iter().find(|(name, _)| *name == "rules.vec").expect("the vector file").1
}

/// The vector file tells each wrong count from the right one, in both entries.
#[test]
fn every_wrong_count_falls_on_the_vector_file() {
    with_deep_stack(|| {
        let accepted: Vec<(Entry, usize, Vec<Use>)> = cases_of_the_vector_file()
            .iter()
            .filter(|case| COUNT_RULES.contains(&case.entry))
            .map(|case| (case, case.outcome().answer))
            .filter(|(_, answer)| answer.number == 0)
            .map(|(case, answer)| (case.entry, answer.rules as usize, uses_of(&Table::of(&case.table), case)))
            .collect();
        for (name, wrong) in WRONG_COUNTS {
            for entry in COUNT_RULES {
                let of_entry = accepted.iter().filter(|one| one.0 == entry);
                let falls = of_entry.filter(|(_, rules, uses)| wrong(uses) != *rules).count();
                assert!(falls > 0, "{name} in {entry:?}");
            }
        }
        // The same machinery with the right count finds nothing.
        assert!(accepted.iter().all(|(_, rules, uses)| different(uses.iter()) == *rules));
    });
}

/// Every refusal that a walk or a flat file can have comes after uses of rules.
#[test]
fn the_vector_file_has_refusals_after_uses() {
    let mut numbers = BTreeSet::new();
    for case in cases_of_the_vector_file().iter().filter(|case| COUNT_RULES.contains(&case.entry)) {
        let number = case.outcome().answer.number;
        if matches!(number, 20 | 21 | 22 | 27 | 34 | 35) && !uses_of(&Table::of(&case.table), case).is_empty() {
            numbers.insert(number);
        }
    }
    assert_eq!(numbers, BTreeSet::from([20, 21, 22, 27, 34, 35]));
}

/// Those of P1, which count no rules, have a file of their own.
#[test]
fn the_vector_file_has_proofs_of_no_bytes_and_every_other_entry_with_a_table() {
    let cases = cases_of_the_vector_file();
    let entries: BTreeSet<Entry> = cases.iter().map(|case| case.entry).collect();
    let others = Entry::WITH_TABLE.into_iter().filter(|entry| !entry.may_halt());
    assert_eq!(entries, others.collect());
    for table in no_bytes::good_tables() {
        assert!(cases.contains(&Case::new(Entry::Check, &table, &[])));
    }
}

/// Random calls meet rules that are used again, names on several goals, and many
/// rules, in either entry.
#[test]
fn random_cases_use_rules_again() {
    with_deep_stack(|| {
        let mut random = Random::new(804);
        let cases: Vec<Case> = (0..6_000).map(|_| random_case(&mut random)).collect();
        for entry in COUNT_RULES {
            let calls: Vec<(&Case, Answer)> = cases
                .iter()
                .filter(|case| case.entry == entry)
                .map(|case| (case, case.outcome().answer))
                .filter(|(_, answer)| answer.number == 0)
                .collect();
            let names = |case: &Case| different(uses_of(&Table::of(&case.table), case).iter().map(|one| one.1));
            let again = calls.iter().filter(|(_, answer)| answer.rules < answer.uses).count();
            let more_than_names = calls.iter().filter(|(case, answer)| answer.rules as usize > names(case)).count();
            let many = calls.iter().filter(|(_, answer)| answer.rules > 16).count();
            assert!(10 * again > calls.len(), "{entry:?}: {again} of {}", calls.len());
            assert!(10 * more_than_names > calls.len(), "{entry:?}: {more_than_names} of {}", calls.len());
            assert!(25 * many > calls.len(), "{entry:?}: {many} of {}", calls.len());
        }
    });
}
