//! P6: how many different rules carried a proof or a flat file. The files tell the
//! count of rule fields from that of names, goals, uses and changes from one use to
//! the next, and have numbers on both sides of every border of a set of bits.

use super::build::*;
use super::case::{Case, Entry};
use super::random::Random;
use super::random_rules::{RandomUses, Sizes};
use super::random_table::{RandomTable, Size};
use super::{examples, limit_files, no_bytes, random_case_of, random_file, reading};
use crate::limits::{MOST_RULES, MOST_USES};

/// The goal of every rule of `chain_by_name`, which each of them gives again.
const GOAL: u16 = 1;

/// The name of every rule of `chain_by_goal`.
const NAME: u16 = 5;

/// A use may come first or last in a byte, a word or a page of a set of bits.
const NUMBERS: [usize; 26] = [
    0, 1, 7, 8, 9, 15, 16, 17, 31, 32, 63, 64, 127, 128, 255, 256, 257, 511, 512, 1_023, 1_024, 2_047, 2_048, 2_049,
    4_094, 4_095,
];

/// The name of a rule of `chain_by_name`. It is larger than every number, so that a
/// name does not pass for one.
pub fn name_of(number: usize) -> u16 {
    65_535 - number as u16
}

/// Rules of different names on one goal that give it again: any of them in any order
/// make a proof.
pub fn chain_by_name(rules: usize) -> Vec<u8> {
    (0..rules).flat_map(|number| rule(name_of(number), GOAL, &[GOAL])).collect()
}

/// Rules of one name on the goals from 0 on. Each gives the next goal, the last one
/// goal 0.
pub fn chain_by_goal(rules: u16) -> Vec<u8> {
    (0..rules).flat_map(|goal| rule(NAME, goal, &[(goal + 1) % rules])).collect()
}

/// The rules of these numbers of a `chain_by_name`, one after the other, as a proof.
fn proof_in_sequence(numbers: &[usize]) -> Vec<u8> {
    let uses: Vec<Vec<u8>> = numbers.iter().map(|&number| atomic(name_of(number))).collect();
    proof(&[GOAL], &sequence_of(&uses), &[GOAL])
}

/// The same side by side.
fn proof_side_by_side(numbers: &[usize]) -> Vec<u8> {
    let uses: Vec<Vec<u8>> = numbers.iter().map(|&number| atomic(name_of(number))).collect();
    let goals = vec![GOAL; numbers.len()];
    proof(&goals, &tensor_of(&uses), &goals)
}

/// The flat form of `proof_in_sequence`.
fn flat_in_sequence(numbers: &[usize]) -> Vec<u8> {
    let uses = numbers.iter().map(|&number| use_entry(name_of(number), GOAL));
    flat(&[GOAL], &uses.chain([open_entry(GOAL)]).collect::<Vec<_>>())
}

/// The flat form of `proof_side_by_side`.
fn flat_side_by_side(numbers: &[usize]) -> Vec<u8> {
    let trees = numbers.iter().flat_map(|&number| [use_entry(name_of(number), GOAL), open_entry(GOAL)]);
    flat(&vec![GOAL; numbers.len()], &trees.collect::<Vec<_>>())
}

fn check(table: &[u8], proof: &[u8]) -> Case {
    Case::new(Entry::Check, table, proof)
}

fn check_flat(table: &[u8], flat: &[u8]) -> Case {
    Case::new(Entry::CheckFlat, table, flat)
}

/// These rules of a `chain_by_name`, as a proof and as a flat file.
fn in_sequence(table: &[u8], numbers: &[usize]) -> [Case; 2] {
    [check(table, &proof_in_sequence(numbers)), check_flat(table, &flat_in_sequence(numbers))]
}

fn side_by_side(table: &[u8], numbers: &[usize]) -> [Case; 2] {
    [check(table, &proof_side_by_side(numbers)), check_flat(table, &flat_side_by_side(numbers))]
}

/// An accepted proof, its flat form, and the proof written from that: checked, and
/// with the calls that write, which do not count rules.
fn there_and_back(table: &[u8], proof: &[u8]) -> Vec<Case> {
    let mut cases = vec![check(table, proof), Case::new(Entry::Flatten, table, proof)];
    if let Some(flat) = cases[1].result() {
        let written = Case::new(Entry::WriteProof, table, &flat);
        let back = written.result();
        cases.extend([check_flat(table, &flat), written]);
        cases.extend(back.map(|proof| check(table, &proof)));
    }
    cases
}

/// Document 01's first proof, the paper's examples, and proofs without a use.
fn examples_there_and_back() -> Vec<Case> {
    let mut pairs = examples::proofs();
    pairs.push((examples::table_a(), vec![]));
    pairs.push((vec![], vec![]));
    pairs.push((examples::table_a(), proof(&[10, 20], &tensor(&id(), &id()), &[10, 20])));
    let mut cases: Vec<Case> = pairs.iter().flat_map(|(table, proof)| there_and_back(table, proof)).collect();
    let job = job(&[10], &defined(3));
    cases.extend([Entry::Run, Entry::Search].map(|entry| Case::new(entry, &examples::table_a(), &job)));
    cases
}

/// Few rules in every order: one again and again, two and three in turn, in blocks,
/// there and back; in sequence and side by side.
fn orders() -> Vec<Case> {
    let table = chain_by_name(10);
    let mut orders: Vec<Vec<usize>> = vec![
        vec![0, 1, 0, 1],
        vec![0, 0, 1, 1],
        vec![0, 1, 1, 0],
        vec![1, 0, 0, 0],
        vec![0, 1, 2, 0, 1, 2],
        vec![2, 1, 0, 1, 2],
        vec![0, 1, 2, 3, 4, 5, 6, 7, 8, 9],
        vec![9, 8, 7, 6, 5, 4, 3, 2, 1, 0, 0, 9],
        [0, 9].repeat(20),
    ];
    orders.extend([1, 2, 3, 4, 100, 255, 256].map(|uses| vec![3; uses]));
    orders.iter().flat_map(|order| [in_sequence(&table, order), side_by_side(&table, order)].concat()).collect()
}

/// Every rule alone, next to its neighbours, and with one that has the same number
/// in its last byte or but for its highest bit, in the largest table.
fn borders(table: &[u8]) -> Vec<Case> {
    let mut orders: Vec<Vec<usize>> = Vec::new();
    for number in NUMBERS {
        let next = (number + 1) % MOST_RULES;
        let same_last_byte = (number + 256) % MOST_RULES;
        let other_half = (number + MOST_RULES / 2) % MOST_RULES;
        orders.push(vec![number; 2]);
        orders.extend([next, same_last_byte, other_half].map(|other| vec![number, other, number]));
    }
    orders.push(NUMBERS.to_vec());
    orders.push(NUMBERS.repeat(3));
    orders.iter().flat_map(|order| in_sequence(table, order)).collect()
}

/// Every two of the rules whose bits stand in the first and in the last byte.
fn pairs_in_one_byte(table: &[u8]) -> Vec<Case> {
    let mut cases = Vec::new();
    for first_of_byte in [0, MOST_RULES - 8] {
        for one in 0..8 {
            for other in 0..one {
                cases.extend(side_by_side(table, &[first_of_byte + one, first_of_byte + other]));
            }
        }
    }
    cases
}

/// As many uses as a proof and a flat file can have: of different rules, of one, of
/// two and three in turn, and each rule twice.
fn most_uses(table: &[u8]) -> Vec<Case> {
    let all: Vec<usize> = (0..MOST_RULES).collect();
    let half = MOST_RULES / 2;
    let every_second: Vec<usize> = (0..half).map(|number| 2 * number + 1).collect();
    let twice = [&all[..half / 2], &all[..half / 2]].concat();
    let proofs = [&all[..half], &all[half..], &every_second, &twice, &vec![7; half]];
    let mut cases: Vec<Case> = proofs.map(|numbers| check(table, &proof_in_sequence(numbers))).to_vec();
    let turns = |numbers: &[usize]| numbers.iter().copied().cycle().take(MOST_USES).collect::<Vec<usize>>();
    let flats = [all.clone(), turns(&all[1..]), turns(&[0]), turns(&[0, 4_095]), turns(&[7, 8, 9])];
    cases.extend(flats.iter().map(|numbers| check_flat(table, &flat_in_sequence(numbers))));
    cases
}

/// The largest table: 4,096 rules.
fn in_the_largest_table() -> Vec<Case> {
    let table = chain_by_name(MOST_RULES);
    [borders(&table), pairs_in_one_byte(&table), most_uses(&table)].concat()
}

/// 2,048 different rules on 256 goals, and 4,096 with 3,840 goals pending: as many
/// goals at once as there can be where every use has a rule of its own.
fn most_goals() -> Vec<Case> {
    let eight_each: Vec<Vec<u8>> = (0..256)
        .map(|goal| sequence_of(&(0..8).map(|use_| atomic(name_of(8 * goal + use_))).collect::<Vec<_>>()))
        .collect();
    let wide = proof(&[GOAL; 256], &tensor_of(&eight_each), &[GOAL; 256]);
    let opening = (0..512).map(|number| rule(number, GOAL, &[GOAL; 8]));
    let closing = (512..4_096).map(|number| rule(number, GOAL, &[]));
    let table: Vec<u8> = opening.chain(closing).flatten().collect();
    let entries = (0..4_096).map(|number| use_entry(number, GOAL)).chain((0..256).map(|_| open_entry(GOAL)));
    let most_pending = flat(&[GOAL; 256], &entries.collect::<Vec<_>>());
    vec![check(&chain_by_name(2_048), &wide), check_flat(&table, &most_pending)]
}

/// One name again and again, each time on another goal until the first comes again.
fn one_name_on_many_goals() -> Vec<Case> {
    let goals = 300;
    let table = chain_by_goal(goals);
    let mut cases = Vec::new();
    for uses in [1, 2, 255, 256, 257, 299, 300, 301, 600] {
        let last = uses % goals;
        let term = sequence_of(&vec![atomic(NAME); usize::from(uses)]);
        let entries = (0..uses).map(|number| use_entry(NAME, number % goals)).chain([open_entry(last)]);
        cases.push(check(&table, &proof(&[0], &term, &[last])));
        cases.push(check_flat(&table, &flat(&[0], &entries.collect::<Vec<_>>())));
    }
    cases
}

/// Rules with names and goals from one small set: one name on several goals, several
/// names on one goal, name and goal exchanged, equal sums.
fn names_and_goals() -> Vec<Case> {
    let keys: Vec<(u16, u16)> = (1..=4).flat_map(|name| (1..=4).map(move |goal| (name, goal))).collect();
    let table: Vec<u8> = keys.iter().flat_map(|&(name, goal)| rule(name, goal, &[])).collect();
    let mut uses: Vec<Vec<(u16, u16)>> = vec![keys.clone(), [&keys[..], &keys].concat()];
    for value in 1..=4 {
        uses.push(keys.iter().copied().filter(|key| key.0 == value).collect());
        uses.push(keys.iter().copied().filter(|key| key.1 == value).collect());
        uses.push(keys.iter().copied().filter(|key| key.0 == key.1 || key.0 == value).collect());
    }
    uses.extend((3..=7).map(|sum| keys.iter().copied().filter(|key| key.0 + key.1 == sum).collect()));
    uses.iter().flat_map(|uses| closed_by(&table, uses)).collect()
}

/// Goals side by side, each closed by the rule of that name.
fn closed_by(table: &[u8], uses: &[(u16, u16)]) -> [Case; 2] {
    let goals: Vec<u16> = uses.iter().map(|key| key.1).collect();
    let term = tensor_of(&uses.iter().map(|key| atomic(key.0)).collect::<Vec<_>>());
    let entries: Vec<Vec<u8>> = uses.iter().map(|key| use_entry(key.0, key.1)).collect();
    [check(table, &proof(&goals, &term, &[])), check_flat(table, &flat(&goals, &entries))]
}

/// Definitions behind the rules, with the same names, goals and numbers: they are
/// no rules and shift none. And terms that are no uses between the uses.
fn beside_other_fields() -> Vec<Case> {
    let rules = [rule(1, 10, &[10]), rule(1, 11, &[11]), rule(2, 10, &[10])].concat();
    let bodies = [atomic(1), atomic(2), assert_goal(10), defined(1), sequence(&atomic(1), &atomic(2))];
    let definitions: Vec<u8> = (0..5).flat_map(|tactic| definition(tactic, &bodies[usize::from(tactic)])).collect();
    let tables =
        [rules.clone(), [rules.clone(), definitions].concat(), [rules, limit_files::definitions(256)].concat()];
    let between = sequence_of(&[id(), atomic(1), label(1, &id()), label(2, &label(1, &atomic(2))), atomic(1)]);
    let left_leaning = sequence(&sequence(&atomic(1), &label(1, &atomic(1))), &tensor(&atomic(2), &empty()));
    let proofs = [
        proof(&[10], &between, &[10]),
        proof(&[10], &left_leaning, &[10]),
        proof(&[10, 11], &tensor(&atomic(1), &atomic(1)), &[10, 11]),
        proof(&[10, 11, 10], &tensor_of(&[between, atomic(1), id()]), &[10, 11, 10]),
    ];
    let flats = [
        flat(&[10], &[use_entry(1, 10), use_entry(2, 10), use_entry(1, 10), open_entry(10)]),
        flat(&[10, 11], &[use_entry(1, 10), open_entry(10), use_entry(1, 11), open_entry(11)]),
        flat(&[10, 11], &[open_entry(10), open_entry(11)]),
    ];
    let mut cases = Vec::new();
    for table in &tables {
        cases.extend(proofs.iter().map(|proof| check(table, proof)));
        cases.extend(flats.iter().map(|flat| check_flat(table, flat)));
    }
    cases
}

/// Refused after some uses: no rule is counted. 20, 34, 35, 22 and 21 of a proof, 27
/// of a flat file at each of its entries and at the end.
fn refused_after_uses() -> Vec<Case> {
    let a = examples::table_a();
    let behind_1 = |term: Vec<u8>| proof(&[10], &sequence(&atomic(1), &term), &[]);
    let ids = |count: usize| tensor_of(&vec![id(); count]);
    let proofs = [
        behind_1(tensor(&atomic(2), &atomic(2))),
        behind_1(tensor(&atomic(2), &atomic(9))),
        behind_1(atomic(2)),
        behind_1(tensor(&atomic(2), &tensor(&id(), &id()))),
        behind_1(tensor(&ids(3), &id())),
        behind_1(tensor(&atomic(2), &id())),
        behind_1(tensor(&id(), &atomic(3))),
        examples::first_proof()[..48].to_vec(),
        [examples::first_proof(), vec![0]].concat(),
    ];
    let right = [use_entry(1, 10), use_entry(2, 20), use_entry(3, 30)];
    let mut flats: Vec<Vec<u8>> = (0..3).map(|entries| flat(&[10], &right[..entries])).collect();
    for wrong in [use_entry(2, 30), use_entry(9, 30), open_entry(20), use_entry(1, 10)] {
        flats.push(flat(&[10], &[right[0].clone(), right[1].clone(), wrong.clone()]));
        flats.push(flat(&[10], &[&right[..], &[wrong]].concat()));
    }
    let mut cases: Vec<Case> = proofs.iter().map(|proof| check(&a, proof)).collect();
    cases.push(check(&examples::table_of_eight(), &examples::eights(33)));
    cases.extend(flats.iter().map(|flat| check_flat(&a, flat)));
    cases
}

/// 29 before, and 26 and 28 behind, what would be counted; tables that are refused.
fn refused_otherwise() -> Vec<Case> {
    let a = examples::table_a();
    let calls = [check(&a, &examples::first_proof()), check_flat(&a, &examples::first_flat())];
    let mut cases = Vec::new();
    for call in calls {
        let size = call.entry.work_size();
        cases.extend([size - 1, size, size + 1].map(|length| call.clone().with_work(length)));
        let tables = reading::refused_tables();
        cases.extend(
            tables.iter().filter(|table| table.len() < 1_000).map(|table| Case::new(call.entry, table, &call.other)),
        );
    }
    cases.push(Case::new(Entry::Flatten, &a, &examples::first_proof()).with_output(25));
    cases.push(Case::new(Entry::WriteProof, &a, &examples::first_flat()).with_output(28));
    let chain = limit_files::chain_table();
    cases.extend([2_048, 2_049].map(|entries| check_flat(&chain, &limit_files::flat_chain(entries))));
    cases.push(Case::new(Entry::WriteProof, &chain, &limit_files::flat_chain(2_049)));
    cases
}

/// No use, in tables of every sort: a proof of no bytes, and the flat form.
fn without_uses() -> Vec<Case> {
    let proofs = [vec![], no_bytes::written_out()];
    let mut cases = Vec::new();
    for table in no_bytes::good_tables() {
        cases.extend(proofs.iter().map(|proof| check(&table, proof)));
        cases.push(check_flat(&table, &flat(&[], &[])));
    }
    cases
}

fn random_cases() -> Vec<Case> {
    let mut random = Random::new(14);
    let sizes = Sizes { goals: 12, uses_of_each: 10, goals_of_name: 30, rules_in_front: 0 };
    let mut cases = Vec::new();
    for _ in 0..60 {
        cases.extend([Entry::Check, Entry::CheckFlat].map(|entry| random_case_of(entry, Size::Small, &mut random)));
    }
    for number in 0..60 {
        let in_front = if number % 10 == 0 { 250 } else { 0 };
        let uses = RandomUses::make(&mut random, &Sizes { rules_in_front: in_front, ..sizes });
        cases.extend([check(&uses.table(), &uses.proof()), check_flat(&uses.table(), &uses.flat())]);
    }
    for _ in 0..40 {
        let table = RandomTable::make(&mut random, Size::Small);
        let proof = random_file::random_proof(&mut random, &table);
        cases.extend(there_and_back(&table.bytes(), &proof));
    }
    cases
}

pub fn cases() -> Vec<Case> {
    let mut cases = examples_there_and_back();
    cases.extend(orders());
    cases.extend(in_the_largest_table());
    cases.extend(most_goals());
    cases.extend(one_name_on_many_goals());
    cases.extend(names_and_goals());
    cases.extend(beside_other_fields());
    cases.extend(refused_after_uses());
    cases.extend(refused_otherwise());
    cases.extend(without_uses());
    cases.extend(random_cases());
    cases
}
