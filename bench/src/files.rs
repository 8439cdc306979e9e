//! The files of the families: a table and another file for each size.

use second::generate::build::*;
use second::generate::case::Entry;
use second::generate::{examples, limit_files};

/// A table, and the other file that the entry takes.
pub type Files = (Vec<u8>, Vec<u8>);

/// The term of document 01's first proof, as text and as a file.
const FIRST_TERM: &str = "([1]a1 ; a2 * id) ; id ; [2]a3";

fn first_term() -> Vec<u8> {
    let first_box = label(1, &sequence(&atomic(1), &tensor(&atomic(2), &id())));
    sequence(&first_box, &sequence(&id(), &label(2, &atomic(3))))
}

/// Document 01's first example, as the entry takes it.
pub fn small(entry: Entry) -> Files {
    let other = match entry {
        Entry::Check | Entry::Flatten => examples::first_proof(),
        Entry::CheckFlat | Entry::WriteProof => examples::first_flat(),
        Entry::Run | Entry::Search | Entry::RunHalting | Entry::Resume => job(&[10], &defined(3)),
        Entry::ReadText => FIRST_TERM.as_bytes().to_vec(),
        Entry::WriteText => first_term(),
    };
    (examples::table_a(), other)
}

/// Name and goal of the rule of a number. Its premise is the goal of the next one, so that the rules of numbers in a row can
/// be used one after the other.
pub type Keys = fn(usize) -> (u16, u16);

pub fn rising(number: usize) -> (u16, u16) {
    (number as u16, 1)
}

pub fn falling(number: usize) -> (u16, u16) {
    (65_535 - number as u16, 1)
}

/// A fixed permutation: the factor is odd.
pub fn scattered(number: usize) -> (u16, u16) {
    ((number as u16).wrapping_mul(40_503), 1)
}

pub fn one_name(number: usize) -> (u16, u16) {
    (1, number as u16)
}

pub fn own_goals(number: usize) -> (u16, u16) {
    (number as u16, number as u16)
}

/// Name and goal have the sum 0 modulo 65,536, and all goals the same four lowest digits: for an index by sum and goal the
/// keys differ as late as 4,096 keys can.
pub fn one_sum(number: usize) -> (u16, u16) {
    let goal = (16 * number) as u16;
    (goal.wrapping_neg(), goal)
}

fn rules(keys: Keys, count: usize) -> Vec<u8> {
    (0..count).flat_map(|number| rule(keys(number).0, keys(number).1, &[keys(number + 1).1])).collect()
}

/// As many rules of a table of `count` as the entry takes uses of: each of them in a flat file that is checked, half of them
/// where 4,096 term fields or 2,048 entries are the limit.
fn uses_of(entry: Entry, count: usize) -> usize {
    match entry {
        Entry::CheckFlat => count,
        Entry::WriteProof => count / 2 - 1,
        _ => count / 2,
    }
}

/// A proof or flat file in which these rules are used one after the other; the goal of `left` remains.
fn using(entry: Entry, used: &[(u16, u16)], left: u16) -> Vec<u8> {
    let first = used.first().map_or(left, |key| key.1);
    match entry {
        Entry::CheckFlat | Entry::WriteProof => {
            let uses = used.iter().map(|key| use_entry(key.0, key.1));
            flat(&[first], &uses.chain([open_entry(left)]).collect::<Vec<_>>())
        }
        _ => {
            let atomics: Vec<Vec<u8>> = used.iter().map(|key| atomic(key.0)).collect();
            proof(&[first], &sequence_of(&atomics), &[left])
        }
    }
}

/// So many rules, and uses of the last of them: a search that goes over the rules in order finds these last.
pub fn last_rules(entry: Entry, keys: Keys, count: usize) -> Files {
    let used: Vec<(u16, u16)> = (count - uses_of(entry, count)..count).map(keys).collect();
    (rules(keys, count), using(entry, &used, keys(count).1))
}

/// So many rules, as many term fields in a definition, all but one of them labels, and half as many uses of the last rule.
pub fn last_rule(entry: Entry, count: usize) -> Files {
    let table = [rules(rising, count), limit_files::deep_definition(count)].concat();
    let uses = if entry == Entry::WriteProof { count / 2 - 1 } else { count / 2 };
    (table, using(entry, &vec![rising(count - 1); uses], 1))
}

/// So many rules, each used once, in another order than the table's. The factor is odd, and the count a power of two.
pub fn each_rule_once(entry: Entry, count: usize) -> Files {
    let used: Vec<(u16, u16)> = (0..count).map(|number| rising(40_503 * number % count)).collect();
    (rules(rising, count), using(entry, &used, 1))
}

/// So many rules, and uses of eight of them in turn, an eighth of the table apart.
pub fn eight_rules_in_turn(entry: Entry, count: usize) -> Files {
    let used: Vec<(u16, u16)> = (0..uses_of(entry, count)).map(|number| rising(number % 8 * (count / 8) + 7)).collect();
    (rules(rising, count), using(entry, &used, 1))
}

/// A proof of a term on one goal that remains, or on none.
fn proof_of(goals: &[u16], term: &[u8]) -> Files {
    (examples::table_a(), proof(goals, term, goals))
}

pub fn labels(fields: usize) -> Files {
    proof_of(&[10], &labels_around(fields - 1, &id()))
}

pub fn sequences_to_the_right(ids: usize) -> Files {
    proof_of(&[10], &sequence_of(&vec![id(); ids]))
}

pub fn sequences_to_the_left(ids: usize) -> Files {
    proof_of(&[10], &(1..ids).fold(id(), |left, _| sequence(&left, &id())))
}

/// All terms but the last take the goal and give it back; the last is empty and takes none (34).
pub fn miscounted_at_the_end(leaves: usize) -> Files {
    let terms = [vec![id(); leaves - 1], vec![empty()]].concat();
    proof_of(&[10], &sequence_of(&terms))
}

/// The last term is a tensor whose left term has arity 2, and there is one goal (35).
pub fn too_few_at_the_end(leaves: usize) -> Files {
    let last = tensor(&tensor(&id(), &id()), &id());
    let terms = [vec![id(); leaves - 3], vec![last]].concat();
    proof_of(&[10], &sequence_of(&terms))
}

pub fn tensors_to_the_right(empties: usize) -> Files {
    proof_of(&[], &tensor_of(&vec![empty(); empties]))
}

pub fn tensors_to_the_left(empties: usize) -> Files {
    proof_of(&[], &left_leaning_tensor_of(&vec![empty(); empties]))
}

/// Two files of zero bytes: little is left to do but to clear the work space.
pub fn blank() -> Files {
    (Vec::new(), Vec::new())
}

pub fn blank_in_a_long_table(bytes: usize) -> Files {
    (table_of(bytes), Vec::new())
}

/// 23 bytes a rule of eight premises; the longest is exactly 65,535 bytes.
fn table_of(bytes: usize) -> Vec<u8> {
    if bytes == 65_535 {
        return limit_files::longest_table();
    }
    (0..bytes / 23).flat_map(|name| rule(name as u16, 1, &[0; 8])).collect()
}

pub fn long_table(bytes: usize) -> Files {
    (table_of(bytes), proof(&[1], &id(), &[1]))
}

/// Every label is compared with those in front of it (9).
pub fn labels_in_a_definition(fields: usize) -> Files {
    (limit_files::deep_definition(fields), proof(&[1], &id(), &[1]))
}

pub fn proof_of_uses(uses: usize) -> Files {
    let chain = sequence_of(&vec![atomic(5); uses]);
    (limit_files::chain_table(), proof(&[50], &chain, &[50]))
}

pub fn flat_of_uses(entries: usize) -> Files {
    (limit_files::chain_table(), limit_files::flat_chain(entries))
}

/// Each definition is known only when the next one is.
pub fn definitions_in_reverse(count: usize) -> Files {
    (limit_files::chain_of_definitions(count as u16), job(&[1], &tensor(&defined(0), &empty())))
}

/// T1 is (1 ; assert 2) | id, whose left alternative fails after it has used a
/// rule; T1 ; T1 ; ... takes seven steps for each T1, the sequence included.
pub fn failing_alternatives(steps: usize) -> Files {
    let late = sequence(&atomic(1), &assert_goal(2));
    let table = [rule(1, 1, &[1]), definition(1, &alternation(&late, &id()))].concat();
    (table, job(&[1], &sequence_of(&vec![defined(1); steps / 7])))
}

/// The same T1 in more steps than a job has room for: T2 is T1 ; T1, T3 is T2 ; T2, and so on. T1 takes six steps, and each of
/// the others two more than twice as many as the one before, so that a power of two of steps is two more than all of them.
pub fn long_alternatives(steps: usize) -> Files {
    let (mut table, _) = failing_alternatives(0);
    let last = (steps / 4).ilog2() as u16;
    for tactic in 2..=last {
        table.extend(definition(tactic, &sequence(&defined(tactic - 1), &defined(tactic - 1))));
    }
    (table, job(&[1], &defined(last)))
}

/// T1 is ((T2 | T2 | 1) ; T1) | id, where T2 has no definition: uses of rule 1 on one goal after the other, eight steps for each.
pub fn long_rules(steps: usize) -> Files {
    let uses = (steps / 8 - 2) as u16;
    let rules = (0..uses).flat_map(|goal| rule(1, goal, &[goal + 1]));
    let late = alternation(&defined(2), &alternation(&defined(2), &atomic(1)));
    let body = alternation(&sequence(&late, &defined(1)), &id());
    (rules.chain(definition(1, &body)).collect(), job(&[0], &defined(1)))
}

pub fn job_of_labels(fields: usize) -> Files {
    (examples::table_a(), job(&[10], &labels_around(fields - 1, &id())))
}
