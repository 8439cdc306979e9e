//! Alternations that fail, first or last or not at all, in every position of a
//! tactic: in each place of each kind of term, two kinds deep.

use super::build::*;
use super::case::{Case, Entry};
use super::examples;

/// The goal that all these tactics are run on. Rule 2 of Table A proves it, and
/// rules 1 and 3 do not apply to it.
const GOAL: u16 = 20;

/// ALL id of Table A, which gives back any number of goals.
const ALL_ID: u16 = 4;

/// A term that fails on the goal at once.
fn failing() -> Vec<u8> {
    atomic(3)
}

/// A term, and the number of goals it is run on.
type Placed = (Vec<u8>, usize);

/// Alternations for one goal: the left works, fails at once, fails late; the
/// right works or fails; what works keeps the goal or proves it.
fn alternations() -> Vec<Vec<u8>> {
    let late = sequence(&id(), &failing());
    vec![
        alternation(&id(), &failing()),
        alternation(&atomic(2), &id()),
        alternation(&failing(), &id()),
        alternation(&late, &atomic(2)),
        alternation(&assert_goal(30), &sequence(&assert_goal(GOAL), &atomic(2))),
        alternation(&failing(), &late),
    ]
}

/// The term in each place of a term of each kind. What stands beside it works,
/// except in the places where a later failure must not reopen the alternation.
fn in_each_place((term, goals): &Placed) -> Vec<Placed> {
    let any = defined(ALL_ID);
    vec![
        (sequence(term, &any), *goals),
        (sequence(&any, term), *goals),
        (sequence(term, &failing()), *goals),
        (tensor(term, &id()), goals + 1),
        (tensor(&id(), term), goals + 1),
        (alternation(term, &any), *goals),
        (alternation(&failing(), term), *goals),
        (alternation(&sequence(term, &failing()), &any), *goals),
        (label(1, term), *goals),
    ]
}

/// The term itself, in each place, and in each place of a term in each place.
fn up_to_two_deep(term: &[u8]) -> Vec<Placed> {
    let alone: Placed = (term.to_vec(), 1);
    let once = in_each_place(&alone);
    let twice: Vec<Placed> = once.iter().flat_map(in_each_place).collect();
    [vec![alone], once, twice].concat()
}

/// Table A with a tactic for each alternation, and the alternations' names.
fn table_with_names() -> (Vec<u8>, Vec<Vec<u8>>) {
    let first = 10;
    let numbered = || alternations().into_iter().zip(first..);
    let definitions: Vec<Vec<u8>> = numbered().map(|(term, tactic)| definition(tactic, &term)).collect();
    let names = numbered().map(|(_, tactic)| defined(tactic)).collect();
    ([examples::table_a(), definitions.concat()].concat(), names)
}

fn cases_of(entry: Entry, table: &[u8], placed: impl Iterator<Item = Placed>) -> Vec<Case> {
    placed.map(|(term, goals)| Case::new(entry, table, &job(&vec![GOAL; goals], &term))).collect()
}

/// Each alternation in the job's term, and behind a definition's name.
pub fn run_cases() -> Vec<Case> {
    let (table, names) = table_with_names();
    let named = names.into_iter().flat_map(|term| in_each_place(&(term, 1)));
    let spelt_out = alternations().into_iter().flat_map(|term| up_to_two_deep(&term));
    cases_of(Entry::Run, &table, spelt_out.chain(named))
}

/// Each alternation and each name in each place of the job's term, for a search:
/// where a run fails for good, the search goes back.
pub fn search_cases() -> Vec<Case> {
    in_each_place_of(Entry::Search)
}

/// The same for runs that are halted (P1).
pub fn halting_cases() -> Vec<Case> {
    in_each_place_of(Entry::RunHalting)
}

fn in_each_place_of(entry: Entry) -> Vec<Case> {
    let (table, names) = table_with_names();
    let all = alternations().into_iter().chain(names);
    cases_of(entry, &table, all.flat_map(|term| in_each_place(&(term, 1))))
}
