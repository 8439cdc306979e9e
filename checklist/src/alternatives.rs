//! Line 2: tactics with failing alternatives, in every position of a tactic. A
//! run must not take a second alternative too early, nor drop a first one after it
//! has worked; a search goes back to the second one, and finds what a run finds.

use crate::inspector::Inspector;
use crate::tree::{alternation, label, sequence, tensor, Parts, Tree};
use boundary::tally::with_commas;
use second::generate::case::{Case, Entry};
use second::generate::examples;
use second::generate::halting::state_at;
use second::generate::random::Random;
use second::generate::random_file::random_job;
use second::generate::random_table::{RandomTable, Size};
use second::limits::MOST_HEIGHT;
use second::Answer;

/// Names, goals and tactic numbers that no table here has.
const NO_NAME: u16 = 64_001;
const NO_GOAL: u16 = 64_002;
const NO_TACTIC: u16 = 64_003;

pub fn inspect(inspector: &mut Inspector) -> Result<String, String> {
    let mut unchanged = 0;
    for (table, job) in tactics() {
        unchanged += whole_tactic(inspector, &table, &job);
        every_position(inspector, &table, &job);
    }
    let runs = [0, 23, 24].map(|number| inspector.tally.answered_by(Entry::Run, number));
    let searches = [0, 41, 24].map(|number| inspector.tally.answered_by(Entry::Search, number));
    let halted = inspector.tally.answered_by(Entry::RunHalting, 24);
    let resumed = [0, 23].map(|number| inspector.tally.answered_by(Entry::Resume, number));
    if [&runs[..], &searches, &resumed, &[halted, unchanged]].concat().contains(&0) {
        return Err("a kind of ending did not occur".to_string());
    }
    let of = |entry| with_commas(inspector.tally.cases_of(entry));
    let [proofs, failed, spent] = runs.map(with_commas);
    let [found, none, ended] = searches.map(with_commas);
    let unchanged = with_commas(unchanged);
    Ok(format!(
        "{} runs: {proofs} proofs, {failed} failed, {spent} out of budget; \
         {unchanged} proofs not altered by a failing alternative; \
         {} runs halted half way and taken up; \
         {} searches: {found} proofs, {none} without an evaluation, {ended} out of budget",
        of(Entry::Run),
        with_commas(halted),
        of(Entry::Search)
    ))
}

/// Tables and jobs whose runs succeed: document 01's and the paper's, and random
/// ones that are neither tiny nor long.
fn tactics() -> Vec<(Vec<u8>, Vec<u8>)> {
    let mut tactics: Vec<(Vec<u8>, Vec<u8>)> =
        examples::run_cases().into_iter().map(|case| (case.table, case.other)).collect();
    let random = &mut Random::new(300);
    while tactics.len() < 90 {
        let table = RandomTable::make(random, Size::Small);
        let job = random_job(random, &table);
        let fields = Parts::of(&job).term.fields();
        if (4..=16).contains(&fields) && succeeds(&table.bytes(), &job) {
            tactics.push((table.bytes(), job));
        }
    }
    tactics
}

fn succeeds(table: &[u8], job: &[u8]) -> bool {
    second::engine::run(table, job, 4_096).is_ok_and(|run| run.steps <= 400)
}

/// Terms that fail on any goals, at once or after something has worked.
fn failing() -> Vec<Tree> {
    let nothing_matches = || Tree::Assert(NO_GOAL);
    vec![
        nothing_matches(),
        Tree::Atomic(NO_NAME),
        Tree::Defined(NO_TACTIC),
        alternation(nothing_matches(), Tree::Defined(NO_TACTIC)),
        sequence(Tree::Id, nothing_matches()),
        label(7, sequence(alternation(Tree::Id, Tree::Empty), Tree::Atomic(NO_NAME))),
        tensor(Tree::Id, tensor(nothing_matches(), Tree::Empty)),
    ]
}

/// A failing alternative in front of the whole tactic, or behind it, leaves the
/// proof as it was. How many proofs were seen to be the same.
fn whole_tactic(inspector: &mut Inspector, table: &[u8], job: &[u8]) -> u64 {
    let (answer, proof) = inspector.call_with_room(Entry::Run, table, job);
    let parts = Parts::of(job);
    let mut unchanged = 0;
    for failing in failing() {
        let partly = sequence(parts.term.clone(), failing.clone());
        for term in [
            alternation(failing.clone(), parts.term.clone()),
            alternation(parts.term.clone(), failing),
            alternation(partly, parts.term.clone()),
        ] {
            let case = Case::new(Entry::Run, table, &parts.with(term).job());
            let (with_alternative, same) = inspector.call(&case);
            if answer.number == 0 && with_alternative.number == 0 {
                inspector.demand(same == proof, &case, "a failing alternative altered the proof");
                unchanged += 1;
            }
            in_two_pieces(inspector, &case, with_alternative, &same);
            search(inspector, &case, with_alternative);
        }
    }
    unchanged
}

/// A run that is halted half way, mostly in an alternative, and taken up comes to what it
/// comes to in one piece, to the byte.
fn in_two_pieces(inspector: &mut Inspector, run: &Case, ran: Answer, proof: &[u8]) {
    let (table, job) = (&run.table, &run.other);
    let half = ran.steps / 2;
    inspector.call(&Case::new(Entry::RunHalting, table, job).with_budget(half));
    if let Some(saved) = state_at(table, job, half) {
        let case = Case::resumed(table, job, &saved);
        let (taken_up, same) = inspector.call(&case);
        inspector.demand(taken_up == ran && same == proof, &case, "a run in two pieces is not the run in one");
    }
}

/// A search on the files of a run. An evaluation is no higher than the terms that
/// the run has begun, so that one of at most 64 steps has an evaluation that the
/// search meets, unless its budget ends before. Whatever it finds is accepted.
fn search(inspector: &mut Inspector, run: &Case, ran: Answer) {
    let case = Case::new(Entry::Search, &run.table, &run.other);
    let (found, proof) = inspector.call(&case);
    let within_height = ran.number == 0 && ran.steps <= MOST_HEIGHT;
    inspector.demand(!within_height || found.number != 41, &case, "a search did not meet what a run found");
    if found.number == 0 {
        let (checked, _) = inspector.call_with_room(Entry::Check, &run.table, &proof);
        inspector.demand(checked.number == 0, &case, "a search found a proof that is not accepted");
    }
    for budget in [found.steps.saturating_sub(1), found.steps / 2] {
        inspector.call(&case.clone().with_budget(budget));
    }
}

/// A failing alternative at every position, on either side, with budgets that
/// end in the middle of it.
fn every_position(inspector: &mut Inspector, table: &[u8], job: &[u8]) {
    let parts = Parts::of(job);
    let failing = failing();
    for position in 0..parts.term.fields() {
        let wrong = &failing[position % failing.len()];
        let changes: [&dyn Fn(Tree) -> Tree; 4] = [
            &|term| alternation(wrong.clone(), term),
            &|term| alternation(sequence(term.clone(), wrong.clone()), term),
            // The choice stands: what comes later fails, and nothing goes back.
            &|term| sequence(alternation(Tree::Id, term), wrong.clone()),
            &|term| alternation(term, alternation(wrong.clone(), Tree::Id)),
        ];
        for change in changes {
            let term = parts.term.changed_at(position, change);
            let case = Case::new(Entry::Run, table, &parts.with(term).job());
            let (answer, proof) = inspector.call(&case);
            for budget in [answer.steps.saturating_sub(1), answer.steps / 2] {
                inspector.call(&case.clone().with_budget(budget));
            }
            in_two_pieces(inspector, &case, answer, &proof);
            search(inspector, &case, answer);
        }
    }
}
