//! Line 4: labels added and removed. They change the count of term fields and
//! nothing else.

use crate::counts::Counts;
use crate::foreign_proofs::accepted_proofs;
use crate::inspector::Inspector;
use crate::tree::{label, Parts, Tree};
use boundary::tally::with_commas;
use second::generate::case::{Case, Entry};
use second::generate::random::Random;
use second::generate::random_file::random_job;
use second::generate::random_table::{RandomTable, Size};
use second::generate::{build, examples};
use std::cell::Cell;

/// Long proofs are changed at their first positions only.
const MOST_POSITIONS: usize = 40;

/// How many labels were put in and taken out.
#[derive(Default)]
struct Count {
    added: u64,
    removed: u64,
}

pub fn inspect(inspector: &mut Inspector) -> Result<String, String> {
    let mut count = Count::default();
    let proofs = accepted_proofs(600, 300);
    for (table, proof) in &proofs {
        labels_of_proof(inspector, table, proof, &mut count);
    }
    deepest_labels(inspector, &mut count);
    let jobs = jobs();
    for (table, job) in &jobs {
        labels_of_job(inspector, table, job, &mut count);
    }
    let refused = [34, 35].map(|number| inspector.tally.answered(number));
    if [count.added, count.removed].iter().chain(&refused).any(|&times| times == 0) {
        return Err("no label was added, none removed, or none refused with 34 or with 35".to_string());
    }
    Ok(format!(
        "{} calls: {} proofs and {} tactics, {} labels added, {} removed",
        with_commas(inspector.tally.cases),
        proofs.len(),
        jobs.len(),
        with_commas(count.added),
        with_commas(count.removed)
    ))
}

/// Labels are taken out of the proof, put in at every position alone and at all
/// of them together, and taken out one by one.
fn labels_of_proof(inspector: &mut Inspector, table: &[u8], proof: &[u8], count: &mut Count) {
    let parts = Parts::of(proof);
    let plain = parts.with(parts.term.without_labels());
    let (_, flat) = inspector.call_with_room(Entry::Flatten, table, proof);
    count.removed += parts.term.labels() as u64;
    same_but_for_labels(inspector, table, &plain, &flat);
    for number in 0..plain.term.fields().min(MOST_POSITIONS) {
        label_at(inspector, table, &plain, number, &flat, count);
    }
    let everywhere = plain.term.rebuilt(&mut labelled_if_one_goal);
    if everywhere.fields() > 4_096 {
        return;
    }
    count.added += everywhere.labels() as u64;
    same_but_for_labels(inspector, table, &plain.with(everywhere.clone()), &flat);
    for number in 0..everywhere.fields().min(MOST_POSITIONS) {
        let fewer = everywhere.changed_at(number, without_label);
        if fewer.labels() < everywhere.labels() {
            count.removed += 1;
            same_but_for_labels(inspector, table, &plain.with(fewer), &flat);
        }
    }
}

/// Two labels round the subterm of that number. A label takes one goal; round a
/// term that takes more or none it is refused. All that is walked before the first
/// miscount has the goals that it had without the labels, so no rule is missing.
fn label_at(inspector: &mut Inspector, table: &[u8], plain: &Parts, number: usize, flat: &[u8], count: &mut Count) {
    let takes_one_goal = Cell::new(false);
    let term = plain.term.changed_at(number, |inner| {
        takes_one_goal.set(inner.arity() == 1);
        label(number as u16, label(65_535, inner))
    });
    let labelled = plain.with(term);
    if takes_one_goal.get() {
        count.added += 2;
        return same_but_for_labels(inspector, table, &labelled, flat);
    }
    let case = Case::new(Entry::Check, table, &labelled.proof());
    let (answer, _) = inspector.call(&case);
    let counted = labelled.term.counted(labelled.goals.len(), &|name| premises_of(table, name));
    let refused = counted == Err(answer.number);
    inspector.demand(refused, &case, "a label round a term that does not take one goal is no miscount of that sort");
}

/// The count of premises of a rule; all rules of its name have it. The rules stand in front of the table.
fn premises_of(table: &[u8], name: u16) -> usize {
    let mut place = 0;
    while table[place..].first() == Some(&1) {
        let length = usize::from(u16::from_be_bytes([table[place + 1], table[place + 2]]));
        if table[place + 3..place + 5] == name.to_be_bytes() {
            return (length - 4) / 2;
        }
        place += 3 + length;
    }
    0
}

fn labelled_if_one_goal(term: Tree) -> Tree {
    if term.arity() == 1 {
        return label(3, term);
    }
    term
}

fn without_label(term: Tree) -> Tree {
    match term {
        Tree::Label(_, inner) => *inner,
        other => other,
    }
}

/// 4,095 labels round an id, the most that a file holds, and none.
fn deepest_labels(inspector: &mut Inspector, count: &mut Count) {
    let table = examples::table_a();
    let proof = build::proof(&[10], &build::labels_around(4_095, &build::id()), &[10]);
    labels_of_proof(inspector, &table, &proof, count);
}

/// The proof is accepted, with its own count of fields and the other counts of the
/// given flat form, which is its own, too.
fn same_but_for_labels(inspector: &mut Inspector, table: &[u8], proof: &Parts, flat: &[u8]) {
    let case = Case::new(Entry::Check, table, &proof.proof());
    let (answer, _) = inspector.call(&case);
    let accepted = answer.number == 0 && answer.fields == proof.term.fields() as u32;
    inspector.demand(accepted, &case, "a label changed whether the proof is accepted");
    let same = Counts::answered(answer) == Counts::of_flat(flat);
    inspector.demand(same, &case, "a label changed the uses, the open goals or the rules");
    let case = Case::new(Entry::Flatten, table, &proof.proof());
    let (_, its_flat) = inspector.call(&case);
    inspector.demand(its_flat == flat, &case, "a label changed the flat form");
}

fn jobs() -> Vec<(Vec<u8>, Vec<u8>)> {
    let mut jobs: Vec<(Vec<u8>, Vec<u8>)> =
        examples::run_cases().into_iter().map(|case| (case.table, case.other)).collect();
    let random = &mut Random::new(700);
    while jobs.len() < 400 {
        let table = RandomTable::make(random, Size::Small);
        let job = random_job(random, &table);
        jobs.push((table.bytes(), job));
    }
    jobs
}

/// A label round an atomic or an assert, which take one goal or fail, changes no
/// run but for its steps and the labels in its proof.
fn labels_of_job(inspector: &mut Inspector, table: &[u8], job: &[u8], count: &mut Count) {
    let parts = Parts::of(job);
    let term = parts.term.rebuilt(&mut |term| match term {
        Tree::Atomic(_) | Tree::Assert(_) => label(9, term),
        other => other,
    });
    count.added += (term.labels() - parts.term.labels()) as u64;
    let (plain_answer, plain_proof) = inspector.call_with_room(Entry::Run, table, job);
    let case = Case::new(Entry::Run, table, &parts.with(term).job());
    let (answer, proof) = inspector.call(&case);
    if plain_answer.number == 0 && answer.number == 0 {
        let without = |proof: &[u8]| Parts::of(proof).term.without_labels();
        let same = without(&plain_proof) == without(&proof);
        inspector.demand(same, &case, "a label in the tactic changed more of the proof than its labels");
    }
}
