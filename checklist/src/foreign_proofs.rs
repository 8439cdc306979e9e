//! Line 3: proofs made by another prover: hiproofs in shapes that the engine
//! never writes, and derivations converted from elsewhere.

use crate::counts::Counts;
use crate::inspector::Inspector;
use crate::prover::Derivation;
use crate::tree::{label, sequence, tensor, Parts, Tree};
use boundary::tally::with_commas;
use second::generate::case::{Case, Entry};
use second::generate::examples;
use second::generate::random::Random;
use second::generate::random_file::random_proof;
use second::generate::random_table::{RandomTable, Size};

pub fn inspect(inspector: &mut Inspector) -> Result<String, String> {
    let (mut shapes, mut derivations, mut round_trips) = (0, 0, 0);
    for (table, proof) in accepted_proofs(400, 400) {
        let (_, flat) = inspector.call_with_room(Entry::Flatten, &table, &proof);
        round_trips += u64::from(round_trip(inspector, &table, &flat));
        for shape in other_shapes(&Parts::of(&proof)) {
            same_in_another_shape(inspector, &table, &shape, &flat);
            shapes += 1;
        }
    }
    for (table, flat) in converted_derivations(600) {
        derivations += 1;
        round_trips += u64::from(round_trip(inspector, &table, &flat));
    }
    if [shapes, derivations, round_trips].contains(&0) {
        return Err("a kind of proof did not occur".to_string());
    }
    Ok(format!(
        "{} calls: {} proofs in foreign shapes, {} converted derivations, {} round trips to the same bytes",
        with_commas(inspector.tally.cases),
        with_commas(shapes),
        with_commas(derivations),
        with_commas(round_trips)
    ))
}

/// A proof in another shape is accepted with the counts of the flat form, which it has, too.
fn same_in_another_shape(inspector: &mut Inspector, table: &[u8], shape: &[u8], flat: &[u8]) {
    let case = Case::new(Entry::Check, table, shape);
    let (answer, _) = inspector.call(&case);
    let holds = answer.number == 0 && Counts::answered(answer) == Counts::of_flat(flat);
    inspector.demand(holds, &case, "another shape of the proof has other counts");
    let case = Case::new(Entry::Flatten, table, shape);
    let (answer, same) = inspector.call(&case);
    let holds = answer.number == 0 && same == flat;
    inspector.demand(holds, &case, "another shape of the proof has another flat form");
}

/// Accepted proofs of some size, the paper's and a blank one, which the engine never writes, among them.
pub fn accepted_proofs(seed: u64, count: usize) -> Vec<(Vec<u8>, Vec<u8>)> {
    let mut proofs = examples::proofs();
    proofs.push((examples::table_a(), Vec::new()));
    let random = &mut Random::new(seed);
    while proofs.len() < count {
        let table = RandomTable::make(random, Size::Small);
        let proof = random_proof(random, &table);
        proofs.push((table.bytes(), proof));
    }
    proofs.retain(|(table, proof)| second::engine::check(table, proof).is_ok());
    proofs
}

/// A derivation is right, is written back, and the proof is accepted, has the same
/// counts and flattens to the same bytes.
fn round_trip(inspector: &mut Inspector, table: &[u8], flat: &[u8]) -> bool {
    let counts = Counts::of_flat(flat);
    let case = Case::new(Entry::CheckFlat, table, flat);
    let (right, _) = inspector.call(&case);
    let holds = right.number == 0 && Counts::answered(right) == counts;
    inspector.demand(holds, &case, "the derivation is not right with the counts of its entries");
    let case = Case::new(Entry::WriteProof, table, flat);
    let (written, proof) = inspector.call(&case);
    if written.number != 0 {
        // Over 2,048 entries are right, but not written back.
        inspector.demand(written.number == 28, &case, "a right derivation was not written back");
        return false;
    }
    let (accepted, _) = inspector.call_with_room(Entry::Check, table, &proof);
    let (_, again) = inspector.call_with_room(Entry::Flatten, table, &proof);
    let entries = right.uses + right.open;
    let fields = if entries == 0 { 1 } else { 2 * entries - 1 };
    let same_counts = accepted.fields == fields && Counts::answered(accepted) == counts;
    let holds = accepted.number == 0 && same_counts && again == flat;
    inspector.demand(holds, &case, "the derivation did not come back from the proof written from it");
    holds
}

/// The same proof as other provers would write it. None of the changes moves a
/// use or an open leaf, so all have the same flat form.
fn other_shapes(proof: &Parts) -> Vec<Vec<u8>> {
    let changes: [fn(Tree) -> Tree; 6] =
        [leaning_left, leaning_right, padded_in_front, padded_behind, padded_with_empty, labelled];
    let mut shapes: Vec<Tree> = changes.iter().map(|change| proof.term.rebuilt(&mut |term| change(term))).collect();
    // All of them on top of each other, as long as the file stays within its limit.
    let mut all = proof.term.clone();
    for change in changes {
        all = all.rebuilt(&mut |term| change(term));
        if all.fields() > 4_096 {
            break;
        }
        shapes.push(all.clone());
    }
    shapes.into_iter().filter(|term| term.fields() <= 4_096).map(|term| proof.with(term).proof()).collect()
}

/// a ⊗ (b ⊗ c) becomes (a ⊗ b) ⊗ c, and sequences likewise.
fn leaning_left(term: Tree) -> Tree {
    match term {
        Tree::Tensor(first, rest) => match *rest {
            Tree::Tensor(second, third) => tensor(tensor(*first, *second), *third),
            other => tensor(*first, other),
        },
        Tree::Sequence(first, rest) => match *rest {
            Tree::Sequence(second, third) => sequence(sequence(*first, *second), *third),
            other => sequence(*first, other),
        },
        other => other,
    }
}

fn leaning_right(term: Tree) -> Tree {
    match term {
        Tree::Tensor(front, third) => match *front {
            Tree::Tensor(first, second) => tensor(*first, tensor(*second, *third)),
            other => tensor(other, *third),
        },
        Tree::Sequence(front, third) => match *front {
            Tree::Sequence(first, second) => sequence(*first, sequence(*second, *third)),
            other => sequence(other, *third),
        },
        other => other,
    }
}

/// As many ids side by side as a term takes goals; empty for none.
fn ids(count: usize) -> Tree {
    (1..count).fold(if count == 0 { Tree::Empty } else { Tree::Id }, |others, _| tensor(Tree::Id, others))
}

fn padded_in_front(term: Tree) -> Tree {
    match term {
        Tree::Atomic(_) | Tree::Tensor(_, _) => sequence(ids(term.arity()), term),
        other => other,
    }
}

/// An id has one goal before and after, an empty none, so more may follow.
fn padded_behind(term: Tree) -> Tree {
    match term {
        Tree::Id => sequence(Tree::Id, sequence(Tree::Id, Tree::Id)),
        Tree::Empty => sequence(Tree::Empty, tensor(Tree::Empty, Tree::Empty)),
        other => other,
    }
}

fn padded_with_empty(term: Tree) -> Tree {
    match term {
        Tree::Atomic(name) if name % 2 == 0 => tensor(Tree::Empty, term),
        Tree::Atomic(_) | Tree::Sequence(_, _) => tensor(term, Tree::Empty),
        other => other,
    }
}

fn labelled(term: Tree) -> Tree {
    if term.arity() == 1 {
        return label(term.fields() as u16, term);
    }
    term
}

/// Derivations that the other prover found, some with open leaves.
fn converted_derivations(count: usize) -> Vec<(Vec<u8>, Vec<u8>)> {
    let random = &mut Random::new(500);
    let mut found = Vec::new();
    while found.len() < count {
        let size = if random.chance(10) { Size::Large } else { Size::Small };
        let table = RandomTable::make(random, size);
        let assumed: Vec<u16> = table.goals.iter().copied().filter(|_| random.chance(30)).collect();
        let derivation = Derivation::saturate(&table, &assumed);
        let roots = derivation.settled_of(&table.random_goals(random));
        let flat = derivation.flat_file(&roots, 4_000).filter(|_| !roots.is_empty() && roots.len() <= 256);
        let readable = flat.filter(|flat| second::engine::check_flat(&table.bytes(), flat).is_ok());
        found.extend(readable.map(|flat| (table.bytes(), flat)));
    }
    found
}
