//! Writing a proof from a right flat derivation.

use crate::format::flat::{Flat, FlatStep};
use crate::format::table::Table;
use crate::format::write::{proof_file, HiproofField};
use crate::names::{Goal, RuleName};

/// "the stated goals are the roots, the remaining ones those of the open leaves
/// in order, and the term is the whole forest".
pub fn proof_file_of(table: &Table, flat: &Flat) -> Vec<u8> {
    let remaining: Vec<Goal> =
        flat.entries.iter().filter(|entry| entry.step == FlatStep::Open).map(|entry| entry.goal).collect();
    proof_file(&flat.roots, &hiproof_of(table, flat), &remaining)
}

/// The entries stand depth first, left first, as the fields of the term do, so
/// the fields can be listed in one pass over the entries. `trees_to_come` holds,
/// for each forest that has begun, how many of its trees have not.
fn hiproof_of(table: &Table, flat: &Flat) -> Vec<HiproofField> {
    if flat.roots.is_empty() {
        // "no trees is empty"
        return vec![HiproofField::Empty];
    }
    let mut fields = Vec::with_capacity(2 * flat.entries.len());
    let mut trees_to_come = vec![flat.roots.len()];
    for entry in &flat.entries {
        begin_tree(&mut trees_to_come, &mut fields);
        match entry.step {
            FlatStep::Open => fields.push(HiproofField::Id),
            FlatStep::Use(name) => {
                let premises = table.look_up(name, entry.goal).map_or(0, |rule| rule.premises.len());
                write_use(name, premises, &mut trees_to_come, &mut fields);
            }
        }
    }
    fields
}

/// "one is itself, more is a tensor of the first and the others": a tree with
/// others behind it in its forest is the left part of a tensor.
fn begin_tree(trees_to_come: &mut Vec<usize>, fields: &mut Vec<HiproofField>) {
    match trees_to_come.pop() {
        Some(trees) if trees > 1 => {
            fields.push(HiproofField::Tensor);
            trees_to_come.push(trees - 1);
        }
        _ => {}
    }
}

/// "a use without premises is atomic; with premises it is a sequence of atomic
/// and the forest".
fn write_use(name: RuleName, premises: usize, trees_to_come: &mut Vec<usize>, fields: &mut Vec<HiproofField>) {
    if premises > 0 {
        fields.push(HiproofField::Sequence);
        trees_to_come.push(premises);
    }
    fields.push(HiproofField::Atomic(name));
}
