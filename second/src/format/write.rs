//! "When a field is written, the contents are written behind the three header
//! bytes, whose length then matches them."

use super::tags::Tag;
use crate::names::{Goal, Label, RuleName, TacticNo};

/// A field of a hiproof to be written. A hiproof is a list of these in byte
/// order: a field, then its inner terms, left first.
#[derive(Clone, Copy, PartialEq, Eq, Debug)]
pub enum HiproofField {
    Atomic(RuleName),
    Id,
    Label(Label),
    Sequence,
    Tensor,
    Empty,
}

impl HiproofField {
    fn tag(self) -> Tag {
        match self {
            HiproofField::Atomic(_) => Tag::Atomic,
            HiproofField::Id => Tag::Id,
            HiproofField::Label(_) => Tag::Label,
            HiproofField::Sequence => Tag::Sequence,
            HiproofField::Tensor => Tag::Tensor,
            HiproofField::Empty => Tag::Empty,
        }
    }

    /// The value in front of the inner terms.
    fn value(self) -> Option<u16> {
        match self {
            HiproofField::Atomic(RuleName(value)) | HiproofField::Label(Label(value)) => Some(value),
            _ => None,
        }
    }
}

/// A whole proof file.
pub fn proof_file(goals: &[Goal], hiproof: &[HiproofField], remaining: &[Goal]) -> Vec<u8> {
    let mut bytes = Vec::with_capacity(6 + 5 * hiproof.len() + 2 * (goals.len() + remaining.len()));
    write_goal_list(goals, &mut bytes);
    write_hiproof(hiproof, &mut bytes);
    write_goal_list(remaining, &mut bytes);
    bytes
}

pub fn write_goal_list(goals: &[Goal], bytes: &mut Vec<u8>) {
    write_header(Tag::GoalList, 2 * goals.len(), bytes);
    for goal in goals {
        bytes.extend(goal.0.to_be_bytes());
    }
}

pub fn write_use(name: RuleName, goal: Goal, bytes: &mut Vec<u8>) {
    write_header(Tag::Use, 4, bytes);
    bytes.extend(name.0.to_be_bytes());
    bytes.extend(goal.0.to_be_bytes());
}

pub fn write_open(goal: Goal, bytes: &mut Vec<u8>) {
    write_header(Tag::Open, 2, bytes);
    bytes.extend(goal.0.to_be_bytes());
}

/// A definition of a term that is given as its bytes.
pub fn write_definition(tactic: TacticNo, term: &[u8], bytes: &mut Vec<u8>) {
    write_header(Tag::Definition, 2 + term.len(), bytes);
    bytes.extend(tactic.0.to_be_bytes());
    bytes.extend(term);
}

fn write_header(tag: Tag, length: usize, bytes: &mut Vec<u8>) {
    bytes.push(tag.byte());
    bytes.extend((length as u16).to_be_bytes());
}

/// Whole hiproofs, one behind the other; mostly it is one.
pub fn write_hiproof(hiproof: &[HiproofField], bytes: &mut Vec<u8>) {
    let lengths = contents_lengths(hiproof);
    for (field, length) in hiproof.iter().zip(lengths) {
        write_header(field.tag(), length, bytes);
        if let Some(value) = field.value() {
            bytes.extend(value.to_be_bytes());
        }
    }
}

/// The contents length of each field, found from the last field to the first:
/// the inner terms of a field are then the last ones that are complete.
fn contents_lengths(hiproof: &[HiproofField]) -> Vec<usize> {
    let mut lengths = vec![0; hiproof.len()];
    let mut complete_terms: Vec<usize> = Vec::new();
    for (number, field) in hiproof.iter().enumerate().rev() {
        let mut length = if field.value().is_some() { 2 } else { 0 };
        for _ in 0..field.tag().inner_terms() {
            length += complete_terms.pop().unwrap_or(0);
        }
        lengths[number] = length;
        complete_terms.push(3 + length);
    }
    lengths
}
