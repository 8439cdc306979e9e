//! P5 of document 02 as plain definitions: which term is the first that cannot
//! take its goals, and then which number it has by its kind and its goals.

use super::{hiproof_arity, Placed, Table, Term};

/// Why a walk ends early.
pub enum Ending<'a> {
    /// The first term that cannot take its goals, and these goals.
    CannotTake(&'a Placed, Vec<u16>),
    /// The tensor whose joined list has more than 256 goals.
    JoinedTooLong(&'a Placed),
}

/// Whether a term, taken by itself, can take these goals: document 01, "A term
/// takes a goal list and gives one".
pub fn can_take(table: &Table, term: &Placed, goals: &[u16]) -> bool {
    match &term.term {
        Term::Atomic(name) => goals.len() == 1 && table.premises(*name, goals[0]).is_some(),
        Term::Id | Term::Label(_, _) => goals.len() == 1,
        Term::Empty => goals.is_empty(),
        Term::Tensor(left, _) => goals.len() >= hiproof_arity(left),
        _ => true,
    }
}

/// "Left terms go first." What a term gives, or how the walk ends.
pub fn walk<'a>(table: &Table, term: &'a Placed, goals: &[u16]) -> Result<Vec<u16>, Ending<'a>> {
    if !can_take(table, term, goals) {
        return Err(Ending::CannotTake(term, goals.to_vec()));
    }
    match &term.term {
        Term::Atomic(name) => Ok(table.premises(*name, goals[0]).expect("a rule").clone()),
        Term::Label(_, inner) => walk(table, inner, goals),
        Term::Sequence(left, right) => walk(table, right, &walk(table, left, goals)?),
        Term::Tensor(left, right) => {
            let (first, others) = goals.split_at(hiproof_arity(left));
            let joined = [walk(table, left, first)?, walk(table, right, others)?].concat();
            if joined.len() > 256 {
                return Err(Ending::JoinedTooLong(term));
            }
            Ok(joined)
        }
        _ => Ok(goals.to_vec()),
    }
}

/// "20 stays for one goal without a rule of that name." "34, an atomic, id or label
/// without exactly one goal, or an empty with any; 35, a tensor with fewer goals
/// than its left part's arity".
pub fn reason(term: &Placed, goals: &[u16]) -> u32 {
    match (&term.term, goals.len()) {
        (Term::Tensor(_, _), _) => 35,
        (Term::Atomic(_), 1) => 20,
        _ => 34,
    }
}

impl Ending<'_> {
    pub fn number_and_place(&self) -> (u32, usize) {
        match self {
            Ending::CannotTake(term, goals) => (reason(term, goals), term.place),
            Ending::JoinedTooLong(term) => (22, term.place),
        }
    }
}
