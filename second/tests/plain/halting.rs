//! P1 once more: a run by plain recursion. A halt leaves through all the terms that
//! wait, innermost first, and each puts itself in front of what the inner ones said.

use super::{Placed, Table, TacticArities, Term};
use second::generate::build;
use second::limits::STATE_SIZE;

/// A run with a budget, up to where it halts, and the count of the fields held (P12).
pub struct Run<'a> {
    pub table: &'a Table,
    pub arities: TacticArities,
    pub budget: u32,
    pub steps: u32,
    pub held: usize,
}

/// Why a run stops before its term has succeeded or failed.
pub enum Stop {
    /// 22.
    ListTooLong,
    /// 40.
    TooManyFields,
    /// 24.
    Halted(Halt),
}

/// A run that has halted, as seen from one of its terms.
pub struct Halt {
    /// The fields finished inside the term.
    finished: Vec<u8>,
    /// The entries from the term on, innermost first, as the run is left.
    entries: Vec<Vec<u8>>,
    /// The end of the term's list that the entries hold.
    inside: Vec<u16>,
}

/// The stages of a waiting term.
const TO_BEGIN: u8 = 0;
const LABEL: u8 = 1;
const SEQUENCE_LEFT: u8 = 2;
const SEQUENCE_RIGHT: u8 = 3;
const TENSOR_LEFT: u8 = 4;
const TENSOR_RIGHT: u8 = 5;
const ALTERNATION: u8 = 6;

/// A term and the file it stands in: 0 the table, 1 the job.
#[derive(Clone, Copy)]
pub struct InFile<'a> {
    pub file: u8,
    pub term: &'a Placed,
}

impl<'a> InFile<'a> {
    fn inner(self, term: &'a Placed) -> InFile<'a> {
        InFile { term, ..self }
    }

    fn entry(self, stage: u8, goals: &[u16]) -> Vec<u8> {
        let numbers = build::values(&[self.term.place as u16, goals.len() as u16]);
        [vec![stage, self.file], numbers, build::values(goals)].concat()
    }
}

impl Stop {
    /// With an entry for the term around, which waits at that stage.
    fn in_front(self, entry: Vec<u8>) -> Stop {
        self.with(|halt| halt.entries.push(entry))
    }

    fn with(mut self, change: impl FnOnce(&mut Halt)) -> Stop {
        if let Stop::Halted(halt) = &mut self {
            change(halt);
        }
        self
    }
}

/// A hiproof's bytes and the goals given; None if the term fails.
type Evaluated = Result<Option<(Vec<u8>, Vec<u16>)>, Stop>;

impl Halt {
    /// All the bytes of the saved state.
    pub fn state(&self, steps: u32) -> Vec<u8> {
        let mut bytes = build::values(&[steps as u16, self.finished.len() as u16]);
        bytes.extend(&self.finished);
        bytes.extend(build::values(&[self.entries.len() as u16]));
        bytes.extend(self.entries.iter().rev().flatten());
        assert!(bytes.len() <= STATE_SIZE);
        bytes.resize(STATE_SIZE, 0);
        bytes
    }
}

impl<'a> Run<'a> {
    pub fn new(table: &'a Table, budget: u32) -> Run<'a> {
        Run { table, arities: TacticArities::of(table), budget, steps: 0, held: 0 }
    }

    fn finished(&mut self, given: Option<(Vec<u8>, Vec<u16>)>) -> Evaluated {
        self.held += usize::from(given.is_some());
        if self.held > 4_096 {
            return Err(Stop::TooManyFields);
        }
        Ok(given)
    }

    pub fn evaluate(&mut self, at: InFile<'a>, goals: &[u16]) -> Evaluated {
        if self.steps == self.budget {
            let entries = vec![at.entry(TO_BEGIN, goals)];
            return Err(Stop::Halted(Halt { finished: vec![], entries, inside: goals.to_vec() }));
        }
        self.steps += 1;
        match (&at.term.term, goals) {
            (Term::Atomic(name), &[goal]) => {
                let premises = self.table.premises(*name, goal);
                self.finished(premises.map(|premises| (build::atomic(*name), premises.clone())))
            }
            (Term::Id, [_]) => self.finished(Some((build::id(), goals.to_vec()))),
            (Term::Empty, []) => self.finished(Some((build::empty(), vec![]))),
            (Term::Assert(own), &[goal]) if *own == goal => self.finished(Some((build::id(), goals.to_vec()))),
            (Term::Label(label, inner), [_]) => {
                let inner = at.inner(inner);
                let evaluated = self.evaluate(inner, goals).map_err(|stop| stop.in_front(inner.entry(LABEL, &[])))?;
                self.finished(evaluated.map(|(hiproof, given)| (build::label(*label, &hiproof), given)))
            }
            (Term::Sequence(left, right), _) => self.sequence(at.inner(left), at.inner(right), goals),
            (Term::Tensor(left, right), _) => self.tensor(at.inner(left), at.inner(right), goals),
            (Term::Alternation(left, right), _) => self.alternation(at.inner(left), at.inner(right), goals),
            (Term::Defined(tactic), _) => match self.table.body(*tactic) {
                Some(body) => self.evaluate(InFile { file: 0, term: body }, goals),
                None => Ok(None),
            },
            _ => Ok(None),
        }
    }

    fn sequence(&mut self, left: InFile<'a>, right: InFile<'a>, goals: &[u16]) -> Evaluated {
        let first = self.evaluate(left, goals).map_err(|stop| stop.in_front(right.entry(SEQUENCE_LEFT, &[])))?;
        let Some((first, between)) = first else {
            return Ok(None);
        };
        let second = self.evaluate(right, &between).map_err(|stop| {
            // What the right term began on is no part of the sequence's own list.
            let outside = stop.with(|halt| {
                halt.finished.splice(0..0, first.clone());
                halt.inside.clear();
            });
            outside.in_front(right.entry(SEQUENCE_RIGHT, &[]))
        })?;
        self.finished(second.map(|(second, given)| (build::sequence(&first, &second), given)))
    }

    fn tensor(&mut self, left: InFile<'a>, right: InFile<'a>, goals: &[u16]) -> Evaluated {
        let Some(arity) = self.arities.arity(left.term).filter(|&arity| arity <= goals.len()) else {
            return Ok(None);
        };
        let (first, others) = goals.split_at(arity);
        let left_proof = self.evaluate(left, first).map_err(|stop| {
            let outside = stop.with(|halt| halt.inside.extend(others));
            outside.in_front(right.entry(TENSOR_LEFT, others))
        })?;
        let Some((left_proof, mut given)) = left_proof else {
            return Ok(None);
        };
        let right_proof = self.evaluate(right, others).map_err(|stop| {
            let outside = stop.with(|halt| drop(halt.finished.splice(0..0, left_proof.clone())));
            outside.in_front(right.entry(TENSOR_RIGHT, &given))
        })?;
        let Some((right_proof, right_given)) = right_proof else {
            return Ok(None);
        };
        given.extend(right_given);
        if given.len() > 256 {
            return Err(Stop::ListTooLong);
        }
        self.finished(Some((build::tensor(&left_proof, &right_proof), given)))
    }

    fn alternation(&mut self, left: InFile<'a>, right: InFile<'a>, goals: &[u16]) -> Evaluated {
        let held_before = self.held;
        let by_left = self.evaluate(left, goals).map_err(|stop| {
            let mut own = goals.to_vec();
            let outside = stop.with(|halt| {
                assert!(goals.ends_with(&halt.inside));
                own.truncate(goals.len() - halt.inside.len());
                halt.inside = goals.to_vec();
            });
            outside.in_front(right.entry(ALTERNATION, &own))
        })?;
        match by_left {
            Some(success) => Ok(Some(success)),
            None => {
                self.held = held_before;
                self.evaluate(right, goals)
            }
        }
    }
}
