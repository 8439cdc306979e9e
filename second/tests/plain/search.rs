//! P13 once more, as the list of everything that happens: a term's events are its
//! beginning, then those of its inner terms, and its evaluations among them. The
//! lists are lazy, since most of them are far too long to be made.

use super::{give, hiproof_arity, Placed, Table, Term};
use second::generate::build;
use std::iter::{empty, once};

pub enum Event {
    /// A term begins: one step.
    Begun,
    /// An evaluation: the hiproof's bytes and the goals given.
    Evaluated(Vec<u8>, Vec<u16>),
}

type Events<'a> = Box<dyn Iterator<Item = Event> + 'a>;

pub struct Definition<'a> {
    pub table: &'a Table,
    pub height: usize,
}

/// How a search ends: the number, the steps, and of a success the proof.
#[derive(PartialEq, Debug)]
pub struct Ending {
    pub number: u32,
    pub steps: u32,
    pub found: Option<(Vec<u8>, Vec<u16>)>,
}

impl<'a> Definition<'a> {
    /// The search as far as the budget allows.
    pub fn search(&'a self, term: &'a Placed, goals: &[u16], budget: u32) -> Ending {
        let mut steps = 0;
        for event in self.events(term, goals.to_vec(), 1) {
            match event {
                Event::Begun if steps == budget => return Ending { number: 24, steps, found: None },
                Event::Begun => steps += 1,
                Event::Evaluated(hiproof, given) => return Ending { number: 0, steps, found: Some((hiproof, given)) },
            }
        }
        Ending { number: 41, steps, found: None }
    }

    /// "None is begun below depth h."
    fn events(&'a self, term: &'a Placed, goals: Vec<u16>, depth: usize) -> Events<'a> {
        if depth > self.height {
            return Box::new(empty());
        }
        Box::new(once(Event::Begun).chain(self.behind_the_beginning(&term.term, goals, depth + 1)))
    }

    fn behind_the_beginning(&'a self, term: &'a Term, goals: Vec<u16>, depth: usize) -> Events<'a> {
        match (term, &goals[..]) {
            (Term::Atomic(name), &[goal]) => match self.table.premises(*name, goal) {
                Some(premises) => evaluated(build::atomic(*name), premises.clone()),
                None => Box::new(empty()),
            },
            (Term::Id, [_]) => evaluated(build::id(), goals),
            (Term::Assert(own), [goal]) if own == goal => evaluated(build::id(), goals),
            (Term::Empty, []) => evaluated(build::empty(), goals),
            (Term::Label(label, inner), [_]) => for_each(self.events(inner, goals, depth), move |hiproof, given| {
                evaluated(build::label(*label, &hiproof), given)
            }),
            (Term::Sequence(left, right), _) => self.sequence(left, right, goals, depth),
            (Term::Tensor(left, right), _) => Box::new(
                (0..=goals.len()).flat_map(move |first| self.tensor(left, right, goals.split_at(first), depth)),
            ),
            (Term::Alternation(left, right), _) => {
                Box::new([left, right].into_iter().flat_map(move |side| self.events(side, goals.clone(), depth)))
            }
            (Term::Defined(tactic), _) => match self.table.body(*tactic) {
                Some(body) => self.events(body, goals, depth),
                None => Box::new(empty()),
            },
            _ => Box::new(empty()),
        }
    }

    fn sequence(&'a self, left: &'a Placed, right: &'a Placed, goals: Vec<u16>, depth: usize) -> Events<'a> {
        for_each(self.events(left, goals, depth), move |first, between| {
            for_each(self.events(right, between, depth), move |second, given| {
                evaluated(build::sequence(&first, &second), given)
            })
        })
    }

    fn tensor(
        &'a self,
        left: &'a Placed,
        right: &'a Placed,
        (first, others): (&[u16], &[u16]),
        depth: usize,
    ) -> Events<'a> {
        let others = others.to_vec();
        for_each(self.events(left, first.to_vec(), depth), move |left_proof, left_gave| {
            for_each(self.events(right, others.clone(), depth), move |right_proof, right_gave| {
                let joined = [left_gave.clone(), right_gave].concat();
                if joined.len() > 256 {
                    return Box::new(empty());
                }
                evaluated(build::tensor(&left_proof, &right_proof), joined)
            })
        })
    }
}

fn evaluated<'a>(hiproof: Vec<u8>, given: Vec<u16>) -> Events<'a> {
    Box::new(once(Event::Evaluated(hiproof, given)))
}

/// The events, with each evaluation's place taken by what comes of it.
fn for_each<'a>(events: Events<'a>, next: impl Fn(Vec<u8>, Vec<u16>) -> Events<'a> + 'a) -> Events<'a> {
    Box::new(events.flat_map(move |event| match event {
        Event::Begun => Box::new(once(Event::Begun)),
        Event::Evaluated(hiproof, given) => next(hiproof, given),
    }))
}

/// Whether Fig. 3 derives that the term evaluates to the hiproof on these goals,
/// by a derivation at most `height` rules high. What lies between the parts of a
/// hiproof is what they give and take in the walk (the paper's Theorem 1).
pub fn derives(table: &Table, height: usize, goals: &[u16], term: &Placed, hiproof: &Placed) -> bool {
    if height == 0 {
        return false;
    }
    let inner = |goals: &[u16], term: &Placed, hiproof: &Placed| derives(table, height - 1, goals, term, hiproof);
    match (&term.term, &hiproof.term, goals) {
        (Term::Alternation(left, right), _, _) => inner(goals, left, hiproof) || inner(goals, right, hiproof),
        (Term::Defined(tactic), _, _) => table.body(*tactic).is_some_and(|body| inner(goals, body, hiproof)),
        (Term::Atomic(name), Term::Atomic(left), &[goal]) => name == left && table.premises(*name, goal).is_some(),
        (Term::Id, Term::Id, [_]) | (Term::Empty, Term::Empty, []) => true,
        (Term::Assert(own), Term::Id, [goal]) => own == goal,
        (Term::Label(label, body), Term::Label(left, box_of), [_]) => label == left && inner(goals, body, box_of),
        (Term::Sequence(first, second), Term::Sequence(left, right), _) => {
            let between = give(table, left, goals, &mut Vec::new());
            inner(goals, first, left) && between.is_ok_and(|between| inner(&between, second, right))
        }
        (Term::Tensor(first, second), Term::Tensor(left, right), _) if hiproof_arity(left) <= goals.len() => {
            let (taken, others) = goals.split_at(hiproof_arity(left));
            inner(taken, first, left) && inner(others, second, right)
        }
        _ => false,
    }
}
