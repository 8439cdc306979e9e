//! "Arity of tactics".

use crate::format::table::Table;
use crate::format::terms::{Term, TermNumber, Terms};
use crate::limits::MOST_GOALS;
use crate::names::{NameMap, TacticNo};

/// The arity of every term of table and job, where there is one.
pub struct Arities {
    arities: Vec<Option<u16>>,
}

/// Who may get an arity when a term has got one.
struct Dependents {
    /// The term that a term is an inner term of.
    enclosing: Vec<Option<TermNumber>>,
    /// The tactic that a term is the body of.
    body_of: NameMap<u16, TacticNo>,
    /// The terms that name a tactic.
    mentions: NameMap<TacticNo, Vec<TermNumber>>,
}

impl Arities {
    pub fn of(&self, term: TermNumber) -> Option<usize> {
        self.arities[term.0 as usize].map(usize::from)
    }

    /// The least fixed point: "a defined tactic that of its body, if finitely
    /// many unfoldings give one. Otherwise there is none" (READINGS A45).
    ///
    /// A term gets its arity at most once, and then those that depend on it are
    /// looked at, so the work is linear in the number of terms.
    pub fn find(table: &Table, terms: &Terms) -> Arities {
        let dependents = Dependents::find(table, terms);
        let mut found = Arities { arities: vec![None; terms.count()] };
        let mut to_look_at: Vec<TermNumber> = terms.numbers().collect();
        while let Some(term) = to_look_at.pop() {
            if found.of(term).is_none() {
                if let Some(arity) = found.by_inner_terms(table, terms, term) {
                    found.arities[term.0 as usize] = Some(arity);
                    dependents.push_dependents_of(term, &mut to_look_at);
                }
            }
        }
        found
    }

    /// The arity that follows from those found so far. "label 1 whatever is
    /// inside; an alternation n if both sides have n"; "an arity over 256 counts
    /// as none".
    fn by_inner_terms(&self, table: &Table, terms: &Terms, term: TermNumber) -> Option<u16> {
        let known = |inner: TermNumber| self.arities[inner.0 as usize];
        match terms.get(term) {
            Term::Atomic(_) | Term::Id | Term::Label(_, _) | Term::Assert(_) => Some(1),
            Term::Empty => Some(0),
            Term::Sequence(left, _) => known(left),
            Term::Tensor(left, right) => {
                let sum = known(left)? + known(right)?;
                (usize::from(sum) <= MOST_GOALS).then_some(sum)
            }
            Term::Alternation(left, right) => {
                let arity = known(left)?;
                (known(right)? == arity).then_some(arity)
            }
            Term::DefinedTactic(tactic) => known(table.body(tactic)?),
        }
    }
}

impl Dependents {
    fn find(table: &Table, terms: &Terms) -> Dependents {
        let mut enclosing = vec![None; terms.count()];
        let mut mentions: NameMap<TacticNo, Vec<TermNumber>> = NameMap::default();
        for number in terms.numbers() {
            match terms.get(number) {
                Term::Label(_, inner) => enclosing[inner.0 as usize] = Some(number),
                Term::Sequence(left, right) | Term::Tensor(left, right) | Term::Alternation(left, right) => {
                    enclosing[left.0 as usize] = Some(number);
                    enclosing[right.0 as usize] = Some(number);
                }
                Term::DefinedTactic(tactic) => mentions.entry(tactic).or_default().push(number),
                Term::Atomic(_) | Term::Id | Term::Empty | Term::Assert(_) => {}
            }
        }
        // Term numbers of the table are below 4,096, so they fit 16 bits.
        let body_of = table.definitions().iter().map(|d| (d.body.0 as u16, d.tactic)).collect();
        Dependents { enclosing, body_of, mentions }
    }

    fn push_dependents_of(&self, term: TermNumber, to_look_at: &mut Vec<TermNumber>) {
        to_look_at.extend(self.enclosing[term.0 as usize]);
        let in_table = u16::try_from(term.0).ok();
        let tactic = in_table.and_then(|number| self.body_of.get(&number));
        if let Some(mentions) = tactic.and_then(|tactic| self.mentions.get(tactic)) {
            to_look_at.extend(mentions);
        }
    }
}
