//! Terms as trees, so that a file can be made again in another shape.

use second::generate::build;

#[derive(Clone, PartialEq, Eq, Debug)]
pub enum Tree {
    Atomic(u16),
    Id,
    Empty,
    Assert(u16),
    Defined(u16),
    Label(u16, Box<Tree>),
    Sequence(Box<Tree>, Box<Tree>),
    Tensor(Box<Tree>, Box<Tree>),
    Alternation(Box<Tree>, Box<Tree>),
}

use Tree::*;

/// A proof or a job taken apart; a job has no remaining goals.
#[derive(Clone)]
pub struct Parts {
    pub goals: Vec<u16>,
    pub term: Tree,
    pub remaining: Vec<u16>,
}

fn value(bytes: &[u8], at: usize) -> u16 {
    u16::from_be_bytes([bytes[at], bytes[at + 1]])
}

fn end_of(bytes: &[u8], place: usize) -> usize {
    place + 3 + usize::from(value(bytes, place + 1))
}

fn goals_at(bytes: &[u8], place: usize) -> Vec<u16> {
    (place + 3..end_of(bytes, place)).step_by(2).map(|at| value(bytes, at)).collect()
}

impl Parts {
    /// Takes a job or proof apart that is known to read; no bytes are a blank proof.
    pub fn of(bytes: &[u8]) -> Parts {
        if bytes.is_empty() {
            return Parts { goals: Vec::new(), term: Empty, remaining: Vec::new() };
        }
        let term = end_of(bytes, 0);
        let behind = end_of(bytes, term);
        let remaining = if behind < bytes.len() { goals_at(bytes, behind) } else { Vec::new() };
        Parts { goals: goals_at(bytes, 0), term: Tree::at(bytes, term), remaining }
    }

    pub fn proof(&self) -> Vec<u8> {
        build::proof(&self.goals, &self.term.bytes(), &self.remaining)
    }

    pub fn job(&self) -> Vec<u8> {
        build::job(&self.goals, &self.term.bytes())
    }

    /// The same goals around another term.
    pub fn with(&self, term: Tree) -> Parts {
        Parts { goals: self.goals.clone(), term, remaining: self.remaining.clone() }
    }
}

impl Tree {
    fn at(bytes: &[u8], place: usize) -> Tree {
        let two = |join: fn(Box<Tree>, Box<Tree>) -> Tree| {
            let left = Tree::at(bytes, place + 3);
            join(Box::new(left), Box::new(Tree::at(bytes, end_of(bytes, place + 3))))
        };
        match bytes[place] {
            16 => Atomic(value(bytes, place + 3)),
            17 => Id,
            18 => Label(value(bytes, place + 3), Box::new(Tree::at(bytes, place + 5))),
            19 => two(Sequence),
            20 => two(Tensor),
            22 => two(Alternation),
            23 => Assert(value(bytes, place + 3)),
            24 => Defined(value(bytes, place + 3)),
            _ => Empty,
        }
    }

    pub fn bytes(&self) -> Vec<u8> {
        match self {
            Atomic(name) => build::atomic(*name),
            Id => build::id(),
            Empty => build::empty(),
            Assert(goal) => build::assert_goal(*goal),
            Defined(tactic) => build::defined(*tactic),
            Label(label, inner) => build::label(*label, &inner.bytes()),
            Sequence(left, right) => build::sequence(&left.bytes(), &right.bytes()),
            Tensor(left, right) => build::tensor(&left.bytes(), &right.bytes()),
            Alternation(left, right) => build::alternation(&left.bytes(), &right.bytes()),
        }
    }

    /// How many term fields the term has.
    pub fn fields(&self) -> usize {
        1 + self.inner().iter().map(|inner| inner.fields()).sum::<usize>()
    }

    pub fn labels(&self) -> usize {
        usize::from(matches!(self, Label(_, _))) + self.inner().iter().map(|inner| inner.labels()).sum::<usize>()
    }

    fn inner(&self) -> Vec<&Tree> {
        match self {
            Label(_, inner) => vec![inner],
            Sequence(left, right) | Tensor(left, right) | Alternation(left, right) => vec![left, right],
            _ => Vec::new(),
        }
    }

    /// Input arity of a hiproof.
    pub fn arity(&self) -> usize {
        match self {
            Empty => 0,
            Sequence(left, _) => left.arity(),
            Tensor(left, right) => left.arity() + right.arity(),
            _ => 1,
        }
    }

    /// How many goals a hiproof gives for so many, or else the number of the
    /// refusal for the first miscount in its walk: 34, or 35 at a tensor. Counts
    /// need no goals, since all rules of a name have as many premises; a rule
    /// that is missing for its goal (20) is not seen.
    pub fn counted(&self, goals: usize, premises: &dyn Fn(u16) -> usize) -> Result<usize, u32> {
        match self {
            Empty if goals == 0 => Ok(0),
            Sequence(left, right) => right.counted(left.counted(goals, premises)?, premises),
            Tensor(left, _) if goals < left.arity() => Err(35),
            Tensor(left, right) => {
                let given = left.counted(left.arity(), premises)?;
                Ok(given + right.counted(goals - left.arity(), premises)?)
            }
            Atomic(name) if goals == 1 => Ok(premises(*name)),
            Id if goals == 1 => Ok(1),
            Label(_, inner) if goals == 1 => inner.counted(1, premises),
            _ => Err(34),
        }
    }

    /// The term with `change` made to every subterm, inner ones first.
    pub fn rebuilt(&self, change: &mut dyn FnMut(Tree) -> Tree) -> Tree {
        let whole = match self {
            Label(label, inner) => Label(*label, Box::new(inner.rebuilt(change))),
            Sequence(left, right) => Sequence(Box::new(left.rebuilt(change)), Box::new(right.rebuilt(change))),
            Tensor(left, right) => Tensor(Box::new(left.rebuilt(change)), Box::new(right.rebuilt(change))),
            Alternation(left, right) => Alternation(Box::new(left.rebuilt(change)), Box::new(right.rebuilt(change))),
            leaf => leaf.clone(),
        };
        change(whole)
    }

    /// The term with `change` made to the subterm of that number alone, counted
    /// as `rebuilt` comes to them.
    pub fn changed_at(&self, number: usize, change: impl Fn(Tree) -> Tree) -> Tree {
        let mut count = 0;
        self.rebuilt(&mut |subterm| {
            count += 1;
            if count == number + 1 {
                change(subterm)
            } else {
                subterm
            }
        })
    }

    /// "Dropping every label puts each label's inner term in the label's place."
    pub fn without_labels(&self) -> Tree {
        self.rebuilt(&mut |subterm| match subterm {
            Label(_, inner) => *inner,
            other => other,
        })
    }
}

pub fn sequence(left: Tree, right: Tree) -> Tree {
    Sequence(Box::new(left), Box::new(right))
}

pub fn tensor(left: Tree, right: Tree) -> Tree {
    Tensor(Box::new(left), Box::new(right))
}

pub fn alternation(left: Tree, right: Tree) -> Tree {
    Alternation(Box::new(left), Box::new(right))
}

pub fn label(number: u16, inner: Tree) -> Tree {
    Label(number, Box::new(inner))
}

#[cfg(test)]
mod tests {
    use super::*;
    use second::generate::examples;

    #[test]
    fn files_are_taken_apart_and_made_again() {
        let blank = build::proof(&[], &build::empty(), &[]);
        assert_eq!(Parts::of(&[]).proof(), blank);
        for (_, proof) in examples::proofs().into_iter().filter(|(_, proof)| !proof.is_empty()) {
            assert_eq!(Parts::of(&proof).proof(), proof);
        }
        for case in examples::run_cases() {
            assert_eq!(Parts::of(&case.other).job(), case.other);
        }
    }

    #[test]
    fn miscounts_are_told_apart() {
        let (two, none) = (|_| 2, |_| 0);
        let pair = tensor(Id, Id);
        assert_eq!(pair.counted(2, &none), Ok(2));
        assert_eq!([0, 1, 3].map(|goals| pair.counted(goals, &none)), [Err(35), Err(34), Err(34)]);
        assert_eq!(tensor(pair.clone(), Id).counted(1, &none), Err(35));
        assert_eq!([0, 1].map(|goals| label(1, Empty).counted(goals, &none)), [Err(34), Err(34)]);
        assert_eq!(sequence(Atomic(1), pair.clone()).counted(1, &two), Ok(2));
        assert_eq!(sequence(Atomic(1), pair).counted(1, &none), Err(35));
        assert_eq!([0, 2].map(|goals| Atomic(1).counted(goals, &two)), [Err(34), Err(34)]);
    }

    #[test]
    fn every_subterm_can_be_reached() {
        let parts = Parts::of(&examples::first_proof());
        let fields = parts.term.fields();
        assert_eq!((fields, parts.term.labels()), (11, 2));
        for number in 0..fields {
            assert!(parts.term.changed_at(number, |_| Empty).labels() <= 2);
            assert_ne!(parts.term.changed_at(number, |inner| label(9, inner)), parts.term);
        }
        assert_eq!(parts.term.changed_at(fields, |_| Empty), parts.term);
        assert_eq!(parts.term.without_labels().fields(), 9);
    }
}
