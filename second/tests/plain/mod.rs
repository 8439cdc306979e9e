//! Document 01 once more, as plain recursive definitions over trees, without a
//! thought of speed or depth. The engine is compared with them on random files.
#![allow(dead_code)]

use second::generate::build;

pub mod halting;
pub mod notation;
pub mod proof_file;
pub mod reasons;
pub mod rules;
pub mod search;

pub enum Term {
    Atomic(u16),
    Id,
    Label(u16, Box<Placed>),
    Sequence(Box<Placed>, Box<Placed>),
    Tensor(Box<Placed>, Box<Placed>),
    Empty,
    Alternation(Box<Placed>, Box<Placed>),
    Assert(u16),
    Defined(u16),
}

/// A term and the offset of its tag.
pub struct Placed {
    pub place: usize,
    pub term: Term,
}

#[derive(Default)]
pub struct Table {
    pub rules: Vec<(u16, u16, Vec<u16>)>,
    pub definitions: Vec<(u16, Placed)>,
}

fn value(bytes: &[u8], at: usize) -> u16 {
    u16::from_be_bytes([bytes[at], bytes[at + 1]])
}

fn length(bytes: &[u8], place: usize) -> usize {
    usize::from(value(bytes, place + 1))
}

pub fn goals_at(bytes: &[u8], place: usize) -> Vec<u16> {
    (0..length(bytes, place) / 2).map(|number| value(bytes, place + 3 + 2 * number)).collect()
}

pub fn end_of(bytes: &[u8], place: usize) -> usize {
    place + 3 + length(bytes, place)
}

/// The term at a place of a file that is known to read.
pub fn term_at(bytes: &[u8], place: usize) -> Placed {
    let two = || {
        let left = term_at(bytes, place + 3);
        let right = term_at(bytes, end_of(bytes, place + 3));
        (Box::new(left), Box::new(right))
    };
    let term = match bytes[place] {
        16 => Term::Atomic(value(bytes, place + 3)),
        17 => Term::Id,
        18 => Term::Label(value(bytes, place + 3), Box::new(term_at(bytes, place + 5))),
        19 => {
            let (left, right) = two();
            Term::Sequence(left, right)
        }
        20 => {
            let (left, right) = two();
            Term::Tensor(left, right)
        }
        21 => Term::Empty,
        22 => {
            let (left, right) = two();
            Term::Alternation(left, right)
        }
        23 => Term::Assert(value(bytes, place + 3)),
        24 => Term::Defined(value(bytes, place + 3)),
        tag => panic!("tag {tag} in a file that reads"),
    };
    Placed { place, term }
}

impl Table {
    pub fn of(bytes: &[u8]) -> Table {
        let mut table = Table::default();
        let mut place = 0;
        while place < bytes.len() {
            if bytes[place] == 1 {
                let mut values = goals_at(bytes, place);
                let premises = values.split_off(2);
                table.rules.push((values[0], values[1], premises));
            } else {
                table.definitions.push((value(bytes, place + 3), term_at(bytes, place + 5)));
            }
            place = end_of(bytes, place);
        }
        table
    }

    pub fn premises(&self, name: u16, goal: u16) -> Option<&Vec<u16>> {
        self.rules.iter().find(|rule| (rule.0, rule.1) == (name, goal)).map(|rule| &rule.2)
    }

    pub fn body(&self, tactic: u16) -> Option<&Placed> {
        self.definitions.iter().find(|one| one.0 == tactic).map(|one| &one.1)
    }
}

pub fn inner_terms(term: &Placed) -> Vec<&Placed> {
    match &term.term {
        Term::Label(_, inner) => vec![inner],
        Term::Sequence(left, right) | Term::Tensor(left, right) | Term::Alternation(left, right) => vec![left, right],
        Term::Atomic(_) | Term::Id | Term::Empty | Term::Assert(_) | Term::Defined(_) => vec![],
    }
}

/// P3: "the number of term fields" in a term, its own among them.
pub fn term_fields(term: &Placed) -> usize {
    match &term.term {
        Term::Label(_, inner) => 1 + term_fields(inner),
        Term::Sequence(left, right) | Term::Tensor(left, right) | Term::Alternation(left, right) => {
            1 + term_fields(left) + term_fields(right)
        }
        Term::Atomic(_) | Term::Id | Term::Empty | Term::Assert(_) | Term::Defined(_) => 1,
    }
}

/// "Input arity" of a hiproof.
pub fn hiproof_arity(term: &Placed) -> usize {
    match &term.term {
        Term::Sequence(left, _) => hiproof_arity(left),
        Term::Tensor(left, right) => hiproof_arity(left) + hiproof_arity(right),
        Term::Empty => 0,
        _ => 1,
    }
}

/// "A term takes a goal list and gives one." The refusal is number and place, as
/// document 01 has them: 20 for every term that cannot take its goals. `reasons`
/// has P5's numbers.
/// Every atomic term with its goal is added to `uses` in the order of the walk.
pub fn give(table: &Table, term: &Placed, goals: &[u16], uses: &mut Vec<(u16, u16)>) -> Result<Vec<u16>, (u32, usize)> {
    let cannot = Err((20, term.place));
    match (&term.term, goals) {
        (Term::Atomic(name), &[goal]) => match table.premises(*name, goal) {
            Some(premises) => {
                uses.push((*name, goal));
                Ok(premises.clone())
            }
            None => cannot,
        },
        (Term::Id, [_]) | (Term::Empty, []) => Ok(goals.to_vec()),
        (Term::Label(_, inner), [_]) => give(table, inner, goals, uses),
        (Term::Sequence(left, right), _) => {
            let between = give(table, left, goals, uses)?;
            give(table, right, &between, uses)
        }
        (Term::Tensor(left, right), _) if goals.len() >= hiproof_arity(left) => {
            let (first, others) = goals.split_at(hiproof_arity(left));
            let mut joined = give(table, left, first, uses)?;
            joined.extend(give(table, right, others, uses)?);
            if joined.len() > 256 {
                Err((22, term.place))
            } else {
                Ok(joined)
            }
        }
        _ => cannot,
    }
}

/// A tree of a forest.
#[derive(Clone, PartialEq, Debug)]
pub enum Tree {
    Open(u16),
    Use(u16, u16, Vec<Tree>),
}

/// "The forest of a hiproof on its goals", of one that validates.
pub fn forest(table: &Table, term: &Placed, goals: &[u16]) -> Vec<Tree> {
    match &term.term {
        Term::Id => vec![Tree::Open(goals[0])],
        Term::Atomic(name) => {
            let premises = table.premises(*name, goals[0]).expect("a rule");
            vec![Tree::Use(*name, goals[0], premises.iter().map(|&goal| Tree::Open(goal)).collect())]
        }
        Term::Label(_, inner) => forest(table, inner, goals),
        Term::Sequence(left, right) => {
            let left_forest = forest(table, left, goals);
            let right_forest = forest(table, right, &open_leaves(&left_forest));
            put_for_open_leaves(&left_forest, &mut right_forest.into_iter())
        }
        Term::Tensor(left, right) => {
            let (first, others) = goals.split_at(hiproof_arity(left));
            [forest(table, left, first), forest(table, right, others)].concat()
        }
        _ => vec![],
    }
}

pub fn open_leaves(trees: &[Tree]) -> Vec<u16> {
    trees
        .iter()
        .flat_map(|tree| match tree {
            Tree::Open(goal) => vec![*goal],
            Tree::Use(_, _, premises) => open_leaves(premises),
        })
        .collect()
}

fn put_for_open_leaves(trees: &[Tree], replacements: &mut std::vec::IntoIter<Tree>) -> Vec<Tree> {
    let mut result = Vec::new();
    for tree in trees {
        result.push(match tree {
            Tree::Open(_) => replacements.next().expect("a tree for every leaf"),
            Tree::Use(name, goal, premises) => Tree::Use(*name, *goal, put_for_open_leaves(premises, replacements)),
        });
    }
    result
}

/// "depth first, left first"
pub fn entries_of(trees: &[Tree]) -> Vec<Vec<u8>> {
    let mut entries = Vec::new();
    for tree in trees {
        match tree {
            Tree::Open(goal) => entries.push(build::open_entry(*goal)),
            Tree::Use(name, goal, premises) => {
                entries.push(build::use_entry(*name, *goal));
                entries.extend(entries_of(premises));
            }
        }
    }
    entries
}

/// "a tree is written through its forest of premises and a forest through its trees"
pub fn written_tree(tree: &Tree) -> Vec<u8> {
    match tree {
        Tree::Open(_) => build::id(),
        Tree::Use(name, _, premises) if premises.is_empty() => build::atomic(*name),
        Tree::Use(name, _, premises) => build::sequence(&build::atomic(*name), &written_forest(premises)),
    }
}

pub fn written_forest(trees: &[Tree]) -> Vec<u8> {
    match trees {
        [] => build::empty(),
        [one] => written_tree(one),
        [first, others @ ..] => build::tensor(&written_tree(first), &written_forest(others)),
    }
}

/// The tree of the first pending goal from the entries that are left, each an
/// offset; None if an entry does not apply or is missing, with the place of it.
pub fn read_back(table: &Table, bytes: &[u8], place: &mut usize, goal: u16) -> Result<Tree, usize> {
    let here = *place;
    if here >= bytes.len() {
        return Err(here);
    }
    let values = goals_at(bytes, here);
    *place = end_of(bytes, here);
    if bytes[here] == 33 {
        return if values == [goal] { Ok(Tree::Open(goal)) } else { Err(here) };
    }
    if values[1] != goal {
        return Err(here);
    }
    let premises = table.premises(values[0], goal).ok_or(here)?;
    let mut trees = Vec::new();
    for &premise in premises {
        trees.push(read_back(table, bytes, place, premise)?);
    }
    Ok(Tree::Use(values[0], goal, trees))
}

/// The forest of a flat file that reads, or the place at which it is wrong.
pub fn trees_of(table: &Table, flat: &[u8]) -> Result<Vec<Tree>, usize> {
    let mut place = end_of(flat, 0);
    let mut trees = Vec::new();
    for goal in goals_at(flat, 0) {
        trees.push(read_back(table, flat, &mut place, goal)?);
    }
    if place < flat.len() {
        return Err(place);
    }
    Ok(trees)
}

/// "Arity of tactics" by rounds: in each round a tactic may use what the round
/// before gave.
pub struct TacticArities(Vec<(u16, Option<usize>)>);

impl TacticArities {
    pub fn of(table: &Table) -> TacticArities {
        let mut arities = TacticArities(table.definitions.iter().map(|one| (one.0, None)).collect());
        for _ in 0..=table.definitions.len() {
            let round = table.definitions.iter().map(|(tactic, body)| (*tactic, arities.arity(body))).collect();
            arities = TacticArities(round);
        }
        arities
    }

    pub fn arity(&self, term: &Placed) -> Option<usize> {
        let arity = match &term.term {
            Term::Atomic(_) | Term::Id | Term::Label(_, _) | Term::Assert(_) => Some(1),
            Term::Empty => Some(0),
            Term::Sequence(left, _) => self.arity(left),
            Term::Tensor(left, right) => Some(self.arity(left)? + self.arity(right)?),
            Term::Alternation(left, right) if self.arity(left) == self.arity(right) => self.arity(left),
            Term::Alternation(_, _) => None,
            Term::Defined(tactic) => self.0.iter().find(|one| one.0 == *tactic)?.1,
        };
        arity.filter(|&arity| arity <= 256)
    }
}

/// A run of the big-step rules with a budget, which carries the count of the fields that
/// are held (P12).
pub struct Run<'a> {
    pub table: &'a Table,
    pub arities: TacticArities,
    pub budget: u32,
    pub steps: u32,
    pub held: usize,
}

/// A hiproof's bytes and the goals given; None if the term fails. An error ends
/// the whole run with 22, 24 or 40.
type Evaluated = Result<Option<(Vec<u8>, Vec<u16>)>, u32>;

impl<'a> Run<'a> {
    pub fn new(table: &'a Table, budget: u32) -> Run<'a> {
        Run { table, arities: TacticArities::of(table), budget, steps: 0, held: 0 }
    }

    /// What a term with a field of its own gives when it ends: "a finished term that makes
    /// the held fields more than 4,096" is 40.
    fn finished(&mut self, given: Option<(Vec<u8>, Vec<u16>)>) -> Evaluated {
        self.held += usize::from(given.is_some());
        if self.held > 4_096 {
            return Err(40);
        }
        Ok(given)
    }

    pub fn evaluate(&mut self, term: &Placed, goals: &[u16]) -> Evaluated {
        if self.steps == self.budget {
            return Err(24);
        }
        self.steps += 1;
        match (&term.term, goals) {
            (Term::Atomic(name), &[goal]) => {
                let premises = self.table.premises(*name, goal);
                self.finished(premises.map(|premises| (build::atomic(*name), premises.clone())))
            }
            (Term::Id, [_]) => self.finished(Some((build::id(), goals.to_vec()))),
            (Term::Empty, []) => self.finished(Some((build::empty(), vec![]))),
            (Term::Assert(own), &[goal]) if *own == goal => self.finished(Some((build::id(), goals.to_vec()))),
            (Term::Label(label, inner), [_]) => {
                let inner = self.evaluate(inner, goals)?;
                self.finished(inner.map(|(hiproof, given)| (build::label(*label, &hiproof), given)))
            }
            (Term::Sequence(left, right), _) => self.sequence(left, right, goals),
            (Term::Tensor(left, right), _) => self.tensor(left, right, goals),
            (Term::Alternation(left, right), _) => {
                let held_before = self.held;
                if let Some(success) = self.evaluate(left, goals)? {
                    return Ok(Some(success));
                }
                self.held = held_before;
                self.evaluate(right, goals)
            }
            (Term::Defined(tactic), _) => match self.table.body(*tactic) {
                Some(body) => self.evaluate(body, goals),
                None => Ok(None),
            },
            _ => Ok(None),
        }
    }

    fn sequence(&mut self, left: &Placed, right: &Placed, goals: &[u16]) -> Evaluated {
        let Some((first, between)) = self.evaluate(left, goals)? else {
            return Ok(None);
        };
        let Some((second, given)) = self.evaluate(right, &between)? else {
            return Ok(None);
        };
        self.finished(Some((build::sequence(&first, &second), given)))
    }

    fn tensor(&mut self, left: &Placed, right: &Placed, goals: &[u16]) -> Evaluated {
        let Some(arity) = self.arities.arity(left).filter(|&arity| arity <= goals.len()) else {
            return Ok(None);
        };
        let (first, others) = goals.split_at(arity);
        let Some((left_proof, mut given)) = self.evaluate(left, first)? else {
            return Ok(None);
        };
        let Some((right_proof, right_given)) = self.evaluate(right, others)? else {
            return Ok(None);
        };
        given.extend(right_given);
        if given.len() > 256 {
            return Err(22);
        }
        self.finished(Some((build::tensor(&left_proof, &right_proof), given)))
    }
}

/// "Dropping every label puts each label's inner term in the label's place".
pub fn without_labels(term: &Placed) -> Vec<u8> {
    match &term.term {
        Term::Label(_, inner) => without_labels(inner),
        Term::Sequence(left, right) => build::sequence(&without_labels(left), &without_labels(right)),
        Term::Tensor(left, right) => build::tensor(&without_labels(left), &without_labels(right)),
        Term::Atomic(name) => build::atomic(*name),
        Term::Empty => build::empty(),
        _ => build::id(),
    }
}
