//! Proofs that do not validate: each of P5's three reasons (20, 34, 35) in every
//! position of a term and in every order, with the answer that each must get.

use super::build::*;
use super::case::{Case, Entry};
use super::random::Random;

/// The goal of all these proofs. Rules 0 to 8 of `table` give it back as often as
/// their name says, so a rule brings any count from 0 to 8.
pub const GOAL: u16 = 50;

/// A name without any rule.
const NO_RULE: u16 = 9;

/// A name that has a rule, for another goal.
const OTHER_RULE: u16 = 10;

/// A term, on how many goals it is walked, and what that walk ends with.
#[derive(Clone, Debug)]
pub struct Refused {
    pub term: Vec<u8>,
    pub goals: usize,
    pub number: u32,
    /// Where the refused term stands in `term`.
    pub place: usize,
    /// How many goals a tensor gives the term as its left part.
    arity: usize,
}

pub fn table() -> Vec<u8> {
    let by_count = (0..=8).flat_map(|count| rule(count, GOAL, &vec![GOAL; usize::from(count)]));
    by_count.chain(rule(OTHER_RULE, 60, &[])).collect()
}

fn ids(count: usize) -> Vec<u8> {
    tensor_of(&vec![id(); count])
}

impl Refused {
    /// A term that cannot take its goals itself.
    fn itself(number: u32, goals: usize, arity: usize, term: Vec<u8>) -> Refused {
        Refused { term, goals, number, place: 0, arity }
    }

    pub fn proof(&self, remaining: &[u16]) -> Vec<u8> {
        proof(&vec![GOAL; self.goals], &self.term, remaining)
    }

    pub fn place_in_proof(&self) -> usize {
        3 + 2 * self.goals + self.place
    }

    /// With other goals and another term around it, `before` bytes of which stand
    /// in front.
    fn within(&self, goals: usize, arity: usize, before: usize, term: Vec<u8>) -> Refused {
        Refused { term, goals, number: self.number, place: before + self.place, arity }
    }

    /// Behind a rule that turns one goal into those it is walked on.
    fn behind_a_rule(&self) -> Refused {
        let rule = atomic(self.goals as u16);
        self.within(1, 1, 3 + rule.len(), sequence(&rule, &self.term))
    }

    /// A label takes one goal; where another count is wanted a rule brings it.
    fn in_a_label(&self) -> Refused {
        let inner = if self.goals == 1 { self.clone() } else { self.behind_a_rule() };
        inner.within(1, 1, 5, label(1, &inner.term))
    }

    fn left_of_sequence(&self) -> Refused {
        self.within(self.goals, self.arity, 3, sequence(&self.term, &id()))
    }

    fn right_of_sequence(&self) -> Refused {
        let left = ids(self.goals);
        self.within(self.goals, self.goals, 3 + left.len(), sequence(&left, &self.term))
    }

    /// A left part is given as many goals as its arity. Where another count is
    /// wanted a rule brings it.
    fn as_left_part(&self) -> Refused {
        if self.arity == self.goals {
            self.clone()
        } else {
            self.behind_a_rule()
        }
    }

    /// Beside it stands a part that takes `others` goals.
    fn left_of_tensor(&self, others: usize) -> Refused {
        let left = self.as_left_part();
        left.within(left.goals + others, left.arity + others, 3, tensor(&left.term, &ids(others)))
    }

    fn right_of_tensor(&self, others: usize) -> Refused {
        let left = ids(others);
        self.within(others + self.goals, others + self.arity, 3 + left.len(), tensor(&left, &self.term))
    }

    fn in_each_place(&self, others: usize) -> [Refused; 5] {
        [
            self.in_a_label(),
            self.left_of_sequence(),
            self.right_of_sequence(),
            self.left_of_tensor(others),
            self.right_of_tensor(others),
        ]
    }

    /// In front of another term, in a sequence and in a tensor: this one is met
    /// first, whatever the other one is.
    fn before(&self, later: &Refused) -> [Refused; 2] {
        let left = self.as_left_part();
        let both = tensor(&left.term, &later.term);
        [
            self.within(self.goals, self.arity, 3, sequence(&self.term, &later.term)),
            left.within(left.goals + later.goals, left.arity + later.arity, 3, both),
        ]
    }
}

/// Atomic with and without a rule of that name, id and label, on these numbers of
/// goals: "34 before 20".
fn one_goal_wanted(counts: &[usize]) -> Vec<Refused> {
    let terms = [atomic(1), atomic(NO_RULE), id(), label(1, &id())];
    let on = |goals: usize| terms.clone().map(|term| Refused::itself(34, goals, 1, term));
    counts.iter().flat_map(|&goals| on(goals)).collect()
}

fn no_goal_wanted(counts: &[usize]) -> Vec<Refused> {
    counts.iter().map(|&goals| Refused::itself(34, goals, 0, empty())).collect()
}

fn rule_missing() -> [Refused; 2] {
    [NO_RULE, OTHER_RULE].map(|name| Refused::itself(20, 1, 1, atomic(name)))
}

/// A tensor with that left part on that many goals.
fn too_few(left: &[u8], left_arity: usize, goals: usize) -> Refused {
    Refused::itself(35, goals, left_arity + 1, tensor(left, &id()))
}

/// Left parts of every kind, with their arities.
fn left_parts() -> Vec<(Vec<u8>, usize)> {
    vec![
        (id(), 1),
        (atomic(NO_RULE), 1),
        (label(1, &empty()), 1),
        (sequence(&id(), &empty()), 1),
        (tensor(&empty(), &id()), 1),
        (ids(2), 2),
        (sequence(&ids(2), &empty()), 2),
        (tensor(&label(1, &ids(2)), &sequence(&atomic(0), &id())), 2),
        (ids(3), 3),
        (left_leaning_tensor_of(&vec![id(); 3]), 3),
        (ids(7), 7),
    ]
}

/// One goal too few and none at all; arities around 256.
fn tensors_with_too_few() -> Vec<Refused> {
    let mut refused = Vec::new();
    for (left, arity) in left_parts() {
        refused.push(too_few(&left, arity, arity - 1));
        if arity > 1 {
            refused.push(too_few(&left, arity, 0));
        }
    }
    for (arity, goals) in [(256, 255), (257, 256), (257, 0)] {
        refused.push(too_few(&left_leaning_tensor_of(&vec![id(); arity]), arity, goals));
    }
    refused
}

/// A tensor of an id and each kind of right part on one goal too many: the term
/// of the right part that gets it is refused, never the tensor.
fn tensors_with_too_many() -> Vec<Refused> {
    // The right part, its arity, and where in it the refused term stands.
    let right_parts = [
        (id(), 1, 0),
        (atomic(1), 1, 0),
        (atomic(NO_RULE), 1, 0),
        (label(1, &ids(2)), 1, 0),
        (empty(), 0, 0),
        (sequence(&id(), &id()), 1, 3),
        (sequence(&empty(), &id()), 0, 3),
        (ids(2), 2, 6),
        (ids(3), 3, 12),
        (left_leaning_tensor_of(&vec![id(); 3]), 3, 12),
        (tensor(&empty(), &empty()), 0, 6),
        (tensor(&id(), &label(1, &id())), 2, 6),
        (sequence(&ids(2), &empty()), 2, 9),
    ];
    let mut refused: Vec<Refused> = right_parts
        .into_iter()
        .map(|(term, arity, place)| Refused { term, goals: arity + 1, number: 34, place, arity }.right_of_tensor(1))
        .collect();
    let surplus = |left: Vec<u8>, arity: usize, goals: usize| {
        let right = Refused::itself(34, goals - arity, 1, id());
        right.within(goals, arity + 1, 3 + left.len(), tensor(&left, &id()))
    };
    refused.extend([surplus(empty(), 0, 2), surplus(ids(2), 2, 4), surplus(id(), 1, 256)]);
    refused
}

/// One of each number, all on one goal.
pub fn one_of_each() -> [Refused; 3] {
    [
        Refused::itself(20, 1, 1, atomic(NO_RULE)),
        Refused::itself(34, 1, 0, empty()),
        Refused::itself(35, 1, 3, tensor(&ids(2), &id())),
    ]
}

/// Uses of rule 8 side by side: 32 give 256 goals, and 33 are refused with 22.
fn eights(count: usize) -> Vec<u8> {
    left_leaning_tensor_of(&vec![atomic(8); count])
}

fn joined_too_long() -> Refused {
    Refused::itself(22, 33, 33, eights(33))
}

/// Two reasons in one proof: the one that is met first counts.
fn two_reasons() -> Vec<Refused> {
    let each = one_of_each();
    let long = joined_too_long();
    let mut refused: Vec<Refused> =
        each.iter().flat_map(|first| each.iter().flat_map(|later| first.before(later))).collect();
    for one in &each {
        refused.extend(one.before(&long));
        refused.extend(long.before(one));
        // READINGS A27: the lists are joined after the right part is walked.
        let full = eights(32);
        refused.push(one.within(33, 32 + one.arity, 3 + full.len(), tensor(&full, &one.term)));
        // A tensor with too few goals is refused before its right part.
        refused.push(Refused::itself(35, 1, 2 + one.arity, tensor(&ids(2), &one.term)));
    }
    refused.push(Refused::itself(22, 33, 33, tensor(&eights(32), &id())));
    refused
}

/// A tensor with too few goals whose left part would be refused, too, if it were
/// walked on what there is: 35 comes first.
fn too_few_before_the_left_part() -> Vec<Refused> {
    let [missing, miscounted, short] = one_of_each();
    let mut refused = vec![too_few(&short.term, short.arity, 1)];
    for one in [missing, miscounted, short, joined_too_long()] {
        let left = one.left_of_tensor(1);
        refused.push(too_few(&left.term, left.arity, left.goals - 1));
    }
    refused
}

/// In each place of a term in each place. The inner tensors' other part takes no
/// goals, so that a label can stand around them.
fn two_deep() -> Vec<Refused> {
    let [missing, miscounted, short] = one_of_each();
    let chosen =
        [missing, miscounted, short, Refused::itself(34, 0, 1, id()), Refused::itself(34, 2, 1, atomic(NO_RULE))];
    let mut refused = Vec::new();
    for one in &chosen {
        for inner in one.in_each_place(0) {
            refused.extend([inner.in_a_label(), inner.left_of_sequence(), inner.right_of_sequence()]);
            refused.push(inner.right_of_tensor(1));
        }
        // Down a left part every term gets as many goals as its arity, so a rule
        // that brings another count stands next to the refused term.
        refused.extend(one.as_left_part().in_each_place(0).map(|inner| inner.left_of_tensor(1)));
    }
    refused
}

/// Under several labels, and three to six places deep in a random order.
fn deeper() -> Vec<Refused> {
    let mut refused = Vec::new();
    for one in one_of_each() {
        for depth in [3, 20] {
            let around = labels_around(depth, &one.term);
            refused.push(one.within(1, 1, 5 * depth, around));
        }
    }
    let random = &mut Random::new(14);
    for depth in [3, 4, 5, 6] {
        for one in one_of_each() {
            let mut placed = one;
            for _ in 0..depth {
                let others = random.below(3);
                placed = random.pick(&placed.in_each_place(others)).clone();
            }
            refused.push(placed);
        }
    }
    refused
}

/// Every proof of this topic that has no goals remaining.
pub fn listed() -> Vec<Refused> {
    let mut refused = one_goal_wanted(&[0, 2, 3, 256]);
    refused.extend(no_goal_wanted(&[1, 2, 3, 256]));
    refused.push(Refused::itself(34, 2, 1, label(1, &ids(2))));
    refused.push(Refused::itself(34, 0, 1, label(1, &empty())));
    refused.extend(rule_missing());
    refused.extend(tensors_with_too_few());
    refused.extend(tensors_with_too_many());
    let mut once = one_goal_wanted(&[0, 2]);
    once.extend(no_goal_wanted(&[1, 2]));
    once.extend(rule_missing());
    once.extend([too_few(&id(), 1, 0), too_few(&ids(2), 2, 1), too_few(&ids(2), 2, 0)]);
    refused.extend(once.iter().flat_map(|one| one.in_each_place(1)));
    refused.extend(two_deep());
    refused.extend(deeper());
    refused.extend(two_reasons());
    refused.extend(too_few_before_the_left_part());
    refused
}

/// What the terms of each reason would leave if they were let pass: "21" comes
/// after the whole walk. The last two are 0 and 21.
pub fn proofs_with_remaining_goals() -> Vec<Vec<u8>> {
    let stated =
        |goals: usize, term: Vec<u8>, remaining: usize| proof(&vec![GOAL; goals], &term, &vec![GOAL; remaining]);
    vec![
        stated(1, atomic(NO_RULE), 1),
        stated(1, atomic(OTHER_RULE), 0),
        stated(2, id(), 2),
        stated(2, label(1, &ids(2)), 2),
        stated(1, label(1, &empty()), 1),
        stated(1, ids(2), 2),
        stated(1, ids(2), 1),
        stated(3, ids(2), 3),
        stated(1, tensor(&ids(2), &id()), 1),
        stated(1, tensor(&ids(2), &id()), 3),
        stated(1, id(), 1),
        stated(1, id(), 2),
    ]
}

/// What comes before the walk and after it: 29, the table's and the proof's
/// refusals before; 26 after, so that too short an output space changes nothing.
fn around_the_walk() -> Vec<Case> {
    let mut cases = Vec::new();
    for one in one_of_each() {
        let file = one.proof(&[]);
        let torn = &file[..file.len() - 1];
        for entry in [Entry::Check, Entry::Flatten] {
            cases.push(Case::new(entry, &table(), &file).with_work(entry.work_size() - 1));
            cases.push(Case::new(entry, &rule(1, GOAL, &[]).repeat(2), &file));
            cases.push(Case::new(entry, &table(), torn));
        }
        cases.push(Case::new(Entry::Flatten, &table(), &file).with_output(0));
    }
    cases
}

/// With a table of no bytes an atomic has no rule, but the count comes first.
fn without_rules() -> Vec<Case> {
    let proofs = [0, 1, 2].map(|goals| proof(&vec![GOAL; goals], &atomic(1), &[]));
    proofs.iter().flat_map(|proof| both_entries(&[], proof)).collect()
}

fn both_entries(table: &[u8], proof: &[u8]) -> [Case; 2] {
    [Entry::Check, Entry::Flatten].map(|entry| Case::new(entry, table, proof))
}

pub fn cases() -> Vec<Case> {
    let table = table();
    let mut cases: Vec<Case> = listed().iter().flat_map(|one| both_entries(&table, &one.proof(&[]))).collect();
    cases.extend(proofs_with_remaining_goals().iter().flat_map(|proof| both_entries(&table, proof)));
    cases.extend(around_the_walk());
    cases.extend(without_rules());
    cases
}
