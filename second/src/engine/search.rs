//! Free choice with a way back (P13): looks for any evaluation by the paper's
//! big-step rules, Fig. 3, that is at most so many rules high.
//!
//! The evaluations of a term are met in one fixed order: "left alternative first,
//! shortest left part of a split first, going back when a later term fails". So
//! what waits for a term's goals must outlive the term: when a later term fails,
//! the search goes back into the finished one. Waiting terms therefore stand in a
//! list that grows with every state and links each to what waits behind it; a
//! choice remembers how long the list was, and the list is cut back to it.

use super::goal_pool::{GoalList, GoalPool};
use super::SuccessfulRun;
use crate::answer::{Reason, Refusal};
use crate::format::job::Job;
use crate::format::table::Table;
use crate::format::terms::{Term, TermNumber, Terms};
use crate::format::write::{proof_file, HiproofField};
use crate::names::RuleName;

/// The number of an entry in the list of what waits.
#[derive(Clone, Copy)]
struct WaitingNumber(u32);

/// A term to begin on these goals, at its depth in the evaluation, and what waits
/// for the goals it gives.
#[derive(Clone, Copy)]
struct Beginning {
    term: TermNumber,
    goals: GoalList,
    depth: u32,
    then: WaitingNumber,
}

/// What waits for the goals that a term gives. A label, an alternation and a
/// defined tactic need nothing: they give what their inner term gives.
#[derive(Clone, Copy)]
enum Waiting {
    /// The goals are those that the job's term gives: an evaluation is found.
    Nothing,
    SequenceRight {
        right: TermNumber,
        depth: u32,
        then: WaitingNumber,
    },
    TensorRight {
        right: Beginning,
    },
    TensorJoin {
        left_gave: GoalList,
        then: WaitingNumber,
    },
}

/// What else can be tried if all that comes later fails.
#[derive(Clone, Copy)]
enum Choice {
    OtherAlternative(Beginning),
    /// A tensor's parts as they would begin with this split: the left on the
    /// first `left_count` goals of the tensor, the right on the others.
    NextSplit {
        tensor: Tensor,
        left_count: u32,
    },
}

/// A tensor that has begun; its parts are at `depth`.
#[derive(Clone, Copy)]
struct Tensor {
    left: TermNumber,
    right: TermNumber,
    goals: GoalList,
    depth: u32,
    then: WaitingNumber,
}

/// How long the lists were when a choice was met.
#[derive(Clone, Copy)]
struct Marks {
    goals: usize,
    waiting: usize,
    fields: usize,
}

/// What the search does next.
enum Control {
    Begin(Beginning),
    /// A term has given these goals to what waits for them.
    Gave(GoalList, WaitingNumber),
    /// The term begun last, or a join, has no evaluation here.
    GoBack,
}

struct Search<'a> {
    table: &'a Table,
    terms: &'a Terms,
    height: u32,
    budget: u32,
    steps: u32,
    goals: GoalPool,
    waiting: Vec<Waiting>,
    /// The hiproof so far, its fields in byte order.
    fields: Vec<HiproofField>,
    choices: Vec<(Choice, Marks)>,
}

/// Looks for an evaluation of the job's term on its goals; the first one is
/// written as a proof file.
pub fn search_job(table: &Table, terms: &Terms, job: &Job, height: u32, budget: u32) -> Result<SuccessfulRun, Refusal> {
    let mut search = Search {
        table,
        terms,
        height,
        budget,
        steps: 0,
        goals: GoalPool::default(),
        waiting: vec![Waiting::Nothing],
        fields: Vec::new(),
        choices: Vec::new(),
    };
    let remaining = search.search(job)?;
    let proof = proof_file(&job.goals, &search.fields, search.goals.get(remaining));
    Ok(SuccessfulRun { proof, steps: search.steps })
}

impl Search<'_> {
    /// Gives the goals that remain in the first evaluation. "41, only if no such
    /// evaluation exists".
    ///
    /// What is done between two steps is bounded: joins are at most as many as
    /// terms enclose one another, and going back always begins a term.
    fn search(&mut self, job: &Job) -> Result<GoalList, Refusal> {
        let goals = self.goals.add(&job.goals);
        let then = WaitingNumber(0);
        let mut control = Control::Begin(Beginning { term: job.tactic, goals, depth: 1, then });
        loop {
            control = match control {
                Control::Begin(beginning) => self.begin(beginning)?,
                Control::Gave(goals, then) => match self.waiting[then.0 as usize] {
                    Waiting::Nothing => return Ok(goals),
                    waiting => self.resume(waiting, goals),
                },
                Control::GoBack => match self.choices.pop() {
                    Some((choice, marks)) => self.take_up(choice, marks),
                    None => return Err(Refusal::of_run(Reason::NoEvaluation, self.steps)),
                },
            };
        }
    }

    /// "Each beginning of a term on a list of goals, first or again, is one step
    /// against the budget", also of one that fails at once (B13.2, B13.8).
    fn begin(&mut self, beginning: Beginning) -> Result<Control, Refusal> {
        if self.steps == self.budget {
            return Err(Refusal::of_run(Reason::BudgetSpent, self.steps));
        }
        self.steps += 1;
        let Beginning { term, goals, depth, then } = beginning;
        Ok(match self.terms.get(term) {
            Term::Atomic(name) => self.begin_atomic(name, goals, then),
            Term::Id => self.leave_field_if(goals.count() == 1, HiproofField::Id, goals, then),
            Term::Empty => self.leave_field_if(goals.count() == 0, HiproofField::Empty, goals, then),
            // "assert succeeds, as id, on one goal equal to its own"; "assert leaves id"
            Term::Assert(goal) => {
                let matches = self.goals.only_goal(goals) == Some(goal);
                self.leave_field_if(matches, HiproofField::Id, goals, then)
            }
            // "None is begun below depth h": no inner term may begin, so there is
            // nothing to find here, whatever the split, and no step (B13.2).
            _ if depth == self.height => Control::GoBack,
            Term::Label(_, _) if goals.count() != 1 => Control::GoBack,
            compound => self.begin_compound(compound, Beginning { depth: depth + 1, ..beginning }),
        })
    }

    /// Begins the inner term that comes first; `inner` has its depth, and the goals
    /// of the whole term and what waits for it.
    fn begin_compound(&mut self, term: Term, inner: Beginning) -> Control {
        let Beginning { goals, depth, then, .. } = inner;
        match term {
            Term::Label(label, body) => {
                self.fields.push(HiproofField::Label(label));
                Control::Begin(Beginning { term: body, ..inner })
            }
            Term::Sequence(left, right) => {
                self.fields.push(HiproofField::Sequence);
                let then = self.wait(Waiting::SequenceRight { right, depth, then });
                Control::Begin(Beginning { term: left, then, ..inner })
            }
            Term::Tensor(left, right) => {
                self.fields.push(HiproofField::Tensor);
                self.begin_split(Tensor { left, right, goals, depth, then }, 0)
            }
            Term::Alternation(left, right) => {
                let other = Choice::OtherAlternative(Beginning { term: right, ..inner });
                self.choices.push((other, self.marks()));
                Control::Begin(Beginning { term: left, ..inner })
            }
            Term::DefinedTactic(tactic) => match self.table.body(tactic) {
                Some(body) => Control::Begin(Beginning { term: body, ..inner }),
                None => Control::GoBack,
            },
            // The other terms have no inner terms.
            _ => Control::GoBack,
        }
    }

    fn leave_field_if(&mut self, succeeds: bool, field: HiproofField, goals: GoalList, then: WaitingNumber) -> Control {
        if !succeeds {
            return Control::GoBack;
        }
        self.fields.push(field);
        Control::Gave(goals, then)
    }

    fn begin_atomic(&mut self, name: RuleName, goals: GoalList, then: WaitingNumber) -> Control {
        let rule = self.goals.only_goal(goals).and_then(|goal| self.table.look_up(name, goal));
        match rule {
            Some(rule) => {
                let premises = self.goals.add(rule.premises);
                self.leave_field_if(true, HiproofField::Atomic(name), premises, then)
            }
            None => Control::GoBack,
        }
    }

    /// Gives the first `left_count` goals to the tensor's left part; the split
    /// that gives it one more is the next to be tried. None is left out (B13.3).
    fn begin_split(&mut self, tensor: Tensor, left_count: u32) -> Control {
        if left_count < tensor.goals.count() {
            let next = Choice::NextSplit { tensor, left_count: left_count + 1 };
            self.choices.push((next, self.marks()));
        }
        let Tensor { left, right, depth, then, .. } = tensor;
        let (first, others) = tensor.goals.split_at(left_count);
        let right = Beginning { term: right, goals: others, depth, then };
        let then = self.wait(Waiting::TensorRight { right });
        Control::Begin(Beginning { term: left, goals: first, depth, then })
    }

    /// Goes on with what waited for the goals of a term. It stays in the list, for
    /// the term's next evaluation.
    fn resume(&mut self, waiting: Waiting, goals: GoalList) -> Control {
        match waiting {
            Waiting::Nothing => Control::GoBack,
            Waiting::SequenceRight { right, depth, then } => {
                Control::Begin(Beginning { term: right, goals, depth, then })
            }
            Waiting::TensorRight { right } => {
                let then = self.wait(Waiting::TensorJoin { left_gave: goals, then: right.then });
                Control::Begin(Beginning { then, ..right })
            }
            // "with every list at most 256 goals": a longer one is no evaluation,
            // and the search goes on (B13.4).
            Waiting::TensorJoin { left_gave, then } => match self.goals.join(left_gave, goals) {
                Some(joined) => Control::Gave(joined, then),
                None => Control::GoBack,
            },
        }
    }

    fn wait(&mut self, waiting: Waiting) -> WaitingNumber {
        self.waiting.push(waiting);
        WaitingNumber(self.waiting.len() as u32 - 1)
    }

    fn marks(&self) -> Marks {
        Marks { goals: self.goals.mark(), waiting: self.waiting.len(), fields: self.fields.len() }
    }

    /// Makes everything as it was when the choice was met, and tries what it names.
    /// "taking up a finished term for its next evaluation is no step of its own".
    fn take_up(&mut self, choice: Choice, marks: Marks) -> Control {
        self.goals.cut_back(marks.goals);
        self.waiting.truncate(marks.waiting);
        self.fields.truncate(marks.fields);
        match choice {
            Choice::OtherAlternative(right) => Control::Begin(right),
            Choice::NextSplit { tensor, left_count } => self.begin_split(tensor, left_count),
        }
    }
}
