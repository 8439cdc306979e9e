//! Running a tactic: section 4.1 of the paper, with a budget. A run that is halted
//! keeps everything it needs to go on (P1).

use super::arity::Arities;
use super::SuccessfulRun;
use crate::answer::{Reason, Refusal};
use crate::format::job::Job;
use crate::format::table::Table;
use crate::format::terms::{Term, TermNumber, Terms};
use crate::format::write::{proof_file, HiproofField};
use crate::limits::{MOST_GOALS, MOST_HELD_FIELDS};
use crate::names::{Goal, RuleName};

pub type Goals = Vec<Goal>;

/// A term that is to begin, and its goals.
pub struct Beginning {
    pub term: TermNumber,
    pub goals: Goals,
}

/// What the machine does next.
enum Control {
    Begin(Beginning),
    /// The term begun last has succeeded and gives these goals.
    Succeeded(Goals),
    /// The term begun last has failed.
    Failed,
}

/// A term that has begun and waits for an inner term to end.
pub struct Waits {
    pub term: Waiting,
    /// The terms that have a field and have not ended, this one and those around it.
    unfinished: usize,
}

/// A term that waits and still has something to do. The body of a defined tactic and the
/// right of an alternation are waited for by nothing: the term ends as they do.
///
/// `own_field` is the number of the term's own field among the fields so far.
pub enum Waiting {
    Label {
        inner: TermNumber,
        own_field: usize,
    },
    SequenceLeft {
        right: TermNumber,
        own_field: usize,
    },
    SequenceRight {
        right: TermNumber,
        own_field: usize,
    },
    /// The left of a tensor runs; the right is to begin on the others.
    TensorLeft {
        right: TermNumber,
        others: Goals,
        own_field: usize,
    },
    TensorRight {
        right: TermNumber,
        left_gave: Goals,
        own_field: usize,
    },
    /// The left of an alternation runs; if it fails, the right is to begin on
    /// the same goals, and the fields the left wrote are dropped.
    AlternationLeft {
        right: TermNumber,
        goals: Goals,
        fields_before: usize,
    },
}

/// What a run comes to if it does not end with 22, 23 or 40.
pub enum Ending {
    /// The job's term has succeeded and gives these goals.
    Succeeded(Goals),
    /// A term is to begin, and the budget is used up: 24.
    Halted(Beginning),
}

/// The tactic machine. One that is never asked for its state need not keep the terms that
/// wait only to be named in it: labels, and sequences whose right term runs.
pub struct Machine<'a, const KEEPS_ALL: bool> {
    table: &'a Table,
    terms: &'a Terms,
    arities: Arities,
    pub steps: u32,
    /// Outermost first.
    pub waiting: Vec<Waits>,
    /// The hiproof so far, its fields in byte order. A label, sequence or tensor has its
    /// own field here as soon as it has begun.
    pub fields: Vec<HiproofField>,
    /// How many of the fields are of terms that have not ended. All others are held (P12).
    unfinished: usize,
}

/// Runs the job's term on its goals; a success is written as a proof file with
/// the goals given as the remaining ones (READINGS A50).
pub fn run_job(table: &Table, terms: &Terms, job: &Job, budget: u32) -> Result<SuccessfulRun, Refusal> {
    let mut machine = Machine::<false>::new(table, terms);
    match machine.run(job.beginning(), budget)? {
        Ending::Succeeded(remaining) => Ok(machine.success(job, &remaining)),
        Ending::Halted(_) => Err(Refusal::of_run(Reason::BudgetSpent, machine.steps)),
    }
}

impl Job {
    /// What a run of the job begins with.
    pub fn beginning(&self) -> Beginning {
        Beginning { term: self.tactic, goals: self.goals.clone() }
    }
}

impl<'a, const KEEPS_ALL: bool> Machine<'a, KEEPS_ALL> {
    pub fn new(table: &'a Table, terms: &'a Terms) -> Machine<'a, KEEPS_ALL> {
        let arities = Arities::find(table, terms);
        Machine { table, terms, arities, steps: 0, waiting: Vec::new(), fields: Vec::new(), unfinished: 0 }
    }

    /// The proof file of the job, once its term has succeeded with these goals.
    pub fn success(&self, job: &Job, remaining: &[Goal]) -> SuccessfulRun {
        SuccessfulRun { proof: proof_file(&job.goals, &self.fields, remaining), steps: self.steps }
    }

    /// Runs from this beginning until the steps are as many as the budget, counted
    /// from the first step of all. "If a term is to begin when the budget is used up,
    /// the run ends with 24": it can be taken up there.
    pub fn run(&mut self, beginning: Beginning, budget: u32) -> Result<Ending, Refusal> {
        let mut control = Control::Begin(beginning);
        loop {
            control = match control {
                Control::Begin(beginning) if self.steps == budget => return Ok(Ending::Halted(beginning)),
                Control::Begin(beginning) => self.begin(beginning),
                Control::Succeeded(goals) => match self.waiting.pop() {
                    Some(waits) => self.resume(waits, goals)?,
                    None => {
                        self.have_ended_but(0)?;
                        return Ok(Ending::Succeeded(goals));
                    }
                },
                Control::Failed => self.next_alternative()?,
            };
        }
    }

    /// "Every term begun counts one step, in failed alternatives too." Only then are
    /// the goals looked at (READINGS A41).
    fn begin(&mut self, Beginning { term, goals }: Beginning) -> Control {
        self.steps += 1;
        match self.terms.get(term) {
            Term::Atomic(name) => self.begin_atomic(name, goals),
            Term::Id => self.leave_field_if(goals.len() == 1, HiproofField::Id, goals),
            Term::Empty => self.leave_field_if(goals.is_empty(), HiproofField::Empty, goals),
            // "assert succeeds, as id, on one goal equal to its own"; "assert leaves id"
            Term::Assert(goal) => self.leave_field_if(goals == [goal], HiproofField::Id, goals),
            Term::Label(_, _) if goals.len() != 1 => Control::Failed,
            Term::Label(label, inner) => {
                let own_field = self.enter(HiproofField::Label(label));
                if KEEPS_ALL {
                    self.wait(Waiting::Label { inner, own_field });
                }
                begin_inner(inner, goals)
            }
            Term::Sequence(left, right) => {
                let own_field = self.enter(HiproofField::Sequence);
                self.wait(Waiting::SequenceLeft { right, own_field });
                begin_inner(left, goals)
            }
            Term::Tensor(left, right) => self.begin_tensor(left, right, goals),
            Term::Alternation(left, right) => self.begin_alternation(left, right, goals),
            // "A defined tactic is replaced by its body; one without a definition fails."
            Term::DefinedTactic(tactic) => match self.table.body(tactic) {
                Some(body) => begin_inner(body, goals),
                None => Control::Failed,
            },
        }
    }

    fn wait(&mut self, term: Waiting) {
        self.waiting.push(Waits { term, unfinished: self.unfinished });
    }

    /// All terms with a field have ended but so many of the outermost. "40, a finished
    /// term that makes the held fields more than 4,096, at that moment": after a term has
    /// succeeded the next waiting one is taken up at once, with no step and no joined list
    /// before it, so it is enough to count then, and at the end.
    fn have_ended_but(&mut self, unfinished: usize) -> Result<(), Refusal> {
        self.unfinished = unfinished;
        if self.fields.len() - unfinished > MOST_HELD_FIELDS {
            return Err(Refusal::of_run(Reason::TooManyFieldsHeld, self.steps));
        }
        Ok(())
    }

    /// Puts the field of a term whose inner terms come next behind the others; gives
    /// its number among them.
    fn enter(&mut self, field: HiproofField) -> usize {
        self.fields.push(field);
        self.unfinished += 1;
        self.fields.len() - 1
    }

    fn leave_field_if(&mut self, succeeds: bool, field: HiproofField, goals: Goals) -> Control {
        if !succeeds {
            return Control::Failed;
        }
        self.fields.push(field);
        Control::Succeeded(goals)
    }

    fn begin_atomic(&mut self, name: RuleName, mut goals: Goals) -> Control {
        let [goal] = goals[..] else {
            return Control::Failed;
        };
        let Some(rule) = self.table.look_up(name, goal) else {
            return Control::Failed;
        };
        goals.clear();
        goals.extend(rule.premises);
        self.leave_field_if(true, HiproofField::Atomic(name), goals)
    }

    /// "A tensor fails if its left has none or has more than there are goals";
    /// its parts have then not begun (READINGS A52c).
    fn begin_tensor(&mut self, left: TermNumber, right: TermNumber, mut goals: Goals) -> Control {
        match self.arities.of(left) {
            Some(arity) if arity <= goals.len() => {
                let others = goals.split_off(arity);
                let own_field = self.enter(HiproofField::Tensor);
                self.wait(Waiting::TensorLeft { right, others, own_field });
                begin_inner(left, goals)
            }
            _ => Control::Failed,
        }
    }

    /// "Alternation runs the left; only if that fails does it run the right on
    /// the same goals." It leaves no field.
    fn begin_alternation(&mut self, left: TermNumber, right: TermNumber, goals: Goals) -> Control {
        let fields_before = self.fields.len();
        self.wait(Waiting::AlternationLeft { right, goals: goals.clone(), fields_before });
        begin_inner(left, goals)
    }

    /// Goes on with what waited for the goals of a term that succeeded. All terms inside
    /// the one that waited have ended, also those that were not kept to be named.
    fn resume(&mut self, Waits { term, unfinished }: Waits, goals: Goals) -> Result<Control, Refusal> {
        self.have_ended_but(unfinished)?;
        Ok(match term {
            Waiting::SequenceLeft { right, own_field } => {
                if KEEPS_ALL {
                    self.wait(Waiting::SequenceRight { right, own_field });
                }
                begin_inner(right, goals)
            }
            Waiting::TensorLeft { right, others, own_field } => {
                self.wait(Waiting::TensorRight { right, left_gave: goals, own_field });
                begin_inner(right, others)
            }
            // "after 22 at the same term": the tensor is counted when the next one is taken up.
            Waiting::TensorRight { left_gave, .. } => Control::Succeeded(self.join(left_gave, goals)?),
            // "Once the left has succeeded the choice stands, whatever fails later."
            Waiting::Label { .. } | Waiting::SequenceRight { .. } | Waiting::AlternationLeft { .. } => {
                Control::Succeeded(goals)
            }
        })
    }

    /// "22: joined list over 256; ... file and place 0 when running"; it "moves
    /// on to no alternative" (READINGS A44).
    fn join(&self, mut left_gave: Goals, right_gave: Goals) -> Result<Goals, Refusal> {
        left_gave.extend(right_gave);
        if left_gave.len() > MOST_GOALS {
            return Err(Refusal::of_run(Reason::JoinedListTooLong, self.steps));
        }
        Ok(left_gave)
    }

    /// A term "whose inner term fails, fails": everything that waits is given up
    /// as far as the nearest alternation whose left was running. Without one the
    /// tactic has failed. "fields of a failed alternative are no longer held".
    fn next_alternative(&mut self) -> Result<Control, Refusal> {
        while let Some(Waits { term, unfinished }) = self.waiting.pop() {
            if let Waiting::AlternationLeft { right, goals, fields_before } = term {
                self.fields.truncate(fields_before);
                self.unfinished = unfinished;
                return Ok(begin_inner(right, goals));
            }
        }
        Err(Refusal::of_run(Reason::TacticFailed, self.steps))
    }
}

fn begin_inner(term: TermNumber, goals: Goals) -> Control {
    Control::Begin(Beginning { term, goals })
}
