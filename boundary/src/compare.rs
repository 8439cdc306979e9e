//! One case through both engines, and every difference in words.

use crate::lent::{Frames, Poison, Purpose, Space};
use crate::library::{Call, Library};
use second::generate::case::{Case, Entry, Outcome};
use second::limits::STATE_SIZE;
use second::Answer;

/// What came of one case.
pub struct Comparison {
    /// The second engine's answer.
    pub expected: Answer,
    /// The library's answer.
    pub given: Answer,
    /// Empty if the library did everything as the second engine says.
    pub differences: Vec<String>,
}

/// The library and the spaces that are lent to it.
pub struct Comparer {
    library: Library,
    table: Space,
    other: Space,
    saved: Space,
    work: Space,
    frames: Frames,
    output: Space,
    state: Space,
    zeros: Vec<u8>,
}

impl Comparer {
    pub fn new(library: Library) -> Comparer {
        Comparer {
            library,
            table: Space::new(Purpose::Table),
            other: Space::new(Purpose::Other),
            saved: Space::new(Purpose::Saved),
            work: Space::new(Purpose::Work),
            frames: Frames::default(),
            output: Space::new(Purpose::Output),
            state: Space::new(Purpose::State),
            zeros: Vec::new(),
        }
    }

    /// Makes the call in both engines, the library's with poisoned spaces, and
    /// compares the answers and every byte that the library could reach.
    pub fn compare(&mut self, case: &Case, poison: Poison) -> Comparison {
        let outcome = case.outcome();
        let expected = outcome.answer;
        let given = self.call(case, poison);
        let mut differences = Vec::new();
        if given != expected {
            differences.push(format!("answer: {given:?} should be {expected:?}"));
        }
        differences.extend(self.output_fault(expected, &outcome.output));
        differences.extend(self.work_fault(expected));
        differences.extend(self.frames.fault(expected.number != 29));
        differences.extend(self.state_fault(case, &outcome));
        differences.extend(self.table.contents_fault(&case.table));
        differences.extend(self.other.contents_fault(&case.other));
        differences.extend(self.saved.contents_fault(&case.saved));
        let spaces = [&self.table, &self.other, &self.saved, &self.work, &self.output, &self.state];
        differences.extend(spaces.into_iter().filter_map(Space::guard_fault));
        Comparison { expected, given, differences }
    }

    /// The result that the last call left in the output space; empty if that
    /// call refused.
    pub fn result(&self, answer: Answer) -> Vec<u8> {
        let length = if answer.number == 0 { answer.length as usize } else { 0 };
        self.output.contents().get(..length).unwrap_or(&[]).to_vec()
    }

    fn call(&mut self, case: &Case, poison: Poison) -> Answer {
        self.table.load(&case.table, poison);
        self.other.load(&case.other, poison);
        self.saved.load(&case.saved, poison);
        self.work.poison(case.work_length, poison);
        self.frames.poison(case.frames, poison);
        self.output.poison(case.output_length, poison);
        self.state.poison(case.state_length, poison);
        let call = Call {
            entry: case.entry,
            table: (self.table.pointer(), self.table.len()),
            other: (self.other.pointer(), self.other.len()),
            saved: (self.saved.pointer(), self.saved.len()),
            height: case.height,
            budget: case.budget,
            work: (self.work.pointer(), self.work.len()),
            frames: (self.frames.pointer(), self.frames.len()),
            output: (self.output.pointer(), self.output.len()),
            state: (self.state.pointer(), self.state.len()),
        };
        // SAFETY: separate buffers, each at least as long as it is said.
        unsafe { self.library.call(&call) }
    }

    /// "A refusal leaves output space untouched; a success leaves the bytes past
    /// its result untouched."
    fn output_fault(&self, expected: Answer, second_output: &[u8]) -> Option<String> {
        let length = expected.length as usize;
        let mut should = self.output.as_lent().to_vec();
        should[..length].copy_from_slice(&second_output[..length]);
        self.output.contents_fault(&should)
    }

    /// A halt "fills the first bytes ... bytes past them untouched; no other answer
    /// touches it".
    fn state_fault(&self, case: &Case, outcome: &Outcome) -> Option<String> {
        let mut should = self.state.as_lent().to_vec();
        if halts(case.entry, outcome.answer) {
            should[..STATE_SIZE].copy_from_slice(&outcome.state[..STATE_SIZE]);
        }
        self.state.contents_fault(&should)
    }

    /// "Work space is all zero afterwards, except after 29, when it is untouched."
    fn work_fault(&mut self, expected: Answer) -> Option<String> {
        if expected.number == 29 {
            return self.work.contents_fault(self.work.as_lent());
        }
        let length = self.work.len();
        if self.zeros.len() < length {
            self.zeros.resize(length, 0);
        }
        self.work.contents_fault(&self.zeros[..length])
    }
}

/// Whether the answer is that of a halt, which leaves a state in the second space.
pub fn halts(entry: Entry, answer: Answer) -> bool {
    entry.may_halt() && answer.number == 24
}

/// The entry's C name, for messages.
pub fn name_of(entry: Entry) -> &'static str {
    match entry {
        Entry::Check => "check",
        Entry::Run => "run",
        Entry::Flatten => "flatten",
        Entry::CheckFlat => "check_flat",
        Entry::WriteProof => "write_proof",
        Entry::ReadText => "read_text",
        Entry::WriteText => "write_text",
        Entry::Search => "search",
        Entry::RunHalting => "run_halting",
        Entry::Resume => "resume",
    }
}
