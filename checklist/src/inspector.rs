//! One line of the checklist at work: makes calls, compares them, counts.

use boundary::compare::Comparer;
use boundary::lent::Poison;
use boundary::library::Library;
use boundary::record;
use boundary::tally::Tally;
use boundary::watch::PresentCall;
use second::generate::case::{Case, Entry};
use second::Answer;
use std::path::{Path, PathBuf};

/// Only so many differences of a line are written as files; the rest is counted.
const MOST_RECORDS: u64 = 20;

pub struct Inspector {
    calls: Calls,
    line: u32,
    folder: PathBuf,
    pub tally: Tally,
    /// Differences of answers and bytes, and demands that did not hold.
    pub differences: u64,
}

/// Who is called.
enum Calls {
    /// The library; the file holds the present line and call.
    Library(Box<Comparer>, PresentCall),
    /// The second engine alone, up to the call that is to be written down: the
    /// one at which the library ended the process.
    Second { ended_at: u64 },
}

impl Inspector {
    pub fn new(library: Library, line: u32, folder: &Path) -> Result<Inspector, String> {
        let calls = Calls::Library(Box::new(Comparer::new(library)), PresentCall::open(folder)?);
        Ok(Inspector::with(calls, line, folder))
    }

    /// Goes over a line again to write down the call that ended the process.
    pub fn of_ended_process(line: u32, call: u64, folder: &Path) -> Inspector {
        Inspector::with(Calls::Second { ended_at: call }, line, folder)
    }

    fn with(calls: Calls, line: u32, folder: &Path) -> Inspector {
        Inspector { calls, line, folder: folder.to_path_buf(), tally: Tally::default(), differences: 0 }
    }

    /// The line and call at which a process ended.
    pub fn ended_at(folder: &Path) -> Result<(u32, u64), String> {
        let number = PresentCall::read(folder)?;
        Ok(((number >> 32) as u32, number & 0xFFFF_FFFF))
    }

    /// Makes the call with poisoned spaces, compares it with the second engine,
    /// and gives the library's own answer and result.
    pub fn call(&mut self, case: &Case) -> (Answer, Vec<u8>) {
        let number = self.tally.cases;
        let (comparer, present) = match &mut self.calls {
            Calls::Library(comparer, present) => (comparer, present),
            Calls::Second { ended_at } => {
                let ended_here = *ended_at == number;
                return self.call_of_second(case, ended_here);
            }
        };
        present.set(u64::from(self.line) << 32 | number);
        let comparison = comparer.compare(case, Poison::ALL[(number % 3) as usize]);
        let result = comparer.result(comparison.given);
        self.tally.count(case.entry, comparison.expected, !comparison.differences.is_empty());
        if !comparison.differences.is_empty() {
            self.report(case, &comparison.differences);
        }
        (comparison.given, result)
    }

    fn call_of_second(&mut self, case: &Case, ended_here: bool) -> (Answer, Vec<u8>) {
        if ended_here {
            self.report(case, &["the call ended the process".to_string()]);
        }
        let outcome = case.outcome();
        self.tally.count(case.entry, outcome.answer, ended_here);
        (outcome.answer, outcome.output[..outcome.answer.length as usize].to_vec())
    }

    /// A call with spaces that suffice.
    pub fn call_with_room(&mut self, entry: Entry, table: &[u8], other: &[u8]) -> (Answer, Vec<u8>) {
        self.call(&Case::new(entry, table, other))
    }

    /// Something that must hold between several calls; the case is the last one.
    pub fn demand(&mut self, holds: bool, case: &Case, words: &str) {
        if !holds {
            self.report(case, &[words.to_string()]);
        }
    }

    fn report(&mut self, case: &Case, differences: &[String]) {
        self.differences += 1;
        if self.differences > MOST_RECORDS {
            return;
        }
        let name = format!("checklist-line-{}-call-{}", self.line, self.tally.cases);
        match record::write(&self.folder, &name, case, differences) {
            Ok(description) => print!("difference in {description}"),
            Err(message) => eprintln!("checklist: {message}"),
        }
    }
}

#[cfg(test)]
mod tests {
    use super::*;
    use second::generate::examples;
    use second::Frame;
    use std::slice::{from_raw_parts, from_raw_parts_mut};

    unsafe extern "C" fn check(
        table: *const u8,
        table_length: usize,
        proof: *const u8,
        proof_length: usize,
        work: *mut u8,
        work_length: usize,
    ) -> Answer {
        let (table, proof) = (from_raw_parts(table, table_length), from_raw_parts(proof, proof_length));
        second::check(table, proof, from_raw_parts_mut(work, work_length))
    }

    /// Counts one use too many.
    unsafe extern "C" fn wrong_check(
        table: *const u8,
        table_length: usize,
        proof: *const u8,
        proof_length: usize,
        work: *mut u8,
        work_length: usize,
    ) -> Answer {
        let answer = check(table, table_length, proof, proof_length, work, work_length);
        Answer { uses: answer.uses + 1, ..answer }
    }

    unsafe extern "C" fn no_run(
        _: *const u8,
        _: usize,
        _: *const u8,
        _: usize,
        _: u32,
        _: *mut u8,
        _: usize,
        _: *mut u8,
        _: usize,
    ) -> Answer {
        Answer::default()
    }

    unsafe extern "C" fn no_write(
        _: *const u8,
        _: usize,
        _: *const u8,
        _: usize,
        _: *mut u8,
        _: usize,
        _: *mut u8,
        _: usize,
    ) -> Answer {
        Answer::default()
    }

    unsafe extern "C" fn no_search(
        _: *const u8,
        _: usize,
        _: *const u8,
        _: usize,
        _: u32,
        _: u32,
        _: *mut u8,
        _: usize,
        _: *mut u8,
        _: usize,
    ) -> Answer {
        Answer::default()
    }

    unsafe extern "C" fn no_halt(
        _: *const u8,
        _: usize,
        _: *const u8,
        _: usize,
        _: u32,
        _: *mut u8,
        _: usize,
        _: *mut Frame,
        _: usize,
        _: *mut u8,
        _: usize,
        _: *mut u8,
        _: usize,
    ) -> Answer {
        Answer::default()
    }

    unsafe extern "C" fn no_resume(
        _: *const u8,
        _: usize,
        _: *const u8,
        _: usize,
        _: *const u8,
        _: usize,
        _: u32,
        _: *mut u8,
        _: usize,
        _: *mut Frame,
        _: usize,
        _: *mut u8,
        _: usize,
        _: *mut u8,
        _: usize,
    ) -> Answer {
        Answer::default()
    }

    unsafe extern "C" fn no_text(_: *const u8, _: usize, _: *mut u8, _: usize, _: *mut u8, _: usize) -> Answer {
        Answer::default()
    }

    /// A library of which the tests call check alone.
    fn inspector(check: boundary::library::CheckFunction, folder: &str) -> Inspector {
        let library = Library {
            check,
            run: no_run,
            flatten: no_write,
            check_flat: check,
            write_proof: no_write,
            read_text: no_text,
            write_text: no_text,
            search: no_search,
            run_halting: no_halt,
            resume: no_resume,
        };
        Inspector::new(library, 1, &std::env::temp_dir().join(folder)).unwrap()
    }

    #[test]
    fn a_right_answer_is_no_difference_and_a_wrong_one_is() {
        let case = Case::new(Entry::Check, &examples::table_a(), &examples::first_proof());
        let mut right = inspector(check, "hitac-checklist-right");
        assert_eq!(right.call(&case).0.uses, 3);
        assert_eq!(right.differences, 0);
        right.demand(false, &case, "a demand that does not hold");
        assert_eq!(right.differences, 1);
        let mut wrong = inspector(wrong_check, "hitac-checklist-wrong");
        assert_eq!(wrong.call(&case).0.uses, 4);
        assert_eq!((wrong.differences, wrong.tally.differences), (1, 1));
    }
}
