//! What was called and what was answered, counted.

use crate::compare::name_of;
use crate::mix::Kind;
use second::generate::case::Entry;
use std::collections::{BTreeMap, BTreeSet};
use std::fmt::Write;

#[derive(Default)]
pub struct Tally {
    pub cases: u64,
    pub differences: u64,
    answers: BTreeMap<(u32, u8), u64>,
    kinds: BTreeMap<&'static str, u64>,
    /// Number, file and place of every refusal that had a place.
    places: BTreeSet<(u32, u32, u32)>,
}

impl Tally {
    pub fn count(&mut self, entry: Entry, answer: second::Answer, differs: bool) {
        self.cases += 1;
        self.differences += u64::from(differs);
        *self.answers.entry((answer.number, entry.code())).or_default() += 1;
        if answer.file != 0 {
            self.places.insert((answer.number, answer.file, answer.place));
        }
    }

    pub fn count_kind(&mut self, kind: Kind) {
        *self.kinds.entry(kind.name()).or_default() += 1;
    }

    /// Adds what another thread has counted.
    pub fn add(&mut self, other: Tally) {
        self.cases += other.cases;
        self.differences += other.differences;
        for (key, count) in other.answers {
            *self.answers.entry(key).or_default() += count;
        }
        for (kind, count) in other.kinds {
            *self.kinds.entry(kind).or_default() += count;
        }
        self.places.extend(other.places);
    }

    /// How many cases got that answer, over all entries.
    pub fn answered(&self, number: u32) -> u64 {
        self.answers.iter().filter(|((its, _), _)| *its == number).map(|(_, count)| count).sum()
    }

    /// How many cases of that entry got that answer.
    pub fn answered_by(&self, entry: Entry, number: u32) -> u64 {
        self.answers.get(&(number, entry.code())).copied().unwrap_or(0)
    }

    /// How many cases of that entry there were.
    pub fn cases_of(&self, entry: Entry) -> u64 {
        self.answers.iter().filter(|((_, code), _)| *code == entry.code()).map(|(_, count)| count).sum()
    }

    /// The refusals that occurred, in order.
    pub fn refusals(&self) -> Vec<u32> {
        let numbers: BTreeSet<u32> = self.answers.keys().map(|(number, _)| *number).filter(|&n| n != 0).collect();
        numbers.into_iter().collect()
    }

    /// How many different pairs of refusal and place occurred.
    pub fn distinct_places(&self) -> usize {
        self.places.len()
    }

    /// A table in Markdown: a line for each answer, a column for each entry.
    pub fn table(&self) -> String {
        let mut text = "| answer |".to_string();
        for entry in Entry::ALL {
            let _ = write!(text, " {} |", name_of(entry));
        }
        let _ = writeln!(text, "\n|---|{}", "---|".repeat(Entry::ALL.len()));
        let numbers = std::iter::once(0).filter(|_| self.answered(0) > 0).chain(self.refusals());
        for number in numbers {
            self.line(&mut text, &number.to_string(), |its| its == number);
        }
        self.line(&mut text, "all", |_| true);
        text
    }

    fn line(&self, text: &mut String, name: &str, wanted: impl Fn(u32) -> bool) {
        let _ = write!(text, "| {name} |");
        for entry in Entry::ALL {
            let those = self.answers.iter().filter(|((number, code), _)| *code == entry.code() && wanted(*number));
            let _ = write!(text, " {} |", with_commas(those.map(|(_, count)| count).sum()));
        }
        text.push('\n');
    }

    /// The kinds of case in one line.
    pub fn kinds_line(&self) -> String {
        let all: Vec<String> =
            self.kinds.iter().map(|(name, count)| format!("{name} {}", with_commas(*count))).collect();
        all.join(", ")
    }
}

/// 1234567 as 1,234,567.
pub fn with_commas(number: u64) -> String {
    let digits = number.to_string();
    let mut text = String::new();
    for (at, digit) in digits.chars().enumerate() {
        if at > 0 && (digits.len() - at).is_multiple_of(3) {
            text.push(',');
        }
        text.push(digit);
    }
    text
}

#[cfg(test)]
mod tests {
    use super::*;
    use second::Answer;

    #[test]
    fn numbers_have_commas() {
        let texts = [0, 999, 1_000, 1_234_567].map(with_commas);
        assert_eq!(texts, ["0", "999", "1,000", "1,234,567"]);
    }

    #[test]
    fn answers_are_counted_by_entry() {
        let mut tally = Tally::default();
        tally.count(Entry::Check, Answer::default(), false);
        tally.count(Entry::Run, Answer { number: 23, ..Answer::default() }, true);
        assert_eq!((tally.cases, tally.differences, tally.answered(0)), (2, 1, 1));
        assert_eq!(tally.refusals(), [23]);
        assert_eq!((tally.answered_by(Entry::Run, 23), tally.answered_by(Entry::Check, 23)), (1, 0));
        assert_eq!((tally.cases_of(Entry::Run), tally.cases_of(Entry::Flatten)), (1, 0));
        assert!(tally.table().ends_with("| all | 1 | 1 | 0 | 0 | 0 | 0 | 0 | 0 | 0 | 0 |\n"));
    }
}
