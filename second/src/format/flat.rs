//! "Flat file: a goal list (the roots), then use and open fields."

use super::fields::Reader;
use super::tags::Tag;
use crate::answer::{InputFile, Refusal};
use crate::names::{Goal, RuleName};

/// A flat file that was read without refusal.
pub struct Flat {
    pub roots: Vec<Goal>,
    pub entries: Vec<Entry>,
    /// The file's length: the place of an entry that is missing.
    pub end: usize,
}

#[derive(Clone, Copy, Debug)]
pub struct Entry {
    pub place: usize,
    pub goal: Goal,
    pub step: FlatStep,
}

#[derive(Clone, Copy, PartialEq, Eq, Debug)]
pub enum FlatStep {
    Use(RuleName),
    Open,
}

impl Flat {
    pub fn read(bytes: &[u8]) -> Result<Flat, Refusal> {
        let mut reader = Reader::open(bytes, InputFile::Other)?;
        let (_, roots) = reader.goal_list()?;
        let mut entries = Vec::new();
        while !reader.at_file_end() {
            let field = reader.begin_field(reader.file_end(), |tag| matches!(tag, Tag::Use | Tag::Open))?;
            let step = match field.tag {
                Tag::Use => FlatStep::Use(RuleName(reader.value())),
                _ => FlatStep::Open,
            };
            let goal = Goal(reader.value());
            entries.push(Entry { place: field.place, goal, step });
        }
        Ok(Flat { roots, entries, end: reader.file_end() })
    }

    pub fn count_uses(&self) -> usize {
        self.entries.iter().filter(|entry| entry.step != FlatStep::Open).count()
    }
}
