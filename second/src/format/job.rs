//! "Job file: a goal list, then one term of tags 16 to 24."

use super::fields::Reader;
use super::tags::Tag;
use super::terms::{read_term, TermNumber, Terms};
use crate::answer::{InputFile, Refusal};
use crate::names::Goal;

/// A job that was read without refusal.
pub struct Job {
    pub goals: Vec<Goal>,
    pub tactic: TermNumber,
}

impl Job {
    /// Adds the job's term fields to `terms`, behind those of the table, so that
    /// one number names a term of either file.
    pub fn read(bytes: &[u8], terms: &mut Terms) -> Result<Job, Refusal> {
        let mut reader = Reader::open(bytes, InputFile::Other)?;
        let (_, goals) = reader.goal_list()?;
        let end = reader.file_end();
        let tactic = read_term(&mut reader, end, Tag::is_tactic_term, terms)?;
        reader.expect_file_end()?;
        Ok(Job { goals, tactic })
    }
}
