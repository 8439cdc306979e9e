//! P8: "The term, given or written, is a file by itself, read like a job's": one
//! term of tags 16 to 24 and nothing else (B8.12).

use super::fields::Reader;
use super::tags::Tag;
use super::terms::{read_term, TermNumber, Terms};
use crate::answer::{InputFile, Refusal};

/// A term file that was read without refusal.
pub struct TermFile {
    pub terms: Terms,
    pub term: TermNumber,
}

impl TermFile {
    /// It is file 2: there is no table, and 2 is "the other" (B8.1).
    pub fn read(bytes: &[u8]) -> Result<TermFile, Refusal> {
        let mut reader = Reader::open(bytes, InputFile::Other)?;
        let mut terms = Terms::default();
        let end = reader.file_end();
        let term = read_term(&mut reader, end, Tag::is_tactic_term, &mut terms)?;
        reader.expect_file_end()?;
        Ok(TermFile { terms, term })
    }
}
