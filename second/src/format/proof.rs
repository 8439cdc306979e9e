//! "Proof file: a goal list, one term of tags 16 to 21 (a hiproof), a goal list
//! of those remaining." Or no bytes at all (P7).

use super::count::count_fields;
use super::fields::Reader;
use super::tags::Tag;
use super::terms::{read_term, Term, TermNumber, Terms};
use crate::answer::{InputFile, Refusal};
use crate::names::Goal;

/// P7: "Zero bytes now mean no goals, the empty hiproof and none remaining". The
/// same in fields: two goal lists (tag 3) and an empty (21), none with contents.
const MEANING_OF_NO_BYTES: &[u8] = &[3, 0, 0, 21, 0, 0, 3, 0, 0];

/// A proof that was read without refusal.
pub struct Proof<'a> {
    /// The file, or for one of no bytes the fields that it means.
    bytes: &'a [u8],
    pub goals: Vec<Goal>,
    pub terms: Terms,
    pub hiproof: TermNumber,
    pub remaining: Vec<Goal>,
    pub remaining_place: usize,
}

impl<'a> Proof<'a> {
    /// Every entry that takes a proof reads it here, so a file of no bytes is decided
    /// here and nowhere else (B7.1). It is accepted in every table that reads, so no
    /// answer names a place in the fields that stand for it.
    pub fn read(file: &'a [u8]) -> Result<Proof<'a>, Refusal> {
        let bytes = if file.is_empty() { MEANING_OF_NO_BYTES } else { file };
        let mut reader = Reader::open(bytes, InputFile::Other)?;
        let (_, goals) = reader.goal_list()?;
        let mut terms = Terms::default();
        let end = reader.file_end();
        let hiproof = read_term(&mut reader, end, Tag::is_hiproof_term, &mut terms)?;
        let (remaining_place, remaining) = reader.goal_list()?;
        reader.expect_file_end()?;
        Ok(Proof { bytes, goals, terms, hiproof, remaining, remaining_place })
    }

    /// "fields" of an accepted proof: the term fields of its hiproof, counted in the
    /// bytes. It ends where the list of remaining goals begins.
    pub fn term_fields(&self) -> usize {
        count_fields(self.bytes, self.terms.place(self.hiproof), self.remaining_place)
    }

    /// "uses" of an accepted proof: its atomic fields (READINGS A6).
    pub fn atomic_fields(&self) -> usize {
        let is_atomic = |&number: &TermNumber| matches!(self.terms.get(number), Term::Atomic(_));
        self.terms.numbers().filter(is_atomic).count()
    }
}
