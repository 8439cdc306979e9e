//! Terms: tactics and hiproofs.
//!
//! The fields of a term stand in one list in byte order, so a field comes before
//! its inner terms. A term can be 4,096 fields deep; a list needs no recursion.

use super::fields::{Field, Reader};
use super::tags::Tag;
use crate::answer::{Reason, Refusal};
use crate::names::{Goal, Label, RuleName, TacticNo};

/// The number of a term field in its list.
#[derive(Clone, Copy, PartialEq, Eq, Debug)]
pub struct TermNumber(pub u32);

/// The paper's grammar of tactic expressions, section 2.1.
#[derive(Clone, Copy, PartialEq, Eq, Debug)]
pub enum Term {
    Atomic(RuleName),
    Id,
    Label(Label, TermNumber),
    Sequence(TermNumber, TermNumber),
    Tensor(TermNumber, TermNumber),
    Empty,
    Alternation(TermNumber, TermNumber),
    Assert(Goal),
    DefinedTactic(TacticNo),
}

/// Term fields with their places, those of the table in front of a job's.
#[derive(Clone, Default, Debug)]
pub struct Terms {
    terms: Vec<Term>,
    places: Vec<u32>,
}

impl Terms {
    pub fn count(&self) -> usize {
        self.terms.len()
    }

    pub fn get(&self, number: TermNumber) -> Term {
        self.terms[number.0 as usize]
    }

    /// The byte offset of the term's tag in its own file.
    pub fn place(&self, number: TermNumber) -> usize {
        self.places[number.0 as usize] as usize
    }

    /// All term numbers in byte order.
    pub fn numbers(&self) -> impl DoubleEndedIterator<Item = TermNumber> {
        (0..self.terms.len() as u32).map(TermNumber)
    }

    fn add(&mut self, place: usize, term: Term) -> TermNumber {
        let number = TermNumber(self.terms.len() as u32);
        self.terms.push(term);
        self.places.push(place as u32);
        number
    }

    /// Enters the second inner term of a field, known only when it begins.
    fn set_right(&mut self, number: TermNumber, new_right: TermNumber) {
        match &mut self.terms[number.0 as usize] {
            Term::Sequence(_, right) | Term::Tensor(_, right) | Term::Alternation(_, right) => *right = new_right,
            _ => {}
        }
    }
}

/// A field some of whose inner terms have still to be read.
struct UnfinishedField {
    number: TermNumber,
    place: usize,
    end: usize,
    inner_terms_to_come: usize,
}

/// Reads the one term that must stand at the reader's offset, within contents
/// that end at `enclosing_end`, and adds its fields to `terms`.
pub fn read_term(
    reader: &mut Reader,
    enclosing_end: usize,
    allowed: fn(Tag) -> bool,
    terms: &mut Terms,
) -> Result<TermNumber, Refusal> {
    let whole = TermNumber(terms.count() as u32);
    let mut unfinished: Vec<UnfinishedField> = Vec::new();
    loop {
        let end = unfinished.last().map_or(enclosing_end, |field| field.end);
        let field = reader.begin_field(end, allowed)?;
        let next = TermNumber(terms.count() as u32);
        let number = terms.add(field.place, term_of_field(reader, field, next));
        if let Some(enclosing) = unfinished.last_mut() {
            enclosing.inner_terms_to_come -= 1;
            terms.set_right(enclosing.number, number);
        }
        let inner_terms_to_come = field.tag.inner_terms();
        unfinished.push(UnfinishedField { number, place: field.place, end: field.end, inner_terms_to_come });
        finish_fields(reader, &mut unfinished)?;
        if unfinished.is_empty() {
            return Ok(whole);
        }
    }
}

/// The field's term. A first inner term stands right behind it; the second is
/// entered when it is reached (set_right is called for each, the last one stays).
fn term_of_field(reader: &mut Reader, field: Field, number: TermNumber) -> Term {
    let first = TermNumber(number.0 + 1);
    match field.tag {
        Tag::Atomic => Term::Atomic(RuleName(reader.value())),
        Tag::Id => Term::Id,
        Tag::Label => Term::Label(Label(reader.value()), first),
        Tag::Sequence => Term::Sequence(first, first),
        Tag::Tensor => Term::Tensor(first, first),
        Tag::Alternation => Term::Alternation(first, first),
        Tag::Assert => Term::Assert(Goal(reader.value())),
        Tag::DefinedTactic => Term::DefinedTactic(TacticNo(reader.value())),
        // The reader lets only tags 16 to 24 through to here; 21 is the last.
        _ => Term::Empty,
    }
}

/// Leaves every field whose last inner term has been read. "leftovers (4, at the
/// enclosing field) after the inner terms" (READINGS A10).
fn finish_fields(reader: &Reader, unfinished: &mut Vec<UnfinishedField>) -> Result<(), Refusal> {
    while let Some(field) = unfinished.last() {
        if field.inner_terms_to_come > 0 {
            return Ok(());
        }
        if reader.offset() != field.end {
            return Err(reader.refusal(Reason::LengthWrong, field.place));
        }
        unfinished.pop();
    }
    Ok(())
}
