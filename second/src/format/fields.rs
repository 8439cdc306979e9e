//! "The reader moves over the file one field at a time."

use super::tags::Tag;
use crate::answer::{InputFile, Reason, Refusal};
use crate::limits::*;
use crate::names::Goal;

/// A file and the offset up to which it has been read.
pub struct Reader<'a> {
    bytes: &'a [u8],
    file: InputFile,
    offset: usize,
    counts: FieldCounts,
}

/// A field whose header, length and contents' end have been found in order.
#[derive(Clone, Copy, Debug)]
pub struct Field {
    pub tag: Tag,
    pub place: usize,
    pub end: usize,
}

/// How many fields of each limited sort the file has had so far.
#[derive(Default)]
struct FieldCounts {
    rules: usize,
    definitions: usize,
    terms: usize,
    uses: usize,
    opens: usize,
}

impl FieldCounts {
    /// Counts the field; false if it is one more than its limit. Term fields
    /// are counted over the whole file (READINGS A13).
    fn admit(&mut self, tag: Tag) -> bool {
        let (count, limit) = match tag {
            Tag::Rule => (&mut self.rules, MOST_RULES),
            Tag::Definition => (&mut self.definitions, MOST_DEFINITIONS),
            Tag::Use => (&mut self.uses, MOST_USES),
            Tag::Open => (&mut self.opens, MOST_OPENS),
            Tag::GoalList => return true,
            _ => (&mut self.terms, MOST_TERM_FIELDS),
        };
        *count += 1;
        *count <= limit
    }
}

impl<'a> Reader<'a> {
    /// "1: input over 65,535 bytes", at place 0 (READINGS A1).
    pub fn open(bytes: &'a [u8], file: InputFile) -> Result<Reader<'a>, Refusal> {
        if bytes.len() > MOST_INPUT_BYTES {
            return Err(Refusal::at(Reason::InputTooLong, file, 0));
        }
        Ok(Reader { bytes, file, offset: 0, counts: FieldCounts::default() })
    }

    pub fn offset(&self) -> usize {
        self.offset
    }

    pub fn file_end(&self) -> usize {
        self.bytes.len()
    }

    pub fn at_file_end(&self) -> bool {
        self.offset == self.bytes.len()
    }

    pub fn refusal(&self, reason: Reason, place: usize) -> Refusal {
        Refusal::at(reason, self.file, place)
    }

    /// Begins the field that must stand at the offset, within the contents that
    /// end at `enclosing_end` (READINGS A9), and moves behind its header.
    ///
    /// The tests come in the order that document 01 gives: "header 2, 3, field
    /// limit 5, contents 2, 4, goal count 5".
    pub fn begin_field(&mut self, enclosing_end: usize, allowed: impl Fn(Tag) -> bool) -> Result<Field, Refusal> {
        let place = self.offset;
        let header = match self.bytes[place..enclosing_end] {
            [tag, high, low, ..] => (tag, high, low),
            _ => return Err(self.refusal(Reason::FieldTorn, place)),
        };
        let tag = match Tag::from_byte(header.0) {
            Some(tag) if allowed(tag) => tag,
            _ => return Err(self.refusal(Reason::TagNotAllowed, place)),
        };
        if !self.counts.admit(tag) {
            return Err(self.refusal(Reason::OverLimit, place));
        }
        let length = usize::from(u16::from_be_bytes([header.1, header.2]));
        let end = place + 3 + length;
        if end > enclosing_end {
            return Err(self.refusal(Reason::FieldTorn, place));
        }
        if !tag.allows_length(length) {
            return Err(self.refusal(Reason::LengthWrong, place));
        }
        if tag == Tag::GoalList && length / 2 > MOST_GOALS {
            return Err(self.refusal(Reason::OverLimit, place));
        }
        self.offset = place + 3;
        Ok(Field { tag, place, end })
    }

    /// The next value of the field just begun. Its length has been tested, so
    /// the two bytes are there.
    pub fn value(&mut self) -> u16 {
        let value = u16::from_be_bytes([self.bytes[self.offset], self.bytes[self.offset + 1]]);
        self.offset += 2;
        value
    }

    /// Adds all the goals up to the end of the field just begun.
    pub fn goals_up_to(&mut self, end: usize, goals: &mut Vec<Goal>) {
        let pairs = self.bytes[self.offset..end].chunks_exact(2);
        goals.extend(pairs.map(|pair| Goal(u16::from_be_bytes([pair[0], pair[1]]))));
        self.offset = end;
    }

    /// A goal list that must stand here. Gives its place, too.
    pub fn goal_list(&mut self) -> Result<(usize, Vec<Goal>), Refusal> {
        let field = self.begin_field(self.file_end(), |tag| tag == Tag::GoalList)?;
        let mut goals = Vec::new();
        self.goals_up_to(field.end, &mut goals);
        Ok((field.place, goals))
    }

    /// "4: ... or behind the last field of a job or proof file (only at a
    /// file's end is the place the first of them)"; also for one or two bytes
    /// (READINGS A11).
    pub fn expect_file_end(&self) -> Result<(), Refusal> {
        if self.at_file_end() {
            return Ok(());
        }
        Err(self.refusal(Reason::LengthWrong, self.offset))
    }
}
