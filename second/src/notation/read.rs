//! Text to term: one pass over the bytes, then one over the fields found.
//!
//! What waits for the end of the term behind it (a round bracket, a label, a sign
//! with its left part) stands on a stack, so depth needs no recursion: "round
//! brackets can be nested 32,766 deep without making a field" (B8.14).

use super::{Sign, BLANK};
use crate::answer::{InputFile, Reason, Refusal};
use crate::format::tags::Tag;
use crate::limits::{MOST_INPUT_BYTES, MOST_TERM_FIELDS};

/// The term file of a text of the notation.
pub fn term_file_of(text: &[u8]) -> Result<Vec<u8>, Refusal> {
    if text.len() > MOST_INPUT_BYTES {
        return Err(Refusal::at(Reason::InputTooLong, InputFile::Other, 0));
    }
    let mut reader = TextReader { text, at: 0, marks: 0, brackets: 0, waiting: Vec::new(), term: Completed::default() };
    loop {
        reader.read_up_to_leaf()?;
        if !reader.read_up_to_sign()? {
            return Ok(reader.term.file());
        }
    }
}

/// What waits for the end of the term behind it.
#[derive(Clone, Copy)]
enum Waiting {
    Bracket,
    Label(u16),
    Sign(Sign),
}

/// A text and the offset up to which it has been read.
struct TextReader<'a> {
    text: &'a [u8],
    at: usize,
    /// Marks so far that make a term field: all but the round brackets (B8.7).
    marks: usize,
    /// Round brackets that have not been closed.
    brackets: usize,
    /// Innermost last.
    waiting: Vec<Waiting>,
    term: Completed,
}

impl TextReader<'_> {
    /// Reads the marks that can begin a term, up to its first leaf. Until the
    /// leaf has come the text cannot end, nor a sign stand. Blanks are skipped
    /// between marks only, never inside one (B8.3).
    fn read_up_to_leaf(&mut self) -> Result<(), Refusal> {
        loop {
            match self.text.get(self.at) {
                Some(&BLANK) => self.at += 1,
                Some(b'(') => {
                    self.at += 1;
                    self.brackets += 1;
                    self.waiting.push(Waiting::Bracket);
                }
                Some(b'[') => self.read_label()?,
                _ => return self.read_leaf(),
            }
        }
    }

    /// Reads the marks that can stand behind a term, up to the next sign; false if
    /// the text ends instead. It may end only with all round brackets closed.
    fn read_up_to_sign(&mut self) -> Result<bool, Refusal> {
        loop {
            match self.text.get(self.at) {
                Some(&BLANK) => self.at += 1,
                Some(b')') if self.brackets > 0 => self.close_bracket(),
                Some(&byte) => return self.read_sign(byte),
                None if self.brackets > 0 => return Err(self.not_in_notation()),
                None => {
                    self.end_terms_in_bracket();
                    return Ok(false);
                }
            }
        }
    }

    fn read_label(&mut self) -> Result<(), Refusal> {
        let place = self.at;
        self.at += 1;
        let label = self.read_number()?;
        self.expect(b']')?;
        self.count_mark(place)?;
        self.waiting.push(Waiting::Label(label));
        Ok(())
    }

    fn read_leaf(&mut self) -> Result<(), Refusal> {
        let place = self.at;
        let Some(&first) = self.text.get(place) else {
            return Err(self.not_in_notation());
        };
        let (tag, rest): (Tag, Option<u8>) = match first {
            b'a' => (Tag::Atomic, None),
            b'?' => (Tag::Assert, None),
            b'T' => (Tag::DefinedTactic, None),
            b'i' => (Tag::Id, Some(b'd')),
            b'<' => (Tag::Empty, Some(b'>')),
            _ => return Err(self.not_in_notation()),
        };
        self.at += 1;
        let value = match rest {
            None => Some(self.read_number()?),
            Some(byte) => self.expect(byte).map(|()| None)?,
        };
        self.count_mark(place)?;
        self.term.leaf(tag, value);
        Ok(())
    }

    fn read_sign(&mut self, byte: u8) -> Result<bool, Refusal> {
        let Some(sign) = Sign::of_byte(byte) else {
            return Err(self.not_in_notation());
        };
        self.count_mark(self.at)?;
        self.at += 1;
        self.end_tighter_terms(sign);
        self.waiting.push(Waiting::Sign(sign));
        Ok(true)
    }

    /// "37, a value over 65,535, at its first digit, when its last digit is read":
    /// so before a 36 at the byte behind it (B8.6). "The reader takes leading
    /// zeros", any number of them; the value stops growing above the limit.
    fn read_number(&mut self) -> Result<u16, Refusal> {
        const TOO_LARGE: u32 = 65_536;
        let first = self.at;
        let mut value: u32 = 0;
        while let Some(digit) = self.text.get(self.at).filter(|byte| byte.is_ascii_digit()) {
            value = (10 * value + u32::from(digit - b'0')).min(TOO_LARGE);
            self.at += 1;
        }
        if self.at == first {
            return Err(self.not_in_notation());
        }
        u16::try_from(value).map_err(|_| Refusal::at(Reason::ValueTooLarge, InputFile::Other, first))
    }

    fn expect(&mut self, byte: u8) -> Result<(), Refusal> {
        if self.text.get(self.at) != Some(&byte) {
            return Err(self.not_in_notation());
        }
        self.at += 1;
        Ok(())
    }

    /// "5 comes at the mark that makes the 4,097th term field, once complete and
    /// after any 37": called when the mark that begins at `place` is complete.
    fn count_mark(&mut self, place: usize) -> Result<(), Refusal> {
        self.marks += 1;
        if self.marks > MOST_TERM_FIELDS {
            return Err(Refusal::at(Reason::OverLimit, InputFile::Other, place));
        }
        Ok(())
    }

    /// "36, the first byte after which no text of the notation can follow, or the
    /// end if it comes early". All before the offset begins some text: whatever
    /// is missing of a mark, a leaf and the closing brackets would finish it.
    fn not_in_notation(&self) -> Refusal {
        Refusal::at(Reason::NotInNotation, InputFile::Other, self.at)
    }

    /// A sign ends the terms of the signs in front of it that bind tighter. One of
    /// the same sort goes on waiting: "a chain of the same sign groups to the
    /// right". A label does, too: it "reaches as far right as its bracket allows".
    fn end_tighter_terms(&mut self, sign: Sign) {
        while let Some(&Waiting::Sign(inner)) = self.waiting.last() {
            if inner <= sign {
                return;
            }
            self.waiting.pop();
            self.term.two_parts(inner);
        }
    }

    fn close_bracket(&mut self) {
        self.at += 1;
        self.brackets -= 1;
        self.end_terms_in_bracket();
    }

    /// Ends the labels and signs behind the innermost round bracket, and takes
    /// that bracket away; at the end of the text there is none.
    fn end_terms_in_bracket(&mut self) {
        while let Some(waiting) = self.waiting.pop() {
            match waiting {
                Waiting::Bracket => return,
                Waiting::Label(label) => self.term.label(label),
                Waiting::Sign(sign) => self.term.two_parts(sign),
            }
        }
    }
}

/// Fields in the order in which their terms end, each behind its inner terms.
#[derive(Default)]
struct Completed {
    fields: Vec<CompletedField>,
    /// The lengths of the terms that are no inner term yet.
    lengths: Vec<u16>,
}

/// A field; its length is that of header, value and inner terms. 4,096 fields
/// have at most 20,480 bytes (B8.13).
struct CompletedField {
    tag: Tag,
    value: Option<u16>,
    length: u16,
}

impl Completed {
    fn leaf(&mut self, tag: Tag, value: Option<u16>) {
        let length = if value.is_some() { 5 } else { 3 };
        self.add(tag, value, length);
    }

    fn label(&mut self, label: u16) {
        let inner = self.lengths.pop().unwrap_or(0);
        self.add(Tag::Label, Some(label), 5 + inner);
    }

    fn two_parts(&mut self, sign: Sign) {
        let right = self.lengths.pop().unwrap_or(0);
        let left = self.lengths.pop().unwrap_or(0);
        self.add(sign.tag(), None, 3 + left + right);
    }

    fn add(&mut self, tag: Tag, value: Option<u16>, length: u16) {
        self.fields.push(CompletedField { tag, value, length });
        self.lengths.push(length);
    }

    /// The term as a file. From the last field to the first each term comes before
    /// its right part, and that before its left part; a right part and what a
    /// label holds end where the term does, a left part where the right begins.
    fn file(&self) -> Vec<u8> {
        let mut bytes = vec![0; self.fields.last().map_or(0, |whole| usize::from(whole.length))];
        let mut left_ends: Vec<usize> = Vec::new();
        let mut end = bytes.len();
        for (number, field) in self.fields.iter().enumerate().rev() {
            field.write_into(&mut bytes[end - usize::from(field.length)..]);
            match field.tag.inner_terms() {
                0 => end = left_ends.pop().unwrap_or(0),
                1 => {}
                _ => left_ends.push(end - usize::from(self.fields[number - 1].length)),
            }
        }
        bytes
    }
}

impl CompletedField {
    /// Writes header and value to the front.
    fn write_into(&self, bytes: &mut [u8]) {
        bytes[0] = self.tag.byte();
        bytes[1..3].copy_from_slice(&(self.length - 3).to_be_bytes());
        if let Some(value) = self.value {
            bytes[3..5].copy_from_slice(&value.to_be_bytes());
        }
    }
}
