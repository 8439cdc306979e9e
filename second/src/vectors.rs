//! The vector file format of docs/VECTORS.md: cases with their answers.

use crate::answer::Answer;
use crate::generate::case::{Case, Entry, Outcome};

const MAGIC: &[u8; 8] = b"HITACVEC";
const VERSION: u16 = 2;

const RECORD_END: u8 = 0;
const RECORD_TABLE: u8 = 1;
const RECORD_OTHER: u8 = 2;
const RECORD_CASE: u8 = 3;
const RECORD_SAVED: u8 = 4;

/// A polynomial in the bytes, modulo the largest prime below 2^32. Every product
/// is below 2^57.
pub fn digest(bytes: &[u8]) -> u32 {
    let mut digest: u64 = 1;
    for &byte in bytes {
        digest = (digest * 16_777_619 + u64::from(byte) + 1) % 4_294_967_291;
    }
    digest as u32
}

/// The vector file of these cases, each with what this engine does.
pub fn write(cases: &[Case]) -> Vec<u8> {
    let mut bytes = header(cases);
    let mut table: Option<&[u8]> = None;
    let mut other: Option<&[u8]> = None;
    let mut saved: Option<&[u8]> = None;
    for case in cases {
        if table != Some(&case.table) {
            write_file_record(RECORD_TABLE, &case.table, &mut bytes);
            table = Some(&case.table);
        }
        if other != Some(&case.other) {
            write_file_record(RECORD_OTHER, &case.other, &mut bytes);
            other = Some(&case.other);
        }
        if case.entry == Entry::Resume && saved != Some(&case.saved) {
            write_file_record(RECORD_SAVED, &case.saved, &mut bytes);
            saved = Some(&case.saved);
        }
        write_case_record(case, &case.outcome(), &mut bytes);
    }
    bytes.push(RECORD_END);
    bytes
}

fn header(cases: &[Case]) -> Vec<u8> {
    let longest = |length: fn(&Case) -> usize| cases.iter().map(length).max().unwrap_or(0);
    let mut bytes = MAGIC.to_vec();
    bytes.extend(VERSION.to_be_bytes());
    put(cases.len(), &mut bytes);
    put(longest(|case| case.table.len()), &mut bytes);
    put(longest(|case| case.other.len()), &mut bytes);
    put(longest(|case| case.work_length), &mut bytes);
    put(longest(|case| case.output_length), &mut bytes);
    bytes
}

fn put(number: usize, bytes: &mut Vec<u8>) {
    bytes.extend((number as u32).to_be_bytes());
}

fn write_case_record(case: &Case, outcome: &Outcome, bytes: &mut Vec<u8>) {
    bytes.push(RECORD_CASE);
    bytes.push(case.entry.code());
    bytes.extend(case.budget.to_be_bytes());
    put(case.work_length, bytes);
    put(case.output_length, bytes);
    for number in outcome.answer.numbers() {
        bytes.extend(number.to_be_bytes());
    }
    bytes.extend(digest(&outcome.output).to_be_bytes());
    if case.entry == Entry::Search {
        bytes.extend(case.height.to_be_bytes());
    }
    if case.entry.may_halt() {
        put(case.frames, bytes);
        put(case.state_length, bytes);
        bytes.extend(digest(&outcome.state).to_be_bytes());
    }
}

/// A block of bytes and how many times it stands in the file.
struct Piece<'a> {
    times: usize,
    block: &'a [u8],
}

fn write_file_record(record: u8, file: &[u8], bytes: &mut Vec<u8>) {
    let pieces = pieces_of(file);
    bytes.push(record);
    put(file.len(), bytes);
    bytes.extend((pieces.len() as u16).to_be_bytes());
    for piece in pieces {
        put(piece.times, bytes);
        bytes.extend((piece.block.len() as u16).to_be_bytes());
        bytes.extend(piece.block);
    }
}

/// Cuts a file into pieces, so that large files of equal fields stay small.
fn pieces_of(file: &[u8]) -> Vec<Piece<'_>> {
    const LONGEST_BLOCK: usize = 65_535;
    let mut pieces = Vec::new();
    let mut begin = 0;
    let mut here = 0;
    while here < file.len() {
        match repetition_at(&file[here..]) {
            Some(piece) => {
                pieces.extend(file[begin..here].chunks(LONGEST_BLOCK).map(|block| Piece { times: 1, block }));
                here += piece.times * piece.block.len();
                begin = here;
                pieces.push(piece);
            }
            None => here += 1,
        }
    }
    pieces.extend(file[begin..].chunks(LONGEST_BLOCK).map(|block| Piece { times: 1, block }));
    pieces
}

/// The repeated block at the front that saves most, if it saves more than the
/// two piece headers it costs.
fn repetition_at(bytes: &[u8]) -> Option<Piece<'_>> {
    const LONGEST_REPEATED: usize = 24;
    const WORTH_SAVING: usize = 16;
    let mut best: Option<Piece> = None;
    let mut best_saving = WORTH_SAVING;
    for length in 1..=LONGEST_REPEATED.min(bytes.len() / 2) {
        let equal = (length..bytes.len()).take_while(|&at| bytes[at] == bytes[at - length]).count();
        let repeats = equal / length;
        if repeats * length > best_saving {
            best_saving = repeats * length;
            best = Some(Piece { times: 1 + repeats, block: &bytes[..length] });
        }
    }
    best
}

/// One case of a vector file, with what is expected of it.
pub struct Expected {
    pub case: Case,
    pub answer: Answer,
    pub digest: u32,
    /// The digest of the second space; that of no bytes where there is none.
    pub state_digest: u32,
}

/// Reads a vector file. None if it is not one, or ends early.
pub fn read(bytes: &[u8]) -> Option<Vec<Expected>> {
    let mut source = Source { bytes };
    if source.block(8)? != MAGIC || source.number16()? != VERSION {
        return None;
    }
    let count = source.number32()? as usize;
    source.block(16)?;
    let mut table = Vec::new();
    let mut other = Vec::new();
    let mut saved = Vec::new();
    let mut cases = Vec::new();
    loop {
        match source.block(1)?[0] {
            RECORD_TABLE => table = source.file()?,
            RECORD_OTHER => other = source.file()?,
            RECORD_SAVED => saved = source.file()?,
            RECORD_CASE => cases.push(source.case(&table, &other, &saved)?),
            RECORD_END => break,
            _ => return None,
        }
    }
    (cases.len() == count && source.bytes.is_empty()).then_some(cases)
}

/// The bytes of a vector file that have not been read.
struct Source<'a> {
    bytes: &'a [u8],
}

impl<'a> Source<'a> {
    fn block(&mut self, length: usize) -> Option<&'a [u8]> {
        if length > self.bytes.len() {
            return None;
        }
        let (front, rest) = self.bytes.split_at(length);
        self.bytes = rest;
        Some(front)
    }

    fn number16(&mut self) -> Option<u16> {
        Some(u16::from_be_bytes(self.block(2)?.try_into().ok()?))
    }

    fn number32(&mut self) -> Option<u32> {
        Some(u32::from_be_bytes(self.block(4)?.try_into().ok()?))
    }

    fn answer(&mut self) -> Option<Answer> {
        let mut numbers = [0; 12];
        for number in &mut numbers {
            *number = self.number32()?;
        }
        Some(Answer::of_numbers(numbers))
    }

    fn file(&mut self) -> Option<Vec<u8>> {
        let length = self.number32()? as usize;
        let mut file = Vec::new();
        for _ in 0..self.number16()? {
            let times = self.number32()? as usize;
            let block_length = usize::from(self.number16()?);
            let block = self.block(block_length)?;
            if file.len() + times.checked_mul(block_length)? > length {
                return None;
            }
            file.extend(block.repeat(times));
        }
        (file.len() == length).then_some(file)
    }

    fn case(&mut self, table: &[u8], other: &[u8], saved: &[u8]) -> Option<Expected> {
        let entry = Entry::of_code(self.block(1)?[0])?;
        let mut case = Case::bare(entry, table.to_vec(), other.to_vec());
        case.budget = self.number32()?;
        case.work_length = self.number32()? as usize;
        case.output_length = self.number32()? as usize;
        let answer = self.answer()?;
        let output_digest = self.number32()?;
        let mut state_digest = digest(&[]);
        if entry == Entry::Search {
            case.height = self.number32()?;
        }
        if entry.may_halt() {
            case.frames = self.number32()? as usize;
            case.state_length = self.number32()? as usize;
            state_digest = self.number32()?;
        }
        if entry == Entry::Resume {
            case.saved = saved.to_vec();
        }
        Some(Expected { case, answer, digest: output_digest, state_digest })
    }
}

/// Runs every case of a vector file; the number of cases if all agree, otherwise
/// the first difference in words.
pub fn replay(bytes: &[u8]) -> Result<usize, String> {
    let cases = read(bytes).ok_or("not a vector file of this version, or damaged")?;
    for (number, expected) in cases.iter().enumerate() {
        let outcome = expected.case.outcome();
        if outcome.answer != expected.answer {
            return Err(format!("case {number}: expected {:?}, answered {:?}", expected.answer, outcome.answer));
        }
        if digest(&outcome.output) != expected.digest {
            return Err(format!("case {number}: the output space differs"));
        }
        if digest(&outcome.state) != expected.state_digest {
            return Err(format!("case {number}: the second space differs"));
        }
        if !outcome.work_space_as_promised {
            return Err(format!("case {number}: the work space or a frame is not as promised"));
        }
    }
    Ok(cases.len())
}
