//! The texts and term files of the families. Values have five digits, the most.

use crate::files::Files;
use second::engine;
use second::generate::build::*;
use second::generate::case::Entry;

const LARGEST: u16 = 65_535;

/// A field of two inner terms.
pub type Join = fn(&[u8], &[u8]) -> Vec<u8>;

/// A term as the entry takes it, as text or as a file; there is no table.
pub fn as_taken(entry: Entry, term: Vec<u8>) -> Files {
    let other = match entry {
        Entry::ReadText => engine::write_text(&term).expect("the term reads"),
        _ => term,
    };
    (Vec::new(), other)
}

fn leaf() -> Vec<u8> {
    atomic(LARGEST)
}

/// `[65535][65535]..a65535`: no field makes a longer text.
pub fn labels(count: usize) -> Vec<u8> {
    (0..count).fold(leaf(), |inner, _| label(LARGEST, &inner))
}

/// A chain of one sign, without brackets.
pub fn to_the_right(join: Join, leaves: usize) -> Vec<u8> {
    (1..leaves).fold(leaf(), |right, _| join(&leaf(), &right))
}

/// The same sign with brackets round every left part.
pub fn to_the_left(join: Join, leaves: usize) -> Vec<u8> {
    (1..leaves).fold(leaf(), |left, _| join(&left, &leaf()))
}

/// `([65535]id) * ([65535]id) * ..id`: a sign follows each label, which is in brackets for that reason.
pub fn followed_labels(count: usize) -> Vec<u8> {
    (0..count).fold(id(), |right, _| tensor(&label(LARGEST, &id()), &right))
}

/// `([65535]([65535]id) * id) * id`: such labels in each other.
pub fn labels_to_the_left(count: usize) -> Vec<u8> {
    (0..count).fold(id(), |left, _| tensor(&label(LARGEST, &left), &id()))
}

/// `id ; [65535]id ; [65535]id`: labels in each other, each the right part of a sequence, without brackets.
pub fn labels_to_the_right(count: usize) -> Vec<u8> {
    (0..count).fold(id(), |right, _| sequence(&id(), &label(LARGEST, &right)))
}

/// `id * id | id ; id * id | id ; ..id`: every sign ends the tighter ones in front of it.
pub fn all_signs(sequences: usize) -> Vec<u8> {
    let part = alternation(&tensor(&id(), &id()), &id());
    (0..sequences).fold(id(), |right, _| sequence(&part, &right))
}

pub fn brackets(pairs: usize) -> Files {
    (Vec::new(), ["(".repeat(pairs), "a10".to_string(), ")".repeat(pairs)].concat().into_bytes())
}

pub fn blanks(count: usize) -> Files {
    (Vec::new(), (" ".repeat(count) + "id").into_bytes())
}

/// A number of so many digits, all but the last of them zeros.
pub fn leading_zeros(digits: usize) -> Files {
    (Vec::new(), ["a".to_string(), "0".repeat(digits - 1), "1".to_string()].concat().into_bytes())
}
