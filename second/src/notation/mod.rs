//! P8: "Users write tactics by hand in the paper's notation. Marks: `a12`, `id`,
//! `[3]`, `;`, `|`, `*` for tensor, `<>`, `?30` for assert, `T4`, round brackets
//! and, between marks, before the first or after the last, blanks (byte 32 only)."

pub mod read;
pub mod write;

use crate::format::tags::Tag;

pub const BLANK: u8 = b' ';

/// The marks that stand between two terms, the loosest first: "Tensor binds
/// tightest, then alternation, then sequence".
#[derive(Clone, Copy, PartialEq, Eq, PartialOrd, Ord, Debug)]
pub enum Sign {
    Sequence,
    Alternation,
    Tensor,
}

impl Sign {
    pub fn of_byte(byte: u8) -> Option<Sign> {
        Some(match byte {
            b';' => Sign::Sequence,
            b'|' => Sign::Alternation,
            b'*' => Sign::Tensor,
            _ => return None,
        })
    }

    pub fn byte(self) -> u8 {
        match self {
            Sign::Sequence => b';',
            Sign::Alternation => b'|',
            Sign::Tensor => b'*',
        }
    }

    /// Larger for a sign that binds tighter.
    pub fn tightness(self) -> u8 {
        self as u8
    }

    /// The tag of the field that the sign makes.
    pub fn tag(self) -> Tag {
        match self {
            Sign::Sequence => Tag::Sequence,
            Sign::Alternation => Tag::Alternation,
            Sign::Tensor => Tag::Tensor,
        }
    }
}
