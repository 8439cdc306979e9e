//! "Fourteen tags in all": what each may hold.

use crate::limits::MOST_PREMISES;

#[derive(Clone, Copy, PartialEq, Eq, Debug)]
#[repr(u8)]
pub enum Tag {
    Rule = 1,
    Definition = 2,
    GoalList = 3,
    Atomic = 16,
    Id = 17,
    Label = 18,
    Sequence = 19,
    Tensor = 20,
    Empty = 21,
    Alternation = 22,
    Assert = 23,
    DefinedTactic = 24,
    Use = 32,
    Open = 33,
}

impl Tag {
    pub fn from_byte(byte: u8) -> Option<Tag> {
        Some(match byte {
            1 => Tag::Rule,
            2 => Tag::Definition,
            3 => Tag::GoalList,
            16 => Tag::Atomic,
            17 => Tag::Id,
            18 => Tag::Label,
            19 => Tag::Sequence,
            20 => Tag::Tensor,
            21 => Tag::Empty,
            22 => Tag::Alternation,
            23 => Tag::Assert,
            24 => Tag::DefinedTactic,
            32 => Tag::Use,
            33 => Tag::Open,
            _ => return None,
        })
    }

    pub fn byte(self) -> u8 {
        self as u8
    }

    /// "one term of tags 16 to 24" (job file, and bodies of definitions)
    pub fn is_tactic_term(self) -> bool {
        (Tag::Atomic.byte()..=Tag::DefinedTactic.byte()).contains(&self.byte())
    }

    /// "one term of tags 16 to 21 (a hiproof)" (proof file)
    pub fn is_hiproof_term(self) -> bool {
        (Tag::Atomic.byte()..=Tag::Empty.byte()).contains(&self.byte())
    }

    /// How many terms stand in the contents, behind the values.
    pub fn inner_terms(self) -> usize {
        match self {
            Tag::Definition | Tag::Label => 1,
            Tag::Sequence | Tag::Tensor | Tag::Alternation => 2,
            _ => 0,
        }
    }

    /// How many bytes of values stand in front of the inner terms. A rule's premises
    /// and the goals of a list are left out, since their number varies.
    pub fn value_bytes(self) -> usize {
        match self {
            Tag::Rule | Tag::Use => 4,
            Tag::Definition | Tag::Atomic | Tag::Label | Tag::Assert | Tag::DefinedTactic | Tag::Open => 2,
            Tag::GoalList | Tag::Id | Tag::Sequence | Tag::Tensor | Tag::Empty | Tag::Alternation => 0,
        }
    }

    /// "4: length wrong for the tag (where it has inner terms: too short for the
    /// values in front of them)". Nine or more premises are a wrong length
    /// (READINGS A7); an inner term that is missing is not (READINGS A8).
    pub fn allows_length(self, length: usize) -> bool {
        match self {
            Tag::Rule => (4..=4 + 2 * MOST_PREMISES).contains(&length) && length % 2 == 0,
            Tag::GoalList => length % 2 == 0,
            Tag::Definition | Tag::Label => length >= 2,
            Tag::Sequence | Tag::Tensor | Tag::Alternation => true,
            Tag::Id | Tag::Empty => length == 0,
            Tag::Atomic | Tag::Assert | Tag::DefinedTactic | Tag::Open => length == 2,
            Tag::Use => length == 4,
        }
    }
}
