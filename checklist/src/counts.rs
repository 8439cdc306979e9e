//! What a proof or a derivation comes to, counted from the bytes of a flat file
//! alone: no table is looked at, since it has one rule for a name and a goal.

use second::Answer;
use std::collections::HashSet;

/// Uses, open leaves and different rules.
#[derive(Clone, Copy, PartialEq, Eq, Debug)]
pub struct Counts {
    uses: u32,
    open: u32,
    rules: u32,
}

impl Counts {
    /// Those of an answer of check or check_flat.
    pub fn answered(answer: Answer) -> Counts {
        Counts { uses: answer.uses, open: answer.open, rules: answer.rules }
    }

    /// Those of a flat file that reads: an entry with a name and a goal is a use.
    pub fn of_flat(flat: &[u8]) -> Counts {
        let length = |place: usize| usize::from(u16::from_be_bytes([flat[place + 1], flat[place + 2]]));
        let (mut uses, mut open, mut rules) = (0, 0, HashSet::new());
        let mut place = 3 + length(0);
        while place < flat.len() {
            let contents = &flat[place + 3..][..length(place)];
            if contents.len() == 4 {
                uses += 1;
                rules.insert(contents);
            } else {
                open += 1;
            }
            place += 3 + contents.len();
        }
        Counts { uses, open, rules: rules.len() as u32 }
    }
}

#[cfg(test)]
mod tests {
    use super::*;
    use second::generate::build::{flat, open_entry, use_entry};

    #[test]
    fn equal_uses_are_one_rule() {
        let entries = [use_entry(1, 10), use_entry(1, 11), open_entry(10), use_entry(2, 10), use_entry(1, 10)];
        assert_eq!(Counts::of_flat(&flat(&[10, 11], &entries)), Counts { uses: 4, open: 1, rules: 3 });
        assert_eq!(Counts::of_flat(&flat(&[], &[])), Counts { uses: 0, open: 0, rules: 0 });
    }
}
