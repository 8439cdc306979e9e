//! P6: which rules a proof or a flat file uses.

use crate::format::table::RuleNumber;
use crate::limits::MOST_RULES;

const WORD_BITS: usize = u64::BITS as usize;

/// A set of rules of one table: a bit for each number. "different rules" are
/// different rule fields, so one name on two goals is two (B6.1).
pub struct UsedRules {
    words: [u64; MOST_RULES / WORD_BITS],
    /// The bits that are set, counted when they are.
    count: usize,
}

impl UsedRules {
    pub fn none() -> UsedRules {
        UsedRules { words: [0; MOST_RULES / WORD_BITS], count: 0 }
    }

    pub fn add(&mut self, rule: RuleNumber) {
        let number = usize::from(rule.0);
        let word = &mut self.words[number / WORD_BITS];
        let bit = 1 << (number % WORD_BITS);
        self.count += usize::from(*word & bit == 0);
        *word |= bit;
    }

    pub fn count(&self) -> usize {
        self.count
    }
}
