//! Another prover: it goes from the rules without premises upwards and finds
//! what can be derived at all, where the engine's tactics go from the goals
//! downwards. Its derivations are kept as lists in which premises come before
//! the rule that uses them, as many provers write them, and are converted.

use second::generate::build;
use second::generate::random_table::RandomTable;
use std::collections::HashMap;

/// One line of such a list: a rule for a goal, with the lines of its premises;
/// or a goal that is assumed.
pub enum Line {
    Rule { name: u16, goal: u16, premises: Vec<usize> },
    Assumed(u16),
}

/// Lines for every goal that the prover settles, and where each goal stands.
pub struct Derivation {
    pub lines: Vec<Line>,
    settled: HashMap<u16, usize>,
}

impl Derivation {
    /// Saturates: assumes the given goals, then applies every rule all of whose
    /// premises are settled, until none settles a new goal.
    pub fn saturate(table: &RandomTable, assumed: &[u16]) -> Derivation {
        let mut derivation = Derivation { lines: Vec::new(), settled: HashMap::new() };
        for &goal in assumed {
            derivation.settle(goal, Line::Assumed(goal));
        }
        loop {
            let before = derivation.lines.len();
            for rule in &table.rules {
                let premises = rule.premises.iter().map(|goal| derivation.settled.get(goal).copied());
                if let Some(premises) = premises.collect::<Option<Vec<usize>>>() {
                    derivation.settle(rule.goal, Line::Rule { name: rule.name, goal: rule.goal, premises });
                }
            }
            if derivation.lines.len() == before {
                return derivation;
            }
        }
    }

    fn settle(&mut self, goal: u16, line: Line) {
        if !self.settled.contains_key(&goal) {
            self.settled.insert(goal, self.lines.len());
            self.lines.push(line);
        }
    }

    /// The settled ones of some goals.
    pub fn settled_of(&self, goals: &[u16]) -> Vec<u16> {
        goals.iter().copied().filter(|goal| self.settled.contains_key(goal)).collect()
    }

    /// The flat file of settled goals: each line is written out wherever it is
    /// used, the rule first and then its premises. None if it grows beyond
    /// `most` entries.
    pub fn flat_file(&self, roots: &[u16], most: usize) -> Option<Vec<u8>> {
        let mut entries = Vec::new();
        let mut to_write: Vec<usize> = roots.iter().rev().map(|goal| self.settled[goal]).collect();
        while let Some(number) = to_write.pop() {
            match &self.lines[number] {
                Line::Assumed(goal) => entries.push(build::open_entry(*goal)),
                Line::Rule { name, goal, premises } => {
                    entries.push(build::use_entry(*name, *goal));
                    to_write.extend(premises.iter().rev());
                }
            }
            if entries.len() > most {
                return None;
            }
        }
        Some(build::flat(roots, &entries))
    }
}

#[cfg(test)]
mod tests {
    use super::*;
    use second::generate::random::Random;
    use second::generate::random_table::Size;

    #[test]
    fn what_is_derived_is_right() {
        let random = &mut Random::new(1);
        let mut derived = 0;
        for _ in 0..200 {
            let table = RandomTable::make(random, Size::Small);
            let derivation = Derivation::saturate(&table, &[]);
            let roots = derivation.settled_of(&table.goals);
            if let Some(flat) = derivation.flat_file(&roots, 500) {
                assert!(second::engine::check_flat(&table.bytes(), &flat).is_ok());
                derived += roots.len();
            }
        }
        assert!(derived > 100);
    }
}
