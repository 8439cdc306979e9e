//! P6: random tables of few names on many goals, with proofs and flat files that use
//! some of their rules again and again.

use super::build::*;
use super::case::{Case, Entry};
use super::random::Random;
use super::random_table::RandomRule;
use crate::limits::{MOST_GOALS, MOST_RULES};

const MOST_NAMES: usize = 12;

/// A table, and goals that are each taken by a chain of its rules.
pub struct RandomUses {
    rules: Vec<RandomRule>,
    chains: Vec<Chain>,
}

/// Uses of rules on one goal: each rule takes the goal that the one before gave.
struct Chain {
    root: u16,
    /// Names and goals of the rules.
    uses: Vec<(u16, u16)>,
    /// The goal that is left, unless the last rule closes it.
    open: Option<u16>,
}

/// How many goals, uses of each and goals of one name there are at most, and how
/// many rules stand in front of those that are used.
pub struct Sizes {
    pub goals: usize,
    pub uses_of_each: usize,
    pub goals_of_name: usize,
    pub rules_in_front: usize,
}

impl Sizes {
    /// Mostly a few dozen uses; sometimes up to 2,048, and rules with numbers up to
    /// the last.
    pub fn any(random: &mut Random) -> Sizes {
        let goals_of_name = *random.pick(&[5, 30, 100]);
        let last = MOST_RULES - MOST_NAMES * goals_of_name;
        let rules_in_front = *random.pick(&[0, 0, 0, 3, 8, 60, 250, 1_000, 2_040, last]);
        let (goals, uses_of_each) = *random.pick(&[(MOST_GOALS, 8), (2, 1_000), (40, 5), (12, 10), (12, 10), (12, 10)]);
        Sizes { goals, uses_of_each, goals_of_name, rules_in_front }
    }
}

impl RandomUses {
    pub fn make(random: &mut Random, sizes: &Sizes) -> RandomUses {
        let names = 1 + random.below(MOST_NAMES) as u16;
        let goals = 1 + random.below(sizes.goals_of_name) as u16;
        let rules = random_rules(random, names, goals);
        let chains = (0..random.below(sizes.goals + 1)).map(|_| random_chain(random, &rules, sizes)).collect();
        let in_front = (0..sizes.rules_in_front as u16).map(|number| RandomRule {
            name: 60_000 + number,
            goal: 1,
            premises: vec![],
        });
        RandomUses { rules: in_front.chain(rules).collect(), chains }
    }

    pub fn table(&self) -> Vec<u8> {
        self.rules.iter().flat_map(|one| rule(one.name, one.goal, &one.premises)).collect()
    }

    pub fn proof(&self) -> Vec<u8> {
        let terms: Vec<Vec<u8>> = self.chains.iter().map(Chain::term).collect();
        let remaining: Vec<u16> = self.chains.iter().filter_map(|chain| chain.open).collect();
        proof(&self.roots(), &tensor_of(&terms), &remaining)
    }

    /// The flat form of the proof.
    pub fn flat(&self) -> Vec<u8> {
        let entries: Vec<Vec<u8>> = self.chains.iter().flat_map(Chain::entries).collect();
        flat(&self.roots(), &entries)
    }

    fn roots(&self) -> Vec<u16> {
        self.chains.iter().map(|chain| chain.root).collect()
    }
}

impl Chain {
    fn term(&self) -> Vec<u8> {
        if self.uses.is_empty() {
            return id();
        }
        sequence_of(&self.uses.iter().map(|key| atomic(key.0)).collect::<Vec<_>>())
    }

    fn entries(&self) -> Vec<Vec<u8>> {
        let uses = self.uses.iter().map(|key| use_entry(key.0, key.1));
        uses.chain(self.open.map(open_entry)).collect()
    }
}

/// Rules of some names on most of the goals; those of a fifth of the names close
/// their goal, the others give another one.
fn random_rules(random: &mut Random, names: u16, goals: u16) -> Vec<RandomRule> {
    let mut rules = Vec::new();
    for name in 1..=names {
        let closes = random.chance(20);
        for goal in 1..=goals {
            if random.chance(70) || rules.is_empty() {
                let premises = if closes { vec![] } else { vec![1 + random.below(goals.into()) as u16] };
                rules.push(RandomRule { name, goal, premises });
            }
        }
    }
    rules
}

/// Takes up a goal by one rule after the other, until one closes it, none fits or
/// there are enough.
fn random_chain(random: &mut Random, rules: &[RandomRule], sizes: &Sizes) -> Chain {
    let root = random.pick(rules).goal;
    let mut chain = Chain { root, uses: vec![], open: Some(root) };
    for _ in 0..random.below(sizes.uses_of_each + 1) {
        let fitting: Vec<&RandomRule> = rules.iter().filter(|rule| Some(rule.goal) == chain.open).collect();
        if fitting.is_empty() {
            break;
        }
        let rule = *random.pick(&fitting);
        chain.uses.push((rule.name, rule.goal));
        chain.open = rule.premises.first().copied();
    }
    chain
}

/// Of the calls that count rules one in ten gets such a table and such a file, with
/// the spaces that it has.
pub fn with_many_uses(random: &mut Random, mut case: Case) -> Case {
    if case.entry.has_output() || !random.chance(10) {
        return case;
    }
    let sizes = Sizes::any(random);
    let uses = RandomUses::make(random, &sizes);
    case.table = uses.table();
    case.other = if case.entry == Entry::Check { uses.proof() } else { uses.flat() };
    case
}
