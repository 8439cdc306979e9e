//! Random tables, kept as rules and definitions so that proofs, jobs and flat
//! files can be made to fit them.

use super::build;
use super::random::Random;

pub struct RandomTable {
    /// Whether the files made for it come near the limits.
    pub size: Size,
    pub goals: Vec<u16>,
    pub names: Vec<u16>,
    pub rules: Vec<RandomRule>,
    pub definitions: Vec<RandomDefinition>,
}

pub struct RandomRule {
    pub name: u16,
    pub goal: u16,
    pub premises: Vec<u16>,
}

pub struct RandomDefinition {
    pub tactic: u16,
    pub body: Vec<u8>,
}

/// How large random files are: a few dozen fields, or thousands.
#[derive(Clone, Copy, PartialEq, Eq, Debug)]
pub enum Size {
    Small,
    Large,
}

impl RandomTable {
    pub fn make(random: &mut Random, size: Size) -> RandomTable {
        let (most_goals, most_names) = if size == Size::Small { (6, 5) } else { (90, 70) };
        let goals = different_values(random, most_goals);
        let names = different_values(random, most_names);
        let rules = random_rules(random, &goals, &names);
        let mut table = RandomTable { size, goals, names, rules, definitions: Vec::new() };
        table.add_definitions(random);
        table
    }

    pub fn bytes(&self) -> Vec<u8> {
        let rules = self.rules.iter().map(|rule| build::rule(rule.name, rule.goal, &rule.premises));
        let definitions = self.definitions.iter().map(|one| build::definition(one.tactic, &one.body));
        rules.chain(definitions).collect::<Vec<_>>().concat()
    }

    /// A rule for the goal, if there is one.
    pub fn rule_for(&self, random: &mut Random, goal: u16) -> Option<&RandomRule> {
        let fitting: Vec<&RandomRule> = self.rules.iter().filter(|rule| rule.goal == goal).collect();
        if fitting.is_empty() {
            return None;
        }
        Some(*random.pick(&fitting))
    }

    pub fn random_goals(&self, random: &mut Random) -> Vec<u16> {
        let count = match random.below(10) {
            _ if self.size == Size::Large => random.below(258),
            0 => 0,
            1..=5 => 1,
            6..=8 => 2 + random.below(3),
            _ => random.below(30),
        };
        (0..count).map(|_| *random.pick(&self.goals)).collect()
    }

    /// A tactic number, usually a defined one.
    pub fn random_tactic_number(&self, random: &mut Random) -> u16 {
        if self.definitions.is_empty() || random.chance(10) {
            return random.below(8) as u16;
        }
        random.pick(&self.definitions).tactic
    }

    /// Adds a fault of the sort that 6, 7, 8 or 9 refuses, where the table has
    /// what it takes.
    pub fn add_fault(&mut self, random: &mut Random) {
        let number = random.value();
        match random.below(4) {
            0 if !self.rules.is_empty() => {
                let RandomRule { name, goal, ref premises } = *random.pick(&self.rules);
                let premises = premises.clone();
                self.insert_rule(random, RandomRule { name, goal, premises });
            }
            1 if !self.rules.is_empty() => {
                let RandomRule { name, ref premises, .. } = *random.pick(&self.rules);
                let premises = vec![1; (premises.len() + 1) % 9];
                self.insert_rule(random, RandomRule { name, goal: number, premises });
            }
            2 if !self.definitions.is_empty() => {
                let tactic = random.pick(&self.definitions).tactic;
                self.insert_definition(random, RandomDefinition { tactic, body: build::id() });
            }
            _ => {
                let twice = build::tensor(&build::label(101, &build::id()), &build::label(101, &build::id()));
                self.insert_definition(random, RandomDefinition { tactic: number, body: twice });
            }
        }
    }

    fn insert_rule(&mut self, random: &mut Random, rule: RandomRule) {
        self.rules.insert(random.below(self.rules.len() + 1), rule);
    }

    fn insert_definition(&mut self, random: &mut Random, definition: RandomDefinition) {
        self.definitions.insert(random.below(self.definitions.len() + 1), definition);
    }

    fn add_definitions(&mut self, random: &mut Random) {
        let most = if self.size == Size::Small { 6 } else { 257 };
        for number in 0..random.below(most + 1) {
            let tactic = if random.chance(10) { random.value() } else { number as u16 + 1 };
            if self.definitions.iter().any(|earlier| earlier.tactic == tactic) {
                continue;
            }
            let label = 100 + number as u16;
            let body = self.random_body(random, tactic, label);
            self.definitions.push(RandomDefinition { tactic, body });
        }
    }

    /// ALL t, REPEAT t (the paper's section 4), or anything.
    fn random_body(&self, random: &mut Random, tactic: u16, label: u16) -> Vec<u8> {
        let inner = self.any_tactic(random, 2);
        let itself = build::defined(tactic);
        match random.below(5) {
            0 => build::alternation(&build::tensor(&inner, &itself), &build::empty()),
            1 => build::alternation(&build::sequence(&inner, &itself), &build::defined(1)),
            2 => build::alternation(&build::tensor(&build::id(), &itself), &build::empty()),
            3 => build::label(label, &inner),
            _ => self.any_tactic(random, 4),
        }
    }

    /// Any tactic without labels, whether it can succeed or not.
    pub fn any_tactic(&self, random: &mut Random, depth: usize) -> Vec<u8> {
        let kinds = if depth == 0 { 6 } else { 11 };
        match random.below(kinds) {
            0 | 1 => build::atomic(*random.pick(&self.names)),
            2 => build::id(),
            3 => build::empty(),
            4 => build::assert_goal(*random.pick(&self.goals)),
            5 => build::defined(self.random_tactic_number(random)),
            kind => {
                let left = self.any_tactic(random, depth - 1);
                let right = self.any_tactic(random, depth - 1);
                match kind {
                    6 | 7 => build::sequence(&left, &right),
                    8 | 9 => build::tensor(&left, &right),
                    _ => build::alternation(&left, &right),
                }
            }
        }
    }
}

/// One to `most` different values, most of them small, sometimes 0 or 65,535.
fn different_values(random: &mut Random, most: usize) -> Vec<u16> {
    let count = 1 + random.below(most);
    let mut values: Vec<u16> = Vec::new();
    while values.len() < count {
        let value = match random.below(12) {
            0 => 0,
            1 => 65_535,
            2 => random.value(),
            _ => 1 + random.below(4 * most) as u16,
        };
        if !values.contains(&value) {
            values.push(value);
        }
    }
    values
}

/// Every rule of a name has the same number of premises; many close their goal.
fn random_rules(random: &mut Random, goals: &[u16], names: &[u16]) -> Vec<RandomRule> {
    let mut rules = Vec::new();
    for &name in names {
        let count = *random.pick(&[0, 0, 0, 1, 1, 2, 2, 3, 8]);
        for &goal in goals {
            if random.chance(60) {
                let premises = (0..count).map(|_| *random.pick(goals)).collect();
                rules.push(RandomRule { name, goal, premises });
            }
        }
    }
    rules
}
