//! "Table file: any rules, then any definitions."

use super::fields::{Field, Reader};
use super::tags::Tag;
use super::terms::{read_term, Term, TermNumber, Terms};
use crate::answer::{InputFile, Reason, Refusal};
use crate::names::{Goal, NameMap, NameSet, RuleName, TacticNo};
use std::ops::Range;

/// A table that was read without refusal.
pub struct Table {
    rules: Vec<Rule>,
    premises: Vec<Goal>,
    rule_numbers: NameMap<(RuleName, Goal), RuleNumber>,
    definitions: Vec<Definition>,
    bodies: NameMap<TacticNo, TermNumber>,
    /// The term fields of all definitions.
    pub terms: Terms,
}

/// A rule; its premises are a part of the table's premise list.
pub struct Rule {
    pub place: usize,
    pub name: RuleName,
    pub goal: Goal,
    premises: Range<usize>,
}

/// P6: the number of a rule "in the table, counting from 0". It counts rule fields
/// alone, so definitions do not shift it (B6.5).
#[derive(Clone, Copy, PartialEq, Eq, PartialOrd, Ord, Debug)]
pub struct RuleNumber(pub u16);

/// What looking up a rule gives.
pub struct FoundRule<'a> {
    pub number: RuleNumber,
    pub premises: &'a [Goal],
}

pub struct Definition {
    pub place: usize,
    pub tactic: TacticNo,
    pub body: TermNumber,
}

impl Table {
    /// "The table is read first": fields 1 to 5, "Then 6, 7, 8, 9, each over the
    /// whole table, at the lowest place" (READINGS A18, A19).
    pub fn read(bytes: &[u8]) -> Result<Table, Refusal> {
        let mut table = Table::without_fields();
        table.read_fields(bytes)?;
        table.index_rules()?;
        table.refuse_differing_premise_counts()?;
        table.index_definitions()?;
        table.refuse_labels_used_twice()?;
        Ok(table)
    }

    /// Number and premises of the rule of that name for that goal, if there is one.
    pub fn look_up(&self, name: RuleName, goal: Goal) -> Option<FoundRule<'_>> {
        let &number = self.rule_numbers.get(&(name, goal))?;
        Some(FoundRule { number, premises: self.premises_of(&self.rules[usize::from(number.0)]) })
    }

    /// The body of a defined tactic, if it has a definition.
    pub fn body(&self, tactic: TacticNo) -> Option<TermNumber> {
        self.bodies.get(&tactic).copied()
    }

    pub fn rules(&self) -> &[Rule] {
        &self.rules
    }

    pub fn premises_of(&self, rule: &Rule) -> &[Goal] {
        &self.premises[rule.premises.clone()]
    }

    pub fn definitions(&self) -> &[Definition] {
        &self.definitions
    }

    fn without_fields() -> Table {
        Table {
            rules: Vec::new(),
            premises: Vec::new(),
            rule_numbers: NameMap::default(),
            definitions: Vec::new(),
            bodies: NameMap::default(),
            terms: Terms::default(),
        }
    }

    /// A rule behind a definition is a tag not allowed there (READINGS A15).
    fn read_fields(&mut self, bytes: &[u8]) -> Result<(), Refusal> {
        let mut reader = Reader::open(bytes, InputFile::Table)?;
        while !reader.at_file_end() {
            let rules_may_come = self.definitions.is_empty();
            let allowed = |tag| tag == Tag::Definition || (tag == Tag::Rule && rules_may_come);
            let field = reader.begin_field(reader.file_end(), allowed)?;
            match field.tag {
                Tag::Rule => self.read_rule(&mut reader, field),
                _ => self.read_definition(&mut reader, field)?,
            }
        }
        Ok(())
    }

    fn read_rule(&mut self, reader: &mut Reader, field: Field) {
        let name = RuleName(reader.value());
        let goal = Goal(reader.value());
        let first_premise = self.premises.len();
        reader.goals_up_to(field.end, &mut self.premises);
        let premises = first_premise..self.premises.len();
        self.rules.push(Rule { place: field.place, name, goal, premises });
    }

    /// A definition encloses its term, so bytes behind the term are 4 at the
    /// definition (READINGS A10).
    fn read_definition(&mut self, reader: &mut Reader, field: Field) -> Result<(), Refusal> {
        let tactic = TacticNo(reader.value());
        let body = read_term(reader, field.end, Tag::is_tactic_term, &mut self.terms)?;
        if reader.offset() != field.end {
            return Err(reader.refusal(Reason::LengthWrong, field.place));
        }
        self.definitions.push(Definition { place: field.place, tactic, body });
        Ok(())
    }

    /// "6: rule with name and goal of an earlier rule."
    fn index_rules(&mut self) -> Result<(), Refusal> {
        self.rule_numbers.reserve(self.rules.len());
        // There are at most 4,096 rules, so a number has room in 16 bits.
        for (number, rule) in (0..).map(RuleNumber).zip(&self.rules) {
            if self.rule_numbers.insert((rule.name, rule.goal), number).is_some() {
                return Err(Refusal::at(Reason::RuleRepeated, InputFile::Table, rule.place));
            }
        }
        Ok(())
    }

    /// "7: rule with the name of an earlier one and another count of premises."
    /// The first rule that differs from the first of its name is the lowest that
    /// differs from any earlier one (READINGS A21).
    fn refuse_differing_premise_counts(&self) -> Result<(), Refusal> {
        let mut first_count: NameMap<RuleName, usize> = NameMap::default();
        first_count.reserve(self.rules.len());
        for rule in &self.rules {
            if *first_count.entry(rule.name).or_insert(rule.premises.len()) != rule.premises.len() {
                return Err(Refusal::at(Reason::PremiseCountDiffers, InputFile::Table, rule.place));
            }
        }
        Ok(())
    }

    /// "8: tactic number defined earlier", at the later definition (READINGS A22).
    fn index_definitions(&mut self) -> Result<(), Refusal> {
        for definition in &self.definitions {
            if self.bodies.insert(definition.tactic, definition.body).is_some() {
                return Err(Refusal::at(Reason::TacticDefinedTwice, InputFile::Table, definition.place));
            }
        }
        Ok(())
    }

    /// "9: label used earlier in the table's definitions", at the later label
    /// field, also within one definition (READINGS A22).
    fn refuse_labels_used_twice(&self) -> Result<(), Refusal> {
        let mut used = NameSet::default();
        for number in self.terms.numbers() {
            if let Term::Label(label, _) = self.terms.get(number) {
                if !used.insert(label) {
                    let place = self.terms.place(number);
                    return Err(Refusal::at(Reason::LabelUsedTwice, InputFile::Table, place));
                }
            }
        }
        Ok(())
    }
}
