//! A refusal: why, and where.
use crate::raw::Answer;
use std::fmt;

/// Why a call was refused, with the numbers of docs/FORMAT.md.
#[derive(Clone, Copy, Debug, PartialEq, Eq)]
pub enum Cause {
    InputTooLong = 1,
    FieldTorn = 2,
    TagNotAllowed = 3,
    LengthWrong = 4,
    LimitPassed = 5,
    RuleRepeated = 6,
    PremiseCountDiffers = 7,
    TacticRedefined = 8,
    LabelRepeated = 9,
    RuleMissing = 20,
    RemainingDiffer = 21,
    JoinedTooLong = 22,
    TacticFailed = 23,
    BudgetSpent = 24,
    BudgetTooLarge = 25,
    OutputTooShort = 26,
    FlatWrong = 27,
    EntriesTooMany = 28,
    WorkTooShort = 29,
    StateNotGenuine = 30,
    GoalCountWrong = 34,
    GoalsTooFew = 35,
    TextWrong = 36,
    ValueTooLarge = 37,
    FieldsTooMany = 40,
    NoEvaluation = 41,
    HeightOutside = 42,
}

const CAUSES: [Cause; 27] = [
    Cause::InputTooLong,
    Cause::FieldTorn,
    Cause::TagNotAllowed,
    Cause::LengthWrong,
    Cause::LimitPassed,
    Cause::RuleRepeated,
    Cause::PremiseCountDiffers,
    Cause::TacticRedefined,
    Cause::LabelRepeated,
    Cause::RuleMissing,
    Cause::RemainingDiffer,
    Cause::JoinedTooLong,
    Cause::TacticFailed,
    Cause::BudgetSpent,
    Cause::BudgetTooLarge,
    Cause::OutputTooShort,
    Cause::FlatWrong,
    Cause::EntriesTooMany,
    Cause::WorkTooShort,
    Cause::StateNotGenuine,
    Cause::GoalCountWrong,
    Cause::GoalsTooFew,
    Cause::TextWrong,
    Cause::ValueTooLarge,
    Cause::FieldsTooMany,
    Cause::NoEvaluation,
    Cause::HeightOutside,
];

impl Cause {
    /// Why the hiproof of a proof does not validate, for a tool's users; nothing for any other refusal.
    pub fn reason(self) -> Option<&'static str> {
        match self {
            Cause::RuleMissing => Some("the table has no rule of this name for the goal that the rule gets"),
            Cause::GoalCountWrong => Some("a rule, id or label gets no goal or more than one, or an empty gets a goal"),
            Cause::GoalsTooFew => Some("a tensor gets fewer goals than its left term takes"),
            _ => None,
        }
    }
}

/// The file that a refusal points into.
#[derive(Clone, Copy, Debug, PartialEq, Eq)]
pub enum File {
    Neither = 0,
    Table = 1,
    /// The proof, job or flat file, the text or the term file.
    Other = 2,
}

#[derive(Clone, Copy, Debug, PartialEq, Eq)]
pub struct Refusal {
    pub cause: Cause,
    pub file: File,
    /// Byte offset in that file.
    pub place: u32,
    /// Terms begun, of a run or a search.
    pub steps: u32,
}

impl Refusal {
    /// The refusal of an answer whose number is not 0.
    pub(crate) fn of(answer: Answer) -> Refusal {
        let cause = CAUSES.into_iter().find(|cause| *cause as u32 == answer.number);
        let file = match answer.file {
            1 => File::Table,
            2 => File::Other,
            _ => File::Neither,
        };
        Refusal {
            cause: cause.expect("the engine has no other numbers"),
            file,
            place: answer.place,
            steps: answer.steps,
        }
    }
}

impl fmt::Display for Refusal {
    fn fmt(&self, f: &mut fmt::Formatter<'_>) -> fmt::Result {
        let (number, file) = (self.cause as u32, self.file as u32);
        write!(f, "refused {number} file {file} place {} steps {}", self.place, self.steps)
    }
}

impl std::error::Error for Refusal {}
