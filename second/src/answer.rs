//! What an entry answers, and why it may refuse.

/// The answer of every entry. What does not apply to an entry, and everything
/// but number, file, place and steps of a refusal, is 0 (READINGS A6, A52b).
#[derive(Clone, Copy, PartialEq, Eq, Debug, Default)]
#[repr(C)]
pub struct Answer {
    /// 0 for success, otherwise the refusal's number.
    pub number: u32,
    /// 1 the table, 2 the other file, 0 neither.
    pub file: u32,
    /// Byte offset where the field's tag is or should be, in a text that of the
    /// byte the refusal names, else 0.
    pub place: u32,
    /// Terms begun; 0 outside runs and searches.
    pub steps: u32,
    /// Bytes written to the output space.
    pub length: u32,
    /// Term fields of an accepted proof.
    pub fields: u32,
    /// Uses in an accepted proof or a right flat file.
    pub uses: u32,
    /// Remaining goals of an accepted proof, open entries of a right flat file.
    pub open: u32,
    /// Different rules used in an accepted proof or a right flat file (P6).
    pub rules: u32,
    /// These three are for later requests (goals taken and longest list of P9, the
    /// tactic of P11) and always 0 here. They stand in the answer already, so that
    /// its form changes once.
    pub goals: u32,
    pub longest: u32,
    pub tactic: u32,
}

impl Answer {
    /// All numbers in the order of their fields.
    pub fn numbers(self) -> [u32; 12] {
        let Answer { number, file, place, steps, length, fields, uses, open, rules, goals, longest, tactic } = self;
        [number, file, place, steps, length, fields, uses, open, rules, goals, longest, tactic]
    }

    /// The answer with these numbers.
    pub fn of_numbers(numbers: [u32; 12]) -> Answer {
        let [number, file, place, steps, length, fields, uses, open, rules, goals, longest, tactic] = numbers;
        Answer { number, file, place, steps, length, fields, uses, open, rules, goals, longest, tactic }
    }
}

/// Every reason to refuse, with the number that document 01 or 02 gives it.
#[derive(Clone, Copy, PartialEq, Eq, Hash, PartialOrd, Ord, Debug)]
#[repr(u32)]
pub enum Reason {
    InputTooLong = 1,
    FieldTorn = 2,
    TagNotAllowed = 3,
    LengthWrong = 4,
    OverLimit = 5,
    RuleRepeated = 6,
    PremiseCountDiffers = 7,
    TacticDefinedTwice = 8,
    LabelUsedTwice = 9,
    RuleMissing = 20,
    RemainingGoalsDiffer = 21,
    JoinedListTooLong = 22,
    TacticFailed = 23,
    BudgetSpent = 24,
    BudgetTooLarge = 25,
    OutputSpaceTooShort = 26,
    FlatFileWrong = 27,
    TooManyEntries = 28,
    LentSpaceTooShort = 29,
    StateNotGenuine = 30,
    GoalCountWrong = 34,
    GoalsTooFew = 35,
    NotInNotation = 36,
    ValueTooLarge = 37,
    TooManyFieldsHeld = 40,
    NoEvaluation = 41,
    HeightOutsideLimits = 42,
}

/// The file a refusal concerns.
#[derive(Clone, Copy, PartialEq, Eq, Hash, Debug)]
#[repr(u32)]
pub enum InputFile {
    Neither = 0,
    Table = 1,
    Other = 2,
}

/// A refusal before it becomes an answer.
#[derive(Clone, Copy, PartialEq, Eq, Debug)]
pub struct Refusal {
    pub reason: Reason,
    pub file: InputFile,
    pub place: usize,
    pub steps: u32,
}

impl Reason {
    pub const ALL: [Reason; 27] = [
        Reason::InputTooLong,
        Reason::FieldTorn,
        Reason::TagNotAllowed,
        Reason::LengthWrong,
        Reason::OverLimit,
        Reason::RuleRepeated,
        Reason::PremiseCountDiffers,
        Reason::TacticDefinedTwice,
        Reason::LabelUsedTwice,
        Reason::RuleMissing,
        Reason::RemainingGoalsDiffer,
        Reason::JoinedListTooLong,
        Reason::TacticFailed,
        Reason::BudgetSpent,
        Reason::BudgetTooLarge,
        Reason::OutputSpaceTooShort,
        Reason::FlatFileWrong,
        Reason::TooManyEntries,
        Reason::LentSpaceTooShort,
        Reason::StateNotGenuine,
        Reason::GoalCountWrong,
        Reason::GoalsTooFew,
        Reason::NotInNotation,
        Reason::ValueTooLarge,
        Reason::TooManyFieldsHeld,
        Reason::NoEvaluation,
        Reason::HeightOutsideLimits,
    ];

    pub fn number(self) -> u32 {
        self as u32
    }

    pub fn of_number(number: u32) -> Option<Reason> {
        Reason::ALL.into_iter().find(|reason| reason.number() == number)
    }

    /// The meaning of the number, for messages to people.
    pub fn meaning(self) -> &'static str {
        match self {
            Reason::InputTooLong => "the file has more than 65,535 bytes",
            Reason::FieldTorn => "a field is missing or torn: it does not end within what encloses it",
            Reason::TagNotAllowed => "a field with this tag may not stand here",
            Reason::LengthWrong => "the length is wrong for the tag, or bytes are left over",
            Reason::OverLimit => "one field more than the limit, or over 256 goals in a list",
            Reason::RuleRepeated => "a rule has the name and goal of an earlier rule",
            Reason::PremiseCountDiffers => "a rule has the name of an earlier rule and another count of premises",
            Reason::TacticDefinedTwice => "the tactic number is defined earlier",
            Reason::LabelUsedTwice => "the label is used earlier in the table's definitions",
            Reason::RuleMissing => "the proof does not validate: the table has no rule of this name for the goal",
            Reason::RemainingGoalsDiffer => "the stated remaining goals differ from those the proof leaves",
            Reason::JoinedListTooLong => "a tensor joins to more than 256 goals",
            Reason::TacticFailed => "the tactic failed",
            Reason::BudgetSpent => "the budget is spent",
            Reason::BudgetTooLarge => {
                "the budget is over 16,384, with the steps of a saved state if there is one, or over 4,096 for a search"
            }
            Reason::OutputSpaceTooShort => "the output space is shorter than the result",
            Reason::FlatFileWrong => "this entry does not apply, or goals are pending at the file's end",
            Reason::TooManyEntries => "over 2,048 entries cannot be written back as a proof",
            Reason::LentSpaceTooShort => "a space is shorter than the size named for this entry",
            Reason::StateNotGenuine => {
                "the table and the job, run for its step count, do not halt with this saved state"
            }
            Reason::GoalCountWrong => {
                "the proof does not validate: this atomic, id or label has not exactly one goal, or this empty has any"
            }
            Reason::GoalsTooFew => "the proof does not validate: this tensor has fewer goals than its left part takes",
            Reason::NotInNotation => "no text of the notation goes on with this byte, or the text ends early",
            Reason::ValueTooLarge => "a value is over 65,535",
            Reason::TooManyFieldsHeld => "more than 4,096 finished term fields would be held",
            Reason::NoEvaluation => "no evaluation at most that high exists with lists of at most 256 goals",
            Reason::HeightOutsideLimits => "the height is outside 1 to 64",
        }
    }
}

impl Refusal {
    /// A refusal at a field of a file.
    pub fn at(reason: Reason, file: InputFile, place: usize) -> Refusal {
        Refusal { reason, file, place, steps: 0 }
    }

    /// A refusal that concerns no file (READINGS A2).
    pub fn without_file(reason: Reason) -> Refusal {
        Refusal::at(reason, InputFile::Neither, 0)
    }

    /// A refusal of a run or search: file and place 0, with the terms begun.
    pub fn of_run(reason: Reason, steps: u32) -> Refusal {
        Refusal { reason, file: InputFile::Neither, place: 0, steps }
    }
}

impl From<Refusal> for Answer {
    fn from(refusal: Refusal) -> Answer {
        Answer {
            number: refusal.reason.number(),
            file: refusal.file as u32,
            place: refusal.place as u32,
            steps: refusal.steps,
            ..Answer::default()
        }
    }
}
