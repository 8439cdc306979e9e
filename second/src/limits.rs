//! Every number that document 01, document 02 or docs/ names as a limit, in one
//! place.

/// "1: input over 65,535 bytes."
pub const MOST_INPUT_BYTES: usize = 65_535;

/// "At most 4,096 rules, 256 definitions, 4,096 term fields in a file, 4,096 uses, 256 opens."
pub const MOST_RULES: usize = 4_096;
pub const MOST_DEFINITIONS: usize = 256;
pub const MOST_TERM_FIELDS: usize = 4_096;
pub const MOST_USES: usize = 4_096;
pub const MOST_OPENS: usize = 256;

/// "0 to 256 goals" in a goal list; also the most that a joined list may have (22).
pub const MOST_GOALS: usize = 256;

/// "name, goal, then 0 to 8 premise goals"
pub const MOST_PREMISES: usize = 8;

/// P12: "The budget goes up to 16,384, also for the sum in P1, and 25 starts at 16,385."
pub const MOST_BUDGET: u32 = 16_384;

/// P12: "40 ..., a finished term that makes the held fields more than 4,096". A proof of
/// more would not read.
pub const MOST_HELD_FIELDS: usize = 4_096;

/// P13: "a budget up to 4,096, else 25". A limit of its own: P12 raises that of
/// runs, not this one (B13.6).
pub const MOST_SEARCH_BUDGET: u32 = 4_096;

/// P13: "a height h, 1 to 64"; "42, a height outside 1 to 64".
pub const MOST_HEIGHT: u32 = 64;

/// P1: the bytes of a saved state: six for its three counts, six and 512 for a term
/// to begin on 256 goals, six for each of 16,384 steps, those of a waiting term, and 15
/// more for each of 4,096 held fields (P12): an atomic has no waiting term, but five
/// bytes of its field and 16 of its eight premises.
pub const STATE_SIZE: usize = 160_268;

/// P1: the frames that a run that may halt must be lent (29).
pub const MOST_FRAMES: usize = 16_384;

/// "28: over 2,048 entries when writing a proof"
pub const MOST_ENTRIES_WRITTEN_BACK: usize = 2_048;

/// The work space that each entry must be lent (29, READINGS A56). Changing one
/// of them is this one line, followed by
/// `second generate-vectors crates/replay_vectors/data`.
pub const CHECK_WORK: usize = 65_536;
pub const CHECK_FLAT_WORK: usize = 65_536;
pub const WRITE_PROOF_WORK: usize = 65_536;
pub const FLATTEN_WORK: usize = 200_704;
pub const RUN_WORK: usize = 590_848;
pub const READ_TEXT_WORK: usize = 196_608;
pub const WRITE_TEXT_WORK: usize = 36_864;
pub const SEARCH_WORK: usize = 2_496_256;
pub const RUN_HALTING_WORK: usize = 751_116;
pub const RESUME_WORK: usize = 751_116;
