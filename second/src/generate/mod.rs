//! Seeded test cases of all shapes and sizes.
//!
//! `random_case` is meant for testing any engine at length: it gives calls, and
//! `Case::outcome` says what this engine does with one. `vector_set` is the fixed
//! set in the folder crates/replay_vectors/data.

pub mod build;
pub mod case;
pub mod damage;
pub mod examples;
pub mod halting;
pub mod limit_files;
pub mod longer;
pub mod no_bytes;
pub mod positions;
pub mod random;
pub mod random_file;
pub mod random_halting;
pub mod random_longer;
pub mod random_rules;
pub mod random_search;
pub mod random_table;
pub mod random_text;
pub mod reading;
pub mod reasons;
pub mod rules;
pub mod searches;
pub mod texts;
pub mod topics;

pub use topics::vector_set;

use crate::answer::Answer;
use crate::engine;
use case::{Case, Entry};
use random::Random;
use random_table::{RandomTable, Size};

/// The entries that a kind of file is picked by; a search takes a job, as a run does,
/// and so do the entries that may halt.
const KINDS_OF_FILE: [Entry; 7] =
    [Entry::Check, Entry::Run, Entry::Flatten, Entry::CheckFlat, Entry::WriteProof, Entry::ReadText, Entry::WriteText];

/// The same for the files that come with a table.
const KINDS_WITH_TABLE: [Entry; 5] = [Entry::Check, Entry::Run, Entry::Flatten, Entry::CheckFlat, Entry::WriteProof];

/// Gives an entry the file it takes besides the table, or takes alone.
type FileMaker = fn(Entry, &mut Random, &RandomTable) -> Vec<u8>;

/// A case for any entry: most of them small, some large, some at a limit.
pub fn random_case(random: &mut Random) -> Case {
    let entry = *random.pick(&Entry::ALL);
    let case = match random.below(20) {
        0 => random_case_at_a_limit(entry, random),
        1 => random_case_with(other_file, entry, Size::Large, random),
        _ => random_case_with(other_file, entry, Size::Small, random),
    };
    let case = with_short_proof(random, case);
    let case = random_rules::with_many_uses(random, case);
    random_longer::with_long_run(random, case)
}

/// P7: of the calls that take a proof one in fifty gets one of no bytes, and as many
/// get one of one or two bytes, with whatever table and work space they have.
fn with_short_proof(random: &mut Random, mut case: Case) -> Case {
    if !case.entry.takes_proof() {
        return case;
    }
    case.other = match random.below(100) {
        0 | 1 => vec![],
        2 => vec![random.byte()],
        3 if random.chance(50) => vec![3, 0],
        3 => vec![random.byte(), random.byte()],
        _ => return case,
    };
    if case.entry.has_output() {
        case.output_length = *random.pick(&[0, 1, 2, 3, 3, 4, 8, 20]);
    }
    case
}

/// A case for that entry: files that fit, damaged ones and foreign ones, with
/// lent spaces and budgets that mostly suffice.
pub fn random_case_of(entry: Entry, size: Size, random: &mut Random) -> Case {
    random_case_with(other_file_of_vectors, entry, size, random)
}

fn random_case_with(other_file: FileMaker, entry: Entry, size: Size, random: &mut Random) -> Case {
    if !entry.takes_table() {
        return random_case_without_table(entry, size, random);
    }
    let mut table = RandomTable::make(random, size);
    if random.chance(5) {
        table.add_fault(random);
    }
    let case = Case::new(entry, &table.bytes(), &other_file(entry, random, &table));
    spoil(random, case)
}

/// A text or a term file, sometimes the one where the other belongs, sometimes a
/// file of an entry that takes a table.
fn random_case_without_table(entry: Entry, size: Size, random: &mut Random) -> Case {
    let kind_of_file = if random.chance(5) { *random.pick(&KINDS_OF_FILE) } else { entry };
    let other = if kind_of_file.takes_table() {
        let table = RandomTable::make(random, Size::Small);
        other_file_of_vectors(kind_of_file, random, &table)
    } else {
        other_file_without_table(kind_of_file, random, size)
    };
    let case = Case::new(entry, &[], &other);
    vary_lent_spaces(random, case)
}

/// A case one of whose files is one of `limit_files` or `texts`.
fn random_case_at_a_limit(entry: Entry, random: &mut Random) -> Case {
    let (table, others) = match entry {
        Entry::Check | Entry::Flatten => (examples::table_of_eight(), limit_files::proofs()),
        Entry::Run | Entry::Search | Entry::RunHalting | Entry::Resume => (examples::table_a(), limit_files::jobs()),
        Entry::CheckFlat | Entry::WriteProof => (limit_files::chain_table(), limit_files::flats()),
        Entry::ReadText => (Vec::new(), texts::limit_texts()),
        Entry::WriteText => (Vec::new(), texts::limit_terms()),
    };
    let other: &Vec<u8> = random.pick(&others);
    let mut case = Case::new(entry, &table, other);
    if !entry.takes_table() {
        return vary_lent_spaces(random, case);
    }
    if random.chance(30) {
        case.table = random.pick(&limit_files::tables()).clone();
    }
    spoil(random, case)
}

/// Damages some cases, then varies what is lent.
fn spoil(random: &mut Random, mut case: Case) -> Case {
    match random.below(20) {
        0 | 1 => case.table = damage::damage(random, &case.table),
        2..=4 => case.other = damage::damage(random, &case.other),
        5 => make_foreign(random, &mut case),
        _ => {}
    }
    vary_lent_spaces(random, case)
}

/// A file of the kind the entry takes besides the table, or takes alone. Of the
/// proofs a sixth has a term that mostly takes another number of goals than there
/// are.
pub fn other_file(entry: Entry, random: &mut Random, table: &RandomTable) -> Vec<u8> {
    if entry.takes_proof() && random.below(6) == 0 {
        return random_file::random_miscounted_proof(random, table);
    }
    other_file_of_vectors(entry, random, table)
}

/// The same without the share of miscounted proofs, so that the vectors that stood
/// before P5 keep their cases. Texts and term files do not depend on the table,
/// only on its size, and some of them are damaged.
pub fn other_file_of_vectors(entry: Entry, random: &mut Random, table: &RandomTable) -> Vec<u8> {
    match entry {
        Entry::Check | Entry::Flatten => random_file::random_proof(random, table),
        Entry::Run => random_file::random_job(random, table),
        Entry::Search => random_search::random_search_job(random, table),
        Entry::RunHalting | Entry::Resume => random_halting::random_halting_job(random, table),
        Entry::CheckFlat | Entry::WriteProof => random_file::random_flat(random, table),
        Entry::ReadText | Entry::WriteText => other_file_without_table(entry, random, table.size),
    }
}

fn other_file_without_table(entry: Entry, random: &mut Random, size: Size) -> Vec<u8> {
    match entry {
        Entry::WriteText => random_text::random_term_file(random, size),
        _ => random_text::random_text(random, size),
    }
}

/// A file of another kind or another table, or bytes that are no file at all.
fn make_foreign(random: &mut Random, case: &mut Case) {
    let table = RandomTable::make(random, Size::Small);
    match random.below(5) {
        0 => case.table = table.bytes(),
        1 => case.table = std::mem::take(&mut case.other),
        2 => case.other = case.table.clone(),
        3 => {
            let entry = *random.pick(&KINDS_WITH_TABLE);
            case.other = other_file_of_vectors(entry, random, &table);
        }
        _ => case.other = (0..random.below(40)).map(|_| random.byte() % 36).collect(),
    }
}

/// Gives a case its height or saved state, its budget and everything that is lent.
pub fn vary_lent_spaces(random: &mut Random, case: Case) -> Case {
    let case = random_search::vary_height(random, case);
    let case = random_halting::vary_saved(random, case);
    let budget = random_budget(random, &case);
    let case = case.with_budget(budget);
    let size = case.entry.work_size();
    let work_length = match random.below(40) {
        0 => size - 1,
        1 => random.below(size),
        2..=4 => size + 1 + random.below(100),
        _ => size,
    };
    let roomy = case.output_length;
    let output_length = match (case.measured_result(), random.below(10)) {
        (Some(result), 0) => result.len(),
        (Some(result), 1) => result.len() - 1,
        (Some(_), 2) => 0,
        (Some(result), 3) => random.below(2 * result.len()),
        _ => roomy,
    };
    random_halting::vary_spaces(random, case.with_work(work_length).with_output(output_length))
}

fn random_budget(random: &mut Random, case: &Case) -> u32 {
    let most = case.entry.most_budget();
    if most == 0 {
        return 0;
    }
    match case.entry {
        Entry::RunHalting => return random_halting::random_budget(random, case),
        Entry::Resume => return random_halting::random_more_steps(random, case),
        _ => {}
    }
    let steps = steps_of(case, most);
    match random.below(20) {
        0 => 0,
        1 | 2 => steps,
        3 | 4 => steps.saturating_sub(1),
        5 | 6 => random.below(40) as u32,
        7 => most + 1,
        8 => random.number() as u32,
        _ => most,
    }
}

/// The terms that a run or search begins with that budget.
fn steps_of(case: &Case, budget: u32) -> u32 {
    let ended = match case.entry {
        Entry::Search => engine::search(&case.table, &case.other, case.height, budget),
        _ => engine::run(&case.table, &case.other, budget),
    };
    ended.map_or_else(|refusal| Answer::from(refusal).steps, |success| success.steps)
}
