//! Line 1: torn files and foreign tables, every refusal with its place.

use crate::inspector::Inspector;
use boundary::tally::with_commas;
use second::generate::case::{Case, Entry};
use second::generate::halting::state_at;
use second::generate::random::Random;
use second::generate::random_table::{RandomTable, Size};
use second::generate::{build, examples, limit_files, other_file, reading, texts};
use second::limits::{MOST_FRAMES, STATE_SIZE};
use second::{Answer, Reason};

pub fn inspect(inspector: &mut Inspector) -> Result<String, String> {
    for entry in Entry::ALL {
        damaged_files(inspector, entry);
        torn_files(inspector, entry);
        if entry.takes_table() {
            foreign_tables(inspector, entry);
        } else {
            foreign_files(inspector, entry);
        }
        torn_off_files(inspector, entry);
        lent_spaces(inspector, entry, &good_file(entry));
        if entry.takes_proof() {
            lent_spaces(inspector, entry, &[]);
        }
        if entry.may_halt() {
            frames_and_second_spaces(inspector, entry);
        }
    }
    torn_states(inspector);
    refusals_of_the_walk(inspector);
    reasons(inspector);
    let refusals = inspector.tally.refusals().len();
    if refusals < Reason::ALL.len() {
        return Err(format!("only {refusals} of {} refusals occurred", Reason::ALL.len()));
    }
    Ok(format!(
        "{} calls, all {refusals} refusals at {} different places",
        with_commas(inspector.tally.cases),
        with_commas(inspector.tally.distinct_places() as u64)
    ))
}

/// A small file with every sort of field for the entry.
fn good_file(entry: Entry) -> Vec<u8> {
    match entry {
        Entry::Check | Entry::Flatten => reading::proof_with_every_term(),
        Entry::Run | Entry::Search | Entry::RunHalting | Entry::Resume => reading::job_with_tactic_terms(),
        Entry::CheckFlat | Entry::WriteProof => reading::flat_with_every_entry(),
        Entry::ReadText => texts::EVERY_MARK.as_bytes().to_vec(),
        Entry::WriteText => texts::term_with_every_field(),
    }
}

/// Every truncation, every tag and many lengths in the place of every field's,
/// in both files; the faults of 1 to 9 in their orders. Of a text, every
/// truncation and many bytes in the place of every one.
fn damaged_files(inspector: &mut Inspector, entry: Entry) {
    let (table, other) = (reading::table_with_every_field(), good_file(entry));
    let tables = reading::systematic_damage(&table).into_iter().chain(reading::refused_tables());
    for changed in tables.filter(|_| entry.takes_table()) {
        inspector.call_with_room(entry, &changed, &other);
    }
    let damaged = match entry {
        Entry::ReadText => texts::systematic_text_damage(texts::EVERY_MARK),
        _ => reading::systematic_damage(&other),
    };
    for changed in damaged.iter().chain(&reading::refused_others()) {
        inspector.call_with_room(entry, &table, changed);
    }
}

/// Every truncation of both files of random pairs, and every piece that is lost
/// in front. A run and a search are lent so much that fewer pairs must do.
fn torn_files(inspector: &mut Inspector, entry: Entry) {
    let random = &mut Random::new(100 + u64::from(entry.code()));
    for _ in 0..if entry.most_budget() > 0 { 4 } else { 12 } {
        let table = RandomTable::make(random, Size::Small);
        let (bytes, other) = (table.bytes(), other_file(entry, random, &table));
        for cut in (0..bytes.len()).filter(|_| entry.takes_table()) {
            inspector.call_with_room(entry, &bytes[..cut], &other);
        }
        for cut in 0..other.len() {
            inspector.call_with_room(entry, &bytes, &other[..cut]);
            inspector.call_with_room(entry, &bytes, &other[cut..]);
        }
    }
}

/// Each of some files with the table of each other one, and every file in the
/// place of every other kind.
fn foreign_tables(inspector: &mut Inspector, entry: Entry) {
    let random = &mut Random::new(200 + u64::from(entry.code()));
    let tables: Vec<RandomTable> = (0..12).map(|_| RandomTable::make(random, Size::Small)).collect();
    for owner in &tables {
        let other = other_file(entry, random, owner);
        for table in &tables {
            inspector.call_with_room(entry, &table.bytes(), &other);
        }
        for kind in Entry::ALL {
            let of_another_kind = other_file(kind, random, owner);
            inspector.call_with_room(entry, &owner.bytes(), &of_another_kind);
            inspector.call_with_room(entry, &of_another_kind, &other);
        }
    }
}

/// Files of every kind, tables among them, for an entry that takes no table.
fn foreign_files(inspector: &mut Inspector, entry: Entry) {
    let random = &mut Random::new(200 + u64::from(entry.code()));
    for _ in 0..12 {
        let table = RandomTable::make(random, Size::Small);
        inspector.call_with_room(entry, &[], &table.bytes());
        for kind in Entry::ALL {
            let of_another_kind = other_file(kind, random, &table);
            inspector.call_with_room(entry, &[], &of_another_kind);
        }
    }
}

/// What no bytes, or one or two, are answered with in a table that reads: torn off
/// to nothing a proof is a blank one and accepted, and no other file is good.
fn answer_to_torn_off(entry: Entry, file: &[u8]) -> Answer {
    let number = if entry == Entry::ReadText { 36 } else { 2 };
    match entry {
        Entry::Check if file.is_empty() => Answer { fields: 1, ..Answer::default() },
        Entry::Flatten if file.is_empty() => Answer { length: 3, ..Answer::default() },
        _ => Answer { number, file: 2, ..Answer::default() },
    }
}

/// Files of no, one and two bytes; the refusals of the table come first.
fn torn_off_files(inspector: &mut Inspector, entry: Entry) {
    for file in [&[][..], &[3], &[3, 0]] {
        for table in [Vec::new(), reading::table_with_every_field()] {
            let case = Case::new(entry, &table, file);
            let (answer, _) = inspector.call(&case);
            let holds = answer == answer_to_torn_off(entry, file);
            inspector.demand(holds, &case, "fewer than three bytes were not answered as a file of their kind");
        }
        for table in reading::refused_tables().iter().filter(|_| entry.takes_table()) {
            let case = Case::new(entry, table, file);
            let (answer, _) = inspector.call(&case);
            inspector.demand(answer.file == 1, &case, "the table was not refused first");
        }
    }
}

/// 29, 25, 42 and 26 with spaces, budgets and heights around their borders.
fn lent_spaces(inspector: &mut Inspector, entry: Entry, other: &[u8]) {
    let good = Case::new(entry, &reading::table_with_every_field(), other);
    let size = entry.work_size();
    for work in [0, 1, size / 2, size - 1, size, size + 1, size + 4_096] {
        inspector.call(&good.clone().with_work(work));
    }
    if let Some(result) = good.result() {
        for output in 0..=result.len() + 3 {
            inspector.call(&good.clone().with_output(output));
        }
    }
    let budgets = [0, 1, 2, 4_095, 4_096, 4_097, 16_383, 16_384, 16_385, 65_536, u32::MAX];
    for budget in budgets.into_iter().filter(|_| entry.most_budget() > 0) {
        inspector.call(&good.clone().with_budget(budget));
        for height in [0, 1, 2, 63, 64, 65, 256 + 10, 65_536, u32::MAX].into_iter().filter(|_| entry == Entry::Search) {
            inspector.call(&good.clone().with_budget(budget).with_height(height));
        }
    }
}

/// 29 with frames and second spaces around their borders, for a run that halts and for
/// one that does not.
fn frames_and_second_spaces(inspector: &mut Inspector, entry: Entry) {
    let good = Case::new(entry, &reading::table_with_every_field(), &good_file(entry));
    for budget in [1, good.budget] {
        let case = good.clone().with_budget(budget);
        for frames in [0, 1, MOST_FRAMES / 2, MOST_FRAMES - 1, MOST_FRAMES, MOST_FRAMES + 1, MOST_FRAMES + 100] {
            inspector.call(&case.clone().with_frames(frames));
        }
        for length in [0, 1, STATE_SIZE / 2, STATE_SIZE - 1, STATE_SIZE, STATE_SIZE + 1, STATE_SIZE + 4_096] {
            inspector.call(&case.clone().with_state(length));
        }
    }
}

/// Saved states that are torn, too long, changed in a byte, or of another table or job:
/// only their own bytes are taken up.
fn torn_states(inspector: &mut Inspector) {
    let (table, job) = (examples::table_a(), build::job(&[10], &build::defined(3)));
    for steps in [0, 10, 16] {
        let state = state_at(&table, &job, steps).expect("the run has 19 steps");
        let contents = state.iter().rposition(|&byte| byte != 0).map_or(0, |last| last + 1);
        let lengths = (0..contents + 2).chain([STATE_SIZE / 2, STATE_SIZE - 1]);
        let torn = lengths.map(|length| state[..length].to_vec());
        let longer = [1, 100].map(|more| [&state[..], &vec![0; more]].concat());
        let changed = (0..contents + 2).chain([STATE_SIZE - 1]).map(|at| {
            let mut bytes = state.clone();
            bytes[at] ^= 1;
            bytes
        });
        for saved in torn.chain(longer).chain(changed) {
            let case = Case::resumed(&table, &job, &saved);
            let (answer, _) = inspector.call(&case);
            inspector.demand([25, 30].contains(&answer.number), &case, "a state that is not genuine was taken up");
        }
        let case = Case::resumed(&table, &job, &state);
        let (answer, _) = inspector.call(&case);
        inspector.demand(answer.number == 0, &case, "a genuine state was not taken up");
        for foreign in [Vec::new(), examples::table_of_eight(), examples::propositional_table()] {
            inspector.call(&Case::resumed(&foreign, &job, &state));
        }
        for foreign in [build::job(&[20], &build::defined(3)), build::job(&[10], &build::id())] {
            inspector.call(&Case::resumed(&table, &foreign, &state));
        }
    }
}

/// Proofs that do not validate: 20, 34 and 35 at each sort of term that can have them.
fn reasons(inspector: &mut Inspector) {
    let (id, pair) = (build::id(), build::tensor(&build::id(), &build::id()));
    let terms = [
        build::atomic(2),
        build::atomic(9),
        id.clone(),
        build::empty(),
        build::label(1, &build::empty()),
        build::label(1, &id),
        build::sequence(&build::atomic(1), &id),
        pair.clone(),
        build::tensor(&pair, &id),
        build::tensor(&id, &pair),
    ];
    for term in &terms {
        for goals in 0..4 {
            let proof = build::proof(&vec![10; goals], term, &vec![10; goals]);
            inspector.call_with_room(Entry::Check, &examples::table_a(), &proof);
            inspector.call_with_room(Entry::Flatten, &examples::table_a(), &proof);
        }
    }
}

/// The refusals that only larger files bring about, 22 and 28, and those of texts; in a search 22 becomes 41.
fn refusals_of_the_walk(inspector: &mut Inspector) {
    let eights = examples::table_of_eight();
    let side_by_side = |count: usize| build::tensor_of(&vec![build::atomic(4); count]);
    for count in [32, 33] {
        let job = build::job(&vec![40; count], &side_by_side(count));
        inspector.call_with_room(Entry::Check, &eights, &examples::eights(count));
        inspector.call_with_room(Entry::Flatten, &eights, &examples::eights(count));
        inspector.call_with_room(Entry::Run, &eights, &job);
        inspector.call_with_room(Entry::RunHalting, &eights, &job);
        inspector.call_with_room(Entry::Resume, &eights, &job);
        inspector.call_with_room(Entry::Search, &eights, &job);
    }
    for (entry, files, table) in [
        (Entry::Check, limit_files::proofs(), eights.clone()),
        (Entry::Flatten, limit_files::proofs(), eights),
        (Entry::CheckFlat, limit_files::flats(), limit_files::chain_table()),
        (Entry::WriteProof, limit_files::flats(), limit_files::chain_table()),
        (Entry::Run, limit_files::jobs(), examples::table_a()),
        (Entry::RunHalting, limit_files::jobs(), examples::table_a()),
        (Entry::Resume, limit_files::jobs(), examples::table_a()),
        (Entry::Search, limit_files::jobs(), examples::table_a()),
        (Entry::ReadText, texts::limit_texts(), Vec::new()),
        (Entry::WriteText, texts::limit_terms(), Vec::new()),
    ] {
        for file in &files {
            inspector.call_with_room(entry, &table, file);
        }
    }
}
