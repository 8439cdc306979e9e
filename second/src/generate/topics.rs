//! The fixed set of vectors, one list of cases for each topic.

use super::build::*;
use super::case::{Case, Entry};
use super::random::Random;
use super::random_table::{RandomTable, Size};
use super::{
    damage, examples, halting, limit_files, longer, no_bytes, other_file_of_vectors, positions, random_case_of,
    reading, reasons, rules, searches, texts,
};
use crate::limits::MOST_BUDGET;

/// File names in the folder crates/replay_vectors/data, with their cases.
pub fn vector_set() -> Vec<(&'static str, Vec<Case>)> {
    vec![
        ("read-table.vec", read_table()),
        ("read-proof.vec", read_proof()),
        ("read-job.vec", read_job()),
        ("read-flat.vec", read_flat()),
        ("check.vec", check()),
        ("flatten.vec", flatten()),
        ("check-flat.vec", check_flat()),
        ("write-proof.vec", write_proof()),
        ("run.vec", run()),
        ("read-text.vec", read_text()),
        ("write-text.vec", write_text()),
        ("search.vec", search()),
        ("reasons.vec", reasons::cases()),
        ("no-bytes.vec", no_bytes::cases()),
        ("rules.vec", rules::cases()),
        ("halting.vec", halting_cases()),
        ("longer.vec", longer::cases()),
    ]
}

/// Reading tables, shown by the check entry.
fn read_table() -> Vec<Case> {
    let proof = reading::proof_with_every_term();
    let case = |table: Vec<u8>| Case::new(Entry::Check, &table, &proof);
    let good = reading::table_with_every_field();
    let mut tables = vec![good.clone(), vec![]];
    tables.extend(reading::systematic_damage(&good));
    tables.extend(reading::refused_tables());
    tables.extend(limit_files::tables());
    tables.extend(damaged_tables(&mut Random::new(1), 200));
    tables.extend(faulty_tables(&mut Random::new(10), 100));
    tables.into_iter().map(case).collect()
}

fn damaged_tables(random: &mut Random, count: usize) -> Vec<Vec<u8>> {
    (0..count)
        .map(|_| {
            let table = RandomTable::make(random, Size::Small).bytes();
            let once = damage::damage(random, &table);
            if random.chance(30) {
                damage::damage(random, &once)
            } else {
                once
            }
        })
        .collect()
}

/// Tables with one to three faults for 6 to 9, so that their order shows.
fn faulty_tables(random: &mut Random, count: usize) -> Vec<Vec<u8>> {
    (0..count)
        .map(|_| {
            let mut table = RandomTable::make(random, Size::Small);
            for _ in 0..1 + random.below(3) {
                table.add_fault(random);
            }
            table.bytes()
        })
        .collect()
}

/// Reading proofs, shown by the check entry.
fn read_proof() -> Vec<Case> {
    let mut cases = reading_cases(Entry::Check, &reading::proof_with_every_term());
    let table = examples::table_of_eight();
    cases.extend(limit_files::proofs().iter().map(|proof| Case::new(Entry::Check, &table, proof)));
    cases.extend(damaged_cases(Entry::Check, &mut Random::new(2), 200));
    cases
}

/// Reading jobs, shown by the run entry.
fn read_job() -> Vec<Case> {
    let mut cases = reading_cases(Entry::Run, &reading::job_with_tactic_terms());
    let table = examples::table_a();
    cases.extend(limit_files::jobs().iter().map(|job| Case::new(Entry::Run, &table, job)));
    cases.extend(damaged_cases(Entry::Run, &mut Random::new(3), 100));
    cases
}

/// Reading flat files, shown by the check_flat entry.
fn read_flat() -> Vec<Case> {
    let mut cases = reading_cases(Entry::CheckFlat, &reading::flat_with_every_entry());
    let table = limit_files::chain_table();
    cases.extend(limit_files::flats().iter().map(|flat| Case::new(Entry::CheckFlat, &table, flat)));
    cases.extend(damaged_cases(Entry::CheckFlat, &mut Random::new(4), 200));
    cases
}

fn reading_cases(entry: Entry, good: &[u8]) -> Vec<Case> {
    let table = reading::table_with_every_field();
    let mut others = vec![good.to_vec()];
    others.extend(reading::systematic_damage(good));
    others.extend(reading::refused_others());
    others.iter().map(|other| Case::new(entry, &table, other)).collect()
}

fn damaged_cases(entry: Entry, random: &mut Random, count: usize) -> Vec<Case> {
    (0..count)
        .map(|_| {
            let table = RandomTable::make(random, Size::Small);
            let other = other_file_of_vectors(entry, random, &table);
            Case::new(entry, &table.bytes(), &damage::damage(random, &other))
        })
        .collect()
}

/// What every entry has to refuse alike: both files and the work space.
fn refusals_of_every_entry(entry: Entry, table: &[u8], other: &[u8]) -> Vec<Case> {
    let size = entry.work_size();
    let good = Case::new(entry, table, other);
    let bad_table = [1, 0, 0];
    let mut cases = vec![
        good.clone(),
        good.clone().with_work(size - 1),
        good.clone().with_work(0),
        good.clone().with_work(size + 1),
        Case::new(entry, &bad_table, other).with_work(size - 1),
        Case::new(entry, &bad_table, &[0; 65_536]),
    ];
    cases.extend(reading::refused_tables().iter().map(|table| Case::new(entry, table, other)));
    cases.extend(reading::refused_others().iter().map(|other| Case::new(entry, table, other)));
    cases
}

/// A case with output spaces of every interesting length.
pub fn with_output_lengths(case: &Case) -> Vec<Case> {
    match case.result() {
        None => vec![case.clone(), case.clone().with_output(0)],
        Some(result) => [0, result.len() - 1, result.len(), result.len() + 1]
            .into_iter()
            .map(|length| case.clone().with_output(length))
            .collect(),
    }
}

fn random_cases(entry: Entry, seed: u64, count: usize) -> Vec<Case> {
    let mut random = Random::new(seed);
    (0..count).map(|_| random_case_of(entry, Size::Small, &mut random)).collect()
}

fn check() -> Vec<Case> {
    let mut cases = refusals_of_every_entry(Entry::Check, &examples::table_a(), &examples::first_proof());
    cases.extend(proof_cases(Entry::Check));
    let many_rules = limit_files::different_rules(4_096);
    let by_name = limit_files::proofs_by_name(&[0, 1, 2_047, 2_048, 4_094, 4_095, 4_096, 65_535]);
    cases.extend(by_name.iter().map(|proof| Case::new(Entry::Check, &many_rules, proof)));
    cases.extend(random_cases(Entry::Check, 5, 600));
    cases
}

fn flatten() -> Vec<Case> {
    let mut cases = refusals_of_every_entry(Entry::Flatten, &examples::table_a(), &examples::first_proof());
    let table = examples::table_of_eight();
    let at_limits = limit_files::proofs();
    let at_limits = at_limits.iter().map(|proof| Case::new(Entry::Flatten, &table, proof));
    cases.extend(proof_cases(Entry::Flatten).iter().flat_map(with_output_lengths));
    cases.extend(at_limits.flat_map(|case| with_output_lengths(&case)));
    cases.extend(random_cases(Entry::Flatten, 6, 400));
    cases
}

/// The check of proofs at the limits is in `read_proof`.
fn proof_cases(entry: Entry) -> Vec<Case> {
    let case = |table: &[u8], proof: &[u8]| Case::new(entry, table, proof);
    let mut cases: Vec<Case> = examples::proofs().iter().map(|(table, proof)| case(table, proof)).collect();
    let eights = examples::table_of_eight();
    let most_waiting = proof(&[40; 227], &limit_files::term_of_most_waiting_goals(), &[]);
    cases.push(case(&eights, &limit_files::proof_of_growing_tree()));
    cases.push(case(&eights, &most_waiting));
    cases.push(case(&limit_files::chain_table(), &limit_files::proof_of_most_uses()));
    cases
}

fn check_flat() -> Vec<Case> {
    let mut cases = refusals_of_every_entry(Entry::CheckFlat, &examples::table_a(), &examples::first_flat());
    cases.extend(flat_cases(Entry::CheckFlat));
    cases.extend(random_cases(Entry::CheckFlat, 7, 600));
    cases
}

fn write_proof() -> Vec<Case> {
    let mut cases = refusals_of_every_entry(Entry::WriteProof, &examples::table_a(), &examples::first_flat());
    cases.extend(flat_cases(Entry::WriteProof).iter().flat_map(with_output_lengths));
    cases.extend(random_cases(Entry::WriteProof, 8, 500));
    cases
}

fn flat_cases(entry: Entry) -> Vec<Case> {
    let case = |table: &[u8], flat: &[u8]| Case::new(entry, table, flat);
    let a = examples::table_a();
    let eights = examples::table_of_eight();
    let chain = limit_files::chain_table();
    let mut cases = vec![
        case(&a, &examples::first_flat()),
        case(&a, &flat(&[], &[])),
        case(&a, &flat(&[], &[open_entry(1)])),
        case(&a, &flat(&[10], &[])),
        case(&a, &flat(&[10], &[use_entry(1, 10), open_entry(30), open_entry(20)])),
        case(&a, &flat(&[10], &[use_entry(2, 10)])),
        case(&a, &flat(&[10, 20], &[use_entry(2, 20), open_entry(10)])),
        case(&a, &flat(&[10], &[open_entry(10), open_entry(10)])),
        case(&eights, &limit_files::flat_of_eights(36)),
        case(&eights, &limit_files::flat_of_eights(37)),
        case(&eights, &limit_files::flat_of_roots(128, 128)),
    ];
    cases.extend(limit_files::flats_of_most_pending_goals().iter().map(|flat| case(&eights, flat)));
    cases.extend(limit_files::flats().iter().map(|flat| case(&chain, flat)));
    cases
}

fn run() -> Vec<Case> {
    let first_job = job(&[10], &defined(3));
    let mut cases = refusals_of_every_entry(Entry::Run, &examples::table_a(), &first_job);
    cases.extend(refused_budgets(&first_job));
    cases.extend(examples::run_cases().iter().flat_map(with_output_lengths));
    cases.extend(examples::arity_cases());
    cases.extend(positions::run_cases());
    cases.extend(runs_at_limits().iter().flat_map(with_output_lengths));
    cases.extend(random_cases(Entry::Run, 9, 450));
    cases
}

/// "29, then 25, come before any reading".
fn refused_budgets(first_job: &[u8]) -> Vec<Case> {
    let table = examples::table_a();
    let case = Case::new(Entry::Run, &table, first_job);
    let size = Entry::Run.work_size();
    vec![
        case.clone().with_budget(MOST_BUDGET + 1).with_work(size - 1),
        case.clone().with_budget(u32::MAX),
        case.with_budget(0),
        Case::new(Entry::Run, &[1, 0], first_job).with_budget(MOST_BUDGET + 1),
    ]
}

fn runs_at_limits() -> Vec<Case> {
    let run = |table: &[u8], goals: &[u16], term: &[u8]| Case::new(Entry::Run, table, &job(goals, term));
    let eights = examples::table_of_eight();
    let endless = definition(1, &defined(1));
    let growing = definition(1, &sequence(&id(), &defined(1)));
    // Each of these holds something more at every second step.
    let many_alternatives = definition(1, &alternation(&defined(1), &id()));
    let many_sequences = definition(1, &sequence(&defined(1), &id()));
    let many_labels = definition(1, &label(1, &defined(1)));
    let deep = limit_files::deep_definition(4_095);
    let joined = |count: usize| tensor_of(&vec![atomic(4); count]);
    let arities = limit_files::powers_of_arity();
    let left_of = |tactic: u16| tensor(&defined(tactic), &empty());
    vec![
        run(&endless, &[], &defined(1)),
        run(&growing, &[1], &defined(1)),
        run(&many_alternatives, &[1; 256], &defined(1)),
        run(&many_sequences, &[1], &defined(1)),
        run(&many_labels, &[1], &defined(1)),
        run(&eights, &[40; 227], &limit_files::term_of_most_waiting_goals()),
        run(&deep, &[1], &defined(1)),
        run(&deep, &[1], &defined(1)).with_budget(4_095),
        run(&eights, &[40; 32], &joined(32)),
        run(&eights, &[40; 33], &joined(33)),
        run(&eights, &[40; 33], &alternation(&joined(33), &id())),
        run(&arities, &[7; 256], &left_of(0)),
        run(&arities, &[7; 255], &left_of(0)),
        run(&arities, &[7; 256], &left_of(9)),
        run(&arities, &[7; 256], &defined(0)),
        run(&limit_files::chain_of_definitions(256), &[1], &tensor(&defined(0), &empty())),
        run(&limit_files::doubling_definitions(256), &[1], &tensor(&defined(0), &empty())),
        run(&examples::table_a(), &[10; 256], &defined(4)),
        run(&examples::table_a(), &[10], &labels_around(4_095, &id())),
        run(&examples::table_a(), &[10], &labels_around(4_095, &id())).with_budget(4_095),
        run(&examples::table_a(), &[10], &labels_around(4_095, &empty())),
    ]
}

/// P13's search.
fn search() -> Vec<Case> {
    let first_job = job(&[10], &defined(3));
    let mut cases = refusals_of_every_entry(Entry::Search, &examples::table_a(), &first_job);
    cases.extend(searches::order_of_refusals());
    cases.extend(searches::numbers());
    cases.extend(searches::single_terms());
    cases.extend(searches::listed().iter().flat_map(searches::around_the_borders));
    cases.extend(searches::joined_lists().iter().flat_map(with_output_lengths));
    cases.extend(searches::at_the_greatest_height().iter().flat_map(searches::around_its_steps));
    cases.extend(searches::at_other_limits().iter().flat_map(with_output_lengths));
    for case in searches::longest_proofs() {
        cases.extend(searches::around_the_borders(&case));
        cases.extend(with_output_lengths(&case));
    }
    cases.extend(positions::search_cases());
    cases.extend(random_cases(Entry::Search, 13, 200).into_iter().map(with_little_more_work_space));
    cases
}

/// P1: runs that halt, and runs that are taken up.
fn halting_cases() -> Vec<Case> {
    let first_job = job(&[10], &defined(3));
    let mut cases = Vec::new();
    for entry in Entry::THAT_HALT {
        cases.extend(refusals_of_every_entry(entry, &examples::table_a(), &first_job));
    }
    cases.extend(halting::order_of_refusals());
    cases.extend(halting::numbers());
    cases.extend(halting::sizes());
    cases.extend(halting::lent_spaces());
    cases.extend(halting::outputs());
    cases.extend(halting::halted_everywhere());
    cases.extend(halting::again_and_again());
    cases.extend(halting::in_every_place());
    cases.extend(halting::forgeries());
    cases.extend(halting::at_limits());
    cases.extend(longer::halting_cases());
    cases.extend(random_cases(Entry::RunHalting, 14, 60).into_iter().map(with_little_more_work_space));
    cases.extend(random_cases(Entry::Resume, 15, 150).into_iter().map(with_little_more_work_space));
    cases
}

/// A program that replays the vectors has room for one byte more than any entry
/// asks for.
fn with_little_more_work_space(case: Case) -> Case {
    let work_length = case.work_length.min(case.entry.work_size() + 1);
    case.with_work(work_length)
}

fn text_case(text: &[u8]) -> Case {
    Case::new(Entry::ReadText, &[], text)
}

fn term_case(term: &[u8]) -> Case {
    Case::new(Entry::WriteText, &[], term)
}

/// What both entries of P8 have to refuse alike, and in which order: 29, then 1,
/// then what `wrong` is refused with, then 26.
fn order_of_refusals(good: &Case, wrong: &Case) -> Vec<Case> {
    let size = good.entry.work_size();
    let too_long = Case::new(good.entry, &[], &[b'x'; 65_536]);
    vec![
        good.clone(),
        good.clone().with_work(size - 1),
        good.clone().with_work(0),
        good.clone().with_work(size + 1),
        good.clone().with_work(size - 1).with_output(0),
        too_long.clone().with_work(size - 1),
        too_long.clone(),
        too_long.with_output(0),
        wrong.clone().with_work(size - 1),
        wrong.clone(),
        wrong.clone().with_output(0),
        good.clone().with_output(0),
    ]
}

/// Texts to terms: P8's reader.
fn read_text() -> Vec<Case> {
    let every_mark = texts::EVERY_MARK.as_bytes();
    let mut cases = order_of_refusals(&text_case(every_mark), &text_case(b"a65536x"));
    let right = texts::TACTICS.iter().chain(&texts::LOOSE_TEXTS);
    cases.extend(right.flat_map(|text| with_output_lengths(&text_case(text.as_bytes()))));
    cases.extend(texts::REFUSED_TEXTS.iter().map(|text| text_case(text.as_bytes())));
    cases.extend(texts::systematic_text_damage(texts::EVERY_MARK).iter().map(|text| text_case(text)));
    cases.extend(texts::limit_texts().iter().flat_map(|text| with_output_lengths(&text_case(text))));
    cases.extend(random_cases(Entry::ReadText, 11, 250));
    cases
}

/// Terms to texts: P8's writer.
fn write_text() -> Vec<Case> {
    let every_field = texts::term_with_every_field();
    let mut cases = order_of_refusals(&term_case(&every_field), &term_case(&[25, 0, 0]));
    let tactics =
        texts::TACTICS.iter().chain(&texts::LOOSE_TEXTS).filter_map(|text| text_case(text.as_bytes()).result());
    cases.extend(tactics.flat_map(|term| with_output_lengths(&term_case(&term))));
    cases.extend(texts::terms_two_deep().iter().map(|term| term_case(term)));
    cases.extend(reading::systematic_damage(&every_field).iter().map(|term| term_case(term)));
    cases.extend(texts::refused_terms().iter().map(|term| term_case(term)));
    cases.extend(texts::limit_terms().iter().flat_map(|term| with_output_lengths(&term_case(term))));
    cases.extend(random_cases(Entry::WriteText, 12, 200));
    cases
}
