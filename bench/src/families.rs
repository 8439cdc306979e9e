//! What is measured: calls of every entry, and counts of term fields alone, each
//! in four sizes that double, the last of them at a limit of document 01 or 02.

use crate::files::{self, Files, Keys};
use crate::halts;
use crate::searches;
use crate::texts::{self, Join};
use boundary::compare::name_of;
use second::generate::build;
use second::generate::case::{Case, Entry};

/// What is called.
#[derive(Clone, Copy, PartialEq, Eq)]
pub enum Called {
    Entry(Entry),
    /// The count of a term's fields alone, which is a part of a call of check (document 02, P3).
    Count,
}

impl Called {
    pub fn name(self) -> &'static str {
        match self {
            Called::Entry(entry) => name_of(entry),
            Called::Count => "count",
        }
    }

    /// The key of a family, from the word for its files.
    fn key(self, word: &str) -> String {
        format!("{}-{word}", self.name())
    }
}

/// Calls that differ in size alone.
pub struct Family {
    /// One word for command lines.
    pub key: String,
    pub title: &'static str,
    pub called: Called,
    /// What the sizes count.
    pub unit: &'static str,
    /// The largest size.
    pub most: usize,
    /// What the calls answer: 0, but for searches that find nothing, proofs that are refused late, and runs that halt or hold
    /// too many fields.
    pub number: u32,
    make: Box<dyn Fn(usize) -> Case>,
}

impl Family {
    /// An eighth, a quarter, a half and all of the largest size; one size alone
    /// for a call that cannot grow.
    pub fn sizes(&self) -> Vec<usize> {
        if self.most == 1 {
            return vec![1];
        }
        [8, 4, 2, 1].map(|part| self.most / part).to_vec()
    }

    /// The call of that size; for a count, the call of check with the proof whose term is counted.
    pub fn case(&self, size: usize) -> Case {
        (self.make)(size)
    }
}

fn family(
    entry: Entry,
    word: &str,
    title: &'static str,
    unit: &'static str,
    most: usize,
    make: impl Fn(usize) -> Files + 'static,
) -> Family {
    let make = move |size| {
        let (table, other) = make(size);
        Case::new(entry, &table, &other)
    };
    let called = Called::Entry(entry);
    Family { key: called.key(word), title, called, unit, most, number: 0, make: Box::new(make) }
}

/// The count of the term in a proof that check accepts.
fn count(
    word: &str,
    title: &'static str,
    unit: &'static str,
    most: usize,
    make: impl Fn(usize) -> Files + 'static,
) -> Family {
    let called = Called::Count;
    Family { key: called.key(word), called, ..family(Entry::Check, word, title, unit, most, make) }
}

/// A search, sized by its steps, that answers that number.
fn search(word: &str, title: &'static str, number: u32, make: impl Fn(usize) -> Case + 'static) -> Family {
    let called = Called::Entry(Entry::Search);
    Family { key: called.key(word), title, called, unit: "steps", most: 4_096, number, make: Box::new(make) }
}

/// A run that may halt, sized by what `unit` names, that answers that number.
fn halting(
    entry: Entry,
    word: &str,
    title: &'static str,
    (unit, most): (&'static str, usize),
    number: u32,
    make: impl Fn(usize) -> Case + 'static,
) -> Family {
    let called = Called::Entry(entry);
    Family { key: called.key(word), title, called, unit, most, number, make: Box::new(make) }
}

/// All of them, entry by entry; the counts stand behind check.
pub fn all() -> Vec<Family> {
    let mut list = Vec::new();
    let entries = [
        Entry::Check,
        Entry::Flatten,
        Entry::CheckFlat,
        Entry::WriteProof,
        Entry::ReadText,
        Entry::WriteText,
        Entry::Run,
        Entry::RunHalting,
        Entry::Resume,
        Entry::Search,
    ];
    for entry in entries {
        list.push(family(entry, "small", "document 01's first example", "file", 1, move |_| files::small(entry)));
        match entry {
            Entry::Check => {
                let different = of_different_rules(entry, 2_048);
                let sets = [of_blank(entry), of_rules(entry), different, of_depth(entry), of_check(), of_count()];
                list.extend(sets.into_iter().flatten())
            }
            Entry::Flatten => {
                let sets = [of_blank(entry), of_rules(entry), of_depth(entry), of_flatten()];
                list.extend(sets.into_iter().flatten())
            }
            Entry::CheckFlat => {
                let sets = [of_rules(entry), of_different_rules(entry, 4_096), of_check_flat()];
                list.extend(sets.into_iter().flatten())
            }
            Entry::WriteProof => list.extend([of_rules(entry), of_write_proof()].into_iter().flatten()),
            Entry::Run | Entry::RunHalting | Entry::Resume => list.extend(of_every_run(entry)),
            Entry::Search => list.extend(of_search()),
            Entry::ReadText => list.extend([of_chains(entry), of_labels(entry), of_read_text()].into_iter().flatten()),
            Entry::WriteText => list.extend([of_chains(entry), of_labels(entry)].into_iter().flatten()),
        }
    }
    list
}

/// A proof of zero bytes (document 02, P7), with no table and with a long one.
fn of_blank(entry: Entry) -> Vec<Family> {
    let title = "a blank proof, a long table";
    vec![
        family(entry, "blank", "a blank proof, no table", "file", 1, |_| files::blank()),
        family(entry, "blank-table", title, "bytes of table", 65_535, files::blank_in_a_long_table),
    ]
}

/// As many rules as a table may have, in several orders, and uses of the last ones.
fn of_rules(entry: Entry) -> Vec<Family> {
    let sets: [(&str, &'static str, Keys); 6] = [
        ("rising", "rules in rising order", files::rising),
        ("falling", "rules in falling order", files::falling),
        ("scattered", "rules in scattered order", files::scattered),
        ("goals", "one name for all goals", files::one_name),
        ("names", "a name for each goal", files::own_goals),
        ("sums", "names and goals of one sum", files::one_sum),
    ];
    let mut list: Vec<Family> = sets
        .into_iter()
        .map(|(word, title, keys)| {
            family(entry, word, title, "rules", 4_096, move |count| files::last_rules(entry, keys, count))
        })
        .collect();
    let title = "the last rule, labels in a definition";
    list.push(family(entry, "last", title, "rules", 4_096, move |count| files::last_rule(entry, count)));
    list
}

/// Proofs that are as deep as they have fields.
fn of_depth(entry: Entry) -> Vec<Family> {
    vec![
        family(entry, "labels", "nested labels", "term fields", 4_096, files::labels),
        family(entry, "sequences-left", "sequences to the left", "ids", 2_048, files::sequences_to_the_left),
        family(entry, "sequences-right", "sequences to the right", "ids", 2_048, files::sequences_to_the_right),
        family(entry, "tensors-left", "tensors to the left", "empties", 2_048, files::tensors_to_the_left),
        family(entry, "tensors-right", "tensors to the right", "empties", 2_048, files::tensors_to_the_right),
    ]
}

/// Different rules that are counted (document 02, P6): each used once, and eight of many again and again.
fn of_different_rules(entry: Entry, most_uses: usize) -> Vec<Family> {
    let once = move |count| files::each_rule_once(entry, count);
    let turns = move |count| files::eight_rules_in_turn(entry, count);
    vec![
        family(entry, "once", "each rule once, out of order", "rules", most_uses, once),
        family(entry, "turns", "eight rules in turn", "rules", 4_096, turns),
    ]
}

fn of_check() -> Vec<Family> {
    let entry = Entry::Check;
    vec![
        family(entry, "uses", "a chain of uses", "uses", 2_048, files::proof_of_uses),
        family(entry, "table", "a long table, a short proof", "bytes of table", 65_535, files::long_table),
        family(entry, "definitions", "labels in a definition", "term fields", 4_096, files::labels_in_a_definition),
        Family {
            number: 34,
            ..family(entry, "miscount", "a miscount at the end", "leaves", 2_048, files::miscounted_at_the_end)
        },
        Family {
            number: 35,
            ..family(entry, "too-few", "too few goals at the end", "leaves", 2_048, files::too_few_at_the_end)
        },
    ]
}

/// Terms as deep as they have fields, of three of check's proofs.
fn of_count() -> Vec<Family> {
    vec![
        count("labels", "nested labels", "term fields", 4_096, files::labels),
        count("sequences-left", "sequences to the left", "ids", 2_048, files::sequences_to_the_left),
        count("sequences-right", "sequences to the right", "ids", 2_048, files::sequences_to_the_right),
    ]
}

fn of_flatten() -> Vec<Family> {
    vec![family(Entry::Flatten, "uses", "a chain of uses", "uses", 2_048, files::proof_of_uses)]
}

fn of_check_flat() -> Vec<Family> {
    vec![family(Entry::CheckFlat, "uses", "a chain of uses", "uses", 4_096, files::flat_of_uses)]
}

fn of_write_proof() -> Vec<Family> {
    vec![family(Entry::WriteProof, "entries", "a chain of uses written back", "entries", 2_048, files::flat_of_uses)]
}

/// Terms of each sign, leaning left, so that brackets are needed at every level, and right; and of all signs in turn.
fn of_chains(entry: Entry) -> Vec<Family> {
    let signs: [(&str, &'static str, &'static str, Join); 3] = [
        ("sequences", "sequences to the left", "sequences to the right", build::sequence),
        ("alternations", "alternations to the left", "alternations to the right", build::alternation),
        ("tensors", "tensors to the left", "tensors to the right", build::tensor),
    ];
    let mut list = Vec::new();
    for (word, left, right, join) in signs {
        let make = move |leaves| texts::as_taken(entry, texts::to_the_left(join, leaves));
        list.push(family(entry, &format!("{word}-left"), left, "leaves", 2_048, make));
        let make = move |leaves| texts::as_taken(entry, texts::to_the_right(join, leaves));
        list.push(family(entry, &format!("{word}-right"), right, "leaves", 2_048, make));
    }
    let make = move |sequences| texts::as_taken(entry, texts::all_signs(sequences));
    list.push(family(entry, "signs", "all signs in turn", "sequences", 682, make));
    list
}

/// Labels in each other and beside each other, with and without brackets.
fn of_labels(entry: Entry) -> Vec<Family> {
    type Term = fn(usize) -> Vec<u8>;
    let sets: [(&str, &'static str, usize, Term); 4] = [
        ("labels", "nested labels", 4_095, texts::labels),
        ("labels-followed", "labels in brackets, side by side", 1_365, texts::followed_labels),
        ("labels-left", "labels in brackets, nested", 1_365, texts::labels_to_the_left),
        ("labels-right", "labels in sequences", 1_365, texts::labels_to_the_right),
    ];
    let family_of = |(word, title, most, term): (&str, &'static str, usize, Term)| {
        family(entry, word, title, "labels", most, move |count| texts::as_taken(entry, term(count)))
    };
    sets.into_iter().map(family_of).collect()
}

/// Long texts of few fields.
fn of_read_text() -> Vec<Family> {
    let entry = Entry::ReadText;
    vec![
        family(entry, "brackets", "nested brackets", "pairs", 32_766, texts::brackets),
        family(entry, "blanks", "blanks", "blanks", 65_533, texts::blanks),
        family(entry, "zeros", "leading zeros", "digits", 65_534, texts::leading_zeros),
    ]
}

/// Short runs, those of the entry alone, and long ones.
fn of_every_run(entry: Entry) -> Vec<Family> {
    let own = match entry {
        Entry::RunHalting => of_run_halting(),
        Entry::Resume => of_resume(),
        _ => Vec::new(),
    };
    [of_run(entry), own, of_long_runs(entry)].into_iter().flatten().collect()
}

/// Runs that end by themselves; a run that is taken up, half way.
fn of_run(entry: Entry) -> Vec<Family> {
    vec![
        family(entry, "definitions", "definitions in reverse", "definitions", 256, files::definitions_in_reverse),
        family(entry, "alternatives", "failing alternatives", "steps", 4_096, files::failing_alternatives),
        family(entry, "labels", "nested labels", "steps", 4_096, files::job_of_labels),
    ]
}

/// Runs of up to 16,384 steps, and one that ends with 40 (document 02, P12); a run that is taken up, half way.
fn of_long_runs(entry: Entry) -> Vec<Family> {
    let steps = ("steps", 16_384);
    let (uses, rules, labels) =
        ("uses in sequence, late alternatives", "the same with as many rules", "labels in one another, by a name");
    vec![
        family(entry, "long-alternatives", "failing alternatives, by names", "steps", 16_384, files::long_alternatives),
        halting(entry, "long-sequence", uses, steps, 24, move |steps| halts::long_sequence(entry, steps)),
        family(entry, "long-rules", rules, "steps", 16_384, files::long_rules),
        halting(entry, "long-labels", labels, steps, 24, move |steps| halts::deep_labels(entry, steps)),
        halting(entry, "held", "4,097 fields finished", ("run", 1), 40, move |_| halts::too_many_fields(entry)),
    ]
}

/// Runs that halt with as much of each kind as there can be.
fn of_run_halting() -> Vec<Family> {
    let entry = Entry::RunHalting;
    let (steps, fields, ids, goals) = (("steps", 4_096), ("term fields", 4_096), ("ids", 2_048), ("goals", 227));
    vec![
        halting(entry, "alternations", "alternations on 256 goals wait", steps, 24, halts::deep_alternations),
        halting(entry, "sequences", "sequences wait for the left", steps, 24, halts::deep_sequences),
        halting(entry, "finished", "sequences wait for the right", steps, 24, halts::many_finished),
        halting(entry, "used-up", "alternations with used-up goals", steps, 24, halts::many_used_up),
        halting(entry, "all-labels", "every label waits", fields, 24, halts::all_labels),
        halting(entry, "all-ids", "every id is finished", ids, 24, halts::all_ids),
        halting(entry, "eights", "64 goals for each goal", goals, 24, halts::all_eights),
    ]
}

/// The same taken up half way, and a state that is forged.
fn of_resume() -> Vec<Family> {
    let entry = Entry::Resume;
    let (steps, fields, ids, goals) = (("steps", 4_096), ("term fields", 4_096), ("ids", 2_048), ("goals", 227));
    vec![
        halting(entry, "alternations", "alternations on 256 goals wait", steps, 24, halts::resumed_alternations),
        halting(entry, "sequences", "sequences wait for the left", steps, 24, halts::resumed_sequences),
        halting(entry, "finished", "sequences wait for the right", steps, 24, halts::resumed_finished),
        halting(entry, "used-up", "alternations with used-up goals", steps, 24, halts::resumed_used_up),
        halting(entry, "all-labels", "every label waits", fields, 0, halts::resumed_labels),
        halting(entry, "all-ids", "every id is finished", ids, 0, halts::resumed_ids),
        halting(entry, "definition", "labels of a definition wait", fields, 0, halts::resumed_definition),
        halting(entry, "eights", "64 goals for each goal", goals, 22, halts::resumed_eights),
        halting(entry, "no-step", "64 goals for each goal, no step more", goals, 24, halts::no_step_more),
        halting(entry, "forged", "a state forged in its last byte", steps, 30, halts::forged),
    ]
}

/// Searches that find late, that find nothing, and that go on to the end of their budget.
fn of_search() -> Vec<Family> {
    let by_demand =
        Family { most: 1, ..search("demand", "T5 ⊗ T6 on three goals", 0, |_| searches::split_by_demand()) };
    vec![
        by_demand,
        search("late", "an evaluation that is found late", 0, searches::found_late),
        search("proof", "a proof of as many fields", 0, searches::large_proof),
        search("alternatives", "alternatives that fail late", 41, searches::failing_alternatives),
        search("goals", "failing alternatives on 256 goals", 41, searches::alternatives_on_many_goals),
        search("back", "back into left parts that have ended", 24, searches::back_into_the_left),
        search("splits", "splits of 256 goals", 24, searches::splits_of_many_goals),
        search("splits-left", "splits within splits", 24, searches::splits_in_splits),
        search("joins", "joined lists of 256 goals", 24, searches::long_joins),
        search("height", "sequences of height 64", 24, searches::high_sequences),
        search("rules", "the last of as many rules", 24, searches::last_rules_tried),
        search("sums", "missing rules, names and goals of one sum", 24, searches::missing_rules),
        search("definitions", "the last definition, one for 16 steps", 24, searches::last_definition),
    ]
}

#[cfg(test)]
mod tests {
    use super::*;
    use crate::counting::term_of;
    use second::format::count::count_fields;
    use second::Answer;

    /// The answer to the largest call of a family, and the call.
    fn largest(key: &str) -> (Answer, Case) {
        let family = all().into_iter().find(|family| family.key == key).unwrap();
        let case = family.case(family.most);
        (case.outcome().answer, case)
    }

    #[test]
    fn every_call_is_answered_as_its_family_says() {
        for family in &all() {
            let may_refuse =
                [Entry::Check, Entry::Search, Entry::Run, Entry::RunHalting, Entry::Resume].map(Called::Entry);
            assert!(family.number == 0 || may_refuse.contains(&family.called), "{}", family.key);
            for size in family.sizes() {
                let outcome = family.case(size).outcome();
                assert_eq!(outcome.answer.number, family.number, "{} {size}", family.key);
            }
        }
    }

    /// All but a few of the steps that a size names are taken, at every size.
    #[test]
    fn searches_take_the_steps_of_their_size() {
        let called = Called::Entry(Entry::Search);
        for family in all().iter().filter(|family| family.called == called && family.most > 1) {
            for size in family.sizes() {
                let steps = family.case(size).outcome().answer.steps as usize;
                assert!((size - 4..=size).contains(&steps), "{} {size}: {steps}", family.key);
            }
        }
        assert_eq!(largest("search-small").0.steps, 20);
        assert_eq!(largest("search-demand").0.steps, 56);
        assert_eq!(largest("search-rules").1.table.len(), 9 * 4_096);
        assert_eq!(largest("search-definitions").1.table.len(), 8 * 255 + 18);
    }

    /// The states that the largest runs halt with or are taken up from: steps, bytes of finished fields, entries.
    #[test]
    fn halted_runs_hold_the_most() {
        let parts = |state: &[u8]| {
            let value = |at: usize| usize::from(u16::from_be_bytes([state[at], state[at + 1]]));
            (value(0), value(2), value(4 + value(2)))
        };
        let halted = |key: &str| parts(&largest(key).1.outcome().state);
        let saved = |key: &str| parts(&largest(key).1.saved);
        assert_eq!(halted("run_halting-alternations"), (4_096, 0, 2_049));
        assert_eq!(halted("run_halting-sequences"), (4_096, 0, 2_049));
        assert_eq!(halted("run_halting-finished"), (4_096, 3 * 1_365, 1_366));
        assert_eq!(halted("run_halting-used-up"), (4_096, 3 * 1_024, 2_049));
        assert_eq!(halted("run_halting-all-labels"), (4_095, 0, 4_096));
        assert_eq!(halted("run_halting-all-ids"), (4_094, 3 * 2_047, 2_048));
        assert_eq!(halted("run_halting-eights").0, 4_084);
        for word in ["alternations", "sequences", "finished", "used-up", "all-labels"] {
            assert_eq!(saved(&format!("resume-{word}")).0, 2_048, "{word}");
        }
        assert_eq!(saved("resume-alternations"), (2_048, 0, 1_025));
        assert_eq!(largest("resume-alternations").0.steps, 4_096);
        assert_eq!(largest("resume-all-labels").0.steps, 4_096);
        assert_eq!(largest("resume-eights").0.steps, 4_085);
        // The families that a run has, too, are of the same files.
        for word in [
            "small",
            "definitions",
            "alternatives",
            "labels",
            "long-alternatives",
            "long-sequence",
            "long-rules",
            "long-labels",
            "held",
        ] {
            let [run, halting, resume] =
                ["run", "run_halting", "resume"].map(|name| largest(&format!("{name}-{word}")).1);
            assert_eq!((&run.table, &run.other), (&halting.table, &halting.other));
            assert_eq!((&run.table, &run.other), (&resume.table, &resume.other));
        }
    }

    /// Steps of the long runs, and fields of the proofs that they give; where they halt, the terms that wait.
    #[test]
    fn long_runs_have_16_384_steps() {
        for name in ["run", "run_halting", "resume"] {
            let steps = |word: &str| largest(&format!("{name}-{word}")).0.steps;
            assert_eq!(steps("long-alternatives"), 16_382);
            assert_eq!(steps("long-sequence"), 16_384);
            assert_eq!(steps("long-rules"), 16_377);
            assert_eq!(steps("long-labels"), 16_384);
            assert_eq!(steps("held"), 3 * 4_097);
        }
        let fields = |key: &str| {
            let case = largest(key).1;
            Case::new(Entry::Check, &case.table, &case.result().unwrap()).outcome().answer.fields
        };
        assert_eq!(fields("run-long-alternatives"), 4_095);
        assert_eq!(fields("run-long-rules"), 4_093);
        let state = largest("run_halting-long-labels").1.outcome().state;
        assert_eq!(u16::from_be_bytes([state[4], state[5]]), 63 * 256 + 1);
    }

    /// Labels round an id, and ids with one sequence fewer. Here the second engine counts and checks; before a count is
    /// measured, the library's are compared with them.
    #[test]
    fn every_count_is_what_check_answers_with() {
        type Fields = fn(usize) -> usize;
        let fields_of: [(&str, Fields); 3] = [
            ("count-labels", |fields| fields),
            ("count-sequences-left", |ids| 2 * ids - 1),
            ("count-sequences-right", |ids| 2 * ids - 1),
        ];
        let counts: Vec<Family> = all().into_iter().filter(|family| family.called == Called::Count).collect();
        assert_eq!(counts.len(), fields_of.len());
        for (family, (key, fields)) in counts.iter().zip(fields_of) {
            assert_eq!(family.key, key);
            for size in family.sizes() {
                let case = family.case(size);
                let (at, end) = term_of(&case.other);
                assert_eq!(count_fields(&case.other, at, end), fields(size), "{key} {size}");
                assert_eq!(case.outcome().answer.fields as usize, fields(size), "{key} {size}");
            }
        }
    }

    #[test]
    fn no_two_families_have_one_key() {
        let mut keys: Vec<String> = all().into_iter().map(|family| family.key).collect();
        let count = keys.len();
        keys.sort();
        keys.dedup();
        assert_eq!(keys.len(), count);
    }

    #[test]
    fn the_largest_calls_use_their_limits() {
        assert_eq!(largest("check-labels").0.fields, 4_096);
        assert_eq!(largest("check-table").1.table.len(), 65_535);
        assert_eq!(largest("check-blank-table").1.table, largest("check-table").1.table);
        assert_eq!(largest("flatten-blank-table").1.table, largest("check-table").1.table);
        assert_eq!(largest("check_flat-uses").0.uses, 4_096);
        assert_eq!(largest("run-alternatives").0.steps, 4_094);
        assert_eq!(largest("run-labels").0.steps, 4_096);
        for shape in ["sequences-left", "sequences-right", "tensors-left", "tensors-right"] {
            assert_eq!(largest(&format!("check-{shape}")).0.fields, 4_095);
            assert_eq!(largest(&format!("flatten-{shape}")).1.other, largest(&format!("check-{shape}")).1.other);
        }
        for shape in ["labels", "sequences-left", "sequences-right"] {
            assert_eq!(largest(&format!("count-{shape}")).1, largest(&format!("check-{shape}")).1);
        }
    }

    /// Uses and different rules: one again and again, each once, eight in turn, half of the table.
    #[test]
    fn families_of_different_rules_have_their_counts() {
        let counts = |key: &str| {
            let answer = largest(key).0;
            (answer.uses, answer.rules)
        };
        assert_eq!(counts("check-uses"), (2_048, 1));
        assert_eq!(counts("check-once"), (2_048, 2_048));
        assert_eq!(counts("check-turns"), (2_048, 8));
        assert_eq!(counts("check-rising"), (2_048, 2_048));
        assert_eq!(counts("check_flat-uses"), (4_096, 2));
        assert_eq!(counts("check_flat-once"), (4_096, 4_096));
        assert_eq!(counts("check_flat-turns"), (4_096, 8));
    }

    /// One field, and a flat file of one empty goal list, in a table of zero bytes and in the longest.
    #[test]
    fn blank_proofs_have_no_bytes() {
        for table in ["blank", "blank-table"] {
            let ((checked, check), (flattened, flatten)) =
                (largest(&format!("check-{table}")), largest(&format!("flatten-{table}")));
            assert!(check.other.is_empty() && flatten.other.is_empty());
            assert_eq!((checked.fields, flattened.length), (1, 3));
        }
        assert!(largest("check-blank").1.table.is_empty() && largest("flatten-blank").1.table.is_empty());
    }

    /// 4,095 fields, refused at the last field or at the last but four: a tensor of three ids.
    #[test]
    fn proofs_are_refused_at_their_last_term() {
        let place_from_the_end = |key: &str| {
            let (answer, case) = largest(key);
            case.other.len() - 5 - answer.place as usize
        };
        assert_eq!(place_from_the_end("check-miscount"), 3);
        assert_eq!(place_from_the_end("check-too-few"), 15);
        assert_eq!(largest("check-miscount").1.other.len(), 5 + 3 * 4_095 + 5);
        assert_eq!(largest("check-too-few").1.other.len(), 5 + 3 * 4_095 + 5);
    }

    /// The longest text and the longest term file; 65,535 bytes of text; 2,048 leaves of five bytes and 2,047
    /// signs of three; three fields for each of 1,365 labels, six for each of 682 sequences.
    #[test]
    fn families_of_texts_use_their_limits() {
        assert_eq!(largest("read_text-labels").1.other.len(), 28_671);
        assert_eq!(largest("read_text-labels").0.length, 20_480);
        assert_eq!(largest("write_text-labels").0.length, 28_671);
        assert_eq!(largest("read_text-brackets").1.other.len(), 65_535);
        assert_eq!(largest("read_text-blanks").1.other.len(), 65_535);
        assert_eq!(largest("read_text-zeros").1.other.len(), 65_535);
        for shape in
            ["sequences", "alternations", "tensors"].map(|word| [format!("{word}-left"), format!("{word}-right")])
        {
            assert!(shape.iter().all(|key| largest(&format!("read_text-{key}")).0.length == 5 * 2_048 + 3 * 2_047));
        }
        assert_eq!(largest("read_text-labels-followed").0.length, 3 + 11 * 1_365);
        assert_eq!(largest("read_text-labels-left").0.length, 3 + 11 * 1_365);
        assert_eq!(largest("read_text-labels-right").0.length, 3 + 11 * 1_365);
        assert_eq!(largest("read_text-signs").0.length, 3 + 18 * 682);
    }

    /// Left parts of the same sign are in brackets, right parts are not; a label is where a sign follows it.
    #[test]
    fn texts_have_brackets_where_they_are_named_so() {
        let brackets = |key: &str| largest(key).1.other.iter().filter(|&&byte| byte == b'(').count();
        for word in ["sequences", "alternations", "tensors"] {
            assert_eq!(brackets(&format!("read_text-{word}-left")), 2_046);
            assert_eq!(brackets(&format!("read_text-{word}-right")), 0);
        }
        assert_eq!(brackets("read_text-labels-followed"), 1_365);
        assert_eq!(brackets("read_text-labels-left"), 1_365);
        assert_eq!(brackets("read_text-labels-right") + brackets("read_text-labels") + brackets("read_text-signs"), 0);
    }

    /// 4,096 rules of nine bytes; 2,048 atomics, 4,096 uses, or 2,047 uses and an open.
    #[test]
    fn families_of_rules_use_their_limits() {
        for set in ["rising", "falling", "scattered", "goals", "names", "sums"] {
            for entry in ["check", "flatten", "check_flat", "write_proof"] {
                assert_eq!(largest(&format!("{entry}-{set}")).1.table.len(), 9 * 4_096);
            }
            assert_eq!(largest(&format!("check-{set}")).0.uses, 2_048);
            assert_eq!(largest(&format!("check_flat-{set}")).0.uses, 4_096);
            assert_eq!(largest(&format!("flatten-{set}")).0.length, 5 + 7 * 2_048 + 5);
            assert_eq!(largest(&format!("write_proof-{set}")).0.length, 5 + 8 * 2_047 + 6 - 3 + 5);
        }
        assert_eq!(largest("check-last").1.table.len(), 9 * 4_096 + 5 + 5 * 4_095 + 3);
        assert_eq!(largest("check-last").0.uses, 2_048);
        assert_eq!(largest("check_flat-last").0.uses, 2_048);
        assert_eq!(largest("write_proof-last").1.other.len(), 5 + 7 * 2_047 + 5);
    }
}
