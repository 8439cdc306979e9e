//! Generated cases of all kinds. Seed and number determine a case, so any one of
//! a million can be made again by itself.

use second::generate::case::{Case, Entry};
use second::generate::damage::damage;
use second::generate::random::Random;
use second::generate::random_longer::with_long_run;
use second::generate::random_rules::with_many_uses;
use second::generate::random_table::{RandomTable, Size};
use second::generate::random_text::damage_text;
use second::generate::{other_file, vary_lent_spaces, vector_set};

/// How a case came about.
#[derive(Clone, Copy, PartialEq, Eq, Debug)]
pub enum Kind {
    /// Files that fit each other, but for mistakes that the maker of random
    /// files makes on purpose. Of the calls that count rules one in ten uses some
    /// of them again and again, and of those that run a job one in five has a long run.
    Fitting,
    /// The same with thousands of fields.
    Large,
    /// One to three pieces of damage in one of the files.
    Mutated,
    /// A file cut short, a piece cut out, two halves of different files, or
    /// nothing left: zero bytes are a good table and proof, and no other file.
    Torn,
    /// A table of another maker, or one that is nearly the right one; files of
    /// the wrong kind.
    Foreign,
    /// A table with one to three faults for 6 to 9; not of an entry that takes
    /// no table.
    FaultyTable,
    /// A file of the fixed vectors that is near a limit.
    AtALimit,
    /// Any other case of the fixed vectors, lent other spaces.
    Known,
}

impl Kind {
    pub const ALL: [Kind; 8] = [
        Kind::Fitting,
        Kind::Large,
        Kind::Mutated,
        Kind::Torn,
        Kind::Foreign,
        Kind::FaultyTable,
        Kind::AtALimit,
        Kind::Known,
    ];

    pub fn name(self) -> &'static str {
        match self {
            Kind::Fitting => "fitting",
            Kind::Large => "large",
            Kind::Mutated => "mutated",
            Kind::Torn => "torn",
            Kind::Foreign => "foreign",
            Kind::FaultyTable => "faulty table",
            Kind::AtALimit => "at a limit",
            Kind::Known => "known",
        }
    }

    /// Large files cost a hundred times what small ones do, so they are few.
    /// Without a table the share of faulty ones goes to damage.
    fn at_random(random: &mut Random, entry: Entry) -> Kind {
        match random.below(100) {
            0..=39 => Kind::Fitting,
            40..=42 => Kind::Large,
            43..=62 => Kind::Mutated,
            63..=74 => Kind::Torn,
            75..=84 => Kind::Foreign,
            85..=89 if !entry.takes_table() => Kind::Mutated,
            85..=89 => Kind::FaultyTable,
            90..=93 => Kind::AtALimit,
            _ => Kind::Known,
        }
    }
}

/// A file with more bytes than this makes a fixed case one at a limit.
const NEAR_A_LIMIT: usize = 3_000;

/// The maker of cases. It holds the fixed vectors, which take a while to make.
pub struct Mix {
    seed: u64,
    at_limits: Vec<Case>,
    known: Vec<Case>,
}

impl Mix {
    pub fn new(seed: u64) -> Mix {
        let all = vector_set().into_iter().flat_map(|(_, cases)| cases);
        let (at_limits, known) =
            all.partition(|case| case.table.len() > NEAR_A_LIMIT || case.other.len() > NEAR_A_LIMIT);
        Mix { seed, at_limits, known }
    }

    /// The case of that number.
    pub fn case(&self, number: u64) -> (Kind, Case) {
        let random = &mut Random::new(self.seed.wrapping_mul(0xD134_2543_DE82_EF95).wrapping_add(number));
        let entry = *random.pick(&Entry::ALL);
        let kind = Kind::at_random(random, entry);
        let case = match kind {
            Kind::Fitting => fitting(entry, Size::Small, random).1,
            Kind::Large => fitting(entry, Size::Large, random).1,
            Kind::Mutated => mutated(entry, random),
            Kind::Torn => torn(entry, random),
            Kind::Foreign if !entry.takes_table() => foreign_file(entry, random),
            Kind::Foreign => foreign(entry, random),
            Kind::FaultyTable => faulty_table(entry, random),
            Kind::AtALimit => random.pick(&self.at_limits).clone(),
            Kind::Known => random.pick(&self.known).clone(),
        };
        let case = vary_lent_spaces(random, case);
        let case = around_three_bytes(random, case);
        let case = if kind == Kind::Fitting { with_many_uses(random, case) } else { case };
        let case = if kind == Kind::Fitting { with_long_run(random, case) } else { case };
        (kind, case)
    }
}

/// A proof of no bytes has a flat form of three, by which the fixed vectors do not
/// measure what they lend: here the output space is longer or shorter than that.
fn around_three_bytes(random: &mut Random, case: Case) -> Case {
    if case.entry != Entry::Flatten || !case.other.is_empty() {
        return case;
    }
    let length = random.below(6);
    case.with_output(length)
}

/// A table and a case over it; the case has none of it if the entry takes none.
fn fitting(entry: Entry, size: Size, random: &mut Random) -> (RandomTable, Case) {
    let table = RandomTable::make(random, size);
    let other = other_file(entry, random, &table);
    let bytes = if entry.takes_table() { table.bytes() } else { Vec::new() };
    let case = bare_case(entry, bytes, other);
    (table, case)
}

/// A case whose spaces are still to be lent; `Case::new` would run it first.
fn bare_case(entry: Entry, table: Vec<u8>, other: Vec<u8>) -> Case {
    Case::bare(entry, table, other)
}

/// Whether it is the table that is to be spoilt: the other file twice as often as
/// the table, and always where no table is taken.
fn spoils_table(entry: Entry, random: &mut Random) -> bool {
    entry.takes_table() && random.chance(33)
}

fn mutated(entry: Entry, random: &mut Random) -> Case {
    let (_, mut case) = fitting(entry, Size::Small, random);
    let times = *random.pick(&[1, 1, 1, 2, 3]);
    let mut made = Random::new(random.number());
    let file = if spoils_table(entry, random) { &mut case.table } else { &mut case.other };
    for _ in 0..times {
        *file = if entry == Entry::ReadText { damage_text(&mut made, file) } else { damage(&mut made, file) };
    }
    case
}

fn torn(entry: Entry, random: &mut Random) -> Case {
    let (_, mut case) = fitting(entry, Size::Small, random);
    let (_, another) = fitting(entry, Size::Small, random);
    let way = random.below(13);
    let (first, second) = (random.number() as usize, random.number() as usize);
    let of_table = spoils_table(entry, random);
    let (file, stranger) = if of_table { (&mut case.table, another.table) } else { (&mut case.other, another.other) };
    // A cut may fall before the first byte and behind the last.
    let cut = first % (file.len() + 1);
    match way {
        0..=2 => file.truncate(cut),
        3..=5 => drop(file.drain(..cut)),
        6..=8 => drop(file.drain(cut..cut + second % (file.len() - cut + 1))),
        9..=11 => {
            file.truncate(cut);
            file.extend(&stranger[second % (stranger.len() + 1)..]);
        }
        _ => file.clear(),
    }
    case
}

fn foreign(entry: Entry, random: &mut Random) -> Case {
    let (mut table, mut case) = fitting(entry, Size::Small, random);
    let stranger = RandomTable::make(random, Size::Small);
    match random.below(7) {
        0 => case.table = stranger.bytes(),
        1 => case.table = std::mem::take(&mut case.other),
        2 => case.other = case.table.clone(),
        3 => case.other = file_of_any_kind(random, &table),
        4 => case.other = bytes_of_no_file(random),
        _ => {
            nearly_the_right_one(random, &mut table);
            case.table = table.bytes();
        }
    }
    case
}

/// For an entry that takes no table.
fn foreign_file(entry: Entry, random: &mut Random) -> Case {
    let table = RandomTable::make(random, Size::Small);
    let other = match random.below(4) {
        0 => table.bytes(),
        1 => bytes_of_no_file(random),
        _ => file_of_any_kind(random, &table),
    };
    bare_case(entry, Vec::new(), other)
}

fn file_of_any_kind(random: &mut Random, table: &RandomTable) -> Vec<u8> {
    let kind_of_file = *random.pick(&Entry::ALL);
    other_file(kind_of_file, random, table)
}

fn bytes_of_no_file(random: &mut Random) -> Vec<u8> {
    (0..random.below(40)).map(|_| random.byte() % 36).collect()
}

/// The table of another release: one rule is missing, or has other premises or
/// another order of them, or one definition is missing.
fn nearly_the_right_one(random: &mut Random, table: &mut RandomTable) {
    let at = random.below(table.rules.len());
    match random.below(4) {
        0 if !table.rules.is_empty() => drop(table.rules.remove(at)),
        1 if !table.rules.is_empty() => table.rules[at].premises.reverse(),
        2 if !table.rules.is_empty() => {
            let goal = *random.pick(&table.goals);
            if let Some(premise) = table.rules[at].premises.first_mut() {
                *premise = goal;
            }
        }
        _ => {
            let last = random.below(table.definitions.len() + 1);
            table.definitions.truncate(last);
        }
    }
}

fn faulty_table(entry: Entry, random: &mut Random) -> Case {
    let (mut table, mut case) = fitting(entry, Size::Small, random);
    for _ in 0..1 + random.below(3) {
        table.add_fault(random);
    }
    case.table = table.bytes();
    case
}

#[cfg(test)]
mod tests {
    use super::*;
    use second::Answer;
    use std::collections::BTreeSet;

    #[test]
    fn seed_and_number_determine_a_case() {
        let (first, second) = (Mix::new(7), Mix::new(7));
        for number in 0..200 {
            assert_eq!(first.case(number), second.case(number));
        }
        assert!((0..200).any(|number| first.case(number) != Mix::new(8).case(number)));
    }

    #[test]
    fn every_kind_and_every_entry_comes() {
        let mix = Mix::new(1);
        let cases: Vec<(Kind, Case)> = (0..6_000).map(|number| mix.case(number)).collect();
        for kind in Kind::ALL {
            for entry in Entry::ALL {
                let comes = cases.iter().any(|(its, case)| *its == kind && case.entry == entry);
                assert_eq!(comes, kind != Kind::FaultyTable || entry.takes_table(), "{kind:?} {entry:?}");
            }
        }
    }

    #[test]
    fn what_takes_no_table_is_given_none() {
        let mix = Mix::new(2);
        let cases = (0..1_000).map(|number| mix.case(number).1);
        assert!(cases.into_iter().all(|case| case.entry.takes_table() || case.table.is_empty()));
    }

    /// Damage of a text leaves most of it in the notation, so that 36, 37 and 5
    /// come at many places.
    #[test]
    fn every_refusal_of_a_text_comes_at_several_places() {
        let mix = Mix::new(3);
        let cases = (0..16_000).map(|number| mix.case(number).1).filter(|case| case.entry == Entry::ReadText);
        let answers: Vec<_> = cases.map(|case| case.outcome().answer).collect();
        for number in [5, 36, 37] {
            let places: BTreeSet<u32> =
                answers.iter().filter(|answer| answer.number == number).map(|answer| answer.place).collect();
            assert!(places.len() > 4, "{number} at {places:?}");
        }
    }

    /// Mistakes that are made on purpose, damage and foreign tables bring every reason for which a hiproof does not validate.
    #[test]
    fn every_reason_of_a_refused_proof_comes_at_several_places() {
        let mix = Mix::new(5);
        let takes_proof = |case: &Case| [Entry::Check, Entry::Flatten].contains(&case.entry);
        let cases = (0..12_000).map(|number| mix.case(number).1).filter(takes_proof);
        let answers: Vec<_> = cases.map(|case| case.outcome().answer).collect();
        for number in [20, 34, 35] {
            let places: BTreeSet<u32> =
                answers.iter().filter(|answer| answer.number == number).map(|answer| answer.place).collect();
            assert!(places.len() > 4, "{number} at {places:?}");
        }
    }

    /// Rules that are used again, and many different ones, come for both entries that count them; every other answer counts none.
    #[test]
    fn rules_are_used_again() {
        let mix = Mix::new(7);
        let cases = (0..12_000).map(|number| mix.case(number).1);
        let answers: Vec<_> = cases.map(|case| (case.entry, case.outcome().answer)).collect();
        for entry in Entry::ALL {
            let count = |holds: fn(&Answer) -> bool| {
                answers.iter().filter(|(its, answer)| *its == entry && holds(answer)).count()
            };
            let again = count(|answer| answer.rules > 0 && answer.rules < answer.uses);
            let (some, many) = (count(|answer| answer.rules > 8), count(|answer| answer.rules > 100));
            let counts_rules = [Entry::Check, Entry::CheckFlat].contains(&entry);
            let enough = again > 99 && some > 19 && many > 3;
            assert!(enough || !counts_rules, "{entry:?}: {again}, {some}, {many}");
            assert!(counts_rules || count(|answer| answer.rules > 0) == 0, "{entry:?}");
        }
    }

    /// Zero bytes come in the place of every file: a good proof, and no other file beside a table or alone.
    #[test]
    fn files_of_no_bytes_come_for_every_entry() {
        let mix = Mix::new(6);
        let cases = (0..24_000).map(|number| mix.case(number).1);
        let files: Vec<Case> = cases.filter(|case| case.other.is_empty()).collect();
        for entry in Entry::ALL {
            let of_entry = files.iter().filter(|case| case.entry == entry).map(|case| case.outcome().answer);
            // What is refused before the file is looked at does not count.
            let read = of_entry.filter(|answer| answer.file != 1 && ![25, 29, 42].contains(&answer.number));
            let numbers: BTreeSet<u32> = read.map(|answer| answer.number).collect();
            let expected: &[u32] = match entry {
                Entry::Check => &[0],
                Entry::Flatten => &[0, 26],
                Entry::ReadText => &[36],
                _ => &[2],
            };
            assert_eq!(numbers, expected.iter().copied().collect(), "{entry:?}");
        }
    }

    /// Runs halt at any step and are taken up from states that are theirs and from forged ones, so that every ending comes often.
    #[test]
    fn every_ending_of_a_run_that_may_halt_comes() {
        let mix = Mix::new(8);
        let cases: Vec<Case> = (0..16_000).map(|number| mix.case(number).1).collect();
        for entry in Entry::THAT_HALT {
            let of_entry = cases.iter().filter(|case| case.entry == entry);
            let answers: Vec<_> = of_entry.map(|case| case.outcome().answer).collect();
            for number in [0, 23, 24, 25, 26, 29, 30, 40] {
                let count = answers.iter().filter(|answer| answer.number == number).count();
                let never = number == 30 && entry == Entry::RunHalting;
                assert!(if never { count == 0 } else { count > 9 }, "{entry:?}, {number}: {count}");
            }
        }
    }

    /// Runs go past 4,096 steps, and end there in every way.
    #[test]
    fn long_runs_come_for_every_entry_that_runs() {
        let mix = Mix::new(9);
        let cases: Vec<Case> = (0..16_000).map(|number| mix.case(number).1).collect();
        for entry in [Entry::Run, Entry::RunHalting, Entry::Resume] {
            let answers: Vec<Answer> =
                cases.iter().filter(|case| case.entry == entry).map(|case| case.outcome().answer).collect();
            for number in [0, 23, 24, 40] {
                let count = answers.iter().filter(|answer| answer.number == number && answer.steps > 4_096).count();
                assert!(count > 0, "{entry:?}, {number}: {count}");
            }
        }
    }

    /// Heights and budgets are near the borders where the answer changes, so that every ending comes often.
    #[test]
    fn every_ending_of_a_search_comes() {
        let mix = Mix::new(4);
        let cases = (0..6_000).map(|number| mix.case(number).1).filter(|case| case.entry == Entry::Search);
        let answers: Vec<_> = cases.map(|case| case.outcome().answer).collect();
        for number in [0, 24, 25, 26, 29, 41, 42] {
            let count = answers.iter().filter(|answer| answer.number == number).count();
            assert!(count > 9, "{number}: {count}");
        }
    }
}
