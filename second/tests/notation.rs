//! P8's reader and writer against the grammar of the notation, and their laws.

mod common;
mod plain;
use common::*;
use plain::notation::{self, all_readings, is_viable, pairs, without_pair};
use second::generate::build;
use second::generate::random::Random;
use second::generate::random_table::Size;
use second::generate::random_text::{random_term, random_text};
use second::generate::texts;

/// What the reader should answer, with the plain definition's place and term.
fn compare_reading(text: &[u8]) {
    let (answer, term) = read_text(text);
    let words = String::from_utf8_lossy(text);
    match notation::read(text) {
        Ok(expected) => assert_eq!((answer.number, term), (0, expected), "{words}"),
        Err((number, place)) => assert_eq!(answer, refused(number, 2, place as u32), "{words}"),
    }
}

/// Compares all texts of up to `longest` bytes over an alphabet. A text that does
/// not begin any text of the notation is not made longer: all that follows is
/// refused at the same place.
fn compare_all_texts(alphabet: &[u8], longest: usize) -> usize {
    let mut compared = 0;
    let mut texts: Vec<Vec<u8>> = vec![Vec::new()];
    while let Some(text) = texts.pop() {
        compare_reading(&text);
        compared += 1;
        if text.len() < longest && is_viable(&text) {
            texts.extend(alphabet.iter().map(|&byte| [&text[..], &[byte]].concat()));
        }
    }
    compared
}

#[test]
fn all_short_texts_are_read_by_the_grammar() {
    assert!(compare_all_texts(b"aidT?<>[]();|*09 x\n", 5) > 10_000);
    assert!(compare_all_texts(b"a1[]();* ", 7) > 5_000);
}

/// All lists of marks, one after the other without blanks.
#[test]
fn all_short_lists_of_marks_are_read_by_the_grammar() {
    const MARKS: [&str; 7] = ["a1", "[2]", "(", ")", ";", "|", "*"];
    let mut lists: Vec<String> = vec![String::new()];
    let mut right = 0;
    for _ in 0..8 {
        let longer = lists.iter().flat_map(|list| MARKS.iter().map(move |mark| format!("{list}{mark}")));
        lists = longer.filter(|list| is_viable(list.as_bytes())).collect();
        for list in &lists {
            compare_reading(list.as_bytes());
            right += usize::from(read_text(list.as_bytes()).0.number == 0);
        }
    }
    assert!(right > 900, "only {right} right");
}

/// On random texts the place of 36 is tested by the two beginnings around it.
#[test]
fn random_texts_are_read_by_the_grammar() {
    let mut random = Random::new(601);
    let mut right = 0;
    for _ in 0..2_000 {
        let text = random_text(&mut random, Size::Small);
        let (answer, term) = read_text(&text);
        let place = answer.place as usize;
        let words = String::from_utf8_lossy(&text);
        let large = notation::large_numbers(&text).into_iter().find(|number| is_viable(&text[..=number.1]));
        match answer.number {
            0 => {
                right += 1;
                assert!(large.is_none(), "{words}");
                assert_eq!(all_readings(&text), [term], "{words}");
            }
            37 => assert_eq!(large.map(|number| number.0), Some(place), "{words}"),
            36 => {
                assert!(large.is_none_or(|number| number.1 > place), "{words}");
                assert!(is_viable(&text[..place]), "{words}");
                let stops = text.get(..=place).map_or(all_readings(&text).is_empty(), |more| !is_viable(more));
                assert!(stops, "{words}");
            }
            number => panic!("{number} for {words}"),
        }
    }
    assert!(right > 900, "only {right} right");
}

/// Every term of that many fields with one sort of leaf.
fn terms_of(fields: usize) -> Vec<Vec<u8>> {
    let mut by_count: Vec<Vec<Vec<u8>>> = vec![Vec::new(), vec![build::atomic(1)]];
    for count in 2..=fields {
        let mut terms: Vec<Vec<u8>> = by_count[count - 1].iter().map(|inner| build::label(2, inner)).collect();
        for left_count in 1..count - 1 {
            for left in &by_count[left_count] {
                for right in &by_count[count - 1 - left_count] {
                    let joined = [build::sequence, build::tensor, build::alternation].map(|join| join(left, right));
                    terms.extend(joined);
                }
            }
        }
        by_count.push(terms);
    }
    by_count.swap_remove(fields)
}

#[test]
fn brackets_stand_where_the_definition_leaves_them() {
    for fields in 1..=6 {
        for term in terms_of(fields) {
            let (answer, text) = write_text(&term);
            assert_eq!(answer.number, 0);
            assert_eq!(String::from_utf8(text), String::from_utf8(notation::write(&term)));
        }
    }
    let mut random = Random::new(602);
    for _ in 0..200 {
        let fields = 1 + random.below(14);
        let term = random_term(&mut random, fields);
        assert_eq!(write_text(&term).1, notation::write(&term));
    }
}

/// "Text written from a term reads as that term"; every pair of brackets is
/// needed; one blank each side of a sign and none elsewhere.
fn hold_laws(term: &[u8], with_brackets: bool) {
    let (answer, text) = write_text(term);
    assert_eq!(answer.number, 0);
    assert_eq!(read_text(&text), (second::Answer { length: term.len() as u32, ..Default::default() }, term.to_vec()));
    for pair in pairs(&text).into_iter().filter(|_| with_brackets) {
        let (answer, other) = read_text(&without_pair(&text, pair));
        assert!(answer.number == 36 || (answer.number == 0 && other != term));
    }
    let is_sign = |at: usize| b";|*".contains(&text[at]);
    for (at, byte) in text.iter().enumerate() {
        if is_sign(at) {
            assert_eq!((text[at - 1], text[at + 1]), (b' ', b' '));
        }
        assert!(*byte != b' ' || is_sign(at - 1) != is_sign(at + 1));
    }
}

#[test]
fn laws_hold_on_all_small_terms() {
    for fields in 1..=7 {
        for term in terms_of(fields) {
            hold_laws(&term, true);
        }
    }
}

#[test]
fn laws_hold_on_random_terms() {
    let mut random = Random::new(603);
    for _ in 0..500 {
        let fields = 1 + random.below(80);
        hold_laws(&random_term(&mut random, fields), true);
    }
    for fields in [1_000, 4_095, 4_096] {
        hold_laws(&random_term(&mut random, fields), false);
    }
}

#[test]
fn laws_hold_at_the_limits() {
    for term in texts::limit_terms().into_iter().filter(|term| write_text(term).0.number == 0) {
        hold_laws(&term, false);
    }
}
