//! P8's examples, every refusal with its place, every border on both sides, and
//! the order of the tests.

mod common;
use common::*;
use second::generate::build::*;
use second::generate::case::{Case, Entry, OUTPUT_FILL};
use second::generate::texts;

fn term_of(text: &str) -> Vec<u8> {
    let (answer, term) = read_text(text.as_bytes());
    assert_eq!(answer.number, 0, "{text}");
    term
}

fn text_of(term: &[u8]) -> String {
    String::from_utf8(write_text(term).1).unwrap()
}

fn refusal_of(text: &str) -> (u32, u32) {
    let answer = read_text(text.as_bytes()).0;
    assert_eq!(answer, refused(answer.number, 2, answer.place), "{text}");
    (answer.number, answer.place)
}

#[test]
fn every_mark_makes_its_field() {
    assert_eq!(term_of("a12"), atomic(12));
    assert_eq!(term_of("id"), id());
    assert_eq!(term_of("[3]id"), label(3, &id()));
    assert_eq!(term_of("a1 ; a2"), sequence(&atomic(1), &atomic(2)));
    assert_eq!(term_of("a1 | a2"), alternation(&atomic(1), &atomic(2)));
    assert_eq!(term_of("a1 * a2"), tensor(&atomic(1), &atomic(2)));
    assert_eq!(term_of("<>"), empty());
    assert_eq!(term_of("?30"), assert_goal(30));
    assert_eq!(term_of("T4"), defined(4));
    assert_eq!(term_of(" ( ( a1 ) ) "), atomic(1));
}

#[test]
fn signs_bind_and_group() {
    let [a, b, c] = [atomic(1), atomic(2), atomic(3)];
    assert_eq!(term_of("a1;a2;a3"), sequence(&a, &sequence(&b, &c)));
    assert_eq!(term_of("a1|a2|a3"), alternation(&a, &alternation(&b, &c)));
    assert_eq!(term_of("a1*a2*a3"), tensor(&a, &tensor(&b, &c)));
    assert_eq!(term_of("a1;a2|a3"), sequence(&a, &alternation(&b, &c)));
    assert_eq!(term_of("a1|a2;a3"), sequence(&alternation(&a, &b), &c));
    assert_eq!(term_of("a1|a2*a3"), alternation(&a, &tensor(&b, &c)));
    assert_eq!(term_of("a1*a2|a3"), alternation(&tensor(&a, &b), &c));
    assert_eq!(term_of("a1*a2;a3"), sequence(&tensor(&a, &b), &c));
    assert_eq!(term_of("(a1;a2)*a3"), tensor(&sequence(&a, &b), &c));
}

#[test]
fn a_label_reaches_as_far_as_its_bracket_allows() {
    let [a, b, c] = [atomic(1), atomic(2), atomic(3)];
    assert_eq!(term_of("a1 * [3]a2 ; a3"), tensor(&a, &label(3, &sequence(&b, &c))));
    assert_eq!(term_of("a1 * ([3]a2) ; a3"), sequence(&tensor(&a, &label(3, &b)), &c));
    assert_eq!(term_of("(a1 ; [3]a2) ; a3"), sequence(&sequence(&a, &label(3, &b)), &c));
    assert_eq!(term_of("[1][2]a1 ; a2"), label(1, &label(2, &sequence(&a, &b))));
}

/// Without its brackets document 01's tactic 3 would be another one.
#[test]
fn tactics_are_written_as_they_were_read() {
    for text in texts::TACTICS {
        assert_eq!(text_of(&term_of(text)), text);
    }
    let third = alternation(&sequence(&assert_goal(30), &defined(2)), &sequence(&defined(1), &defined(3)));
    assert_eq!(text_of(&third), "(?30 ; T2) | (T1 ; T3)");
    assert_ne!(term_of("?30 ; T2 | T1 ; T3"), third);
    assert_eq!(text_of(&term_of("([1]([2](a3))) ; (a4)")), "([1][2]a3) ; a4");
    assert_eq!(text_of(&term_of("[007]a000 | ?0030 * T0004")), "[7]a0 | ?30 * T4");
}

#[test]
fn bytes_outside_the_notation_are_36_at_their_place() {
    let cases = [
        ("", 0),
        ("   ", 3),
        ("(", 1),
        (")", 0),
        ("()", 1),
        ("(id", 3),
        ("id)", 2),
        ("id id", 3),
        ("id1", 2),
        ("i", 1),
        ("i d", 1),
        ("a", 1),
        ("a 1", 1),
        ("a1x", 2),
        ("A1", 0),
        ("a1 ; a2 x", 8),
        ("[ 1]id", 1),
        ("[1 ]id", 2),
        ("[]id", 1),
        ("[1]", 3),
        ("([1])", 4),
        ("< >", 1),
        ("<", 1),
        ("; id", 0),
        ("id ; ", 5),
        ("id ;; id", 4),
        ("id\t", 2),
        ("id\n", 2),
        ("id ⊗ id", 3),
        ("(a1)(a2)", 4),
        ("a1[2]a3", 2),
        ("T4 4", 3),
    ];
    for (text, place) in cases {
        assert_eq!(refusal_of(text), (36, place), "{text:?}");
    }
}

#[test]
fn a_value_over_65_535_is_37_at_its_first_digit() {
    for mark in ["a", "?", "T"] {
        term_of(&format!("{mark}65535"));
        term_of(&format!("{mark}{}65535", "0".repeat(1_000)));
        assert_eq!(refusal_of(&format!("id ; {mark}65536")), (37, 6));
        assert_eq!(refusal_of(&format!("{mark}0065536")), (37, 1));
        assert_eq!(refusal_of(&format!("{mark}18446744073709551617")), (37, 1));
    }
    term_of("[65535]id");
    for text in ["[65536]id", "a65536x", "[65536x", "[65536", "a65536", "a65536 ; a70000 ; x"] {
        assert_eq!(refusal_of(text), (37, 1), "{text}");
    }
    assert_eq!(refusal_of("x ; a65536"), (36, 0));
    assert_eq!(refusal_of("a1x ; a65536"), (36, 2));
}

/// What follows 4,096 fields when a term must begin, with number and offset.
#[test]
fn the_4_097th_mark_is_5_once_it_is_complete() {
    let cases = [
        ("a1", 5, 0),
        ("a1x", 5, 0),
        ("id", 5, 0),
        ("idx", 5, 0),
        ("<>", 5, 0),
        ("?1", 5, 0),
        ("T1", 5, 0),
        ("[1]", 5, 0),
        ("[1]x", 5, 0),
        ("  a1", 5, 2),
        ("((a1", 5, 2),
        ("a", 36, 1),
        ("ax", 36, 1),
        ("i", 36, 1),
        ("ix", 36, 1),
        ("<x", 36, 1),
        ("[1x", 36, 2),
        ("[1", 36, 2),
        ("a70000", 37, 1),
        ("a70000x", 37, 1),
        ("[70000x", 37, 1),
        (";", 36, 0),
        (")", 36, 0),
        ("", 36, 0),
        ("  ", 36, 2),
        ("x", 36, 0),
        ("(x", 36, 1),
    ];
    let full = "[1]".repeat(4_096);
    for (beginning, number, offset) in cases {
        assert_eq!(refusal_of(&(full.clone() + beginning)), (number, full.len() as u32 + offset), "{beginning}");
    }
}

#[test]
fn a_sign_can_be_the_4_097th_mark() {
    let full = format!("[1]{}id", "id;".repeat(2_047));
    assert_eq!(term_of(&full), label(1, &sequence_of(&vec![id(); 2_048])));
    term_of(&format!("({full}) "));
    for (going_on, number, offset) in [
        (";", 5, 0),
        ("|", 5, 0),
        (" * ", 5, 1),
        (";x", 5, 0),
        (";a70000", 5, 0),
        (")", 36, 0),
        ("a1", 36, 0),
        ("x", 36, 0),
    ] {
        assert_eq!(refusal_of(&(full.clone() + going_on)), (number, full.len() as u32 + offset), "{going_on}");
    }
    // Counted in the order of the text, six marks in each repetition: 4,097 is the
    // fifth of the last one, whatever the order of the fields in the file.
    assert_eq!(refusal_of(&("id;id*id|".repeat(683) + "id")), (5, 9 * 682 + 6));
}

#[test]
fn texts_of_65_535_bytes_are_read() {
    assert_eq!(term_of(&format!("{}id", " ".repeat(65_533))), id());
    assert_eq!(term_of(&format!("id{}", " ".repeat(65_533))), id());
    assert_eq!(term_of(&format!("a{}65535", "0".repeat(65_529))), atomic(65_535));
    assert_eq!(refusal_of(&format!("id{}", " ".repeat(65_534))), (1, 0));
    assert_eq!(refusal_of(&"x".repeat(65_536)), (1, 0));
    assert_eq!(refusal_of(&" ".repeat(65_535)), (36, 65_535));
    assert_eq!(refusal_of(&format!("a{}", "9".repeat(65_534))), (37, 1));
}

#[test]
fn brackets_and_labels_nest_as_deep_as_the_text_is_long() {
    let nested = |opening: usize, closing: usize| "(".repeat(opening) + "id" + &")".repeat(closing);
    assert_eq!(term_of(&nested(32_766, 32_766)), id());
    assert_eq!(refusal_of(&nested(32_766, 32_765)), (36, 65_533));
    assert_eq!(refusal_of(&nested(32_766, 32_767)), (36, 65_534));
    assert_eq!(refusal_of(&nested(32_767, 32_767)), (1, 0));
    let labels = format!("{}id", "[1]".repeat(4_095));
    assert_eq!(text_of(&term_of(&labels)), labels);
    let left = "(".repeat(2_046) + "id" + &" * id)".repeat(2_046) + " * id";
    assert_eq!(text_of(&term_of(&left)), left);
}

#[test]
fn the_longest_text_has_28_671_bytes() {
    let term = (0..4_095).fold(atomic(65_535), |inner, _| label(65_535, &inner));
    assert_eq!(term.len(), 20_480);
    let (answer, text) = write_text(&term);
    assert_eq!((answer.number, answer.length, text.len()), (0, 28_671, 28_671));
    assert_eq!(read_text(&text).1, term);
}

#[test]
fn term_files_are_read_like_a_jobs_term() {
    let full = labels_around(4_095, &id());
    let cases: [(Vec<u8>, (u32, u32)); 12] = [
        (vec![], (2, 0)),
        (vec![17, 0], (2, 0)),
        (vec![16, 0, 2, 0], (2, 0)),
        (goal_list(&[]), (3, 0)),
        (vec![25, 0, 0], (3, 0)),
        (sequence(&id(), &goal_list(&[])), (3, 6)),
        (vec![17, 0, 1, 0], (4, 0)),
        ([id(), vec![9]].concat(), (4, 3)),
        ([id(), id()].concat(), (4, 3)),
        (labels_around(4_096, &id()), (5, 5 * 4_096)),
        ([&full[..], &[17, 0, 0]].concat(), (4, full.len() as u32)),
        (vec![17; 65_536], (1, 0)),
    ];
    assert_eq!(write_text(&full).0.number, 0);
    for (term, (number, place)) in cases {
        assert_eq!(write_text(&term).0, refused(number, 2, place));
    }
}

/// 29, then 1, then 36, 37 and 5, then 26; and every byte lent.
#[test]
fn refusals_come_in_order() {
    for (entry, good, wrong, number) in
        [(Entry::ReadText, b"id".to_vec(), b"idx".to_vec(), 36), (Entry::WriteText, id(), vec![25, 0, 0], 3)]
    {
        let size = entry.work_size();
        let call = |other: &[u8], work: usize, output: usize| {
            let outcome = Case::new(entry, &[], other).with_work(work).with_output(output).outcome();
            assert!(outcome.work_space_as_promised);
            let written = outcome.answer.length as usize;
            assert!(outcome.output[written..].iter().all(|&byte| byte == OUTPUT_FILL));
            outcome.answer.number
        };
        let too_long = [b'x'; 65_536];
        assert_eq!(call(&too_long, size - 1, 0), 29);
        assert_eq!(call(&too_long, size, 0), 1);
        assert_eq!(call(&wrong, size - 1, 9), 29);
        assert_eq!(call(&wrong, size, 0), number);
        assert_eq!(call(&good, size, 1), 26);
        assert_eq!(call(&good, size, 3), 0);
        assert_eq!(call(&good, size + 1, 9), 0);
    }
}
