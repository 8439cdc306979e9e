//! Texts of the notation of P8 and texts that are none; terms and texts at every
//! limit and one beyond.

use super::build::*;

/// A field of two inner terms.
type Join = fn(&[u8], &[u8]) -> Vec<u8>;

/// The tactics of document 01 and of the paper's examples, and the texts that the
/// readings of P8 name.
pub const TACTICS: [&str; 24] = [
    "[1]a1 ; a2 * id",
    "[2]a3",
    "(?30 ; T2) | (T1 ; T3)",
    "?30 ; T2 | T1 ; T3",
    "id * T4 | <>",
    "([1]a1 ; a2 * id) ; id ; [2]a3",
    "a1 ; a2 * a3",
    "id | a2 ; <>",
    "T5 * T6",
    "id * id",
    "(id * id) * id",
    "[1]<>",
    "[4][5]<>",
    "a2 ; a2 ; a3 ; (a4 ; a2 ; a4 ; a1) * a1",
    "a4 ; id * a1",
    "a4 ; (a4 ; a1 * id) * id",
    "(a2 ; T2) | T1",
    "a1 * [3]a2 ; a3",
    "a1 * ([3]a2) ; a3",
    "([1]id) * [2]id | <>",
    "([1][2]id) ; id",
    "(a1 ; [3]a2) ; a3",
    "?65535 | a65535 * T65535 ; [65535]?0",
    "[0]a0",
];

/// Texts that the writer would not write: other blanks, other brackets, leading
/// zeros, every pair of signs without brackets.
pub const LOOSE_TEXTS: [&str; 27] = [
    "id",
    "  id  ",
    "(id)",
    "((((id))))",
    "(id | a2) ; <>",
    " ( ( id ) ) ",
    "a1;a2;a3",
    "(a1;a2);a3",
    "a1;(a2;a3)",
    "a1|a2|a3",
    "a1*a2*a3",
    "a1;a2|a3",
    "a1;a2*a3",
    "a1|a2;a3",
    "a1|a2*a3",
    "a1*a2;a3",
    "a1*a2|a3",
    "a1*a2|a3*a4;a5|a6*a7;a8",
    "a1;a2*a3|a4;a5*a6|a7*a8",
    "[1][2]a3;a4",
    "[1] [2]  a3 ; a4",
    "([1]([2](a3))) ; (a4)",
    "a1*[2]a3|a4;a5",
    "a1|[2](a3*[4]a5)|a6",
    "[007]a000 | ?0030 * T0004",
    "a00000000000000000000000000000000000065535",
    "(a1 ; (a2 | (a3 * ([4](a5)))))",
];

/// Texts that are refused with 36 or 37, or that end early.
pub const REFUSED_TEXTS: [&str; 88] = [
    "",
    " ",
    "   ",
    "(",
    ")",
    "()",
    "(id",
    "id)",
    "(id))",
    "((id)",
    "id id",
    "idid",
    "id1",
    "i",
    "i d",
    "iD",
    "Id",
    "d",
    "a",
    "a ",
    "a 1",
    "ax",
    "a1x",
    "a1 x",
    "a1 1",
    "a-1",
    "a+1",
    "a1.0",
    "A1",
    "a1a2",
    "a1(a2)",
    "(a1)(a2)",
    "a1[2]",
    "[",
    "[]",
    "[x]",
    "[ 1]",
    "[1 ]",
    "[1",
    "[1x",
    "[1]",
    "[1] ",
    "[1];",
    "[1])",
    "([1])",
    "[1]]",
    "[1][2]",
    "[a1]",
    "<",
    "< >",
    "<<",
    "<>>",
    ">",
    "?",
    "?a",
    "? 30",
    "??30",
    "T",
    "Tx",
    "t4",
    "T 4",
    ";",
    "| id",
    "id ;",
    "id ; ",
    "id ;; id",
    "id | * id",
    "id * )",
    "(id ;)",
    "id\t",
    "\tid",
    "id\n",
    "id;\u{a0}id",
    "id ⊗ id",
    "1",
    "a65536",
    "a65536x",
    "?65536",
    "T99999",
    "[65536]id",
    "[65536x",
    "[65536",
    "a0065536",
    "a65536 ; x",
    "x ; a65536",
    "id ; a4294967296",
    "a18446744073709551616",
    "a1 ; a65536 ; a70000",
];

/// A text with every mark, every pair of signs and a number of two digits.
pub const EVERY_MARK: &str = "([1]a12 ; ?30 * id) | <> * T4";

/// `count` labels in front of a text.
fn labels(count: usize, text: &str) -> String {
    "[1]".repeat(count) + text
}

/// `id` so many times, with `;` between.
fn chain(count: usize) -> String {
    "id;".repeat(count - 1) + "id"
}

/// What may come when 4,096 term fields have been and a term must begin: each kind
/// of mark, marks that are not complete, and marks that may not stand there.
const BEGINNINGS: [&str; 34] = [
    "a1", "a1x", "a", "ax", "a1;", "a70000", "a70000x", "id", "idx", "i", "ix", "[1]", "[1]x", "[1x", "[1", "[",
    "[70000x", "[70000]", "<>", "<", "<x", "?1", "?70000", "?", "T1", "Tx", "(a1)", "((", "( id", ")", ";", " ", "",
    "x",
];

/// What may come when 4,096 term fields have been and a term has ended.
const GOINGS_ON: [&str; 12] = ["", "  ", ";", " | ", "*", ";x", ";a70000", ")", "a1", "x", "(", "a70000"];

/// Texts at the limits on term fields, bytes, brackets and values.
pub fn limit_texts() -> Vec<Vec<u8>> {
    let mut texts: Vec<String> = BEGINNINGS.iter().map(|beginning| labels(4_096, beginning)).collect();
    texts.extend(GOINGS_ON.iter().map(|going_on| labels(1, &chain(2_048)) + going_on));
    texts.extend([
        labels(4_095, "id"),
        "[65535]".repeat(4_095) + "a65535",
        chain(2_048),
        chain(2_049),
        "(".repeat(2_047) + "id" + &";id)".repeat(2_047),
        "id|(".repeat(2_047) + "id" + &")".repeat(2_047),
        "([1]id)*".repeat(1_365) + "id",
        "id*id|id;".repeat(682) + "id",
        // The signs' order in the text is not that of the fields in the file.
        "id;id*id|".repeat(683) + "id",
    ]);
    texts.extend(long_texts());
    texts.into_iter().map(String::into_bytes).collect()
}

/// Texts of 65,535 and 65,536 bytes.
fn long_texts() -> Vec<String> {
    let brackets = |opening: usize, closing: usize| "(".repeat(opening) + "id" + &")".repeat(closing);
    vec![
        " ".repeat(65_533) + "id",
        " ".repeat(65_534) + "id",
        "id".to_string() + &" ".repeat(65_533),
        "id".to_string() + &" ".repeat(65_534),
        " ".repeat(65_535),
        " ".repeat(65_536),
        "x".repeat(65_536),
        brackets(32_766, 32_766),
        brackets(32_766, 32_766) + " ",
        brackets(32_766, 32_767),
        brackets(32_767, 32_766),
        brackets(32_767, 32_767),
        "(".repeat(65_535),
        "a".to_string() + &"0".repeat(65_529) + "65535",
        "a".to_string() + &"0".repeat(65_529) + "65536",
        "a".to_string() + &"0".repeat(65_530) + "65535",
        "a".to_string() + &"9".repeat(65_534),
        "[".to_string() + &"0".repeat(65_534),
    ]
}

/// Every truncation of a text, strange bytes in the place of each and before each.
pub fn systematic_text_damage(text: &str) -> Vec<Vec<u8>> {
    let bytes = text.as_bytes();
    let mut texts: Vec<Vec<u8>> = (0..bytes.len()).map(|length| bytes[..length].to_vec()).collect();
    for place in 0..bytes.len() {
        for stranger in b" 9;)([ax" {
            let mut changed = bytes.to_vec();
            changed[place] = *stranger;
            texts.push(changed);
        }
        let with_blank = [&bytes[..place], b" ", &bytes[place..]].concat();
        let without = [&bytes[..place], &bytes[place + 1..]].concat();
        texts.extend([with_blank, without]);
    }
    texts
}

/// A small term with every sort of field.
pub fn term_with_every_field() -> Vec<u8> {
    let left = sequence(&label(7, &atomic(1)), &tensor(&assert_goal(2), &id()));
    alternation(&left, &tensor(&defined(2), &empty()))
}

/// Every term of one sign or label in each place of another.
pub fn terms_two_deep() -> Vec<Vec<u8>> {
    let joins: [Join; 3] = [sequence, alternation, tensor];
    let mut inner: Vec<Vec<u8>> = joins.iter().map(|join| join(&atomic(1), &atomic(2))).collect();
    inner.push(label(3, &atomic(1)));
    inner.extend(joins.iter().map(|join| join(&atomic(1), &label(3, &atomic(2)))));
    let mut terms: Vec<Vec<u8>> = inner.iter().map(|term| label(4, term)).collect();
    for join in joins {
        terms.extend(inner.iter().map(|term| join(term, &id())));
        terms.extend(inner.iter().map(|term| join(&id(), term)));
        terms.extend(inner.iter().map(|term| join(&join(&id(), term), &empty())));
    }
    terms
}

/// Term files near the limits.
pub fn limit_terms() -> Vec<Vec<u8>> {
    let ids = |count: usize| vec![id(); count];
    let largest_labels = (0..4_095).fold(atomic(65_535), |inner, _| label(65_535, &inner));
    let left_leaning = |count: usize, join: Join| (1..count).fold(id(), |left, _| join(&left, &id()));
    let full = labels_around(4_095, &id());
    vec![
        labels_around(4_096, &id()),
        // The longest text: 28,671 bytes; the longest term file: 20,480.
        largest_labels,
        sequence_of(&ids(2_048)),
        sequence_of(&ids(2_049)),
        label(1, &sequence_of(&ids(2_048))),
        tensor_of(&vec![empty(); 2_048]),
        left_leaning(2_048, tensor),
        left_leaning(2_048, alternation),
        left_leaning(2_049, sequence),
        left_leaning(1_365, |left, right| tensor(&label(1, left), right)),
        [&full[..], &[0]].concat(),
        [&full[..], &[17, 0, 0]].concat(),
        full,
        vec![0; 65_536],
        vec![17; 65_536],
        vec![255; 65_535],
        vec![19; 65_535],
        field(19, &[0; 65_532]),
    ]
}

/// Term files for each refusal from 1 to 5, each fault also with a later one that
/// must not win.
pub fn refused_terms() -> Vec<Vec<u8>> {
    vec![
        vec![],
        vec![17],
        vec![17, 0],
        vec![17, 0, 1],
        vec![17, 0, 1, 0],
        vec![16, 0, 1, 0],
        vec![16, 0, 2, 0],
        vec![16, 0, 3, 0, 1, 2],
        vec![15, 0, 0],
        vec![25, 0, 0],
        vec![3, 0, 0],
        vec![1, 0, 4, 0, 1, 0, 1],
        vec![32, 0, 4, 0, 1, 0, 1],
        goal_list(&[1]),
        job(&[1], &id()),
        field(18, &[]),
        field(18, &[1]),
        field(18, &[0, 1]),
        field(18, &[0, 1, 17, 0]),
        field(19, &[]),
        field(19, &id()),
        field(19, &[id(), vec![17, 0]].concat()),
        field(19, &[id(), id(), id()].concat()),
        field(20, &[id(), id(), vec![0]].concat()),
        field(18, &[vec![0, 1], id(), vec![0]].concat()),
        [sequence(&id(), &id()), vec![0]].concat(),
        [id(), id()].concat(),
        [id(), vec![1]].concat(),
        [id(), vec![1, 2, 3]].concat(),
        sequence(&id(), &goal_list(&[])),
    ]
}
