//! Random terms and random texts of the notation of P8, fitting and damaged.

use super::build;
use super::damage::damage;
use super::random::Random;
use super::random_table::Size;
use crate::engine;

/// The bytes that marks are made of, and some that belong to no mark.
const BYTES_OF_MARKS: &[u8] = b"aidT?<>[](); |*0123456789";
const OTHER_BYTES: &[u8] = b"AtxID{}-+.,\t\n\r\0\x1f\x7f\xa0\xff";

/// Digits of values on both sides of the limit, some with leading zeros, some too
/// large for 32 or 64 bits.
const LARGE_NUMBERS: [&[u8]; 8] =
    [b"65535", b"65536", b"65540", b"070000", b"0000065535", b"131072", b"4294967297", b"18446744073709551617"];

/// A term file for the writer; one in four is damaged.
pub fn random_term_file(random: &mut Random, size: Size) -> Vec<u8> {
    let fields = random_count_of_fields(random, size);
    let term = random_term(random, fields);
    match random.below(8) {
        0 => damage(random, &term),
        1 => {
            let once = damage(random, &term);
            damage(random, &once)
        }
        _ => term,
    }
}

/// A text for the reader; one in three is damaged.
pub fn random_text(random: &mut Random, size: Size) -> Vec<u8> {
    let fields = random_count_of_fields(random, size);
    let text = match random.below(3) {
        0 => engine::write_text(&random_term(random, fields)).unwrap_or_default(),
        1 => random_marks(random, fields),
        _ => {
            let text = random_marks(random, fields);
            loosen(random, &text)
        }
    };
    match random.below(9) {
        0 | 1 => damage_text(random, &text),
        2 => {
            let once = damage_text(random, &text);
            damage_text(random, &once)
        }
        _ => text,
    }
}

/// Large terms are often near the limit of 4,096 fields.
fn random_count_of_fields(random: &mut Random, size: Size) -> usize {
    match (size, random.below(4)) {
        (Size::Small, 0) => 1 + random.below(3),
        (Size::Small, 1) => 1 + random.below(40),
        (Size::Small, _) => 1 + random.below(12),
        (Size::Large, 0) => 4_090 + random.below(12),
        (Size::Large, _) => 1 + random.below(4_096),
    }
}

/// A term of that many fields.
pub fn random_term(random: &mut Random, fields: usize) -> Vec<u8> {
    if fields <= 1 {
        return random_leaf(random);
    }
    if fields == 2 || random.chance(20) {
        let inner = random_term(random, fields - 1);
        return build::label(random_value(random), &inner);
    }
    let left_fields = match random.below(5) {
        0 => 1,
        1 => fields - 2,
        _ => 1 + random.below(fields - 2),
    };
    let left = random_term(random, left_fields);
    let right = random_term(random, fields - 1 - left_fields);
    match random.below(3) {
        0 => build::sequence(&left, &right),
        1 => build::tensor(&left, &right),
        _ => build::alternation(&left, &right),
    }
}

fn random_leaf(random: &mut Random) -> Vec<u8> {
    match random.below(5) {
        0 => build::id(),
        1 => build::empty(),
        2 => build::assert_goal(random_value(random)),
        3 => build::defined(random_value(random)),
        _ => build::atomic(random_value(random)),
    }
}

fn random_value(random: &mut Random) -> u16 {
    match random.below(8) {
        0 => 0,
        1 => 65_535,
        2 => random.value(),
        _ => random.below(120) as u16,
    }
}

/// Marks in an order that the notation allows, with at least so many fields:
/// brackets wherever they may stand, also where the writer would put none.
fn random_marks(random: &mut Random, fields: usize) -> Vec<u8> {
    let brackets = *random.pick(&[0, 5, 15, 30]);
    let mut text = Vec::new();
    let (mut made, mut open) = (0, 0);
    loop {
        while random.chance(25) {
            made += 1;
            text.extend(format!("[{}]", random_value(random)).bytes());
        }
        while random.chance(brackets) {
            open += 1;
            text.push(b'(');
        }
        text.extend(leaf_mark(random));
        while open > 0 && random.chance(30) {
            open -= 1;
            text.push(b')');
        }
        made += 2;
        if made > fields {
            text.extend(vec![b')'; open]);
            return text;
        }
        text.push(*random.pick(b";|*"));
    }
}

fn leaf_mark(random: &mut Random) -> Vec<u8> {
    match random.below(5) {
        0 => b"id".to_vec(),
        1 => b"<>".to_vec(),
        2 => format!("?{}", random_value(random)).into_bytes(),
        3 => format!("T{}", random_value(random)).into_bytes(),
        _ => format!("a{}", random_value(random)).into_bytes(),
    }
}

/// The same marks with other blanks between them and with leading zeros.
pub fn loosen(random: &mut Random, text: &[u8]) -> Vec<u8> {
    let (blanks, zeros) = (*random.pick(&[0, 10, 50]), *random.pick(&[0, 0, 20]));
    let mut loose = Vec::new();
    for &byte in text {
        let begins_a_mark = b"([ai<?T;|*)".contains(&byte);
        while begins_a_mark && random.chance(blanks) {
            loose.push(b' ');
        }
        if byte != b' ' || random.chance(50) {
            loose.push(byte);
        }
        while b"a?T[".contains(&byte) && random.chance(zeros) {
            loose.push(b'0');
        }
    }
    while random.chance(blanks) {
        loose.push(b' ');
    }
    loose
}

/// The text with one piece of damage (rarely, what comes out still reads).
pub fn damage_text(random: &mut Random, text: &[u8]) -> Vec<u8> {
    let mut bytes = text.to_vec();
    let at = random.below(text.len() + 1);
    let end = (at + 1 + random.below(6)).min(text.len());
    let stranger = if random.chance(80) { *random.pick(BYTES_OF_MARKS) } else { *random.pick(OTHER_BYTES) };
    match random.below(10) {
        0 => bytes.truncate(at),
        1 => drop(bytes.drain(at..end)),
        2 | 3 => bytes.insert(at, stranger),
        4 | 5 if at < text.len() => bytes[at] = stranger,
        6 if at + 1 < text.len() => bytes.swap(at, at + 1),
        7 => drop(bytes.splice(at..at, text[at..end].iter().copied())),
        8 => enlarge_a_number(random, &mut bytes),
        _ => bytes.push(stranger),
    }
    bytes
}

/// Puts digits behind some byte that a number follows, if there is one.
fn enlarge_a_number(random: &mut Random, bytes: &mut Vec<u8>) {
    let before_numbers: Vec<usize> = (0..bytes.len()).filter(|&at| b"a?T[".contains(&bytes[at])).collect();
    if before_numbers.is_empty() {
        return bytes.extend(b" ; a65536");
    }
    let place = random.pick(&before_numbers) + 1;
    let keeps_digits = random.chance(50);
    while !keeps_digits && bytes.get(place).is_some_and(u8::is_ascii_digit) {
        bytes.remove(place);
    }
    bytes.splice(place..place, random.pick(&LARGE_NUMBERS).iter().copied());
}
