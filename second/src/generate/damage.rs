//! Damaging a file in one of the ways in which files get damaged.

use super::build;
use super::random::Random;
use crate::format::tags::Tag;

/// The offsets of the tags of all fields, inner ones included, as far as the
/// file can be followed.
pub fn field_places(bytes: &[u8]) -> Vec<usize> {
    let mut places = Vec::new();
    let mut place = 0;
    while place + 3 <= bytes.len() {
        let Some(tag) = Tag::from_byte(bytes[place]) else {
            return places;
        };
        places.push(place);
        place += 3 + match tag {
            Tag::Sequence | Tag::Tensor | Tag::Alternation => 0,
            Tag::Definition | Tag::Label => 2,
            _ => contents_length(bytes, place),
        };
    }
    places
}

fn contents_length(bytes: &[u8], place: usize) -> usize {
    usize::from(u16::from_be_bytes([bytes[place + 1], bytes[place + 2]]))
}

/// The file with one piece of damage (rarely, the damage changes nothing).
pub fn damage(random: &mut Random, file: &[u8]) -> Vec<u8> {
    let mut bytes = file.to_vec();
    let places = field_places(file);
    if places.is_empty() {
        append_bytes(random, &mut bytes);
        return bytes;
    }
    let place = *random.pick(&places);
    let other_place = *random.pick(&places);
    match random.below(12) {
        0 => bytes.truncate(random.below(file.len())),
        1 => append_bytes(random, &mut bytes),
        2 => change_byte(random, &mut bytes),
        3..=5 => change_length(random, &mut bytes, place),
        6 => bytes[place] = random_tag(random),
        7 => swap_fields(&mut bytes, place, other_place),
        8 => repeat_field(&mut bytes, place, other_place),
        9 => remove_field(&mut bytes, place),
        10 => insert(&mut bytes, place, &foreign_field(random)),
        _ => change_value(random, &mut bytes, place),
    }
    bytes
}

fn append_bytes(random: &mut Random, bytes: &mut Vec<u8>) {
    for _ in 0..1 + random.below(5) {
        let byte = if random.chance(50) { random_tag(random) } else { random.byte() };
        bytes.push(byte);
    }
}

fn change_byte(random: &mut Random, bytes: &mut [u8]) {
    let at = random.below(bytes.len());
    bytes[at] = match random.below(3) {
        0 => bytes[at].wrapping_add(1),
        1 => bytes[at].wrapping_sub(1),
        _ => random.byte(),
    };
}

fn change_length(random: &mut Random, bytes: &mut [u8], place: usize) {
    let length = contents_length(bytes, place) as u16;
    let changed = match random.below(8) {
        0 => length.wrapping_add(1),
        1 => length.wrapping_sub(1),
        2 => length.wrapping_add(2),
        3 => length.wrapping_sub(2),
        4 => length.wrapping_add(3),
        5 => length.wrapping_sub(3),
        6 => 0,
        _ => random.value(),
    };
    bytes[place + 1..place + 3].copy_from_slice(&changed.to_be_bytes());
}

fn change_value(random: &mut Random, bytes: &mut [u8], place: usize) {
    if let Some(value) = bytes.get_mut(place + 3..place + 5) {
        let changed = if random.chance(50) { random.value() } else { random.below(8) as u16 };
        value.copy_from_slice(&changed.to_be_bytes());
    }
}

fn random_tag(random: &mut Random) -> u8 {
    *random.pick(&[1, 2, 3, 16, 17, 18, 19, 20, 21, 22, 23, 24, 32, 33, 0, 4, 15, 25, 31, 34, 255])
}

fn foreign_field(random: &mut Random) -> Vec<u8> {
    match random.below(8) {
        0 => build::rule(random.value(), 1, &[2, 3]),
        1 => build::definition(random.value(), &build::id()),
        2 => build::goal_list(&[1]),
        3 => build::use_entry(1, 1),
        4 => build::open_entry(1),
        5 => build::assert_goal(1),
        6 => build::alternation(&build::id(), &build::empty()),
        _ => build::atomic(1),
    }
}

/// The bytes of the field at a place, as its length says.
fn field_at(bytes: &[u8], place: usize) -> &[u8] {
    let end = place + 3 + contents_length(bytes, place);
    &bytes[place..end.min(bytes.len())]
}

fn insert(bytes: &mut Vec<u8>, place: usize, field: &[u8]) {
    bytes.splice(place..place, field.iter().copied());
}

fn repeat_field(bytes: &mut Vec<u8>, place: usize, other_place: usize) {
    let field = field_at(bytes, place).to_vec();
    insert(bytes, other_place, &field);
}

fn remove_field(bytes: &mut Vec<u8>, place: usize) {
    let length = field_at(bytes, place).len();
    bytes.drain(place..place + length);
}

/// Swaps two fields that do not overlap; the lengths around them stay.
fn swap_fields(bytes: &mut Vec<u8>, place: usize, other_place: usize) {
    let (first, second) = (place.min(other_place), place.max(other_place));
    let left = field_at(bytes, first).to_vec();
    let right = field_at(bytes, second).to_vec();
    if first + left.len() > second {
        return;
    }
    bytes.splice(second..second + right.len(), left.iter().copied());
    bytes.splice(first..first + left.len(), right.iter().copied());
}
