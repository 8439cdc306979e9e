//! The four kinds of 16-bit value.
//!
//! "A rule name, a goal, a label and a tactic number are never taken for one
//! another, though each is 16 bits": each has its own type.

use std::hash::{BuildHasherDefault, Hasher};

#[derive(Clone, Copy, PartialEq, Eq, Hash, PartialOrd, Ord, Debug)]
pub struct RuleName(pub u16);

#[derive(Clone, Copy, PartialEq, Eq, Hash, PartialOrd, Ord, Debug)]
pub struct Goal(pub u16);

#[derive(Clone, Copy, PartialEq, Eq, Hash, PartialOrd, Ord, Debug)]
pub struct Label(pub u16);

#[derive(Clone, Copy, PartialEq, Eq, Hash, PartialOrd, Ord, Debug)]
pub struct TacticNo(pub u16);

/// A hash map whose keys are one or two of the values above.
pub type NameMap<Key, Value> = std::collections::HashMap<Key, Value, BuildHasherDefault<NameHasher>>;

/// A hash set whose elements are one or two of the values above.
pub type NameSet<Key> = std::collections::HashSet<Key, BuildHasherDefault<NameHasher>>;

/// Hashes one or two 16-bit values: they are put side by side in one word,
/// which is mixed at the end. Faster than the standard hasher, and a table has
/// too few rules for chosen collisions to matter.
#[derive(Default, Clone)]
pub struct NameHasher(u64);

impl Hasher for NameHasher {
    fn write(&mut self, bytes: &[u8]) {
        for &byte in bytes {
            self.0 = (self.0 << 8) ^ (self.0 >> 56) ^ u64::from(byte);
        }
    }

    fn write_u16(&mut self, value: u16) {
        self.0 = (self.0 << 16) | u64::from(value);
    }

    fn finish(&self) -> u64 {
        let mixed = (self.0 ^ (self.0 >> 15)).wrapping_mul(0x9E37_79B9_7F4A_7C15);
        mixed ^ (mixed >> 32)
    }
}
