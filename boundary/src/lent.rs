//! Lent spaces with guard bytes around them: poisoned before a call, inspected
//! after it.

use second::generate::case::{FRAME_FILL, OUTPUT_FILL, STATE_FILL, WORK_FILL};
use second::Frame;

/// Bytes in front of and behind each space. An odd number, so that no space is
/// aligned for wider values than bytes.
pub const GUARD: usize = 61;

/// What a space holds before the call. What it held must never matter.
#[derive(Clone, Copy, PartialEq, Eq, Debug)]
pub enum Poison {
    /// The bytes that docs/VECTORS.md names, one for each kind of space.
    Fixed,
    /// Every byte differs from its neighbours, so a moved block shows.
    Counting,
    /// All bits set: a number read from it is as large as it can be.
    Ones,
}

impl Poison {
    pub const ALL: [Poison; 3] = [Poison::Fixed, Poison::Counting, Poison::Ones];
}

/// What a space is for; it decides the byte of `Poison::Fixed`.
#[derive(Clone, Copy, PartialEq, Eq, Debug)]
pub enum Purpose {
    Table,
    Other,
    Saved,
    Work,
    Output,
    State,
}

impl Purpose {
    pub fn name(self) -> &'static str {
        match self {
            Purpose::Table => "table",
            Purpose::Other => "other file",
            Purpose::Saved => "saved state",
            Purpose::Work => "work space",
            Purpose::Output => "output space",
            Purpose::State => "second space",
        }
    }

    fn fixed_byte(self) -> u8 {
        match self {
            Purpose::Work => WORK_FILL,
            Purpose::State => STATE_FILL,
            _ => OUTPUT_FILL,
        }
    }
}

/// Poison of any length. It is made once and then copied and compared in blocks:
/// a work space has over a million bytes.
#[derive(Default)]
struct Patterns {
    fixed: Vec<u8>,
    counting: Vec<u8>,
    ones: Vec<u8>,
}

impl Patterns {
    fn grow(&mut self, length: usize, fixed: u8) {
        if self.fixed.len() < length {
            self.fixed = vec![fixed; length];
            self.counting = (0..length).map(|at| (at.wrapping_mul(167).wrapping_add(at >> 8) + 13) as u8).collect();
            self.ones = vec![255; length];
        }
    }

    fn of(&self, poison: Poison) -> &[u8] {
        match poison {
            Poison::Fixed => &self.fixed,
            Poison::Counting => &self.counting,
            Poison::Ones => &self.ones,
        }
    }
}

/// A space with its guards; kept between calls, so that lending costs no
/// allocation.
pub struct Space {
    purpose: Purpose,
    patterns: Patterns,
    /// Guard, space, guard.
    bytes: Vec<u8>,
    length: usize,
    poison: Poison,
}

impl Space {
    pub fn new(purpose: Purpose) -> Space {
        Space { purpose, patterns: Patterns::default(), bytes: Vec::new(), length: 0, poison: Poison::Fixed }
    }

    /// Poisons the space and its guards.
    pub fn poison(&mut self, length: usize, poison: Poison) {
        let whole = length + 2 * GUARD;
        self.patterns.grow(whole, self.purpose.fixed_byte());
        self.length = length;
        self.poison = poison;
        self.bytes.clear();
        self.bytes.extend_from_slice(&self.patterns.of(poison)[..whole]);
    }

    /// Poisons the guards and puts a file between them.
    pub fn load(&mut self, file: &[u8], poison: Poison) {
        self.poison(file.len(), poison);
        self.bytes[GUARD..GUARD + file.len()].copy_from_slice(file);
    }

    pub fn pointer(&mut self) -> *mut u8 {
        // Also for no bytes a good pointer: it points between the guards.
        self.bytes[GUARD..].as_mut_ptr()
    }

    pub fn len(&self) -> usize {
        self.length
    }

    pub fn is_empty(&self) -> bool {
        self.length == 0
    }

    /// The space without its guards.
    pub fn contents(&self) -> &[u8] {
        &self.bytes[GUARD..GUARD + self.length]
    }

    /// What the space held when it was lent.
    pub fn as_lent(&self) -> &[u8] {
        &self.patterns.of(self.poison)[GUARD..GUARD + self.length]
    }

    /// A guard byte that was written, in words.
    pub fn guard_fault(&self) -> Option<String> {
        let as_lent = &self.patterns.of(self.poison)[..self.bytes.len()];
        let behind = GUARD + self.length;
        let name = self.purpose.name();
        if self.bytes[..GUARD] != as_lent[..GUARD] {
            return Some(format!("bytes in front of the {name} were written"));
        }
        if self.bytes[behind..] != as_lent[behind..] {
            return Some(format!("bytes behind the {name} were written"));
        }
        None
    }

    /// The first byte that is not the expected one, in words.
    pub fn contents_fault(&self, expected: &[u8]) -> Option<String> {
        let contents = self.contents();
        if contents == expected {
            return None;
        }
        let at = contents.iter().zip(expected).take_while(|(is, should)| is == should).count();
        let name = self.purpose.name();
        match (contents.get(at), expected.get(at)) {
            (Some(is), Some(should)) => Some(format!("{name}: byte {at} is {is} and should be {should}")),
            _ => Some(format!("{name}: {} bytes instead of {}", contents.len(), expected.len())),
        }
    }
}

/// Frames in front of and behind those that are lent, which no call may touch.
const GUARD_FRAMES: usize = 7;

/// Lent frames with guards. A frame is aligned for its numbers, as the language of the
/// caller has it, so they are no bytes of a `Space`.
#[derive(Default)]
pub struct Frames {
    /// Guard, frames, guard.
    frames: Vec<Frame>,
    as_lent: Vec<Frame>,
}

impl Frames {
    /// Poisons so many frames and their guards.
    pub fn poison(&mut self, count: usize, poison: Poison) {
        let whole = count + 2 * GUARD_FRAMES;
        self.as_lent.clear();
        self.as_lent.extend((0..whole).map(|number| poisoned_frame(number, poison)));
        self.frames.clone_from(&self.as_lent);
    }

    pub fn pointer(&mut self) -> *mut Frame {
        self.frames[GUARD_FRAMES..].as_mut_ptr()
    }

    pub fn len(&self) -> usize {
        self.frames.len() - 2 * GUARD_FRAMES
    }

    pub fn is_empty(&self) -> bool {
        self.len() == 0
    }

    /// A frame that is not zero, or was touched though it ought not to be, in words.
    pub fn fault(&self, ought_to_be_zero: bool) -> Option<String> {
        let lent = GUARD_FRAMES..self.frames.len() - GUARD_FRAMES;
        for (number, frame) in self.frames.iter().enumerate() {
            let inside = lent.contains(&number);
            let should = if inside && ought_to_be_zero { Frame::default() } else { self.as_lent[number] };
            if *frame != should {
                return Some(match number.checked_sub(GUARD_FRAMES) {
                    Some(at) if inside => format!("frame {at} is {frame:?} and should be {should:?}"),
                    Some(_) => "frames behind those lent were written".to_string(),
                    None => "frames in front of those lent were written".to_string(),
                });
            }
        }
        None
    }
}

fn poisoned_frame(number: usize, poison: Poison) -> Frame {
    match poison {
        Poison::Fixed => FRAME_FILL,
        Poison::Counting => {
            let number = number as u32;
            Frame { term: number * 167 + 13, goals: number * 59 + 1, count: number as u16 + 3, stage: !(number as u16) }
        }
        Poison::Ones => Frame { term: u32::MAX, goals: u32::MAX, count: u16::MAX, stage: u16::MAX },
    }
}

#[cfg(test)]
mod tests {
    use super::*;

    #[test]
    fn poison_is_seen_as_untouched_and_every_written_byte_is_seen() {
        for poison in Poison::ALL {
            let mut space = Space::new(Purpose::Work);
            space.poison(100, poison);
            assert_eq!(space.guard_fault(), None);
            assert_eq!(space.contents_fault(space.as_lent()), None);
            for at in 0..space.bytes.len() {
                space.poison(100, poison);
                space.bytes[at] ^= 1;
                let inside = (GUARD..GUARD + 100).contains(&at);
                assert_eq!(space.guard_fault().is_none(), inside);
                assert_eq!(space.contents_fault(space.as_lent()).is_some(), inside);
            }
        }
    }

    #[test]
    fn every_written_frame_is_seen() {
        for poison in Poison::ALL {
            let mut frames = Frames::default();
            frames.poison(20, poison);
            assert_eq!((frames.len(), frames.fault(false)), (20, None));
            assert!(frames.fault(true).is_some());
            frames.frames[GUARD_FRAMES..GUARD_FRAMES + 20].fill(Frame::default());
            assert_eq!(frames.fault(true), None);
            for at in 0..frames.frames.len() {
                frames.poison(20, poison);
                frames.frames[at].stage ^= 1;
                let words = frames.fault(false).unwrap();
                let inside = (GUARD_FRAMES..GUARD_FRAMES + 20).contains(&at);
                assert_eq!(words.ends_with("lent were written"), !inside, "{words}");
            }
        }
    }

    #[test]
    fn a_file_stands_between_the_guards() {
        let mut space = Space::new(Purpose::Table);
        space.load(&[1, 2, 3], Poison::Ones);
        assert_eq!(space.contents(), [1, 2, 3]);
        assert_eq!(space.guard_fault(), None);
        assert_eq!(space.contents_fault(&[1, 2, 4]).unwrap(), "table: byte 2 is 3 and should be 4");
    }
}
