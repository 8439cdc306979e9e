//! One case in heap blocks of exactly the lengths that are lent, the spaces left
//! without contents. A memory checker then sees every access beside a block, and
//! every decision that depends on what a lent space held before the call.

use crate::compare::{halts, Comparison};
use crate::library::{Call, Library};
use second::generate::case::{Case, Outcome};
use second::limits::STATE_SIZE;
use second::Frame;
use std::ffi::c_void;
use std::mem::size_of;

extern "C" {
    fn malloc(size: usize) -> *mut c_void;
    fn free(block: *mut c_void);
}

/// A heap block of that length and no byte more.
struct Block {
    start: *mut u8,
    length: usize,
}

impl Block {
    fn without_contents(length: usize) -> Block {
        // SAFETY: malloc takes any size; a block of no bytes is never read.
        let start = unsafe { malloc(length) }.cast::<u8>();
        assert!(length == 0 || !start.is_null(), "out of memory");
        Block { start, length }
    }

    fn of_file(file: &[u8]) -> Block {
        let block = Block::without_contents(file.len());
        // SAFETY: the block was just made, with the file's length.
        unsafe { std::ptr::copy_nonoverlapping(file.as_ptr(), block.start, file.len()) };
        block
    }

    /// The first `length` bytes, which the caller knows to be written.
    fn front(&self, length: usize) -> &[u8] {
        // SAFETY: not past the block.
        unsafe { std::slice::from_raw_parts(self.start, length.min(self.length)) }
    }
}

impl Drop for Block {
    fn drop(&mut self) {
        // SAFETY: the block came from malloc and is given back once.
        unsafe { free(self.start.cast()) };
    }
}

/// Makes the call and compares what can be compared: after 29 work space and frames
/// have no contents, behind a result the output space has none, and the second space has
/// none but those of a halt.
pub fn compare_exactly(library: &Library, case: &Case) -> Comparison {
    let outcome = case.outcome();
    let expected = outcome.answer;
    let (table, other) = (Block::of_file(&case.table), Block::of_file(&case.other));
    let saved = Block::of_file(&case.saved);
    let work = Block::without_contents(case.work_length);
    let frames = Block::without_contents(case.frames * size_of::<Frame>());
    let output = Block::without_contents(case.output_length);
    let state = Block::without_contents(case.state_length);
    let call = Call {
        entry: case.entry,
        table: (table.start, table.length),
        other: (other.start, other.length),
        saved: (saved.start, saved.length),
        height: case.height,
        budget: case.budget,
        work: (work.start, work.length),
        // malloc aligns a block for any number.
        frames: (frames.start.cast::<Frame>(), case.frames),
        output: (output.start, output.length),
        state: (state.start, state.length),
    };
    // SAFETY: blocks of their own, each as long as it is said.
    let given = unsafe { library.call(&call) };
    let differences = if given == expected {
        differences_in_spaces(case, &outcome, &work, &frames, &output, &state)
    } else {
        vec![format!("answer: {given:?} should be {expected:?}")]
    };
    Comparison { expected, given, differences }
}

/// What the spaces hold after the answer that was expected; looked at only as far as the
/// engine writes them.
fn differences_in_spaces(
    case: &Case,
    outcome: &Outcome,
    work: &Block,
    frames: &Block,
    output: &Block,
    state: &Block,
) -> Vec<String> {
    let answer = outcome.answer;
    let length = answer.length as usize;
    let cleared = |block: &Block| answer.number == 29 || block.front(block.length).iter().all(|&byte| byte == 0);
    let saved = halts(case.entry, answer);
    let found = [
        (output.front(length) != &outcome.output[..length], "output space: the result differs"),
        (!cleared(work), "work space: not all zero"),
        (!cleared(frames), "frames: not all zero"),
        (saved && state.front(STATE_SIZE) != &outcome.state[..STATE_SIZE], "second space: the saved state differs"),
    ];
    found.iter().filter(|(differs, _)| *differs).map(|(_, what)| what.to_string()).collect()
}
