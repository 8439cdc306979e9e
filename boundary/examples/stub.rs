//! A library with the C functions of include/hitac.h over the second engine. The
//! environment variable HITAC_STUB_FAULT makes it wrong in one way; without it, it
//! is right.

use second::limits::STATE_SIZE;
use second::{Answer, Frame};
use std::slice::{from_raw_parts, from_raw_parts_mut};
use std::sync::atomic::{AtomicU32, Ordering::Relaxed};

fn fault() -> String {
    std::env::var("HITAC_STUB_FAULT").unwrap_or_default()
}

/// What a wrong engine would do after a call.
unsafe fn spoil(mut answer: Answer, work: *mut u8, work_length: usize, out: *mut u8, out_length: usize) -> Answer {
    match fault().as_str() {
        "place" => answer.place += 1,
        // Uses in place of the rules that are used.
        "rules" => answer.rules = answer.uses,
        "number for a later call" => answer.tactic = 1,
        "earlier contents" => answer.place += EARLIER.load(Relaxed),
        "work" if answer.number != 29 => *work.add(work_length - 1) = 1,
        "guard" => *work.add(work_length) ^= 1,
        "refused output" if answer.number != 0 && out_length > 0 => *out ^= 1,
        "output behind" if answer.number == 0 && (answer.length as usize) < out_length => {
            *out.add(answer.length as usize) ^= 1
        }
        "crash" => std::process::abort(),
        "crash at 22" if answer.number == 22 => std::process::abort(),
        _ => {}
    }
    answer
}

type Space = *mut u8;

/// Whether the work space began with 255 before the call.
static EARLIER: AtomicU32 = AtomicU32::new(0);

unsafe fn look_at(work: Space, work_length: usize) {
    if fault() == "earlier contents" {
        let begins_with_255 = work_length > 0 && *work == 255;
        EARLIER.store(u32::from(begins_with_255), Relaxed);
    }
}

macro_rules! checker {
    ($name:ident, $second:path) => {
        /// # Safety
        /// Every pointer is good for its length.
        #[no_mangle]
        pub unsafe extern "C" fn $name(
            table: *const u8,
            table_length: usize,
            other: *const u8,
            other_length: usize,
            work: Space,
            work_length: usize,
        ) -> Answer {
            look_at(work, work_length);
            let (table, other) = (from_raw_parts(table, table_length), from_raw_parts(other, other_length));
            let answer = $second(table, other, from_raw_parts_mut(work, work_length));
            spoil(answer, work, work_length, work, 0)
        }
    };
}

macro_rules! writer {
    ($name:ident, $second:path) => {
        /// # Safety
        /// Every pointer is good for its length.
        #[no_mangle]
        pub unsafe extern "C" fn $name(
            table: *const u8,
            table_length: usize,
            other: *const u8,
            other_length: usize,
            work: Space,
            work_length: usize,
            out: Space,
            out_length: usize,
        ) -> Answer {
            look_at(work, work_length);
            let (table, other) = (from_raw_parts(table, table_length), from_raw_parts(other, other_length));
            let spaces = (from_raw_parts_mut(work, work_length), from_raw_parts_mut(out, out_length));
            let answer = $second(table, other, spaces.0, spaces.1);
            spoil(answer, work, work_length, out, out_length)
        }
    };
}

checker!(hitac_check, second::check);
checker!(hitac_check_flat, second::check_flat);
writer!(hitac_flatten, second::flatten);
writer!(hitac_write_proof, second::write_proof);

macro_rules! text_function {
    ($name:ident, $second:path) => {
        /// # Safety
        /// Every pointer is good for its length.
        #[no_mangle]
        pub unsafe extern "C" fn $name(
            other: *const u8,
            other_length: usize,
            work: Space,
            work_length: usize,
            out: Space,
            out_length: usize,
        ) -> Answer {
            look_at(work, work_length);
            let spaces = (from_raw_parts_mut(work, work_length), from_raw_parts_mut(out, out_length));
            let answer = $second(from_raw_parts(other, other_length), spaces.0, spaces.1);
            spoil(answer, work, work_length, out, out_length)
        }
    };
}

text_function!(hitac_read_text, second::read_text);
text_function!(hitac_write_text, second::write_text);

/// A number that the header defines.
fn number_of_header(name: &str) -> u32 {
    let words = |line: &'static str| line.split_whitespace().collect::<Vec<_>>();
    let lines = include_str!("../../include/hitac.h").lines().map(words);
    let mut numbers = lines.filter(|words| words.len() > 2 && words[..2] == ["#define", name]);
    numbers.next().and_then(|words| words[2].parse().ok()).expect("the header has the number")
}

#[no_mangle]
pub extern "C" fn hitac_version() -> u32 {
    number_of_header("HITAC_VERSION_MAJOR") * 65_536 + number_of_header("HITAC_VERSION_MINOR")
}

/// # Safety
/// Every pointer is good for its length.
#[no_mangle]
#[allow(clippy::too_many_arguments)]
pub unsafe extern "C" fn hitac_run(
    table: *const u8,
    table_length: usize,
    job: *const u8,
    job_length: usize,
    budget: u32,
    work: Space,
    work_length: usize,
    out: Space,
    out_length: usize,
) -> Answer {
    look_at(work, work_length);
    let (table, job) = (from_raw_parts(table, table_length), from_raw_parts(job, job_length));
    let spaces = (from_raw_parts_mut(work, work_length), from_raw_parts_mut(out, out_length));
    let answer = second::run(table, job, budget, spaces.0, spaces.1);
    spoil(answer, work, work_length, out, out_length)
}

/// # Safety
/// Every pointer is good for its length.
#[no_mangle]
#[allow(clippy::too_many_arguments)]
pub unsafe extern "C" fn hitac_search(
    table: *const u8,
    table_length: usize,
    job: *const u8,
    job_length: usize,
    height: u32,
    budget: u32,
    work: Space,
    work_length: usize,
    out: Space,
    out_length: usize,
) -> Answer {
    look_at(work, work_length);
    let (table, job) = (from_raw_parts(table, table_length), from_raw_parts(job, job_length));
    let spaces = (from_raw_parts_mut(work, work_length), from_raw_parts_mut(out, out_length));
    let answer = second::search(table, job, height, budget, spaces.0, spaces.1);
    spoil(answer, work, work_length, out, out_length)
}

/// What a wrong engine would do with frames and second space.
unsafe fn spoil_halt(answer: &mut Answer, frames: (*mut Frame, usize), state: (Space, usize)) {
    match (fault().as_str(), answer.number) {
        ("frame", number) if number != 29 => (*frames.0).count = 1,
        ("frame behind", number) if number != 29 => (*frames.0.add(frames.1)).term ^= 1,
        // A state that is left there though the run then ended otherwise.
        ("state of another answer", 0 | 22 | 23) => *state.0.add(1) ^= 1,
        ("state", 24) => *state.0.add(9) ^= 1,
        ("state behind", 24) if state.1 > STATE_SIZE => *state.0.add(STATE_SIZE) = 0,
        ("state not ended with zeros", 24) => *state.0.add(STATE_SIZE - 1) = 1,
        // Steps that are counted from the halt on.
        ("steps of a part", 0 | 22 | 23) => answer.steps = answer.steps.saturating_sub(1),
        ("genuine not tested", 30) => *answer = Answer { number: 23, ..*answer },
        _ => {}
    }
}

/// # Safety
/// Every pointer is good for its length.
#[no_mangle]
#[allow(clippy::too_many_arguments)]
pub unsafe extern "C" fn hitac_run_halting(
    table: *const u8,
    table_length: usize,
    job: *const u8,
    job_length: usize,
    budget: u32,
    work: Space,
    work_length: usize,
    frames: *mut Frame,
    frames_length: usize,
    out: Space,
    out_length: usize,
    state: Space,
    state_length: usize,
) -> Answer {
    look_at(work, work_length);
    let (table, job) = (from_raw_parts(table, table_length), from_raw_parts(job, job_length));
    let spaces = (from_raw_parts_mut(work, work_length), from_raw_parts_mut(out, out_length));
    let halted = (from_raw_parts_mut(frames, frames_length), from_raw_parts_mut(state, state_length));
    let mut answer = second::run_halting(table, job, budget, spaces.0, halted.0, spaces.1, halted.1);
    spoil_halt(&mut answer, (frames, frames_length), (state, state_length));
    spoil(answer, work, work_length, out, out_length)
}

/// # Safety
/// Every pointer is good for its length.
#[no_mangle]
#[allow(clippy::too_many_arguments)]
pub unsafe extern "C" fn hitac_resume(
    table: *const u8,
    table_length: usize,
    job: *const u8,
    job_length: usize,
    saved: *const u8,
    saved_length: usize,
    budget: u32,
    work: Space,
    work_length: usize,
    frames: *mut Frame,
    frames_length: usize,
    out: Space,
    out_length: usize,
    state: Space,
    state_length: usize,
) -> Answer {
    look_at(work, work_length);
    let (table, job) = (from_raw_parts(table, table_length), from_raw_parts(job, job_length));
    let saved = from_raw_parts(saved, saved_length);
    let spaces = (from_raw_parts_mut(work, work_length), from_raw_parts_mut(out, out_length));
    let halted = (from_raw_parts_mut(frames, frames_length), from_raw_parts_mut(state, state_length));
    let mut answer = second::resume(table, job, saved, budget, spaces.0, halted.0, spaces.1, halted.1);
    spoil_halt(&mut answer, (frames, frames_length), (state, state_length));
    spoil(answer, work, work_length, out, out_length)
}
