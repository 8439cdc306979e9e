//! What include/hitac.h declares, and the calls on slices. Laid out by hand: a pointer stands beside its length.

/// The version of the header that this file follows.
pub const VERSION_MAJOR: u32 = 2;
pub const VERSION_MINOR: u32 = 3;

/// The answer of every call.
#[repr(C)]
#[derive(Clone, Copy)]
pub struct Answer {
    pub number: u32,
    pub file: u32,
    pub place: u32,
    pub steps: u32,
    pub length: u32,
    pub fields: u32,
    pub uses: u32,
    pub remaining: u32,
    pub rules: u32,
    // Always 0 in this version; for later calls.
    pub goals: u32,
    pub longest: u32,
    pub tactic: u32,
}

/// Space for a waiting term; what it holds is the engine's affair.
#[repr(C)]
#[derive(Clone, Copy, Default)]
pub struct Frame {
    pub term: u32,
    pub goals: u32,
    pub count: u16,
    pub stage: u16,
}

pub const CHECK_WORK: usize = 65536;
pub const RUN_WORK: usize = 590848;
pub const FLATTEN_WORK: usize = 200704;
pub const CHECK_FLAT_WORK: usize = 65536;
pub const WRITE_PROOF_WORK: usize = 65536;
pub const READ_TEXT_WORK: usize = 196608;
pub const WRITE_TEXT_WORK: usize = 36864;
pub const SEARCH_WORK: usize = 2496256;
pub const RUN_HALTING_WORK: usize = 751116;
pub const RESUME_WORK: usize = 751116;

pub const FRAMES: usize = 16384;
pub const STATE: usize = 160268;

// Machine stack that each call needs, in bytes; include/hitac.h says what is counted.
pub const CHECK_STACK: usize = 1536;
pub const RUN_STACK: usize = 200704;
pub const FLATTEN_STACK: usize = 1536;
pub const CHECK_FLAT_STACK: usize = 1536;
pub const WRITE_PROOF_STACK: usize = 172032;
pub const READ_TEXT_STACK: usize = 512;
pub const WRITE_TEXT_STACK: usize = 1024;
pub const SEARCH_STACK: usize = 1536;
pub const RUN_HALTING_STACK: usize = 200704;
pub const RESUME_STACK: usize = 200704;

pub const LONGEST_PROOF: usize = 21510;
pub const LONGEST_FLAT: usize = 16131;
pub const LONGEST_TERM: usize = 20480;
pub const LONGEST_TEXT: usize = 28671;

extern "C" {
    fn hitac_version() -> u32;

    fn hitac_check(
        table: *const u8, table_length: usize, proof: *const u8, proof_length: usize,
        work: *mut u8, work_length: usize,
    ) -> Answer;

    fn hitac_run(
        table: *const u8, table_length: usize, job: *const u8, job_length: usize, budget: u32,
        work: *mut u8, work_length: usize, out: *mut u8, out_length: usize,
    ) -> Answer;

    fn hitac_flatten(
        table: *const u8, table_length: usize, proof: *const u8, proof_length: usize,
        work: *mut u8, work_length: usize, out: *mut u8, out_length: usize,
    ) -> Answer;

    fn hitac_check_flat(
        table: *const u8, table_length: usize, flat: *const u8, flat_length: usize,
        work: *mut u8, work_length: usize,
    ) -> Answer;

    fn hitac_write_proof(
        table: *const u8, table_length: usize, flat: *const u8, flat_length: usize,
        work: *mut u8, work_length: usize, out: *mut u8, out_length: usize,
    ) -> Answer;

    fn hitac_read_text(
        text: *const u8, text_length: usize,
        work: *mut u8, work_length: usize, out: *mut u8, out_length: usize,
    ) -> Answer;

    fn hitac_write_text(
        term: *const u8, term_length: usize,
        work: *mut u8, work_length: usize, out: *mut u8, out_length: usize,
    ) -> Answer;

    fn hitac_search(
        table: *const u8, table_length: usize, job: *const u8, job_length: usize, height: u32, budget: u32,
        work: *mut u8, work_length: usize, out: *mut u8, out_length: usize,
    ) -> Answer;

    fn hitac_run_halting(
        table: *const u8, table_length: usize, job: *const u8, job_length: usize, budget: u32,
        work: *mut u8, work_length: usize, frames: *mut Frame, frames_length: usize,
        out: *mut u8, out_length: usize, state: *mut u8, state_length: usize,
    ) -> Answer;

    fn hitac_resume(
        table: *const u8, table_length: usize, job: *const u8, job_length: usize,
        saved: *const u8, saved_length: usize, budget: u32,
        work: *mut u8, work_length: usize, frames: *mut Frame, frames_length: usize,
        out: *mut u8, out_length: usize, state: *mut u8, state_length: usize,
    ) -> Answer;
}

pub fn version() -> u32 {
    // SAFETY: it takes nothing.
    unsafe { hitac_version() }
}

// In each call below the pointers and lengths are those of slices, and a slice that is lent to be written overlaps no other.

pub fn check(table: &[u8], proof: &[u8], work: &mut [u8]) -> Answer {
    // SAFETY: as said above.
    unsafe {
        hitac_check(
            table.as_ptr(), table.len(), proof.as_ptr(), proof.len(),
            work.as_mut_ptr(), work.len(),
        )
    }
}

pub fn run(table: &[u8], job: &[u8], budget: u32, work: &mut [u8], out: &mut [u8]) -> Answer {
    // SAFETY: as said above.
    unsafe {
        hitac_run(
            table.as_ptr(), table.len(), job.as_ptr(), job.len(), budget,
            work.as_mut_ptr(), work.len(), out.as_mut_ptr(), out.len(),
        )
    }
}

pub fn flatten(table: &[u8], proof: &[u8], work: &mut [u8], out: &mut [u8]) -> Answer {
    // SAFETY: as said above.
    unsafe {
        hitac_flatten(
            table.as_ptr(), table.len(), proof.as_ptr(), proof.len(),
            work.as_mut_ptr(), work.len(), out.as_mut_ptr(), out.len(),
        )
    }
}

pub fn check_flat(table: &[u8], flat: &[u8], work: &mut [u8]) -> Answer {
    // SAFETY: as said above.
    unsafe {
        hitac_check_flat(
            table.as_ptr(), table.len(), flat.as_ptr(), flat.len(),
            work.as_mut_ptr(), work.len(),
        )
    }
}

pub fn write_proof(table: &[u8], flat: &[u8], work: &mut [u8], out: &mut [u8]) -> Answer {
    // SAFETY: as said above.
    unsafe {
        hitac_write_proof(
            table.as_ptr(), table.len(), flat.as_ptr(), flat.len(),
            work.as_mut_ptr(), work.len(), out.as_mut_ptr(), out.len(),
        )
    }
}

pub fn read_text(text: &[u8], work: &mut [u8], out: &mut [u8]) -> Answer {
    // SAFETY: as said above.
    unsafe {
        hitac_read_text(
            text.as_ptr(), text.len(),
            work.as_mut_ptr(), work.len(), out.as_mut_ptr(), out.len(),
        )
    }
}

pub fn write_text(term: &[u8], work: &mut [u8], out: &mut [u8]) -> Answer {
    // SAFETY: as said above.
    unsafe {
        hitac_write_text(
            term.as_ptr(), term.len(),
            work.as_mut_ptr(), work.len(), out.as_mut_ptr(), out.len(),
        )
    }
}

pub fn search(table: &[u8], job: &[u8], height: u32, budget: u32, work: &mut [u8], out: &mut [u8]) -> Answer {
    // SAFETY: as said above.
    unsafe {
        hitac_search(
            table.as_ptr(), table.len(), job.as_ptr(), job.len(), height, budget,
            work.as_mut_ptr(), work.len(), out.as_mut_ptr(), out.len(),
        )
    }
}

/// What the calls that may halt are lent.
pub struct Lent<'a> {
    pub work: &'a mut [u8],
    pub frames: &'a mut [Frame],
    pub out: &'a mut [u8],
    pub state: &'a mut [u8],
}

pub fn run_halting(table: &[u8], job: &[u8], budget: u32, lent: Lent) -> Answer {
    let Lent { work, frames, out, state } = lent;
    // SAFETY: as said above.
    unsafe {
        hitac_run_halting(
            table.as_ptr(), table.len(), job.as_ptr(), job.len(), budget,
            work.as_mut_ptr(), work.len(), frames.as_mut_ptr(), frames.len(),
            out.as_mut_ptr(), out.len(), state.as_mut_ptr(), state.len(),
        )
    }
}

pub fn resume(table: &[u8], job: &[u8], saved: &[u8], budget: u32, lent: Lent) -> Answer {
    let Lent { work, frames, out, state } = lent;
    // SAFETY: as said above.
    unsafe {
        hitac_resume(
            table.as_ptr(), table.len(), job.as_ptr(), job.len(),
            saved.as_ptr(), saved.len(), budget,
            work.as_mut_ptr(), work.len(), frames.as_mut_ptr(), frames.len(),
            out.as_mut_ptr(), out.len(), state.as_mut_ptr(), state.len(),
        )
    }
}
