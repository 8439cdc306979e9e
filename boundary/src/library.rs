//! Shared libraries, loaded by path, and the C functions of the entries.

use second::generate::case::Entry;
use second::{Answer, Frame};
use std::ffi::{c_char, c_int, c_void, CStr, CString};
use std::mem::transmute;
use std::os::unix::ffi::OsStrExt;
use std::path::Path;

/// Pointer and length of a file, which the callee only reads.
pub type File = (*const u8, usize);
/// Pointer and length of a lent space.
pub type Lent = (*mut u8, usize);
/// Pointer and number of lent frames.
pub type LentFrames = (*mut Frame, usize);

pub type CheckFunction = unsafe extern "C" fn(*const u8, usize, *const u8, usize, *mut u8, usize) -> Answer;
pub type WriteFunction =
    unsafe extern "C" fn(*const u8, usize, *const u8, usize, *mut u8, usize, *mut u8, usize) -> Answer;
pub type RunFunction =
    unsafe extern "C" fn(*const u8, usize, *const u8, usize, u32, *mut u8, usize, *mut u8, usize) -> Answer;

/// As a run, with a height in front of the budget.
pub type SearchFunction =
    unsafe extern "C" fn(*const u8, usize, *const u8, usize, u32, u32, *mut u8, usize, *mut u8, usize) -> Answer;

/// As a run, with frames behind the work space and a second space behind the output.
pub type RunHaltingFunction = unsafe extern "C" fn(
    *const u8,
    usize,
    *const u8,
    usize,
    u32,
    *mut u8,
    usize,
    *mut Frame,
    usize,
    *mut u8,
    usize,
    *mut u8,
    usize,
) -> Answer;

/// The same with a saved state in front of the budget.
pub type ResumeFunction = unsafe extern "C" fn(
    *const u8,
    usize,
    *const u8,
    usize,
    *const u8,
    usize,
    u32,
    *mut u8,
    usize,
    *mut Frame,
    usize,
    *mut u8,
    usize,
    *mut u8,
    usize,
) -> Answer;

/// Takes one file and no table, and writes.
pub type TextFunction = unsafe extern "C" fn(*const u8, usize, *mut u8, usize, *mut u8, usize) -> Answer;

/// The functions of the entries. `Answer` of the second engine has the layout of the C
/// struct: twelve u32 in the order of docs/ENTRIES.md; `Frame` has that of the header.
#[derive(Clone, Copy)]
pub struct Library {
    pub check: CheckFunction,
    pub run: RunFunction,
    pub flatten: WriteFunction,
    pub check_flat: CheckFunction,
    pub write_proof: WriteFunction,
    pub read_text: TextFunction,
    pub write_text: TextFunction,
    pub search: SearchFunction,
    pub run_halting: RunHaltingFunction,
    pub resume: ResumeFunction,
}

/// What one call is given. Saved state, frames and second space count only for the
/// entries that may halt.
pub struct Call {
    pub entry: Entry,
    pub table: File,
    pub other: File,
    pub saved: File,
    pub height: u32,
    pub budget: u32,
    pub work: Lent,
    pub frames: LentFrames,
    pub output: Lent,
    pub state: Lent,
}

extern "C" {
    fn dlopen(path: *const c_char, flags: c_int) -> *mut c_void;
    fn dlsym(library: *mut c_void, name: *const c_char) -> *mut c_void;
    fn dlerror() -> *const c_char;
}

/// Every symbol is looked up at once, so that a missing one is reported here and
/// not in the middle of a call.
const RTLD_NOW: c_int = 2;

/// A shared library that was loaded; it stays so until the program ends.
pub struct Loaded(*mut c_void);

impl Loaded {
    pub fn load(path: &Path) -> Result<Loaded, String> {
        let name = CString::new(path.as_os_str().as_bytes()).map_err(|_| "the path holds a zero byte".to_string())?;
        // SAFETY: the name ends with a zero byte; running a library's
        // initialisers is what loading it means.
        let handle = unsafe { dlopen(name.as_ptr(), RTLD_NOW) };
        if handle.is_null() {
            return Err(loader_message());
        }
        Ok(Loaded(handle))
    }

    /// The address of what has that name in the library.
    pub fn symbol(&self, name: &CStr) -> Result<*mut c_void, String> {
        // SAFETY: the handle is of a library that is never closed, and the name ends with a zero byte.
        let address = unsafe { dlsym(self.0, name.as_ptr()) };
        if address.is_null() {
            return Err(loader_message());
        }
        Ok(address)
    }
}

impl Library {
    pub fn load(path: &Path) -> Result<Library, String> {
        let loaded = Loaded::load(path)?;
        // SAFETY: include/hitac.h declares the functions with these types.
        unsafe {
            Ok(Library {
                check: transmute::<*mut c_void, CheckFunction>(loaded.symbol(c"hitac_check")?),
                run: transmute::<*mut c_void, RunFunction>(loaded.symbol(c"hitac_run")?),
                flatten: transmute::<*mut c_void, WriteFunction>(loaded.symbol(c"hitac_flatten")?),
                check_flat: transmute::<*mut c_void, CheckFunction>(loaded.symbol(c"hitac_check_flat")?),
                write_proof: transmute::<*mut c_void, WriteFunction>(loaded.symbol(c"hitac_write_proof")?),
                read_text: transmute::<*mut c_void, TextFunction>(loaded.symbol(c"hitac_read_text")?),
                write_text: transmute::<*mut c_void, TextFunction>(loaded.symbol(c"hitac_write_text")?),
                search: transmute::<*mut c_void, SearchFunction>(loaded.symbol(c"hitac_search")?),
                run_halting: transmute::<*mut c_void, RunHaltingFunction>(loaded.symbol(c"hitac_run_halting")?),
                resume: transmute::<*mut c_void, ResumeFunction>(loaded.symbol(c"hitac_resume")?),
            })
        }
    }

    /// Makes one call.
    ///
    /// # Safety
    /// Every pointer is good for its length, and no two regions overlap.
    pub unsafe fn call(&self, call: &Call) -> Answer {
        let Call { entry, table, other, saved, height, budget, work, frames, output, state } = *call;
        match entry {
            Entry::Check => (self.check)(table.0, table.1, other.0, other.1, work.0, work.1),
            Entry::CheckFlat => (self.check_flat)(table.0, table.1, other.0, other.1, work.0, work.1),
            Entry::Flatten => (self.flatten)(table.0, table.1, other.0, other.1, work.0, work.1, output.0, output.1),
            Entry::WriteProof => {
                (self.write_proof)(table.0, table.1, other.0, other.1, work.0, work.1, output.0, output.1)
            }
            Entry::ReadText => (self.read_text)(other.0, other.1, work.0, work.1, output.0, output.1),
            Entry::WriteText => (self.write_text)(other.0, other.1, work.0, work.1, output.0, output.1),
            Entry::Run => (self.run)(table.0, table.1, other.0, other.1, budget, work.0, work.1, output.0, output.1),
            Entry::Search => {
                let (table, length, other, other_length) = (table.0, table.1, other.0, other.1);
                (self.search)(table, length, other, other_length, height, budget, work.0, work.1, output.0, output.1)
            }
            Entry::RunHalting => (self.run_halting)(
                table.0, table.1, other.0, other.1, budget, work.0, work.1, frames.0, frames.1, output.0, output.1,
                state.0, state.1,
            ),
            Entry::Resume => (self.resume)(
                table.0, table.1, other.0, other.1, saved.0, saved.1, budget, work.0, work.1, frames.0, frames.1,
                output.0, output.1, state.0, state.1,
            ),
        }
    }
}

/// What the loader says about its last failure.
fn loader_message() -> String {
    // SAFETY: dlerror gives null or a string that ends with a zero byte.
    let message = unsafe { dlerror() };
    if message.is_null() {
        return "the library cannot be loaded".to_string();
    }
    unsafe { CStr::from_ptr(message) }.to_string_lossy().into_owned()
}

#[cfg(test)]
mod tests {
    use super::*;

    #[test]
    fn a_missing_library_is_an_error_in_words() {
        let message = Library::load(Path::new("no/such/library.so")).err().unwrap();
        assert!(message.contains("no/such/library.so"), "{message}");
    }
}
