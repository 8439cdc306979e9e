//! The count of a term's fields alone (document 02, P3). In the library it is a
//! part of check and has no name of its own, so crates/counting has it as a C
//! function.

use boundary::library::Loaded;
use second::format::count::count_fields;
use second::format::proof::Proof;
use std::ffi::c_void;
use std::mem::transmute;
use std::path::Path;

/// Takes pointer and length of a file, and the place and the end of a term that was read.
type CountFunction = unsafe extern "C" fn(*const u8, usize, usize, usize) -> usize;

/// A term to be counted, in the proof file where it stands.
pub struct Counting {
    function: CountFunction,
    proof: Vec<u8>,
    at: usize,
    end: usize,
}

impl Counting {
    pub fn load(library: &Path, proof: Vec<u8>) -> Result<Counting, String> {
        let address = Loaded::load(library)?.symbol(c"bench_count_fields")?;
        // SAFETY: crates/counting has the function with this type.
        let function = unsafe { transmute::<*mut c_void, CountFunction>(address) };
        Ok(Counting::by(function, proof))
    }

    fn by(function: CountFunction, proof: Vec<u8>) -> Counting {
        let (at, end) = term_of(&proof);
        Counting { function, proof, at, end }
    }

    pub fn library_count(&self) -> usize {
        // SAFETY: the file is as long as it is said, and a term was read from the place to the end.
        unsafe { (self.function)(self.proof.as_ptr(), self.proof.len(), self.at, self.end) }
    }

    pub fn second_count(&self) -> usize {
        count_fields(&self.proof, self.at, self.end)
    }
}

/// Where the term of a proof begins and where it ends: behind the goals, and in front of those remaining.
pub fn term_of(proof: &[u8]) -> (usize, usize) {
    let read = Proof::read(proof).expect("the proof reads");
    (read.terms.place(read.hiproof), read.remaining_place)
}

#[cfg(test)]
mod tests {
    use super::*;
    use crate::files;

    /// Gives back what it is given.
    unsafe extern "C" fn written_down(bytes: *const u8, length: usize, at: usize, end: usize) -> usize {
        usize::from(*bytes.add(at)) + 100 * at + 10_000 * end + 1_000_000 * length
    }

    /// Five bytes of goals, two labels of five bytes, an id of three, and five bytes of goals remaining.
    #[test]
    fn a_count_is_given_the_term_in_its_file() {
        let (_, proof) = files::labels(3);
        let counting = Counting::by(written_down, proof);
        assert_eq!(counting.library_count(), 23_180_518);
        assert_eq!(counting.second_count(), 3);
    }

    #[test]
    fn a_missing_library_is_an_error_in_words() {
        let message = Counting::load(Path::new("no/such/counting.so"), files::labels(3).1).err().unwrap();
        assert!(message.contains("no/such/counting.so"), "{message}");
    }
}
