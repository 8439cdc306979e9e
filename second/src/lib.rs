//! The second Hitac engine.
//!
//! An independent implementation of document 01 (the scope) and of P1, P3, P5, P6,
//! P7, P8 and P13 of document 02 (the change requests), written from these documents,
//! the paper and the fixed readings alone. Comments quote the sentence that a piece of
//! code follows, or name the reading: READINGS A26 is reading A26, which
//! docs/DECISIONS.md records under the same number; B1.3 is a reading of P1, B3.3 one
//! of P3, B5.3 one of P5, B6.1 one of P6, B7.1 one of P7, B8.4 one of P8 and B13.4 one
//! of P13.
//!
//! - `entries`: the ten public calls, with everything that is lent to them;
//! - `format`: the bytes of the five kinds of file;
//! - `notation`: terms as text, the marks of P8;
//! - `engine`: what the calls do once the lent spaces are set aside;
//! - `text`: the five kinds of file as text for people;
//! - `generate`: seeded test cases of all shapes and sizes;
//! - `vectors`: the file format in which cases and answers are exchanged.

pub mod answer;
pub mod command_line;
pub mod engine;
pub mod entries;
pub mod format;
pub mod generate;
pub mod limits;
pub mod names;
pub mod notation;
pub mod text;
pub mod vectors;

pub use answer::{Answer, InputFile, Reason, Refusal};
pub use entries::{
    check, check_flat, flatten, read_text, resume, run, run_halting, search, write_proof, write_text, Frame,
};
