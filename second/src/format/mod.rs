//! The bytes of the five kinds of file: reading them, counting in them and writing
//! them.

pub mod count;
pub mod fields;
pub mod flat;
pub mod job;
pub mod proof;
pub mod table;
pub mod tags;
pub mod term_file;
pub mod terms;
pub mod write;
