//! The built engine, called through its C functions, beside the second engine.
//!
//! - `library`: the shared library and its functions;
//! - `lent`: lent spaces and frames with guards, poisoned before a call, inspected after;
//! - `compare`: one case through both engines, and every difference in words;
//! - `exact`: one case in heap blocks of exact size, for a memory checker;
//! - `mix`: generated cases of all kinds, each determined by seed and number;
//! - `tally`: what was called and what was answered;
//! - `record`: a case that differs, as a file that replays it;
//! - `watch`: the calls in a process of their own;
//! - `options`: command lines of name and value.

pub mod compare;
pub mod exact;
pub mod lent;
pub mod library;
pub mod mix;
pub mod options;
pub mod record;
pub mod tally;
pub mod watch;
