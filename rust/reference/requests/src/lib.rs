//! What a comparison is made of, with nothing of docs/src in it and nothing of the proved crates:
//!
//! - [`calls`]: the list of calls, with their numbers, their blocks and their answers;
//! - [`format`]: requests and outcomes, and how they are written as words;
//! - [`refusals`]: the scope's section 'Answers and their numbers', with the tolerance that a caller chooses, read once more in plain Rust;
//! - [`generators`]: random requests from a seed;
//! - [`turning`]: random requests with turns of a given size, none of them refused;
//! - [`bench_list`]: the scope's bench list, with its answers written out by hand, and inputs beside it.

pub mod bench_list;
pub mod calls;
pub mod format;
pub mod generators;
pub mod random;
pub mod refusals;
pub mod turning;

pub use calls::{CALLS, Call};
pub use format::{Outcome, Request};
pub use refusals::Refusal;
