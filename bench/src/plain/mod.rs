//! The compilers, the checker, the comparison with a plan, the search for a path, the count of plans, the trials for a better numbering, the
//! runners, what is left over of a solution, and the file's writer and reader as one would write them in plain Rust, with the same checks
//! and operations; and dense Crout.

pub mod census;
pub mod check;
pub mod compact;
pub mod compare;
pub mod compile;
pub mod dense;
pub mod file;
pub mod many;
pub mod order;
pub mod path;
pub mod residual;
pub mod run;
pub mod sweep;
#[cfg(test)]
mod tests;

/// A refusal's number and its detail.
pub type Refusal = (u32, u64);
