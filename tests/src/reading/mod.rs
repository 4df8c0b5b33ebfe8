//! The documents read once more, in plain Rust and by other means than the proved code where there are any.

pub mod census;
pub mod check;
pub mod compact;
pub mod compare;
pub mod costs;
pub mod dense;
pub mod file;
pub mod labels;
pub mod many;
pub mod order;
pub mod path;
pub mod plan;
pub mod residual;
pub mod run;
pub mod sweep;

/// A refusal's number and its detail.
pub type Refusal = (u32, u64);

/// What a check answers: nothing wrong, or a refusal.
pub type Verdict = Result<(), Refusal>;
