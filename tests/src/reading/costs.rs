//! Document 02, A.14: whether a plan costs as many products as a full table, whose products are counted like the plan's.

use super::{Refusal, plan};

/// Checks 1 to 5, which leave in the work numbers what the compiler leaves there, then yes or no.
pub fn costs_most(n: u32, plan: &[u32], work: &mut [u32]) -> Result<bool, Refusal> {
    match plan::compile(n, plan, work, &mut []).expect_err("no words are lent") {
        (6, _) => {
            let full: Vec<u32> = (1..=n * n).collect();
            Ok(plan::Held::of(n, plan).products() == plan::Held::of(n, &full).products())
        }
        refusal => Err(refusal),
    }
}
