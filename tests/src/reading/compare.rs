//! Document 02, A.10: programs edited by hand. The plan is compiled anew, and the records along the two chains are laid side by side.

use super::check::{chain, check};
use super::{Refusal, Verdict, plan};

/// Checks 1 to 5, which leave in the work numbers what the compiler leaves there; how many records it writes.
fn admitted(n: u32, plan: &[u32], work: &mut [u32]) -> Result<usize, Refusal> {
    match plan::compile(n, plan, work, &mut []).expect_err("no words are lent") {
        (6, records) => Ok(records as usize),
        refusal => Err(refusal),
    }
}

/// Kind, p and q along the chain, each with its record.
fn chained(words: &[u32]) -> Vec<([u32; 3], u64)> {
    let record = |at: u64| [0, 1, 2].map(|column| words[4 * at as usize + column]);
    chain(words).into_iter().map(|at| (record(at), at)).collect()
}

/// 28 for two programs that have passed the check.
fn compare_with(own: &[u32], words: &[u32]) -> Verdict {
    if own[..3] != words[..3] {
        return Err((28, 0));
    }
    let (own, edited) = (chained(own), chained(words));
    let alike = own.iter().zip(&edited).take_while(|(own, edited)| own.0 == edited.0).count();
    match edited.get(alike) {
        Some(&(_, differs)) => Err((28, differs)),
        None if alike < own.len() => Err((28, edited.last().map_or(0, |&(_, last)| last))),
        None => Ok(()),
    }
}

/// The verdict on a program for a plan, and what is left in the work numbers.
pub fn compare(n: u32, plan: &[u32], work: &mut [u32], words: &[u32]) -> Verdict {
    let records = admitted(n, plan, work)?;
    check(words)?;
    let mut own = vec![0; 4 * records];
    plan::compile(n, plan, work, &mut own)?;
    compare_with(&own, words)
}
