//! Document 02, A.12: a better numbering of rooms. The plan of every trial is made and filled anew, where the proved code goes on from the
//! plan before.

use super::{Refusal, labels, plan};

/// One trial: the slots of its plan, whether that plan is accepted, and whether the exchange is kept.
#[derive(Clone, Copy, Debug)]
pub struct Trial {
    pub slots: u64,
    pub is_accepted: bool,
    pub is_kept: bool,
}

/// What the caller is told, and every trial.
#[derive(Clone, Debug)]
pub struct Ordered {
    pub slots: u64,
    pub trials: u64,
    pub distance: u64,
    pub tried: Vec<Trial>,
}

/// "Rows and columns are renumbered together": the plan with place (i, j) where the given one has that of the rooms now at i and j.
pub fn renumbered(n: u32, plan: &[u32], numbering: &[u32]) -> Vec<u32> {
    let room = |position: u32| numbering[position as usize - 1];
    let labelled = (1..).zip(labels::places(n));
    let planned = labelled.filter(|&(_, (i, j))| plan.binary_search(&labels::label(n, room(i), room(j))).is_ok());
    planned.map(|(label, _)| label).collect()
}

/// The slots of a plan, also if it misses a pivot.
pub fn slots(held: &plan::Held) -> u64 {
    held.slots().into_iter().max().map_or(0, u64::from)
}

/// Checks 1 to 5 and 29, which leave in the work numbers what the compiler leaves there, then the trials one after another.
pub fn order(n: u32, plan: &[u32], trials: u32, work: &mut [u32], numbering: &mut [u32]) -> Result<Ordered, Refusal> {
    match plan::compile(n, plan, work, &mut []).expect_err("no words are lent") {
        (6, _) => {}
        refusal => return Err(refusal),
    }
    if numbering.len() != n as usize {
        return Err((29, 0));
    }
    let mut kept: Vec<u32> = (1..=n).collect();
    let mut held = plan::Held::of(n, plan);
    let made = if n == 1 { 0 } else { trials };
    let tried = (0..made)
        .map(|k| {
            let t = 1 + (k % (n - 1)) as usize;
            let mut exchanged = kept.clone();
            exchanged.swap(t - 1, t);
            let other = plan::Held::of(n, &renumbered(n, plan, &exchanged));
            let is_accepted = other.missing().is_none();
            let trial = Trial { slots: slots(&other), is_accepted, is_kept: is_accepted && slots(&other) < slots(&held) };
            if trial.is_kept {
                (kept, held) = (exchanged, other);
            }
            trial
        })
        .collect();
    work[..(n * n) as usize].copy_from_slice(&held.slots());
    numbering.copy_from_slice(&kept);
    Ok(Ordered { slots: slots(&held), trials: made.into(), distance: slots(&held) - plan.len() as u64, tried })
}
