//! `crout_order`.

use super::Answer;

mod exported {
    extern "C" {
        pub fn crout_order(
            n: u32,
            plan: *const u32,
            plan_len: usize,
            trials: u32,
            work: *mut u32,
            work_len: usize,
            numbering: *mut u32,
            numbering_len: usize,
            out: *mut u64,
        ) -> u64;
    }
}

/// A better numbering after so many trials. out: its slots, the trials made, the distance.
pub fn order(n: u32, plan: &[u32], trials: u32, work: &mut [u32], numbering: &mut [u32]) -> Answer {
    let (work_len, work) = (work.len(), work.as_mut_ptr());
    let (numbering_len, numbering) = (numbering.len(), numbering.as_mut_ptr());
    Answer::of(|out| unsafe {
        exported::crout_order(n, plan.as_ptr(), plan.len(), trials, work, work_len, numbering, numbering_len, out)
    })
}
