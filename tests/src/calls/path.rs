//! `crout_fill_path`.

use super::Answer;

mod exported {
    extern "C" {
        pub fn crout_fill_path(
            n: u32,
            plan: *const u32,
            plan_len: usize,
            i: u32,
            j: u32,
            work: *mut u32,
            work_len: usize,
            list: *mut u32,
            list_len: usize,
            out: *mut u64,
        ) -> u64;
    }
}

/// A path of place (i, j) in the list. out: its entries, 0, 0.
pub fn fill_path(n: u32, plan: &[u32], (i, j): (u32, u32), work: &mut [u32], list: &mut [u32]) -> Answer {
    let (work_len, work) = (work.len(), work.as_mut_ptr());
    let (list_len, list) = (list.len(), list.as_mut_ptr());
    Answer::of(|out| unsafe {
        exported::crout_fill_path(n, plan.as_ptr(), plan.len(), i, j, work, work_len, list, list_len, out)
    })
}
