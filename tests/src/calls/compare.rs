//! `crout_compare`.

mod exported {
    extern "C" {
        pub fn crout_compare(
            n: u32,
            plan: *const u32,
            plan_len: usize,
            work: *mut u32,
            work_len: usize,
            words: *const u32,
            words_len: usize,
        ) -> u64;
    }
}

/// Compares a program with the one that is compiled for a plan: 0, or the refusal times 2^32 plus its detail.
pub fn compare(n: u32, plan: &[u32], work: &mut [u32], words: &[u32]) -> u64 {
    let (work_len, work) = (work.len(), work.as_mut_ptr());
    unsafe { exported::crout_compare(n, plan.as_ptr(), plan.len(), work, work_len, words.as_ptr(), words.len()) }
}
