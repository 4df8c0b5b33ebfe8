//! `crout_costs_most`.

mod exported {
    extern "C" {
        pub fn crout_costs_most(n: u32, plan: *const u32, plan_len: usize, work: *mut u32, work_len: usize) -> u64;
    }
}

/// Whether a plan costs as many products as a full table: 1 or 0, or the refusal times 2^32 plus its detail.
pub fn costs_most(n: u32, plan: &[u32], work: &mut [u32]) -> u64 {
    let (work_len, work) = (work.len(), work.as_mut_ptr());
    unsafe { exported::crout_costs_most(n, plan.as_ptr(), plan.len(), work, work_len) }
}
