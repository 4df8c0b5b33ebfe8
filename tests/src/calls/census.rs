//! `crout_count_plans`.

mod exported {
    extern "C" {
        pub fn crout_count_plans(n: u32, out: *mut u64) -> u64;
    }
}

/// The plans of order n that are accepted, and those refused for each missing pivot: 0, or the refusal times 2^32 plus its detail.
pub fn count_plans(n: u32, out: &mut [u64; 5]) -> u64 {
    unsafe { exported::crout_count_plans(n, out.as_mut_ptr()) }
}
