//! `crout_residual`.

mod exported {
    extern "C" {
        pub fn crout_residual(
            n: u32,
            plan: *const u32,
            plan_len: usize,
            a: *const f64,
            a_len: usize,
            b: *const f64,
            b_len: usize,
            x: *const f64,
            x_len: usize,
            words: *mut u64,
            words_len: usize,
        ) -> u64;
    }
}

/// What is left over of each row, 66 words each: 0, or the refusal times 2^32 plus its detail.
pub fn residual(n: u32, plan: &[u32], a: &[f64], b: &[f64], x: &[f64], words: &mut [u64]) -> u64 {
    let lens = (plan.len(), a.len(), b.len(), x.len(), words.len());
    let (plan, a, b, x, words) = (plan.as_ptr(), a.as_ptr(), b.as_ptr(), x.as_ptr(), words.as_mut_ptr());
    unsafe { exported::crout_residual(n, plan, lens.0, a, lens.1, b, lens.2, x, lens.3, words, lens.4) }
}
