//! `crout_compile`, `crout_compile_compact` and `crout_compile_sweep`.

use super::Answer;

exported! {
    crout_compile: [u32], [u32], [], [u32, u32];
    crout_compile_compact: [u32], [u32], [], [u32, u32];
    crout_compile_sweep: [u32], [u32], [], [u32, u32];
}

/// Compiles a plan; out is slots, products, records.
pub fn compile(n: u32, plan: &[u32], work: &mut [u32], words: &mut [u32]) -> Answer {
    call!(crout_compile, [n], [plan], [], [work, words])
}

/// The same with slots that are used again; it needs four times the work numbers.
pub fn compile_compact(n: u32, plan: &[u32], work: &mut [u32], words: &mut [u32]) -> Answer {
    call!(crout_compile_compact, [n], [plan], [], [work, words])
}

/// A plan to a program of sweeps; out is 0, products, records.
pub fn compile_sweep(n: u32, plan: &[u32], work: &mut [u32], words: &mut [u32]) -> Answer {
    call!(crout_compile_sweep, [n], [plan], [], [work, words])
}
