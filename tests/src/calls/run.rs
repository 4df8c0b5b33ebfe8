//! `crout_run` and `crout_solve`, and the same with a limit.

use super::Answer;

exported! {
    crout_run: [], [u32, f64, f64], [], [f64, f64, f64];
    crout_run_limit: [], [u32, f64, f64], [f64], [f64, f64, f64];
    crout_solve: [u32], [u32, f64, f64], [], [u32, u32, f64, f64, f64];
    crout_solve_limit: [u32], [u32, f64, f64], [f64], [u32, u32, f64, f64, f64];
}

/// Runs a program; out is products, quotients, 0, or after 16 and 17 the table, the target's number, 0.
pub fn run(words: &[u32], a: &[f64], b: &[f64], c: &mut [f64], y: &mut [f64], x: &mut [f64]) -> Answer {
    call!(crout_run, [], [words, a, b], [], [c, y, x])
}

/// Runs a program with a limit; out is products, quotients, products that vanished, sweeps, or after 16 and 17 the table, the target's
/// number, 0, 0.
pub fn run_limit(words: &[u32], a: &[f64], b: &[f64], limit: f64, c: &mut [f64], y: &mut [f64], x: &mut [f64]) -> Answer<4> {
    call!(crout_run_limit, [], [words, a, b], [limit], [c, y, x])
}

/// A plan with its coefficients and its right side.
#[derive(Clone, Copy)]
pub struct System<'a> {
    pub n: u32,
    pub plan: &'a [u32],
    pub a: &'a [f64],
    pub b: &'a [f64],
}

/// Compiles the plan and runs the program; out is as `run`'s.
pub fn solve(system: System, work: &mut [u32], words: &mut [u32], c: &mut [f64], y: &mut [f64], x: &mut [f64]) -> Answer {
    let System { n, plan, a, b } = system;
    call!(crout_solve, [n], [plan, a, b], [], [work, words, c, y, x])
}

/// Compiles the plan and runs the program with a limit; out is as `run_limit`'s.
pub fn solve_limit(
    system: System,
    limit: f64,
    work: &mut [u32],
    words: &mut [u32],
    c: &mut [f64],
    y: &mut [f64],
    x: &mut [f64],
) -> Answer<4> {
    let System { n, plan, a, b } = system;
    call!(crout_solve_limit, [n], [plan, a, b], [limit], [work, words, c, y, x])
}
