//! `crout_run_many`.

use super::Answer;

mod exported {
    extern "C" {
        pub fn crout_run_many(
            words: *const u32,
            words_len: usize,
            count: u32,
            a: *const f64,
            a_len: usize,
            b: *const f64,
            b_len: usize,
            limit: f64,
            c: *mut f64,
            c_len: usize,
            y: *mut f64,
            y_len: usize,
            x: *mut f64,
            x_len: usize,
            out: *mut u64,
        ) -> u64;
    }
}

/// A program, coefficients and so many right sides, one after another; and the limit.
#[derive(Clone, Copy, Debug)]
pub struct Call<'a> {
    pub words: &'a [u32],
    pub count: u32,
    pub a: &'a [f64],
    pub b: &'a [f64],
    pub limit: f64,
}

/// Runs a program on many right sides; out is the chained records read, then for each side what `run_limit` would return, and products,
/// quotients, products that vanished, or the table, the target's number, 0; zeros past the last side.
pub fn run_many(call: Call, c: &mut [f64], y: &mut [f64], x: &mut [f64]) -> Answer<257> {
    let Call { words, count, a, b, limit } = call;
    let [(c, c_len), (y, y_len), (x, x_len)] = [c, y, x].map(|table| (table.as_mut_ptr(), table.len()));
    Answer::of(|out| unsafe {
        let (words_len, words) = (words.len(), words.as_ptr());
        let [(a, a_len), (b, b_len)] = [a, b].map(|values| (values.as_ptr(), values.len()));
        exported::crout_run_many(words, words_len, count, a, a_len, b, b_len, limit, c, c_len, y, y_len, x, x_len, out)
    })
}
