//! How many plans are accepted, and how many are refused for each missing pivot: every set as marks, and the slot pass.

use super::Refusal;
use super::compile::Table;

pub fn count_plans(n: u32, out: &mut [u64; 5]) -> Result<(), Refusal> {
    *out = [0; 5];
    if !(1..=4).contains(&n) {
        return Err((30, 0));
    }
    for set in 0..1u32 << (n * n) {
        let mut work = [0; 16];
        for (k, mark) in work.iter_mut().enumerate() {
            *mark = set >> k & 1;
        }
        out[Table::fill(n as usize, &mut work[..(n * n) as usize]).missing] += 1;
    }
    Ok(())
}
