//! Document 02, A.13: every set of labels, with and without each of them, by the fill that elimination gives.

use super::{Refusal, plan::Held};

/// The plans accepted, then those refused for pivot 1 to 4.
pub fn count_plans(n: u32) -> Result<[u64; 5], Refusal> {
    if !(1..=4).contains(&n) {
        return Err((30, 0));
    }
    let mut counts = [0; 5];
    count(n, &mut Vec::new(), 1, &mut counts);
    Ok(counts)
}

/// The sets that go on from these labels with some of those from `next` on.
fn count(n: u32, labels: &mut Vec<u32>, next: u32, counts: &mut [u64; 5]) {
    if next > n * n {
        counts[Held::of(n, labels).missing().unwrap_or(0)] += 1;
        return;
    }
    count(n, labels, next + 1, counts);
    labels.push(next);
    count(n, labels, next + 1, counts);
    labels.pop();
}
