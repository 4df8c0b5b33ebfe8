//! "Places and labels".

/// Every place of a table of order n in dense order: for m = 1..n column m from the diagonal down, then row m right of it.
/// The place at index K - 1 has label K.
pub fn places(n: u32) -> Vec<(u32, u32)> {
    (1..=n).flat_map(|m| (m..=n).map(move |i| (i, m)).chain((m + 1..=n).map(move |j| (m, j)))).collect()
}

/// The label of a place by (2.8), in wide integers and with nothing left out of range.
pub fn label(n: u32, i: u32, j: u32) -> u32 {
    let in_range = |k: u32| (1..=n).contains(&k);
    if !(1..=600).contains(&n) || !in_range(i) || !in_range(j) {
        return 0;
    }
    let (n, i, j) = (i64::from(n), i64::from(i), i64::from(j));
    let label = if i >= j { (j - 1) * (2 * n - j) + i } else { i * (2 * n - i) - n + j };
    u32::try_from(label).expect("a label of an order up to 600 fits")
}
