//! Dense Crout on the full table, (2.4) to (2.7).

use super::labels;

/// A refusal, 16 or 17, at the formula then worked out.
#[derive(Clone, Copy, Debug, PartialEq, Eq)]
pub enum At {
    /// l or u of a place.
    Place(usize, usize),
    Y(usize),
    X(usize),
}

/// The solution: the full table of l and u by label, y and x; and how many products vanished.
#[derive(Clone, Debug, PartialEq)]
pub struct Solution {
    pub table: Vec<f64>,
    pub y: Vec<f64>,
    pub x: Vec<f64>,
    pub vanished: u64,
}

/// A rounded result: not finite is 16, a zero becomes +0.
fn settled(value: f64) -> Result<f64, u32> {
    if !value.is_finite() {
        Err(16)
    } else if value == 0.0 {
        Ok(0.0)
    } else {
        Ok(value)
    }
}

pub fn product(a: f64, b: f64) -> Result<f64, u32> {
    settled(a * b)
}

pub fn difference(a: f64, b: f64) -> Result<f64, u32> {
    settled(a - b)
}

pub fn quotient(a: f64, b: f64) -> Result<f64, u32> {
    if b == 0.0 { Err(17) } else { settled(a / b) }
}

/// A value as it is read: -0 as +0.
pub fn read(value: f64) -> f64 {
    if value == 0.0 { 0.0 } else { value }
}

/// Whether a pivot is refused, or an entry that moves by so much has settled.
pub fn is_small(value: f64, limit: f64) -> bool {
    value.abs() <= limit
}

/// Whether two factors that aren't zero give zero.
pub fn vanishes(a: f64, b: f64) -> bool {
    a != 0.0 && b != 0.0 && a * b == 0.0
}

/// A start less each product, in order; those that vanish are counted.
fn less_all(start: f64, mut products: impl Iterator<Item = (f64, f64)>, vanished: &mut u64) -> Result<f64, u32> {
    products.try_fold(start, |acc, (a, b)| {
        *vanished += u64::from(vanishes(a, b));
        difference(acc, product(a, b)?)
    })
}

pub fn dense(n: u32, plan: &[u32], a: &[f64], b: &[f64], limit: f64) -> Result<Solution, (u32, At)> {
    let size = n as usize;
    // row and column 0 are unused
    let mut table = vec![vec![0.0; size + 1]; size + 1];
    let places = labels::places(n);
    for (&label, &value) in plan.iter().zip(a) {
        let (i, j) = places[label as usize - 1];
        table[i as usize][j as usize] = read(value);
    }
    let mut y = vec![0.0; size + 1];
    let mut vanished = 0;
    for m in 1..=size {
        for i in m..=size {
            let at = |number| (number, At::Place(i, m));
            let value = less_all(table[i][m], (1..m).map(|h| (table[i][h], table[h][m])), &mut vanished).map_err(at)?;
            if i == m && is_small(value, limit) {
                return Err(at(17));
            }
            table[i][m] = value;
        }
        let pivot = table[m][m];
        y[m] = less_all(read(b[m - 1]), (1..m).map(|h| (table[m][h], y[h])), &mut vanished)
            .and_then(|v| quotient(v, pivot))
            .map_err(|number| (number, At::Y(m)))?;
        for j in m + 1..=size {
            table[m][j] = less_all(table[m][j], (1..m).map(|h| (table[m][h], table[h][j])), &mut vanished)
                .and_then(|v| quotient(v, pivot))
                .map_err(|number| (number, At::Place(m, j)))?;
        }
    }
    let mut x = vec![0.0; size + 1];
    for i in (1..=size).rev() {
        let products = (i + 1..=size).rev().map(|h| (table[i][h], x[h]));
        x[i] = less_all(y[i], products, &mut vanished).map_err(|number| (number, At::X(i)))?;
    }
    let by_label = places.iter().map(|&(i, j)| table[i as usize][j as usize]).collect();
    Ok(Solution { table: by_label, y: y.split_off(1), x: x.split_off(1), vanished })
}
