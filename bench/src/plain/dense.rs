//! Dense Crout on the full table, which knows nothing of fill. The table stands row by row, and a row has y as one entry more:
//! y(m) has the formula of a u in column n + 1.
//!
//! A panel is a few m. After each panel its products are taken from all places that come later, so that every formula still
//! subtracts its products with h rising. A formula is tested for 16 once, at its end: what isn't finite stays so.

use std::array;

use crout_tests::reading::dense::At;
use crout_tests::reading::labels;

/// The columns and rows of a panel: as many products are taken from an entry each time that it is loaded.
const PANEL: usize = 8;

/// A refusal, 16 or 17, and its formula.
type Stop = (u32, At);

pub struct Dense {
    n: usize,
    /// The place in the table of each coefficient.
    places: Vec<usize>,
}

impl Dense {
    pub fn new(n: u32, plan: &[u32]) -> Self {
        let (all, width) = (labels::places(n), n as usize + 1);
        let place = |&label: &u32| {
            let (i, j) = all[label as usize - 1];
            (i as usize - 1) * width + j as usize - 1
        };
        Self { n: n as usize, places: plan.iter().map(place).collect() }
    }

    /// A table for `solve`.
    pub fn table(&self) -> Vec<f64> {
        vec![0.0; self.n * (self.n + 1)]
    }

    /// Puts the coefficients into the table, which takes l, u and y, and solves; a pivot is refused up to the limit.
    pub fn solve(&self, a: &[f64], b: &[f64], limit: f64, table: &mut [f64], x: &mut [f64]) -> Result<(), Stop> {
        let width = self.n + 1;
        table.fill(0.0);
        // -0 is read as +0
        for (&place, value) in self.places.iter().zip(a) {
            table[place] = value + 0.0;
        }
        for (row, value) in table.chunks_exact_mut(width).zip(b) {
            row[self.n] = value + 0.0;
        }
        for first in (0..self.n).step_by(PANEL) {
            let end = (first + PANEL).min(self.n);
            for m in first..end {
                column(width, first, m, limit, table)?;
                row(width, first, m, table)?;
            }
            if end < self.n {
                trail(width, first, table);
            }
        }
        back(width, table, x)
    }
}

/// l(i, m) for i from m on, less the products of the panel.
fn column(width: usize, first: usize, m: usize, limit: f64, table: &mut [f64]) -> Result<(), Stop> {
    let (above, rows) = table.split_at_mut(m * width);
    let mut upper = [0.0; PANEL];
    for (h, factor) in (first..m).zip(&mut upper) {
        *factor = above[h * width + m];
    }
    for (i, row) in (m..).zip(rows.chunks_exact_mut(width)) {
        let value = row[first..m].iter().zip(&upper).fold(row[m], |value, (l, u)| value - l * u);
        let at = At::Place(i + 1, m + 1);
        if !value.is_finite() {
            return Err((16, at));
        }
        if i == m && value.abs() <= limit {
            return Err((17, at));
        }
        row[m] = value;
    }
    Ok(())
}

/// y(m) and u(m, j) for j after m, less the products of the panel.
fn row(width: usize, first: usize, m: usize, table: &mut [f64]) -> Result<(), Stop> {
    let (above, rows) = table.split_at_mut(m * width);
    let (left, right) = rows[..width].split_at_mut(m + 1);
    for h in first..m {
        let upper = &above[h * width + m + 1..(h + 1) * width];
        right.iter_mut().zip(upper).for_each(|(value, u)| *value -= left[h] * u);
    }
    // a quotient of -0 becomes +0
    right.iter_mut().for_each(|value| *value = *value / left[m] + 0.0);
    let (y, right) = right.split_last().expect("a row ends with y");
    if !y.is_finite() {
        return Err((16, At::Y(m + 1)));
    }
    match right.iter().position(|u| !u.is_finite()) {
        Some(after) => Err((16, At::Place(m + 1, m + 2 + after))),
        None => Ok(()),
    }
}

/// Takes the products of a whole panel from the places after it.
fn trail(width: usize, first: usize, table: &mut [f64]) {
    let end = first + PANEL;
    let (done, below) = table.split_at_mut(end * width);
    let upper: [&[f64]; PANEL] = array::from_fn(|k| &done[(first + k) * width + end..][..width - end]);
    for row in below.chunks_exact_mut(width) {
        let (left, right) = row.split_at_mut(end);
        let lower: [f64; PANEL] = array::from_fn(|k| left[first + k]);
        for (j, value) in right.iter_mut().enumerate() {
            *value = (0..PANEL).fold(*value, |value, k| value - lower[k] * upper[k][j]);
        }
    }
}

/// x(i) for i from n down.
fn back(width: usize, table: &[f64], x: &mut [f64]) -> Result<(), Stop> {
    for (i, row) in table.chunks_exact(width).enumerate().rev() {
        let products = row[i + 1..width - 1].iter().zip(&x[i + 1..]).rev();
        let value = products.fold(row[width - 1], |value, (u, x)| value - u * x);
        if !value.is_finite() {
            return Err((16, At::X(i + 1)));
        }
        x[i] = value;
    }
    Ok(())
}
