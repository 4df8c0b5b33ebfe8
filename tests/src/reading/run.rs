//! The run of a program: 7 to 13, 14, 15, 21, then its records, 16 and 17. A slot that is opened again keeps its value until it is closed
//! again (document 02, A.11). A program without slots makes sweeps (A.7), which `sweep` reads.

use super::check::check;
use super::dense::{difference, is_small, product, quotient, read, vanishes};
use super::sweep;

#[derive(Clone, Copy, Debug, PartialEq, Eq)]
pub enum Outcome {
    Solved {
        products: u64,
        quotients: u64,
        vanished: u64,
        /// 0 for Crout.
        sweeps: u64,
    },
    /// 16 or 17, the record, and the table (1 for C, 2 for Y, 3 for X) and number of the target.
    Stopped { number: u32, record: u64, table: u64, target: u64 },
    /// Any other refusal. 27 alone has changed a table: X holds the last sweep.
    Refused { number: u32, detail: u64 },
}

/// The position of the first value that isn't finite.
pub(super) fn not_finite(values: &[f64]) -> Option<u64> {
    values.iter().position(|v| !v.is_finite()).map(|at| at as u64 + 1)
}

/// The open target: its table, its number and the running number.
#[derive(Default)]
struct Open {
    table: u32,
    target: usize,
    running: f64,
}

/// The record that refused, or the counts: products, quotients and products that vanished.
type Ran = Result<[u64; 3], (u32, u64, u64, u64)>;

fn records(words: &[u32], a: &[f64], b: &[f64], limit: f64, c: &mut [f64], y: &mut [f64], x: &mut [f64]) -> Ran {
    let [mut products, mut quotients, mut vanished] = [0; 3];
    let mut open = Open::default();
    let mut at = words[3] as usize;
    while at != 0 {
        let [kind, p, q, next] = words[4 * at..4 * at + 4] else { unreachable!("four words") };
        let (p, q) = (p as usize, q as usize);
        let stopped = |number| (number, at as u64, u64::from(open.table), open.target as u64);
        match kind {
            1 => open = Open { table: 1, target: q, running: if p == 0 { 0.0 } else { read(a[p - 1]) } },
            2 => open = Open { table: 2, target: p, running: read(b[p - 1]) },
            3 => open = Open { table: 3, target: p, running: y[p - 1] },
            4..=6 => {
                let (left, right) = (c[p - 1], [&*c, &*y, &*x][kind as usize - 4][q - 1]);
                open.running = product(left, right).and_then(|v| difference(open.running, v)).map_err(stopped)?;
                products += 1;
                vanished += u64::from(vanishes(left, right));
            }
            7 => {
                open.running = quotient(open.running, c[p - 1]).map_err(stopped)?;
                quotients += 1;
            }
            _ => {
                if kind == 9 && is_small(open.running, limit) {
                    return Err(stopped(17));
                }
                [&mut *c, &mut *y, &mut *x][open.table as usize - 1][open.target - 1] = open.running;
            }
        }
        at = next as usize;
    }
    Ok([products, quotients, vanished])
}

pub fn run(words: &[u32], a: &[f64], b: &[f64], limit: f64, c: &mut [f64], y: &mut [f64], x: &mut [f64]) -> Outcome {
    if let Err((number, detail)) = check(words) {
        return Outcome::Refused { number, detail };
    }
    let [n, plan, slots] = [words[0] as usize, words[1] as usize, words[2] as usize];
    if [a.len(), b.len(), c.len(), y.len(), x.len()] != [plan, n, slots, if slots == 0 { 0 } else { n }, n] {
        return Outcome::Refused { number: 14, detail: 0 };
    }
    if let Some(detail) = not_finite(a).or_else(|| not_finite(b)) {
        return Outcome::Refused { number: 15, detail };
    }
    if !(limit.is_finite() && limit >= 0.0) {
        return Outcome::Refused { number: 21, detail: 0 };
    }
    if slots == 0 {
        return sweep::run(words, a, b, limit, x);
    }
    match records(words, a, b, limit, c, y, x) {
        Ok([products, quotients, vanished]) => Outcome::Solved { products, quotients, vanished, sweeps: 0 },
        Err((number, record, table, target)) => {
            c.fill(0.0);
            y.fill(0.0);
            x.fill(0.0);
            Outcome::Stopped { number, record, table, target }
        }
    }
}
