//! Document 02, A.7: Gauss-Seidel. The compiler of sweeps, which goes through the plan row by row; the run of any program of sweeps, whose
//! chain is read once; and the dense sweep over the full table.

use super::dense::{difference, is_small, product, quotient, read, vanishes};
use super::run::Outcome;
use super::{Refusal, labels, plan, plan::Written};
use crate::programs::in_order;

/// The places of a plan by row and column, each with its position in the plan, from 1.
fn by_rows(n: u32, plan: &[u32]) -> Vec<(u32, u32, u32)> {
    let places = labels::places(n);
    let mut all: Vec<_> = (1..).zip(plan).map(|(position, &label)| (places[label as usize - 1], position)).collect();
    all.sort_unstable();
    all.into_iter().map(|((i, j), position)| (i, j, position)).collect()
}

/// The compiler's answer, and what it leaves in the lent slices.
pub fn compile(n: u32, plan: &[u32], work: &mut [u32], words: &mut [u32]) -> Result<Written, Refusal> {
    plan::orderly(n, plan, work)?;
    work[..(n * n) as usize].fill(0);
    let places = by_rows(n, plan);
    if let Some(row) = (1..=n).find(|&row| !places.iter().any(|&(i, j, _)| i == row && j == row)) {
        return Err((26, row.into()));
    }
    (1..).zip(plan).for_each(|(position, &label)| work[label as usize - 1] = position);
    let records = 1 + 2 * u64::from(n) + plan.len() as u64;
    if (words.len() as u64) < 4 * records {
        return Err((6, records));
    }
    let program = in_order([n, plan.len() as u32, 0], places.chunk_by(|one, other| one.0 == other.0).flat_map(row_records));
    assert_eq!(program.len() as u64, 4 * records, "document 02's count of the records");
    words[..program.len()].copy_from_slice(&program);
    Ok(Written { slots: 0, products: plan.len() as u64 - u64::from(n), records })
}

/// The records of one row, of which the places are given.
fn row_records(places: &[(u32, u32, u32)]) -> Vec<[u32; 3]> {
    let row = places[0].0;
    let (diagonal, others): (Vec<_>, Vec<_>) = places.iter().partition(|place| place.1 == row);
    let mut records = vec![[10, row, 0]];
    records.extend(others.iter().map(|&(_, j, position)| [11, position, j]));
    records.extend([[12, diagonal[0].2, 0], [8, 0, 0]]);
    records
}

/// What a record within a row does.
enum Operation {
    /// Subtracts A(p) times X(q).
    Less(usize, usize),
    /// Divides by A(p).
    Over(usize),
}

/// The chain of a program that has passed the check: for each row its operations, each with its record.
fn rows_of(words: &[u32]) -> Vec<Vec<(u64, Operation)>> {
    let mut rows = vec![];
    let mut at = words[3] as usize;
    while at != 0 {
        let [kind, p, q, next] = words[4 * at..4 * at + 4] else { unreachable!("four words") };
        let (p, q) = (p as usize, q as usize);
        let row: Option<&mut Vec<_>> = rows.last_mut();
        match kind {
            10 => rows.push(vec![]),
            11 => row.expect("an open row").push((at as u64, Operation::Less(p, q))),
            12 => row.expect("an open row").push((at as u64, Operation::Over(p))),
            _ => {}
        }
        at = next as usize;
    }
    rows
}

/// Products, quotients and products that vanished.
type Counts = [u64; 3];

/// Whether some entry of a sweep is further than the tolerance from the one of the sweep before.
fn moved(old: &[f64], new: &[f64], tolerance: f64) -> bool {
    let stays = |(&old, &new): (&f64, &f64)| difference(new, old).is_ok_and(|by| is_small(by, tolerance));
    !old.iter().zip(new).all(stays)
}

/// How sweeps end: with their number, or None where 300 didn't settle; or by what ends one of them.
fn settle<E>(x: &mut [f64], tolerance: f64, mut sweep: impl FnMut(&mut [f64]) -> Result<(), E>) -> Result<Option<u64>, E> {
    x.fill(0.0);
    for count in 1..=300 {
        let before = x.to_vec();
        sweep(x)?;
        if !moved(&before, x, tolerance) {
            return Ok(Some(count));
        }
    }
    Ok(None)
}

/// The running number after one operation; the counts go on.
fn operated(running: f64, operation: &Operation, a: &[f64], x: &[f64], counts: &mut Counts) -> Result<f64, u32> {
    match *operation {
        Operation::Less(p, q) => {
            let (left, right) = (read(a[p - 1]), x[q - 1]);
            let less = difference(running, product(left, right)?)?;
            counts[0] += 1;
            counts[2] += u64::from(vanishes(left, right));
            Ok(less)
        }
        Operation::Over(p) => {
            counts[1] += 1;
            quotient(running, read(a[p - 1]))
        }
    }
}

/// The sweeps of a program that has passed the check, on slices and a tolerance that have.
pub fn run(words: &[u32], a: &[f64], b: &[f64], tolerance: f64, x: &mut [f64]) -> Outcome {
    let (rows, mut counts) = (rows_of(words), [0; 3]);
    let ended = settle(x, tolerance, |x| {
        for (k, row) in rows.iter().enumerate() {
            let mut running = read(b[k]);
            for (record, operation) in row {
                running = operated(running, operation, a, x, &mut counts).map_err(|number| (number, *record, k as u64 + 1))?;
            }
            x[k] = running;
        }
        Ok(())
    });
    let [products, quotients, vanished] = counts;
    match ended {
        Ok(Some(sweeps)) => Outcome::Solved { products, quotients, vanished, sweeps },
        Ok(None) => Outcome::Refused { number: 27, detail: 0 },
        Err((number, record, target)) => {
            x.fill(0.0);
            Outcome::Stopped { number, record, table: 3, target }
        }
    }
}

/// How the dense sweep ends.
#[derive(Clone, Debug, PartialEq)]
pub enum Ended {
    Settled {
        x: Vec<f64>,
        vanished: u64,
        sweeps: u64,
    },
    /// 27, and the last X.
    Unsettled(Vec<f64>),
    /// 16 or 17, and the row.
    Stopped(u32, usize),
}

/// The dense sweep (3.1): row r of the full table starts from b(r), subtracts a(r,j) x(j) for every other j, rising, and divides by a(r,r).
pub fn dense(n: u32, plan: &[u32], a: &[f64], b: &[f64], tolerance: f64) -> Ended {
    let size = n as usize;
    let mut table = vec![vec![0.0; size]; size];
    let places = labels::places(n);
    for (&label, &value) in plan.iter().zip(a) {
        let (i, j) = places[label as usize - 1];
        table[i as usize - 1][j as usize - 1] = read(value);
    }
    let (mut x, mut vanished) = (vec![0.0; size], 0);
    let ended = settle(&mut x, tolerance, |x| {
        for (r, row) in table.iter().enumerate() {
            let mut value = read(b[r]);
            for j in (0..size).filter(|&j| j != r) {
                vanished += u64::from(vanishes(row[j], x[j]));
                value = product(row[j], x[j]).and_then(|v| difference(value, v)).map_err(|number| (number, r + 1))?;
            }
            x[r] = quotient(value, row[r]).map_err(|number| (number, r + 1))?;
        }
        Ok(())
    });
    match ended {
        Ok(Some(sweeps)) => Ended::Settled { x, vanished, sweeps },
        Ok(None) => Ended::Unsettled(x),
        Err((number, row)) => Ended::Stopped(number, row),
    }
}
