//! A run of a program: the checks, then the records, of a sweep again and again.

use super::check::check_words;
use super::sweep::sweep;

#[derive(Clone, Copy, Debug, PartialEq, Eq)]
pub enum Outcome {
    Solved { products: u64, quotients: u64, vanished: u64, sweeps: u64 },
    Stopped { number: u32, record: u64, table: u64, target: u64 },
    Refused { number: u32, detail: u64 },
}

pub fn run(words: &[u32], a: &[f64], b: &[f64], limit: f64, c: &mut [f64], y: &mut [f64], x: &mut [f64]) -> Outcome {
    if let Err((number, detail)) = check_words(words) {
        return Outcome::Refused { number, detail };
    }
    let [n, plan, slots] = [words[0] as usize, words[1] as usize, words[2] as usize];
    let y_len = if slots == 0 { 0 } else { n };
    if a.len() != plan || b.len() != n || c.len() != slots || y.len() != y_len || x.len() != n {
        return Outcome::Refused { number: 14, detail: 0 };
    }
    let not_finite = |values: &[f64]| values.iter().position(|value| !value.is_finite());
    if let Some(position) = not_finite(a).or_else(|| not_finite(b)) {
        return Outcome::Refused { number: 15, detail: position as u64 + 1 };
    }
    if !(limit.is_finite() && limit >= 0.0) {
        return Outcome::Refused { number: 21, detail: 0 };
    }
    let outcome = if slots == 0 { sweep(words, a, b, limit, x) } else { follow(words, a, b, limit, c, y, x) };
    if let Outcome::Stopped { .. } = outcome {
        c.fill(0.0);
        y.fill(0.0);
        x.fill(0.0);
    }
    outcome
}

/// The records along the chain. A zero is made +0 by adding +0. The running number is never -0, so neither is it less a product,
/// and a product that isn't finite gives a difference that isn't. The factors are asked about only where a product is zero.
fn follow(words: &[u32], a: &[f64], b: &[f64], limit: f64, c: &mut [f64], y: &mut [f64], x: &mut [f64]) -> Outcome {
    let (mut running, mut table, mut target) = (0.0, 0, 0);
    let (mut products, mut quotients, mut vanished) = (0, 0, 0);
    let mut at = words[3] as usize;
    while at != 0 {
        let record = &words[4 * at..4 * at + 4];
        let (p, q) = (record[1] as usize, record[2] as usize);
        let stopped = |number| Outcome::Stopped { number, record: at as u64, table, target: target as u64 };
        match record[0] {
            1 => {
                running = if p == 0 { 0.0 } else { a[p - 1] + 0.0 };
                (table, target) = (1, q);
            }
            2 => {
                running = b[p - 1] + 0.0;
                (table, target) = (2, p);
            }
            3 => {
                running = y[p - 1];
                (table, target) = (3, p);
            }
            kind @ 4..=6 => {
                let factor = match kind {
                    4 => c[q - 1],
                    5 => y[q - 1],
                    _ => x[q - 1],
                };
                let product = c[p - 1] * factor;
                running -= product;
                if !running.is_finite() {
                    return stopped(16);
                }
                products += 1;
                if product == 0.0 && c[p - 1] != 0.0 && factor != 0.0 {
                    vanished += 1;
                }
            }
            7 => {
                if c[p - 1] == 0.0 {
                    return stopped(17);
                }
                running = running / c[p - 1] + 0.0;
                if !running.is_finite() {
                    return stopped(16);
                }
                quotients += 1;
            }
            kind => {
                if kind == 9 && -limit <= running && running <= limit {
                    return stopped(17);
                }
                match table {
                    1 => c[target - 1] = running,
                    2 => y[target - 1] = running,
                    _ => x[target - 1] = running,
                }
            }
        }
        at = record[3] as usize;
    }
    Outcome::Solved { products, quotients, vanished, sweeps: 0 }
}
