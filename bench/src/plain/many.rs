//! A run on many right sides: the checks, then the records once, each on all sides that go on.

use super::Refusal;
use super::check::check_words;

/// The records read, then four numbers for each side: 0, products, quotients and products that vanished, or the refusal times 2^32 plus
/// the record, the table, the target's number and 0.
pub type Out = [u64; 257];

pub fn run(
    words: &[u32],
    count: u32,
    a: &[f64],
    b: &[f64],
    limit: f64,
    c: &mut [f64],
    y: &mut [f64],
    x: &mut [f64],
    out: &mut Out,
) -> Result<(), Refusal> {
    out.fill(0);
    check_crout(words)?;
    if !(1..=64).contains(&count) {
        return Err((25, 0));
    }
    let [n, plan, slots] = [words[0] as usize, words[1] as usize, words[2] as usize];
    let rows = count as usize * n;
    if a.len() != plan || b.len() != rows || c.len() != slots || y.len() != rows || x.len() != rows {
        return Err((14, 0));
    }
    let not_finite = |values: &[f64]| values.iter().position(|value| !value.is_finite());
    if let Some(position) = not_finite(a).or_else(|| not_finite(b)) {
        return Err((15, position as u64 + 1));
    }
    if !(limit.is_finite() && limit >= 0.0) {
        return Err((21, 0));
    }
    let going = (0..count as usize).map(|number| Side { first: number * n, running: 0.0, vanished: 0 }).collect();
    let mut sides = Sides { n, going, out };
    sides.follow(words, a, b, limit, c, y, x);
    if sides.going.is_empty() {
        c.fill(0.0);
    }
    for (number, four) in out[1..=4 * count as usize].chunks_exact(4).enumerate() {
        if four[0] != 0 {
            y[number * n..(number + 1) * n].fill(0.0);
            x[number * n..(number + 1) * n].fill(0.0);
        }
    }
    Ok(())
}

/// 7 to 13, where 8 refuses a program of sweeps too.
fn check_crout(words: &[u32]) -> Result<(), Refusal> {
    match check_words(words) {
        Err((7, detail)) => Err((7, detail)),
        _ if words[2] == 0 => Err((8, 0)),
        verdict => verdict,
    }
}

/// A side that goes on: where its part of B, Y and X begins, its running number and how many of its products have vanished in Y and X.
struct Side {
    first: usize,
    running: f64,
    vanished: u64,
}

/// The record that is worked, and the open target.
#[derive(Clone, Copy)]
struct At {
    record: usize,
    table: u64,
    target: usize,
}

struct Sides<'a> {
    n: usize,
    going: Vec<Side>,
    out: &'a mut Out,
}

impl Sides<'_> {
    /// The records along the chain while a side goes on. What is in C is worked once, and its refusal is every side's. Zeros and what
    /// isn't finite are seen as in a run of one side.
    fn follow(&mut self, words: &[u32], a: &[f64], b: &[f64], limit: f64, c: &mut [f64], y: &mut [f64], x: &mut [f64]) {
        let (mut running, mut table, mut target) = (0.0, 0, 0);
        let (mut products, mut quotients, mut vanished) = (0, 0, 0);
        let (mut read, mut next) = (0, words[3] as usize);
        while next != 0 && !self.going.is_empty() {
            let at = At { record: next, table, target };
            let record = &words[4 * next..4 * next + 4];
            let (p, q) = (record[1] as usize, record[2] as usize);
            read += 1;
            match record[0] {
                1 => {
                    running = if p == 0 { 0.0 } else { a[p - 1] + 0.0 };
                    (table, target) = (1, q);
                }
                2 => {
                    self.start(b, p);
                    (table, target) = (2, p);
                }
                3 => {
                    self.start(y, p);
                    (table, target) = (3, p);
                }
                4 => {
                    let product = c[p - 1] * c[q - 1];
                    running -= product;
                    products += 1;
                    if product == 0.0 && c[p - 1] != 0.0 && c[q - 1] != 0.0 {
                        vanished += 1;
                    }
                    if !running.is_finite() {
                        self.end(16, at, |_| true);
                    }
                }
                5 => {
                    self.subtract(c[p - 1], y, q, at);
                    products += 1;
                }
                6 => {
                    self.subtract(c[p - 1], x, q, at);
                    products += 1;
                }
                7 => {
                    quotients += 1;
                    if c[p - 1] == 0.0 {
                        self.end(17, at, |_| true);
                    } else if table == 1 {
                        running = running / c[p - 1] + 0.0;
                        if !running.is_finite() {
                            self.end(16, at, |_| true);
                        }
                    } else {
                        self.divide(c[p - 1], at);
                    }
                }
                kind => match table {
                    1 if kind == 9 && -limit <= running && running <= limit => self.end(17, at, |_| true),
                    1 => c[target - 1] = running,
                    2 => self.close(y, target),
                    _ => self.close(x, target),
                },
            }
            next = record[3] as usize;
        }
        self.out[0] = read;
        for side in &self.going {
            let number = side.first / self.n;
            self.out[4 * number + 2..4 * number + 5].copy_from_slice(&[products, quotients, vanished + side.vanished]);
        }
    }

    /// Each side's running number begins with an entry of its part.
    fn start(&mut self, values: &[f64], p: usize) {
        self.going.iter_mut().for_each(|side| side.running = values[side.first + p - 1] + 0.0);
    }

    fn subtract(&mut self, factor: f64, values: &[f64], q: usize, at: At) {
        let mut finite = true;
        for side in &mut self.going {
            let value = values[side.first + q - 1];
            let product = factor * value;
            side.running -= product;
            finite &= side.running.is_finite();
            if product == 0.0 && factor != 0.0 && value != 0.0 {
                side.vanished += 1;
            }
        }
        if !finite {
            self.end(16, at, |side| !side.running.is_finite());
        }
    }

    fn divide(&mut self, divisor: f64, at: At) {
        let mut finite = true;
        for side in &mut self.going {
            side.running = side.running / divisor + 0.0;
            finite &= side.running.is_finite();
        }
        if !finite {
            self.end(16, at, |side| !side.running.is_finite());
        }
    }

    /// Each side's running number goes to an entry of its part.
    fn close(&self, values: &mut [f64], target: usize) {
        self.going.iter().for_each(|side| values[side.first + target - 1] = side.running);
    }

    /// Of the sides that go on, those asked for are refused.
    #[cold]
    fn end(&mut self, number: u64, at: At, ends: impl Fn(&Side) -> bool) {
        let Self { n, going, out } = self;
        let answer = [number << 32 | at.record as u64, at.table, at.target as u64, 0];
        going.retain(|side| {
            let refused = ends(side);
            if refused {
                out[4 * (side.first / *n) + 1..][..4].copy_from_slice(&answer);
            }
            !refused
        });
    }
}
