//! Document 02, A.4: what is left over, exactly. A value's digits are found by float arithmetic that rounds nothing, what is added to a row
//! and what is taken from it are summed apart, and the smaller is subtracted from the larger at the end, where the proved code goes by the
//! value's bits and works on one row of words in two's complement.

use super::{Verdict, labels, plan};

/// The words of a row, and its digits to the base 2^32.
pub const WORDS: usize = 66;
const DIGITS: usize = 2 * WORDS;
const BASE: f64 = 4_294_967_296.0;

/// The digits of a finite value's size times 2^1074, low digit first. 2^1074 is 2^18 times the base 33 times.
fn digits_of(value: f64) -> Vec<u32> {
    let mut rest = value.abs();
    let mut count = 34;
    while rest >= 16_384.0 {
        rest /= BASE;
        count += 1;
    }
    rest *= 262_144.0;
    let mut digits = vec![0; count];
    for digit in digits.iter_mut().rev() {
        *digit = rest.trunc() as u32;
        rest = (rest - rest.trunc()) * BASE;
    }
    assert_eq!(rest, 0.0, "{value:e} times 2^1074 is a whole number");
    digits
}

/// A value times 2^1074: its digits that aren't zero, each with its index, and whether it is below zero.
struct Exact {
    digits: Vec<(usize, u64)>,
    is_negative: bool,
}

impl Exact {
    fn of(value: f64) -> Self {
        let digits = digits_of(value).into_iter().map(u64::from).enumerate().filter(|&(_, digit)| digit != 0).collect();
        Self { digits, is_negative: value < 0.0 }
    }
}

/// A sum of sizes, in digits with the low one first.
#[derive(Clone)]
struct Sum([u32; DIGITS]);

impl Sum {
    /// Adds a number times the base so many times.
    fn add(&mut self, number: u64, times: usize) {
        let (mut carried, mut at) = (number, times);
        while carried != 0 {
            let digit = u64::from(self.0[at]) + carried % (1 << 32);
            self.0[at] = digit as u32;
            carried = (carried >> 32) + (digit >> 32);
            at += 1;
        }
    }

    fn add_product(&mut self, one: &Exact, other: &Exact) {
        for &(i, digit) in &one.digits {
            other.digits.iter().for_each(|&(j, by)| self.add(digit * by, i + j));
        }
    }

    fn is_below(&self, other: &Self) -> bool {
        self.0.iter().rev().lt(other.0.iter().rev())
    }

    /// This less one that isn't above it.
    fn less(&self, other: &Self) -> Self {
        let mut borrowed = 0;
        let digits = std::array::from_fn(|at| {
            let digit = i64::from(self.0[at]) - i64::from(other.0[at]) - borrowed;
            borrowed = i64::from(digit < 0);
            digit.rem_euclid(1 << 32) as u32
        });
        assert_eq!(borrowed, 0, "the smaller from the larger");
        Self(digits)
    }

    /// "two's complement, low word first"
    fn words(&self, is_negative: bool) -> [u64; WORDS] {
        assert!(self.0[DIGITS - 1] < 1 << 31, "a row that fits");
        let mut stored = self.clone();
        if is_negative {
            stored.0 = stored.0.map(|digit| !digit);
            stored.add(1, 0);
        }
        std::array::from_fn(|at| u64::from(stored.0[2 * at]) + (u64::from(stored.0[2 * at + 1]) << 32))
    }
}

/// What is added to a row and what is taken from it.
#[derive(Clone)]
struct Row {
    added: Sum,
    taken: Sum,
}

impl Row {
    /// b(r), times 2^1074 once more.
    fn of(value: f64) -> Self {
        let mut row = Self { added: Sum([0; DIGITS]), taken: Sum([0; DIGITS]) };
        row.add_product(&Exact::of(value), &Exact::of(1.0), false);
        row
    }

    fn add_product(&mut self, one: &Exact, other: &Exact, is_taken: bool) {
        let is_negative = one.is_negative != other.is_negative;
        let sum = if is_negative == is_taken { &mut self.added } else { &mut self.taken };
        sum.add_product(one, other);
    }

    fn words(&self) -> [u64; WORDS] {
        let is_negative = self.added.is_below(&self.taken);
        let size = if is_negative { self.taken.less(&self.added) } else { self.added.less(&self.taken) };
        size.words(is_negative)
    }
}

/// The first value that isn't finite.
fn finite(values: &[f64]) -> Verdict {
    values.iter().position(|value| !value.is_finite()).map_or(Ok(()), |at| Err((15, at as u64 + 1)))
}

/// Checks 1, 3, 4, 14, 15 and 24, then the words of each row.
pub fn residual(n: u32, plan: &[u32], a: &[f64], b: &[f64], x: &[f64], words: &mut [u64]) -> Verdict {
    if !(1..=600).contains(&n) {
        return Err((1, 0));
    }
    plan::judged(n, plan)?;
    if [a.len(), b.len(), x.len()] != [plan.len(), n as usize, n as usize] {
        return Err((14, 0));
    }
    finite(a)?;
    finite(b)?;
    finite(x)?;
    if words.len() != WORDS * n as usize {
        return Err((24, 0));
    }
    let places = labels::places(n);
    let x: Vec<Exact> = x.iter().map(|&value| Exact::of(value)).collect();
    let mut rows: Vec<Row> = b.iter().map(|&value| Row::of(value)).collect();
    for (&label, &value) in plan.iter().zip(a) {
        let (i, j) = places[label as usize - 1];
        rows[i as usize - 1].add_product(&Exact::of(value), &x[j as usize - 1], true);
    }
    words.chunks_exact_mut(WORDS).zip(rows).for_each(|(part, row)| part.copy_from_slice(&row.words()));
    Ok(())
}
