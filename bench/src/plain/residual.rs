//! What is left over of each row, exactly: the digits of two values multiplied to a number of 106 bits, which is taken from the row's words
//! at its shift.

use super::Refusal;
use super::compile::judge;

/// A row's words.
pub const WORDS: usize = 66;

pub fn residual(n: u32, plan: &[u32], a: &[f64], b: &[f64], x: &[f64], words: &mut [u64]) -> Result<(), Refusal> {
    if !(1..=600).contains(&n) {
        return Err((1, 0));
    }
    judge(n, plan)?;
    let n = n as usize;
    if a.len() != plan.len() || b.len() != n || x.len() != n {
        return Err((14, 0));
    }
    let not_finite = |values: &[f64]| values.iter().position(|value| !value.is_finite());
    if let Some(position) = not_finite(a).or_else(|| not_finite(b)).or_else(|| not_finite(x)) {
        return Err((15, position as u64 + 1));
    }
    if words.len() != WORDS * n {
        return Err((24, 0));
    }
    words.fill(0);
    for (row, &b) in words.chunks_exact_mut(WORDS).zip(b) {
        let Parts { minus, digits, shift } = Parts::of(b);
        change(row, digits.into(), shift + 1074, minus);
    }
    less_products(n, plan, a, x, words);
    Ok(())
}

fn less_products(n: usize, plan: &[u32], a: &[f64], x: &[f64], words: &mut [u64]) {
    // the labels rise, so each is in the batch of the one before or in a later one
    let (mut m, mut before) = (1, 0);
    for (&k, &a) in plan.iter().zip(a) {
        while before + 2 * (n - m) + 1 < k as usize {
            before += 2 * (n - m) + 1;
            m += 1;
        }
        let left = k as usize - before;
        let (i, j) = if left <= n - m + 1 { (m + left - 1, m) } else { (m, 2 * m + left - n - 1) };
        let (a, x) = (Parts::of(a), Parts::of(x[j - 1]));
        let product = u128::from(a.digits) * u128::from(x.digits);
        change(&mut words[WORDS * (i - 1)..WORDS * i], product, a.shift + x.shift, a.minus == x.minus);
    }
}

/// A finite value times 2^1074: its sign, its digits as a whole number, and by how many places these are shifted.
struct Parts {
    minus: bool,
    digits: u64,
    shift: u32,
}

impl Parts {
    fn of(value: f64) -> Self {
        let bits = value.to_bits();
        let (minus, exponent, fraction) = (bits >> 63 != 0, (bits >> 52) as u32 & 0x7ff, bits & ((1 << 52) - 1));
        match exponent {
            0 => Self { minus, digits: fraction, shift: 0 },
            _ => Self { minus, digits: fraction | 1 << 52, shift: exponent - 1 },
        }
    }
}

/// A number of at most 106 bits at a shift more or, minus, less: three words and what is carried on.
fn change(row: &mut [u64], number: u128, shift: u32, minus: bool) {
    let (at, by) = (shift as usize / 64, shift % 64);
    let (low, high) = (number << by, number >> 1 >> (127 - by));
    let parts = [low as u64, (low >> 64) as u64, high as u64];
    if minus {
        carry_on(&mut row[at..], parts, u64::overflowing_sub);
    } else {
        carry_on(&mut row[at..], parts, u64::overflowing_add);
    }
}

#[inline(always)]
fn carry_on(words: &mut [u64], parts: [u64; 3], step: impl Fn(u64, u64) -> (u64, bool)) {
    let (first, rest) = words.split_at_mut(3);
    let mut carry = false;
    for (word, part) in first.iter_mut().zip(parts) {
        let (changed, over) = step(*word, part);
        let (changed, over_again) = step(changed, carry.into());
        *word = changed;
        carry = over || over_again;
    }
    for word in rest {
        if !carry {
            break;
        }
        (*word, carry) = step(*word, 1);
    }
}
