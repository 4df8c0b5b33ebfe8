//! Document 02, A.6: many right sides. Each is run alone, on its parts of B, Y and X and a C of its own, by the reading's run; what they
//! share is put together afterwards.

use super::check::{chain, check};
use super::run::{self, Outcome, not_finite};
use super::{Refusal, Verdict};

/// The chained records read, and how each right side ends.
#[derive(Clone, Debug, PartialEq, Eq)]
pub struct Sides {
    pub read: u64,
    pub endings: Vec<Outcome>,
}

/// 7 to 13, of which 8 refuses a program of sweeps too (A.7).
fn check_crout(words: &[u32]) -> Verdict {
    match check(words) {
        Err((7, detail)) => Err((7, detail)),
        _ if words[2] == 0 => Err((8, 0)),
        verdict => verdict,
    }
}

/// "The chain's length if any right side is solved, else the count up to the latest record that refused one."
fn read(chain: &[u64], endings: &[Outcome]) -> u64 {
    let position = |record: u64| chain.iter().position(|&at| at == record).expect("a chained record") + 1;
    let up_to = |ending: &Outcome| match *ending {
        Outcome::Solved { .. } => chain.len(),
        Outcome::Stopped { record, .. } => position(record),
        Outcome::Refused { .. } => unreachable!("the checks have passed"),
    };
    endings.iter().map(up_to).max().expect("one right side at least") as u64
}

/// 7 to 13, 25, 14, 15, 21; the lengths are those of A, B, C, Y and X.
fn check_call(words: &[u32], count: u32, a: &[f64], b: &[f64], limit: f64, lengths: [usize; 5]) -> Verdict {
    check_crout(words)?;
    if !(1..=64).contains(&count) {
        return Err((25, 0));
    }
    let [n, plan, slots, sides] = [words[0], words[1], words[2], count].map(|number| number as usize);
    if lengths != [plan, sides * n, slots, sides * n, sides * n] {
        return Err((14, 0));
    }
    if let Some(position) = not_finite(a).or_else(|| not_finite(b)) {
        return Err((15, position));
    }
    if limit.is_finite() && limit >= 0.0 { Ok(()) } else { Err((21, 0)) }
}

pub fn run(
    words: &[u32],
    count: u32,
    a: &[f64],
    b: &[f64],
    limit: f64,
    c: &mut [f64],
    y: &mut [f64],
    x: &mut [f64],
) -> Result<Sides, Refusal> {
    check_call(words, count, a, b, limit, [a.len(), b.len(), c.len(), y.len(), x.len()])?;
    let (n, mut shared) = (words[0] as usize, None);
    let mut endings = vec![];
    for side in 0..count as usize {
        let part = side * n..(side + 1) * n;
        let mut own = vec![f64::NAN; c.len()];
        let ending = run::run(words, a, &b[part.clone()], limit, &mut own, &mut y[part.clone()], &mut x[part]);
        if let Outcome::Solved { .. } = ending {
            shared = Some(own);
        }
        endings.push(ending);
    }
    c.copy_from_slice(&shared.unwrap_or(vec![0.0; c.len()]));
    Ok(Sides { read: read(&chain(words), &endings), endings })
}
