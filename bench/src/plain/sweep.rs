//! The sweeps of a program without slots.

use super::run::Outcome;

/// The counts of all sweeps so far.
#[derive(Default)]
struct Counts {
    products: u64,
    quotients: u64,
    vanished: u64,
}

/// Sweeps until one of them moves no entry by more than the tolerance, at most 300. The checks have passed.
pub fn sweep(words: &[u32], a: &[f64], b: &[f64], tolerance: f64, x: &mut [f64]) -> Outcome {
    let mut counts = Counts::default();
    x.fill(0.0);
    for sweeps in 1..=300 {
        match once(words, a, b, tolerance, x, &mut counts) {
            Ok(true) => {}
            Ok(false) => {
                let Counts { products, quotients, vanished } = counts;
                return Outcome::Solved { products, quotients, vanished, sweeps };
            }
            Err(stopped) => return stopped,
        }
    }
    Outcome::Refused { number: 27, detail: 0 }
}

/// The records along the chain once: whether an entry moved by more than the tolerance. Zeros and what isn't finite are seen as in a run
/// of Crout; a move that overflows is infinite.
fn once(words: &[u32], a: &[f64], b: &[f64], tolerance: f64, x: &mut [f64], counts: &mut Counts) -> Result<bool, Outcome> {
    let (mut running, mut target, mut moved) = (0.0, 0, false);
    let mut at = words[3] as usize;
    while at != 0 {
        let record = &words[4 * at..4 * at + 4];
        let (p, q) = (record[1] as usize, record[2] as usize);
        let stopped = |number| Outcome::Stopped { number, record: at as u64, table: 3, target: target as u64 };
        match record[0] {
            10 => {
                running = b[p - 1] + 0.0;
                target = p;
            }
            11 => {
                let product = a[p - 1] * x[q - 1];
                running -= product;
                if !running.is_finite() {
                    return Err(stopped(16));
                }
                counts.products += 1;
                if product == 0.0 && a[p - 1] != 0.0 && x[q - 1] != 0.0 {
                    counts.vanished += 1;
                }
            }
            12 => {
                if a[p - 1] == 0.0 {
                    return Err(stopped(17));
                }
                running = running / a[p - 1] + 0.0;
                if !running.is_finite() {
                    return Err(stopped(16));
                }
                counts.quotients += 1;
            }
            _ => {
                let step: f64 = running - x[target - 1];
                moved |= step.abs() > tolerance;
                x[target - 1] = running;
            }
        }
        at = record[3] as usize;
    }
    Ok(moved)
}
