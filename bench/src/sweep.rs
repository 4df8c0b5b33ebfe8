//! Sweeps until they settle: `crout_run_limit` beside the plain program, and beside one Crout run of the same system.
//!
//! The systems are networks of rooms: off the diagonal stands minus the conductance of a wall, 0.5 to 1.5 and the same both ways, and the
//! diagonal is the sum of the room's walls and its loss to the outside. Sweeps have settled when no entry moves by more than a billionth of
//! the largest entry of Crout's solution.

use std::cell::RefCell;
use std::collections::BTreeMap;
use std::time::Duration;

use crout_tests::calls::{self, Answer};
use crout_tests::networks::{self, Values};
use crout_tests::programs;
use crout_tests::random::Random;
use crout_tests::reading::labels;

use crate::case::Case;
use crate::plain;
use crate::run::Run;
use crate::table;
use crate::timing::{Caller, caller, race};

/// The columns beside those of each group, which are for all sweeps together: the last two are one Crout run, and the sweeps over it.
pub const COLUMNS: [&str; 6] = ["ns/product", "(plain)", "sweeps", "us/sweep", "Crout us", "ratio"];

/// The loss of a room whose walls conduct 1 on average.
const LOSS: f64 = 1.0;

/// A system with its Crout program and that of its sweeps.
pub struct Settling {
    crout: Case,
    words: Vec<u32>,
    tolerance: f64,
    sweeps: u64,
    x: RefCell<Vec<f64>>,
}

/// The coefficients of rooms with walls, as they stand in the plan.
fn conductances(n: u32, plan: &[u32], loss: f64) -> Vec<f64> {
    let (places, random) = (labels::places(n), &mut Random(1));
    let (mut walls, mut sums) = (BTreeMap::new(), vec![loss; n as usize + 1]);
    for &label in plan {
        let (i, j) = places[label as usize - 1];
        if i != j {
            let wall: &mut f64 = walls.entry((i.min(j), i.max(j))).or_insert_with(|| 0.5 + random.unit());
            sums[i as usize] += *wall;
        }
    }
    let coefficient = |&label: &u32| match places[label as usize - 1] {
        (i, j) if i == j => sums[i as usize],
        (i, j) => -walls[&(i.min(j), i.max(j))],
    };
    plan.iter().map(coefficient).collect()
}

fn largest(values: impl IntoIterator<Item = f64>) -> f64 {
    values.into_iter().fold(0.0, |all, value| all.max(value.abs()))
}

impl Settling {
    pub fn new(name: &str, n: u32, plan: Vec<u32>, loss: f64) -> Self {
        let words = programs::swept(n, &plan).expect("the plan has its diagonal");
        let (a, b) = (conductances(n, &plan, loss), Values::Moderate.row(n as usize, &mut Random(2)));
        let crout = Case { a, b, ..Case::new(name, n, plan) };
        let mut settling = Self { crout, words, tolerance: 0.0, sweeps: 0, x: RefCell::new(vec![0.0; n as usize]) };
        settling.compare();
        settling
    }

    /// Crout's solution.
    fn solution(&self) -> Vec<f64> {
        let Case { words, a, b, slots, .. } = &self.crout;
        let (mut c, mut y, mut x) = (vec![0.0; *slots], vec![0.0; b.len()], vec![0.0; b.len()]);
        assert_eq!(calls::run::run(words, a, b, &mut c, &mut y, &mut x).returned, 0, "the values have a solution");
        x
    }

    /// Each program once: the library compiles the same, ours and the plain one agree to the bit and in all counts, and Crout's solution
    /// is near.
    fn compare(&mut self) {
        let Case { n, plan, .. } = &self.crout;
        let (mut work, mut words) = (vec![0; (n * n) as usize], vec![0; self.words.len()]);
        assert_eq!(calls::compile::compile_sweep(*n, plan, &mut work, &mut words).returned, 0);
        assert!(words == self.words, "the programs differ");
        let crout = self.solution();
        self.tolerance = 1e-9 * largest(crout.iter().copied());
        let bits = |x: &[f64]| x.iter().map(|value| value.to_bits()).collect::<Vec<_>>();
        let (mut x, mut plain_x) = (vec![7.0; crout.len()], vec![7.0; crout.len()]);
        let (answer, outcome) = (self.run(&mut x), self.run_plain(&mut plain_x));
        let plain::run::Outcome::Solved { products, quotients, vanished, sweeps } = outcome else { panic!("{outcome:?}") };
        assert_eq!(answer, Answer::fine([products, quotients, vanished, sweeps]));
        assert!(bits(&x) == bits(&plain_x), "the plain program's solution differs");
        let apart = largest(x.iter().zip(&crout).map(|(sweep, crout)| sweep - crout));
        assert!(apart <= 1000.0 * self.tolerance, "Crout's solution differs by {apart}");
        self.sweeps = sweeps;
    }

    fn run(&self, x: &mut [f64]) -> Answer<4> {
        let Case { a, b, .. } = &self.crout;
        calls::run::run_limit(&self.words, a, b, self.tolerance, &mut [], &mut [], x)
    }

    fn run_plain(&self, x: &mut [f64]) -> plain::run::Outcome {
        let Case { a, b, .. } = &self.crout;
        plain::run::run(&self.words, a, b, self.tolerance, &mut [], &mut [], x)
    }

    fn ours(&self) -> Caller<'_> {
        caller(&self.x, |x| x.fill(0.0), |x| assert_eq!(self.run(x).returned, 0))
    }

    fn plain(&self) -> Caller<'_> {
        caller(&self.x, |x| x.fill(0.0), |x| assert!(matches!(self.run_plain(x), plain::run::Outcome::Solved { .. })))
    }

    /// How many of something that one sweep has so many of.
    fn all(&self, each: usize) -> f64 {
        self.sweeps as f64 * each as f64
    }

    /// Ours and one Crout run.
    fn race_crout(&self) -> [Duration; 2] {
        let run = Run::new(&self.crout);
        race([self.ours(), run.ours()])
    }
}

/// A line for a network.
fn settle(name: &str, n: u32, plan: Vec<u32>) {
    let settling = Settling::new(name, n, plan, LOSS);
    let run = Run::new(&settling.crout);
    let [ours, plain, crout] = race([settling.ours(), settling.plain(), run.ours()]);
    let (records, products) = (settling.words.len() / 4 - 1, settling.crout.plan.len() - n as usize);
    let mut cells = table::cells_of(settling.all(records), ours, plain);
    cells.extend([table::nanos(ours, settling.all(products)), table::nanos(plain, settling.all(products))]);
    cells.extend([settling.sweeps.to_string(), table::micros(ours / settling.sweeps as u32)]);
    cells.extend([table::micros(crout), table::ratio(ours, crout)]);
    table::line(name, cells);
}

pub fn sweeps() {
    settle("three-diagonal 600", 600, networks::three_diagonal(600));
    settle("grid 24 x 24", 576, networks::grid(576, 24));
}

/// Grids of rising orders, whose rooms lose this much: a line for each, and from which order on sweeps settle in less time than one Crout
/// run takes.
fn search(loss: f64) {
    let mut from = None;
    for side in [4, 8, 12, 16, 20, 24] {
        let order = side * side;
        let settling = Settling::new("", order, networks::grid(order, side), loss);
        let [ours, crout] = settling.race_crout();
        from = if ours < crout { from.or(Some(order)) } else { None };
        let counts = [order.to_string(), settling.sweeps.to_string()];
        let times = [table::micros(ours), table::micros(crout), table::ratio(ours, crout)];
        table::line(&format!("grid, loss {loss}"), counts.into_iter().chain(times));
    }
    match from {
        Some(order) => println!("grid, loss {loss}: sweeps settle before one Crout run ends from order {order} on"),
        None => println!("grid, loss {loss}: at none of these orders do sweeps settle before one Crout run ends"),
    }
}

pub fn searches() {
    println!();
    table::line("sweeps or Crout", ["order", "sweeps", "sweeps us", "Crout us", "ratio"].map(String::from));
    [1.0, 0.25].into_iter().for_each(search);
}

#[cfg(test)]
mod tests {
    use super::*;

    /// `Settling::new` compares the programs and their solutions.
    #[test]
    fn ours_and_plain_agree() {
        for n in [1, 2, 7, 36, 100] {
            for (plan, loss) in [(networks::three_diagonal(n), 0.25), (networks::grid(n, 6), 0.25), (networks::full(n), 10.0)] {
                let settling = Settling::new("", n, plan, loss);
                assert!((2..=300).contains(&settling.sweeps), "{} sweeps", settling.sweeps);
            }
        }
    }

    #[test]
    fn a_diagonal_is_its_walls_and_the_loss() {
        // the places (1,1), (2,1), (1,2) and (2,2)
        let a = conductances(2, &networks::full(2), 0.25);
        assert!((-1.5..=-0.5).contains(&a[1]) && a[1] == a[2], "{a:?}");
        assert_eq!([a[0], a[3]], [0.25 - a[1]; 2]);
    }
}
