//! `crout_run` beside the plain runner, dense Crout and KLU.

use std::cell::RefCell;
use std::time::Duration;

use crout_tests::calls;

use crate::case::Case;
use crate::klu::Klu;
use crate::plain::{self, dense::Dense};
use crate::table;
use crate::timing::{Caller, caller, race};

/// The columns beside those of each group.
pub const COLUMNS: [&str; 6] = ["ns/product", "(plain)", "dense us", "times ours", "KLU us", "times ours"];

/// Those for the compact program: ours of the plain program, and of the compact one over it.
pub const COMPACT_COLUMNS: [&str; 2] = ["run us", "ratio"];

/// The slices that a run may write.
pub struct Tables {
    pub c: Vec<f64>,
    pub y: Vec<f64>,
    pub x: Vec<f64>,
}

impl Tables {
    /// With so many entries in C, and in Y and X.
    pub fn new(slots: usize, rows: usize) -> Self {
        Self { c: vec![0.0; slots], y: vec![0.0; rows], x: vec![0.0; rows] }
    }

    /// The bits of C, Y and X.
    pub fn bits(&self) -> [Vec<u64>; 3] {
        [bits(&self.c), bits(&self.y), bits(&self.x)]
    }

    pub fn clear(&mut self) {
        [&mut self.c, &mut self.y, &mut self.x].into_iter().for_each(|table| table.fill(0.0));
    }
}

/// The slices that dense Crout may write.
struct Square {
    table: Vec<f64>,
    x: Vec<f64>,
}

impl Square {
    fn clear(&mut self) {
        self.table.fill(0.0);
        self.x.fill(0.0);
    }
}

/// A case and its callers.
pub struct Run<'a> {
    case: &'a Case,
    dense: Dense,
    tables: RefCell<Tables>,
    square: RefCell<Square>,
    klu: Option<RefCell<Klu>>,
}

fn bits(values: &[f64]) -> Vec<u64> {
    values.iter().map(|value| value.to_bits()).collect()
}

impl<'a> Run<'a> {
    pub fn new(case: &'a Case) -> Self {
        let n = case.n as usize;
        let dense = Dense::new(case.n, &case.plan);
        let tables = RefCell::new(Tables::new(case.slots, n));
        let square = RefCell::new(Square { table: dense.table(), x: vec![0.0; n] });
        let run = Self { case, dense, tables, square, klu: Klu::new(case).map(RefCell::new) };
        run.compare();
        run
    }

    /// The bits of C, Y and X after a call.
    fn solution(&self, caller: Caller) -> [Vec<u64>; 3] {
        caller();
        self.tables.borrow().bits()
    }

    /// Each caller once, and that all have the solution: to the bit, but for KLU, which has another order.
    fn compare(&self) {
        let ours = self.solution(self.ours());
        assert!(ours == self.solution(self.plain()), "the plain runner's solution differs");
        self.dense()();
        assert!(ours[2] == bits(&self.square.borrow().x), "dense Crout's solution differs");
        if let Some(klu) = &self.klu {
            klu_caller(klu)();
            let largest = |values: &mut dyn Iterator<Item = f64>| values.fold(0.0, |all: f64, value| all.max(value.abs()));
            let x = &self.tables.borrow().x;
            let apart = largest(&mut x.iter().zip(&klu.borrow().x).map(|(ours, klu)| ours - klu));
            assert!(apart <= 1e-9 * largest(&mut x.iter().copied()), "KLU's solution differs by {apart}");
        }
    }

    pub fn ours(&self) -> Caller<'_> {
        let Case { words, a, b, .. } = self.case;
        caller(&self.tables, Tables::clear, move |to| {
            assert_eq!(calls::run::run(words, a, b, &mut to.c, &mut to.y, &mut to.x).returned, 0, "the values have a solution");
        })
    }

    fn plain(&self) -> Caller<'_> {
        let Case { words, a, b, products: count, .. } = self.case;
        caller(&self.tables, Tables::clear, move |to| {
            let outcome = plain::run::run(words, a, b, 0.0, &mut to.c, &mut to.y, &mut to.x);
            assert!(matches!(outcome, plain::run::Outcome::Solved { products, .. } if products == *count));
        })
    }

    pub fn dense(&self) -> Caller<'_> {
        let Case { a, b, .. } = self.case;
        caller(&self.square, Square::clear, move |to| {
            assert_eq!(self.dense.solve(a, b, 0.0, &mut to.table, &mut to.x), Ok(()), "the values have a solution");
        })
    }
}

fn klu_caller(klu: &RefCell<Klu>) -> Caller<'_> {
    caller(klu, |klu| klu.x.fill(0.0), |klu| assert!(klu.solve(), "KLU refuses"))
}

pub fn run(case: &Case) {
    let run = Run::new(case);
    let (ours, plain, dense) = (run.ours(), run.plain(), run.dense());
    let ([ours, plain, dense], klu) = match &run.klu {
        None => (race([ours, plain, dense]), None),
        Some(klu) => {
            let [ours, plain, dense, klu] = race([ours, plain, dense, klu_caller(klu)]);
            ([ours, plain, dense], Some(klu))
        }
    };
    let products = case.products as f64;
    let mut cells = table::cells(case, ours, plain);
    cells.extend([table::nanos(ours, products), table::nanos(plain, products)]);
    let beside = |time: Duration| [table::micros(time), table::ratio(time, ours)];
    cells.extend(beside(dense));
    match klu {
        None => cells.push("not installed".into()),
        Some(klu) => cells.extend(beside(klu)),
    }
    table::line(&case.name, cells);
}

pub fn compact(case: &Case) {
    let compact = case.compact();
    let (run, first) = (Run::new(&compact), Run::new(case));
    assert!(run.solution(run.ours())[1..] == first.solution(first.ours())[1..], "the compact program's solution differs");
    let [ours, plain, first] = race([run.ours(), run.plain(), first.ours()]);
    let mut cells = table::cells(case, ours, plain);
    cells.extend([table::micros(first), table::ratio(ours, first)]);
    table::line(&case.name, cells);
}

#[cfg(test)]
mod tests {
    use crout_tests::networks;

    use super::*;

    /// `Run::new` compares the solutions.
    #[test]
    fn all_callers_agree() {
        for n in [1, 2, 7, 8, 9, 36] {
            for plan in [networks::three_diagonal(n), networks::grid(n, 6), networks::full(n)] {
                let case = Case::new("", n, plan);
                Run::new(&case);
                Run::new(&case.compact());
            }
        }
    }
}
