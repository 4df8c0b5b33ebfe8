//! `crout_residual` beside the plain residual, on the case's solution: a product for each place of the plan.

use std::cell::RefCell;

use crout_tests::calls;

use crate::case::Case;
use crate::plain::{self, residual::WORDS};
use crate::run::Tables;
use crate::table;
use crate::timing::{caller, race};

const COLUMNS: [&str; 6] = ["products", "ours us", "plain us", "ratio", "ns/product", "(plain)"];

/// A case and its solution.
struct Solved<'a> {
    case: &'a Case,
    x: Vec<f64>,
}

impl<'a> Solved<'a> {
    fn new(case: &'a Case) -> Self {
        let mut to = Tables::new(case.slots, case.n as usize);
        let answer = calls::run::run_limit(&case.words, &case.a, &case.b, 0.0, &mut to.c, &mut to.y, &mut to.x);
        assert_eq!(answer.returned, 0, "the values have a solution");
        Self { case, x: to.x }
    }

    fn words(&self) -> Vec<u64> {
        vec![0; WORDS * self.case.n as usize]
    }

    fn ours(&self, words: &mut [u64]) {
        let Case { n, plan, a, b, .. } = self.case;
        assert_eq!(calls::residual::residual(*n, plan, a, b, &self.x, words), 0);
    }

    fn plain(&self, words: &mut [u64]) {
        let Case { n, plan, a, b, .. } = self.case;
        assert_eq!(plain::residual::residual(*n, plan, a, b, &self.x, words), Ok(()));
    }

    /// Both leave the same over.
    fn compare(&self) {
        let [mut words, mut plain_words] = [self.words(), self.words()];
        self.ours(&mut words);
        self.plain(&mut plain_words);
        assert!(words == plain_words, "the plain residual differs");
    }
}

fn race_case(case: &Case) {
    let solved = Solved::new(case);
    solved.compare();
    let words = RefCell::new(solved.words());
    let clear = |words: &mut Vec<u64>| words.fill(0);
    let [ours, plain] =
        race([caller(&words, clear, |words| solved.ours(words)), caller(&words, clear, |words| solved.plain(words))]);
    let products = case.plan.len();
    let each = [ours, plain].map(|time| table::nanos(time, products as f64));
    let cells = [products.to_string(), table::micros(ours), table::micros(plain), table::ratio(ours, plain)];
    table::line(&case.name, cells.into_iter().chain(each));
}

/// A line for each case.
pub fn residuals(cases: &[&Case]) {
    println!();
    table::line("residual", COLUMNS.map(String::from));
    cases.iter().for_each(|case| race_case(case));
}

#[cfg(test)]
mod tests {
    use crout_tests::networks;

    use super::*;

    #[test]
    fn ours_and_plain_agree() {
        for n in [1, 2, 7, 36, 100] {
            for plan in [networks::three_diagonal(n), networks::grid(n, 6), networks::full(n)] {
                Solved::new(&Case::new("", n, plan)).compare();
            }
        }
    }
}
