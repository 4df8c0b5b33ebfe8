//! Many right sides at once: `crout_run_many` beside the plain program, and beside as many runs of `crout_run_limit`.

use std::cell::RefCell;

use crout_tests::calls::{self, many::Call};
use crout_tests::networks::Values;
use crout_tests::random::Random;

use crate::case::Case;
use crate::plain::{self, many::Out};
use crate::run::Tables;
use crate::table;
use crate::timing::{Caller, caller, race};

/// The columns beside those of each group, which are for all sides together: the last three are as many runs, the time of one, and that of
/// a side at once over it.
pub const COLUMNS: [&str; 5] = ["sides", "us/side", "runs us", "us/run", "ratio"];

/// A case with many right sides, and the slices for all of them.
struct Many<'a> {
    case: &'a Case,
    count: u32,
    b: Vec<f64>,
    tables: RefCell<Tables>,
}

/// What one of the callers does: the numbers of the call.
type Run<'a> = fn(&Many<'a>, &mut Tables) -> Out;

impl<'a> Many<'a> {
    fn new(case: &'a Case, count: u32) -> Self {
        let rows = (count * case.n) as usize;
        let b = Values::Moderate.row(rows, &mut Random(3));
        let many = Self { case, count, b, tables: RefCell::new(Tables::new(case.slots, rows)) };
        many.compare();
        many
    }

    fn ours(&self, to: &mut Tables) -> Out {
        let Case { words, a, .. } = self.case;
        let call = Call { words, count: self.count, a, b: &self.b, limit: 0.0 };
        let answer = calls::many::run_many(call, &mut to.c, &mut to.y, &mut to.x);
        assert_eq!(answer.returned, 0);
        answer.out
    }

    fn plain(&self, to: &mut Tables) -> Out {
        let (Case { words, a, .. }, mut out) = (self.case, [0; 257]);
        let verdict = plain::many::run(words, self.count, a, &self.b, 0.0, &mut to.c, &mut to.y, &mut to.x, &mut out);
        assert_eq!(verdict, Ok(()));
        out
    }

    /// Each side by a run of its own.
    fn runs(&self, to: &mut Tables) -> Out {
        let (Case { words, a, .. }, n) = (self.case, self.case.n as usize);
        let mut out = [0; 257];
        out[0] = self.case.records() as u64 - 1;
        let parts = self.b.chunks_exact(n).zip(to.y.chunks_exact_mut(n)).zip(to.x.chunks_exact_mut(n));
        for (((b, y), x), four) in parts.zip(out[1..].chunks_exact_mut(4)) {
            let answer = calls::run::run_limit(words, a, b, 0.0, &mut to.c, y, x);
            four[0] = answer.returned;
            four[1..].copy_from_slice(&answer.out[..3]);
        }
        out
    }

    /// Each once, and that all sides are solved alike, to the bit and in all counts.
    fn compare(&self) {
        let tables = &mut self.tables.borrow_mut();
        let mut solved = |run: Run<'a>| {
            tables.clear();
            (run(self, tables), tables.bits())
        };
        let ours = solved(Self::ours);
        assert!(ours.0[1..].chunks_exact(4).all(|four| four[0] == 0), "the values have a solution");
        assert!(ours == solved(Self::plain), "the plain program's solution differs");
        assert!(ours == solved(Self::runs), "the solution of the runs differs");
    }

    fn caller(&self, run: Run<'a>) -> Caller<'_> {
        caller(&self.tables, Tables::clear, move |to| run(self, to))
    }
}

/// A line for each number of sides.
pub fn many(case: &Case) {
    for count in [8, 64] {
        let many = Many::new(case, count);
        let [ours, plain, runs] = race([many.caller(Many::ours), many.caller(Many::plain), many.caller(Many::runs)]);
        let mut cells = table::cells(case, ours, plain);
        cells.extend([count.to_string(), table::micros(ours / count)]);
        cells.extend([table::micros(runs), table::micros(runs / count), table::ratio(ours, runs)]);
        table::line(&case.name, cells);
    }
}

#[cfg(test)]
mod tests {
    use crout_tests::networks;

    use super::*;

    /// `Many::new` compares the solutions.
    #[test]
    fn all_callers_agree() {
        for n in [1, 2, 7, 36] {
            for plan in [networks::three_diagonal(n), networks::grid(n, 6), networks::full(n)] {
                let case = Case::new("", n, plan);
                for count in [1, 2, 8, 63, 64] {
                    Many::new(&case, count);
                    Many::new(&case.compact(), count);
                }
            }
        }
    }
}
