//! `crout_order` beside the plain trials, for one round and until a whole round has kept nothing: how many trials were gone through and
//! exchanges kept, the time of a call, and that of a trial, which is the call's without that of a call for no trials. The last line of
//! one round stands beside plain trials that find the slots of every plan they try.

use std::cell::RefCell;
use std::time::Duration;

use crout_tests::calls::{self, Answer};

use crate::case::Case;
use crate::plain::Refusal;
use crate::plain::order::{Ordered, order, order_by_fill};
use crate::table;
use crate::timing::{caller, race};

const COLUMNS: [&str; 10] = ["trials", "kept", "slots", "after", "ours us", "plain us", "ratio", "ns/trial", "(plain)", "ratio"];

/// More trials than any case goes through.
const MANY: u32 = 1_000_000;

/// One of the plain callers: order, plan, trials, work numbers and numbering.
type Plain = fn(u32, &[u32], u32, &mut [u32], &mut [u32]) -> Result<Ordered, Refusal>;

/// The slices that a call may write.
#[derive(PartialEq)]
struct Written {
    work: Vec<u32>,
    numbering: Vec<u32>,
}

impl Written {
    fn of(n: u32) -> Self {
        Self { work: vec![0; (n * n) as usize], numbering: vec![0; n as usize] }
    }

    fn clear(&mut self) {
        self.work.fill(0);
        self.numbering.fill(0);
    }
}

fn ours(case: &Case, trials: u32, to: &mut Written) -> Answer {
    calls::order::order(case.n, &case.plan, trials, &mut to.work, &mut to.numbering)
}

fn plain(case: &Case, trials: u32, to: &mut Written, plain: Plain) -> Ordered {
    plain(case.n, &case.plan, trials, &mut to.work, &mut to.numbering).expect("an accepted plan")
}

/// What both come to.
fn agreed(case: &Case, trials: u32, by: Plain) -> Ordered {
    let [mut to, mut plain_to] = [Written::of(case.n), Written::of(case.n)];
    let ordered = plain(case, trials, &mut plain_to, by);
    assert_eq!(ours(case, trials, &mut to), Answer::fine([ordered.slots, ordered.trials, ordered.distance]));
    assert!(to == plain_to, "work numbers or numberings differ");
    ordered
}

/// Two times and their ratio.
fn cells(times: [Duration; 2], cell: impl Fn(Duration) -> String) -> [String; 3] {
    let [ours, plain] = times;
    [cell(ours), cell(plain), table::ratio(ours, plain)]
}

/// A call for so many trials beside a plain one, then a trial beside a plain one.
fn race_trials(name: &str, case: &Case, trials: u32, by: Plain) {
    let Ordered { slots, tried, kept, .. } = agreed(case, trials, by);
    let to = RefCell::new(Written::of(case.n));
    let our_call = |trials| caller(&to, Written::clear, move |to| ours(case, trials, to));
    let plain_call = |trials| caller(&to, Written::clear, move |to| plain(case, trials, to, by));
    let [ours, plain, our_rest, plain_rest] = race([our_call(trials), plain_call(trials), our_call(0), plain_call(0)]);
    let counts = [tried, kept, case.slots as u64, slots].map(|count| count.to_string());
    let calls = cells([ours, plain], table::micros);
    let each = cells([ours - our_rest, plain - plain_rest], |time| table::nanos(time, tried as f64));
    table::line(name, counts.into_iter().chain(calls).chain(each));
}

/// An empty line, then the name of a group and its columns.
fn head(group: &str) {
    println!();
    table::line(group, COLUMNS.map(String::from));
}

/// Each case for one round and until a whole round has kept nothing, and one round of the grid beside a slot pass for every trial.
pub fn orders(cases: &[&Case], grid: &Case) {
    head("order, one round");
    cases.iter().for_each(|case| race_trials(&case.name, case, case.n - 1, order));
    race_trials("grid, all filled", grid, grid.n - 1, order_by_fill);
    head("order, settled");
    cases.iter().for_each(|case| race_trials(&case.name, case, MANY, order));
}

#[cfg(test)]
mod tests {
    use crout_tests::networks;

    use super::*;
    use crate::case::random_sparse;

    /// `agreed` compares ours and a plain one.
    #[test]
    fn ours_and_plain_agree() {
        let mut kept = 0;
        for (n, plan) in [(1, networks::full(1)), (2, networks::full(2)), (36, networks::grid(36, 6)), (40, random_sparse(40))] {
            let case = Case::new("", n, plan);
            for trials in [0, 1, 7, 500, MANY] {
                let ordered = agreed(&case, trials, order);
                assert_eq!(agreed(&case, trials, order_by_fill), ordered);
                assert!(ordered.tried <= u64::from(trials).min(2000), "{ordered:?}");
                kept += ordered.kept;
            }
        }
        assert!(kept > 20, "{kept} kept");
    }
}
