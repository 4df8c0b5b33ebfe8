//! `crout_fill_path` beside the plain search: all fill places of a plan one after another, and long paths of the largest order beside a
//! compilation.

use std::cell::RefCell;
use std::time::Duration;

use crout_tests::calls::{self, Answer};
use crout_tests::random::Random;
use crout_tests::reading::labels::places;

use crate::case::Case;
use crate::compile::Compilers;
use crate::plain;
use crate::table;
use crate::timing::{Caller, caller, race};

const COLUMNS: [&str; 6] = ["entries", "ours us", "plain us", "ratio", "compile us", "ratio"];

type Place = (u32, u32);

/// One of the callers.
type Call = fn(&Case, Place, &mut Written) -> Answer;

/// The slices that a call may write.
struct Written {
    work: Vec<u32>,
    list: Vec<u32>,
}

impl Written {
    fn of(n: u32) -> Self {
        Self { work: vec![0; (n * n) as usize], list: vec![0; n as usize + 1] }
    }

    fn clear(&mut self) {
        self.work.fill(0);
        self.list.fill(0);
    }
}

fn ours(case: &Case, place: Place, to: &mut Written) -> Answer {
    calls::path::fill_path(case.n, &case.plan, place, &mut to.work, &mut to.list)
}

fn plain(case: &Case, place: Place, to: &mut Written) -> Answer {
    plain::path::fill_path(case.n, &case.plan, place, &mut to.work, &mut to.list).into()
}

/// The entries of the path that both give.
fn entries(case: &Case, place: Place) -> u64 {
    let [mut to, mut plain_to] = [Written::of(case.n), Written::of(case.n)];
    let answer = ours(case, place, &mut to);
    assert_eq!(plain(case, place, &mut plain_to), answer, "the plain answer differs");
    assert!(to.work == plain_to.work && to.list == plain_to.list, "work numbers or lists differ");
    answer.out[0]
}

/// The held places that are not in the plan.
fn fill_places(case: &Case) -> Vec<Place> {
    let mut to = Written::of(case.n);
    assert_eq!(ours(case, (0, 0), &mut to).number(), 22, "a place outside the table");
    let labelled = (1..).zip(&to.work).zip(places(case.n));
    let fill = labelled.filter(|&((label, &slot), _)| slot != 0 && case.plan.binary_search(&label).is_err());
    fill.map(|(_, place)| place).collect()
}

/// Mean entries, ours, plain, and a compilation of the plan.
fn print(case: &Case, name: &str, entries: f64, ours: Duration, plain: Duration, compile: Duration) {
    let cells = [
        table::micros(ours),
        table::micros(plain),
        table::ratio(ours, plain),
        table::micros(compile),
        table::ratio(ours, compile),
    ];
    table::line(&format!("{}{name}", case.name), [format!("{entries:.1}")].into_iter().chain(cells));
}

/// A call for a path on slices that are cleared before.
fn timed<'a>(case: &'a Case, place: Place, to: &'a RefCell<Written>, call: Call) -> Caller<'a> {
    caller(to, Written::clear, move |to| call(case, place, to))
}

/// One call for each fill place in turn: the mean time of a path.
fn all_fill(case: &Case) {
    let fill = fill_places(case);
    let tos = [(); 2].map(|()| RefCell::new(Written::of(case.n)));
    let mut total = [Duration::ZERO; 2];
    let mut named = 0;
    for &place in &fill {
        total[0] += timed(case, place, &tos[0], ours)();
        total[1] += timed(case, place, &tos[1], plain)();
        let [to, plain_to] = tos.each_ref().map(RefCell::borrow);
        assert!(to.list == plain_to.list, "the lists differ");
        named += to.list.iter().filter(|&&entry| entry != 0).count();
    }
    let [ours, plain] = total.map(|total| total / fill.len() as u32);
    let [compile] = race([Compilers::new(case).ours()]);
    print(case, ", all", named as f64 / fill.len() as f64, ours, plain, compile);
}

/// The longest of the paths of some fill places, or of a pivot if there is no fill.
fn longest(case: &Case) {
    let random = &mut Random(1);
    let fill = fill_places(case);
    let some = (0..200.min(fill.len())).map(|_| fill[random.below(fill.len())]).chain(fill.last().copied());
    let place = some.max_by_key(|&place| entries(case, place)).unwrap_or((case.n, case.n));
    let to = RefCell::new(Written::of(case.n));
    let compilers = Compilers::new(case);
    let [ours, plain, compile] = race([timed(case, place, &to, ours), timed(case, place, &to, plain), compilers.ours()]);
    print(case, "", entries(case, place) as f64, ours, plain, compile);
}

/// All fill places of the first case, then a long path of each of the others.
pub fn paths(grid: &Case, others: &[&Case]) {
    println!();
    table::line("path", COLUMNS.map(String::from));
    all_fill(grid);
    others.iter().for_each(|case| longest(case));
}

#[cfg(test)]
mod tests {
    use crout_tests::networks;

    use super::*;

    /// `entries` compares ours and the plain one.
    #[test]
    fn ours_and_plain_agree() {
        let random = &mut Random(1);
        let mut longest = 0;
        for n in [1, 2, 7, 36] {
            for plan in [networks::three_diagonal(n), networks::grid(n, 6), networks::full(n)] {
                let case = Case::new("", n, plan);
                for _ in 0..200 {
                    let place = (random.below(n as usize + 2) as u32, random.below(n as usize + 2) as u32);
                    longest = longest.max(entries(&case, place));
                }
            }
        }
        assert!(longest > 6, "paths of up to {longest} entries");
    }

    #[test]
    fn the_fill_of_a_small_grid() {
        let fill = fill_places(&Case::new("", 4, networks::grid(4, 2)));
        assert_eq!(fill, [(3, 2), (2, 3)]);
    }
}
