//! `crout_compare` beside the plain comparison, on a program as it was compiled and with spare records between.

use std::cell::RefCell;

use crout_tests::calls::{self, refused};

use crate::case::Case;
use crate::plain;
use crate::table;
use crate::timing::{Caller, caller, race};

/// The columns beside those of each group, where there are spare records: ours without them, and ours over it.
pub const SPACED_COLUMNS: [&str; 2] = ["compare us", "ratio"];

/// A case, a program that is accepted for its plan, and the work numbers.
struct Comparison<'a> {
    case: &'a Case,
    words: &'a [u32],
    work: RefCell<Vec<u32>>,
}

/// What one of the callers returns: 0, or the refusal times 2^32 plus its detail.
type Compare = fn(&Case, &[u32], &mut [u32]) -> u64;

fn ours(case: &Case, words: &[u32], work: &mut [u32]) -> u64 {
    calls::compare::compare(case.n, &case.plan, work, words)
}

fn plain(case: &Case, words: &[u32], work: &mut [u32]) -> u64 {
    let verdict = plain::compare::compare(case.n, &case.plan, work, words);
    verdict.map_or_else(|(number, detail)| refused(number, detail), |()| 0)
}

/// What both return, and that they leave the same work numbers.
fn answer(case: &Case, words: &[u32]) -> u64 {
    let mut work = vec![7; (case.n * case.n) as usize + 1];
    let mut plain_work = work.clone();
    let returned = ours(case, words, &mut work);
    assert_eq!(plain(case, words, &mut plain_work), returned, "the plain answer differs");
    assert!(work == plain_work, "the work numbers differ");
    returned
}

impl<'a> Comparison<'a> {
    fn new(case: &'a Case, words: &'a [u32]) -> Self {
        assert_eq!(answer(case, words), 0, "the program is accepted");
        Self { case, words, work: RefCell::new(vec![0; (case.n * case.n) as usize]) }
    }

    fn caller(&self, compare: Compare) -> Caller<'_> {
        caller(&self.work, |work| work.fill(0), move |work| compare(self.case, self.words, work))
    }
}

/// The program with a spare record after every 16th, and its chain led round them.
fn spaced(words: &[u32]) -> Vec<u32> {
    let place = |record: u32| record + record / 16;
    let mut all = Vec::with_capacity(words.len() + words.len() / 16);
    for (index, record) in words.chunks_exact(4).enumerate() {
        if index > 0 && index % 16 == 0 {
            all.extend([99; 4]);
        }
        all.extend([record[0], record[1], record[2], place(record[3])]);
    }
    all
}

pub fn compare(case: &Case) {
    let compiled = Comparison::new(case, &case.words);
    let [ours, plain] = race([compiled.caller(ours), compiled.caller(plain)]);
    table::line(&case.name, table::cells(case, ours, plain));
}

/// The nanoseconds are for each record of the chain, as above.
pub fn compare_spaced(case: &Case) {
    let words = spaced(&case.words);
    let (edited, compiled) = (Comparison::new(case, &words), Comparison::new(case, &case.words));
    let [edited, plain, compiled] = race([edited.caller(ours), edited.caller(plain), compiled.caller(ours)]);
    let mut cells = table::cells(case, edited, plain);
    cells.extend([table::micros(compiled), table::ratio(edited, compiled)]);
    table::line(&case.name, cells);
}

#[cfg(test)]
mod tests {
    use crout_tests::random::Random;
    use crout_tests::{networks, programs};

    use super::*;

    /// `answer` compares ours and the plain one.
    #[test]
    fn ours_and_plain_agree() {
        let random = &mut Random(1);
        let mut differ = 0;
        for n in [1, 2, 7, 36] {
            for plan in [networks::three_diagonal(n), networks::grid(n, 6), networks::full(n)] {
                let case = Case::new("", n, plan);
                let mut words = spaced(&case.words);
                Comparison::new(&case, &case.words);
                Comparison::new(&case, &words);
                assert_eq!(answer(&case, &case.compact().words), if n == 1 { 0 } else { refused(28, 0) });
                for _ in 0..300 {
                    let (index, was) = programs::change(&mut words, random);
                    differ += u32::from(answer(&case, &words) >> 32 == 28);
                    words[index] = was;
                }
            }
        }
        assert!(differ > 200, "{differ} refused by 28");
    }

    #[test]
    fn a_spare_record_after_every_16th() {
        let case = Case::new("", 3, networks::full(3));
        let (words, all) = (&case.words, spaced(&case.words));
        assert_eq!(all.len() / 4, case.records() + (case.records() - 1) / 16);
        assert_eq!((&all[..60], &all[64..68]), (&words[..60], &[99; 4][..]));
        assert_eq!((&all[60..64], &all[68..71]), (&[words[60], words[61], words[62], 17][..], &words[64..67]));
    }
}
