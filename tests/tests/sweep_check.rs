//! `crout_check` on programs without slots, which are those of sweeps: each of its refusals, and small programs with every word changed.

use crout_tests::calls::{file::check, refused};
use crout_tests::networks;
use crout_tests::programs::{self, bytes_of, in_order};
use crout_tests::verdict::verdict_on;

#[test]
fn every_word_of_small_programs() {
    let [mut fine, mut refused] = [0; 2];
    for (n, plan) in [(1, vec![1]), (2, vec![1, 4]), (2, networks::full(2)), (3, networks::three_diagonal(3))] {
        let words = programs::swept(n, &plan).expect("the plan has its diagonal");
        for index in 0..words.len() {
            for word in (0..40).chain([600, 601, 1 << 31, u32::MAX - 1, u32::MAX]) {
                let mut words = words.clone();
                words[index] = word;
                *if verdict_on(&words) == 0 { &mut fine } else { &mut refused } += 1;
            }
        }
    }
    assert!(fine > 100 && refused > 3000, "{fine} {refused}");
}

/// The check of a program of order 2 with two coefficients and these records.
fn checked(slots: u32, records: &[[u32; 3]]) -> u64 {
    let words = in_order([2, 2, slots], records.iter().copied());
    verdict_on(&words);
    check(&bytes_of(&words))
}

#[test]
fn each_refusal_once() {
    let (one, two, close) = ([10, 1, 0], [10, 2, 0], [8, 0, 0]);
    let fine = |within: [u32; 3]| checked(0, &[one, within, close, two, close]);
    assert_eq!(fine([11, 2, 1]), 0, "the open row is read");
    assert_eq!((fine([11, 1, 2]), fine([12, 2, 0])), (0, 0));
    assert_eq!(checked(0, &[one, close, two, close]), 0, "rows without products and quotients");
    assert_eq!((fine([11, 0, 1]), fine([11, 3, 1])), (refused(12, 2), refused(12, 2)), "A(0) and A(3) of two");
    assert_eq!((fine([11, 1, 0]), fine([11, 1, 3])), (refused(12, 2), refused(12, 2)), "X(0) and X(3) of two");
    assert_eq!((fine([12, 0, 0]), fine([12, 3, 0])), (refused(12, 2), refused(12, 2)));
    assert_eq!((fine([12, 1, 1]), fine([8, 1, 0]), fine([8, 0, 1])), (refused(10, 2), refused(10, 2), refused(10, 2)));
    assert_eq!(checked(0, &[[10, 1, 1]]), refused(10, 1), "an unused q");
    assert_eq!((fine(two), fine(close)), (refused(11, 2), refused(11, 3)), "two open, and nothing open");
    assert_eq!((checked(0, &[[11, 1, 1]]), checked(0, &[[12, 1, 0]])), (refused(11, 1), refused(11, 1)));
    assert_eq!((checked(0, &[two]), checked(0, &[one, close, one])), (refused(12, 1), refused(12, 3)), "rows out of turn");
    assert_eq!(checked(0, &[one, close, two, close, [10, 3, 0]]), refused(12, 5), "a row too many");
    assert_eq!((checked(0, &[one, close]), checked(0, &[one, close, two])), (refused(13, 0), refused(13, 0)));
    for kind in (0..=13).chain([u32::MAX]) {
        let sweeps = [8, 10, 11, 12].contains(&kind);
        assert_eq!(checked(0, &[[kind, 0, 0]]) == refused(10, 1), !sweeps, "kind {kind} without slots");
        assert_eq!(checked(1, &[[kind, 0, 0]]) == refused(10, 1), !(1..=9).contains(&kind), "kind {kind} with slots");
    }
}
