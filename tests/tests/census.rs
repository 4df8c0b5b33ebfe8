//! `crout_count_plans` against the reading, and against the compiler's own answers.

use crout_tests::calls::{census::count_plans, compile::compile, refused};
use crout_tests::reading;

/// The library's counts, which had junk before; they and the answer are the reading's.
fn counts(n: u32) -> [u64; 5] {
    let mut out = [0x5555_5555_5555_5555; 5];
    let returned = count_plans(n, &mut out);
    let read = reading::census::count_plans(n);
    assert_eq!(returned, read.map_or_else(|(number, detail)| refused(number, detail), |_| 0), "order {n}");
    assert_eq!(out, read.unwrap_or([0; 5]), "order {n}");
    out
}

#[test]
fn orders_1_to_4() {
    assert_eq!(counts(1), [1, 1, 0, 0, 0]);
    assert_eq!(counts(2), [5, 8, 3, 0, 0]);
    assert_eq!(counts(3), [121, 256, 96, 39, 0]);
    let four = counts(4);
    assert_eq!(four.iter().sum::<u64>(), 65_536);
    assert_eq!(four, [13_361, 32_768, 12_288, 4_992, 2_127]);
}

#[test]
fn other_orders_are_refused() {
    for n in [0, 5, 6, 600, 601, 65_536, u32::MAX] {
        assert_eq!(counts(n), [0; 5]);
    }
}

/// What the compiler says of every plan up to order 4 adds up to the counts.
#[test]
fn the_compiler_says_so() {
    for n in 1..=4 {
        let mut said = [0; 5];
        let mut work = [0; 16];
        for set in 0..1u32 << (n * n) {
            let plan: Vec<u32> = (1..=n * n).filter(|k| set >> (k - 1) & 1 == 1).collect();
            let answer = compile(n, &plan, &mut work, &mut []);
            match answer.number() {
                5 => said[answer.detail() as usize] += 1,
                number => {
                    assert_eq!(number, 6, "order {n}, plan {plan:?}");
                    said[0] += 1;
                }
            }
        }
        assert_eq!(counts(n), said, "order {n}");
    }
}
