//! `crout_label` and `crout_place` against (2.8) and against the dense order of the places.

use crout_tests::calls::labels::{label, place};
use crout_tests::reading;

/// All places of an order: the label by (2.8), by its index in dense order, and back.
fn compare_order(n: u32) {
    let places = reading::labels::places(n);
    assert_eq!(places.len() as u32, n * n);
    for (k, &(i, j)) in (1..).zip(&places) {
        assert_eq!(label(n, i, j), k, "label of ({i}, {j}), order {n}");
        assert_eq!(reading::labels::label(n, i, j), k, "(2.8) at ({i}, {j}), order {n}");
        assert_eq!(place(n, k), 1024 * i + j, "place of {k}, order {n}");
    }
}

#[test]
fn every_place_of_the_orders_up_to_60() {
    (1..=60).for_each(compare_order);
}

#[test]
fn every_place_of_orders_599_and_600() {
    compare_order(599);
    compare_order(600);
}

/// Numbers on both sides of every bound, and the ends of 32 bits.
fn around(bounds: &[u32]) -> Vec<u32> {
    let mut numbers = vec![0, 1, 2, 1 << 16, (1 << 31) - 1, 1 << 31, u32::MAX - 1, u32::MAX];
    for &b in bounds {
        numbers.extend([b.wrapping_sub(1), b, b.wrapping_add(1)]);
    }
    numbers.sort_unstable();
    numbers.dedup();
    numbers
}

#[test]
fn labels_of_numbers_out_of_range() {
    let orders = around(&[6, 600]);
    let mut refused = 0;
    for &n in &orders {
        for &i in &around(&[n, 600]) {
            for &j in &around(&[n, 600]) {
                let expected = reading::labels::label(n, i, j);
                assert_eq!(label(n, i, j), expected, "label of ({i}, {j}), order {n}");
                refused += u32::from(expected == 0);
            }
        }
    }
    assert!(refused > 1000, "only {refused} of these are out of range");
}

#[test]
fn places_of_numbers_out_of_range() {
    for n in around(&[6, 600]) {
        let labels = if (1..=600).contains(&n) { n * n } else { 0 };
        let places = reading::labels::places(if labels == 0 { 0 } else { n });
        for k in around(&[labels, 600 * 600, n]) {
            let expected = match places.get((k as usize).wrapping_sub(1)) {
                Some(&(i, j)) => 1024 * i + j,
                None => 0,
            };
            assert_eq!(place(n, k), expected, "place of {k}, order {n}");
        }
    }
}

#[test]
fn the_known_places_of_order_6() {
    for (i, j, k) in [(5, 2, 15), (1, 6, 11), (6, 6, 36)] {
        assert_eq!(label(6, i, j), k);
        assert_eq!(place(6, k), 1024 * i + j);
    }
}
