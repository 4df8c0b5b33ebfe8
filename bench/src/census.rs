//! `crout_count_plans` beside the plain count.

use std::cell::RefCell;

use crout_tests::calls::census::count_plans;

use crate::plain;
use crate::table;
use crate::timing::{caller, race};

const COLUMNS: [&str; 3] = ["ours us", "plain us", "ratio"];

fn plain(n: u32, out: &mut [u64; 5]) -> u64 {
    plain::census::count_plans(n, out).map_or_else(|(number, detail)| (u64::from(number) << 32) + detail, |()| 0)
}

/// Both count alike.
fn agree(n: u32) {
    let [mut ours_out, mut plain_out] = [[7; 5]; 2];
    assert_eq!(count_plans(n, &mut ours_out), plain(n, &mut plain_out), "order {n}");
    assert_eq!(ours_out, plain_out, "order {n}");
}

/// All plans of an order.
pub fn census() {
    println!();
    table::line("count plans", COLUMNS.map(String::from));
    for n in 1..=4 {
        agree(n);
        let out = RefCell::new([0; 5]);
        let clear = |out: &mut [u64; 5]| *out = [0; 5];
        let [ours, plain] =
            race([caller(&out, clear, move |out| count_plans(n, out)), caller(&out, clear, move |out| plain(n, out))]);
        table::line(&format!("order {n}"), [table::micros(ours), table::micros(plain), table::ratio(ours, plain)]);
    }
}

#[cfg(test)]
mod tests {
    use super::*;

    #[test]
    fn ours_and_plain_agree() {
        (0..=6).for_each(agree);
    }
}
