//! `crout_costs_most` against the reading, and both against what document 02 says of them: the formula, and the first row and column.

use crout_tests::calls::{costs::costs_most, refused};
use crout_tests::lent::Lent;
use crout_tests::networks;
use crout_tests::random::Random;
use crout_tests::reading::{self, Refusal, labels::label, plan::Held};

/// The library's answer with so many work numbers, all junk before; it is the reading's, also in the work numbers.
fn answer_with(work_len: usize, n: u32, plan: &[u32], random: &mut Random) -> Result<bool, Refusal> {
    let mut work = Lent::<u32>::new(work_len, random);
    let mut read_work = work.clone();
    let returned = costs_most(n, plan, work.part());
    let read = reading::costs::costs_most(n, plan, read_work.part());
    let what = || format!("order {n}, work {work_len}, plan {:?}", &plan[..plan.len().min(400)]);
    assert_eq!(returned, read.map_or_else(|(number, detail)| refused(number, detail), u64::from), "{}", what());
    assert!(work.same(&read_work), "work numbers: {}", what());
    read
}

/// The same with as many work numbers as it needs, or a few more.
fn answer(n: u32, plan: &[u32], random: &mut Random) -> Result<bool, Refusal> {
    answer_with((n * n) as usize + random.below(9), n, plan, random)
}

/// Document 02's formula.
fn most(n: u64) -> u64 {
    n * (n - 1) * (2 * n - 1) / 6 + n * (n - 1)
}

fn first_whole(n: u32, plan: &[u32]) -> bool {
    (1..=n).all(|k| [(1, k), (k, 1)].iter().all(|&(i, j)| plan.binary_search(&label(n, i, j)).is_ok()))
}

/// What is proved of a plan and of the answer for it.
fn is_as_proved(n: u32, plan: &[u32], answer: Result<bool, Refusal>) {
    assert!(Held::of(n, plan).products() <= most(n.into()), "order {n}, plan {plan:?}");
    if let Ok(yes) = answer {
        assert_eq!(yes, first_whole(n, plan), "order {n}, plan {plan:?}");
    }
}

#[test]
fn every_plan_of_order_up_to_3() {
    let mut random = Random(41);
    let mut said = [0; 3];
    for n in 1..=3 {
        for set in 0..1u32 << (n * n) {
            let plan: Vec<u32> = (1..=n * n).filter(|k| set >> (k - 1) & 1 == 1).collect();
            let answer = answer(n, &plan, &mut random);
            is_as_proved(n, &plan, answer);
            said[answer.map_or(2, usize::from)] += 1;
        }
    }
    // of order n those with a whole first row and column: 1, 2 and 16
    assert_eq!(said, [1 + 5 + 121 - 19, 19, 1 + 11 + 391]);
}

#[test]
fn random_plans() {
    let mut random = Random(42);
    let mut said = [0; 3];
    for _ in 0..3000 {
        let n = 1 + random.below(30) as u32;
        let mut plan = networks::any(n, &mut random);
        if random.chance(0.5) {
            plan.extend((1..=n).flat_map(|k| [label(n, 1, k), label(n, k, 1)]));
            plan.sort_unstable();
            plan.dedup();
            if random.chance(0.5) {
                plan.remove(random.below(plan.len()));
            }
        }
        let answer = answer(n, &plan, &mut random);
        is_as_proved(n, &plan, answer);
        said[answer.map_or(2, usize::from)] += 1;
    }
    assert!(said.iter().all(|&times| times > 300), "{said:?}");
}

#[test]
fn the_largest_order() {
    let mut random = Random(43);
    let full = networks::full(600);
    assert_eq!(answer(600, &full, &mut random), Ok(true));
    assert_eq!(Held::of(600, &full).products(), most(600));
    for place in [(600, 1), (2, 1), (1, 2), (1, 600)] {
        let left_out: Vec<u32> = full.iter().copied().filter(|&k| k != label(600, place.0, place.1)).collect();
        assert_eq!(answer(600, &left_out, &mut random), Ok(false), "{place:?} left out");
    }
    let first: Vec<u32> = networks::plan_of(600, (1..=600).flat_map(|k| [(1, k), (k, 1)]));
    assert_eq!(answer(600, &first, &mut random), Ok(true), "the first row and column alone");
}

#[test]
fn refusals_come_in_order() {
    let mut random = Random(44);
    assert_eq!(answer_with(4, 0, &[], &mut random), Err((1, 0)));
    assert_eq!(answer_with(4, 601, &[1], &mut random), Err((1, 0)));
    assert_eq!(answer_with(3, 2, &[5], &mut random), Err((2, 4)));
    assert_eq!(answer_with(4, 2, &[1, 5, 5], &mut random), Err((3, 2)));
    assert_eq!(answer_with(4, 2, &[1, 1], &mut random), Err((4, 2)));
    assert_eq!(answer_with(5, 2, &[2, 3], &mut random), Err((5, 1)), "it has as many products as a full table");
    assert_eq!(answer_with(1, 1, &[1], &mut random), Ok(true));
}
