//! `crout_order` against the reading, and both against what document 02 says of them: all small plans beside all numberings that there are,
//! random networks, stars, many trials, and what is refused.

use crout_tests::calls::{Answer, compile::compile, order::order};
use crout_tests::lent::Lent;
use crout_tests::networks::{self, SHAPES};
use crout_tests::random::Random;
use crout_tests::reading::order::{Ordered, renumbered, slots};
use crout_tests::reading::{self, Refusal, plan::Held};

/// What a call gives: the numbering, and what the reading tells with it.
type Given = Result<(Vec<u32>, Ordered), Refusal>;

/// The library's answer with so many work numbers and so many entries of the numbering, all junk before. It is the reading's, also in the
/// work numbers and the numbering, and the plan is as it was.
fn ordered_with(work_len: usize, numbering_len: usize, n: u32, plan: &[u32], trials: u32, random: &mut Random) -> Given {
    let mut work = Lent::<u32>::new(work_len, random);
    let mut numbering = Lent::<u32>::new(numbering_len, random);
    let (mut read_work, mut read_numbering) = (work.clone(), numbering.clone());
    let plan_before = plan.to_vec();
    let answer = order(n, plan, trials, work.part(), numbering.part());
    let read = reading::order::order(n, plan, trials, read_work.part(), read_numbering.part());
    let what = || {
        let shown = &plan[..plan.len().min(400)];
        format!("order {n}, {trials} trials, work {work_len}, numbering {numbering_len}, plan {shown:?}")
    };
    let expected = match &read {
        Ok(Ordered { slots, trials, distance, .. }) => Answer::fine([*slots, *trials, *distance]),
        Err((number, detail)) => Answer::refused(*number, *detail),
    };
    assert_eq!(answer, expected, "{}", what());
    assert!(numbering.same(&read_numbering), "the numbering {:?}: {}", numbering.entries(), what());
    assert!(work.same(&read_work), "work numbers: {}", what());
    assert!(plan == plan_before, "the plan has changed: {}", what());
    let ordered = read?;
    is_as_said(n, plan, &ordered, numbering.entries(), work.entries());
    Ok((numbering.entries().to_vec(), ordered))
}

/// The same with as many work numbers as it needs, or a few more.
fn ordered(n: u32, plan: &[u32], trials: u32, random: &mut Random) -> Given {
    ordered_with((n * n) as usize + random.below(9), n as usize, n, plan, trials, random)
}

/// Each room is numbered once, the compiler finds the same slots in the renumbered plan, which has as many labels, and every trial whose
/// plan was accepted had at least as many.
fn is_as_said(n: u32, plan: &[u32], told: &Ordered, numbering: &[u32], work: &[u32]) {
    let what = || format!("order {n}, numbering {numbering:?}, plan {:?}", &plan[..plan.len().min(400)]);
    let mut rooms = numbering.to_vec();
    rooms.sort_unstable();
    assert!(rooms.into_iter().eq(1..=n), "{}", what());
    let plan_after = renumbered(n, plan, numbering);
    assert_eq!(plan_after.len(), plan.len(), "{}", what());
    let square = (n * n) as usize;
    let mut compiled = vec![9; square];
    assert_eq!(compile(n, &plan_after, &mut compiled, &mut []).number(), 6, "accepted, but no words are lent: {}", what());
    assert_eq!(compiled, work[..square], "{}", what());
    assert_eq!(compiled.iter().max().map(|&slot| u64::from(slot)), Some(told.slots), "{}", what());
    assert_eq!(told.slots - told.distance, plan.len() as u64, "{}", what());
    assert!(told.tried.iter().all(|trial| !trial.is_accepted || trial.slots >= told.slots), "{:?}: {}", told.tried, what());
}

/// The slots before any trial.
fn slots_of(n: u32, plan: &[u32]) -> u64 {
    slots(&Held::of(n, plan))
}

/// All numberings of n rooms.
fn all_numberings(n: u32) -> Vec<Vec<u32>> {
    if n == 0 {
        return vec![Vec::new()];
    }
    let fewer = all_numberings(n - 1);
    let with_n_at = |at: usize| fewer.iter().map(move |numbering| [&numbering[..at], &[n], &numbering[at..]].concat());
    (0..n as usize).flat_map(with_n_at).collect()
}

/// Some numbering of n rooms.
fn any_numbering(n: u32, random: &mut Random) -> Vec<u32> {
    let mut rooms: Vec<u32> = (1..=n).collect();
    for k in (1..rooms.len()).rev() {
        rooms.swap(k, random.below(k + 1));
    }
    rooms
}

/// A room that touches all others, and has the given number.
fn star(n: u32, middle: u32) -> Vec<u32> {
    networks::plan_of(n, (1..=n).flat_map(|room| [(room, room), (middle, room), (room, middle)]))
}

/// The first room touches all others, and few of these have a place on the diagonal: it is fill, and goes with the numbering.
fn hollow(n: u32, random: &mut Random) -> Vec<u32> {
    let mut places: Vec<(u32, u32)> = (1..=n).flat_map(|room| [(1, room), (room, 1)]).collect();
    places.extend((2..=n).filter(|_| random.chance(0.3)).map(|room| (room, room)));
    let mut room = || 1 + random.below(n as usize) as u32;
    places.extend((0..n / 2).map(|_| (room(), room())));
    networks::plan_of(n, places)
}

/// What the trials of a test have come to.
#[derive(Debug, Default)]
struct Met {
    kept: usize,
    /// Accepted with as many slots as were kept then.
    equal: usize,
    /// Not accepted, with fewer slots than were kept then.
    missing: usize,
    refused: usize,
}

impl Met {
    fn count(&mut self, before: u64, given: &Given) {
        let Ok((_, told)) = given else {
            self.refused += 1;
            return;
        };
        let mut slots = before;
        for trial in &told.tried {
            self.kept += usize::from(trial.is_kept);
            self.equal += usize::from(trial.is_accepted && trial.slots == slots);
            self.missing += usize::from(!trial.is_accepted && trial.slots < slots);
            slots = if trial.is_kept { trial.slots } else { slots };
        }
    }

    fn each_more_than(&self, times: usize) -> bool {
        [self.kept, self.equal, self.missing, self.refused].into_iter().all(|met| met > times)
    }
}

#[test]
fn known_numberings() {
    let mut random = Random(51);
    let star = [1, 2, 3, 4, 5, 6, 7, 8, 13, 16];
    for (n, plan, trials, slots, made, distance, numbering) in [
        (4, &star[..], 2, 10, 2, 0, &[2, 3, 1, 4][..]),
        (4, &star[..], 1, 12, 1, 2, &[2, 1, 3, 4][..]),
        (4, &star[..], 0, 16, 0, 6, &[1, 2, 3, 4][..]),
        (2, &[1, 2, 3], 5, 4, 5, 1, &[1, 2]),
        (1, &[1], 0, 1, 0, 0, &[1]),
        (1, &[1], 7, 1, 0, 0, &[1]),
        (1, &[1], u32::MAX, 1, 0, 0, &[1]),
    ] {
        let (given, told) = ordered(n, plan, trials, &mut random).expect("an accepted plan");
        assert_eq!((told.slots, told.trials, told.distance), (slots, made, distance), "order {n}, {trials} trials");
        assert_eq!(given, numbering, "order {n}, {trials} trials");
    }
    let mut work = [9; 17];
    order(4, &star, 2, &mut work, &mut [0; 4]);
    assert_eq!(work, [1, 0, 2, 0, 0, 3, 0, 4, 5, 0, 6, 0, 7, 8, 9, 10, 9]);
}

/// Rooms that touch the middle alone and stand before it have three slots each, and all others fill a square.
#[test]
fn the_middle_of_a_star_goes_up() {
    let mut random = Random(52);
    for (n, trials) in (2..=30).flat_map(|n| [(n, 1), (n, n / 2), (n, n - 2), (n, n - 1), (n, 5 * n)]).chain([(600, 3)]) {
        let (numbering, told) = ordered(n, &star(n, 1), trials, &mut random).expect("a star");
        let before: u32 = trials.min(n - 2);
        assert_eq!(told.slots, u64::from(3 * before + (n - before) * (n - before)), "order {n}, {trials} trials");
        assert!(numbering.into_iter().eq((2..=before + 1).chain([1]).chain(before + 2..=n)), "order {n}, {trials} trials");
    }
}

#[test]
fn every_plan_of_order_up_to_4_beside_all_numberings() {
    let mut random = Random(53);
    let mut met = Met::default();
    for n in 1..=4 {
        let numberings = all_numberings(n);
        for set in 0..1u32 << (n * n) {
            let plan: Vec<u32> = (1..=n * n).filter(|label| set >> (label - 1) & 1 == 1).collect();
            let trials = random.below(3 * n as usize + 1) as u32;
            let given = ordered(n, &plan, trials, &mut random);
            met.count(slots_of(n, &plan), &given);
            let Ok((numbering, told)) = given else { continue };
            assert!(numberings.contains(&numbering), "order {n}, plan {plan:?}: {numbering:?}");
            for other in &numberings {
                let fewest = slots_of(n, &renumbered(n, &plan, other));
                assert!(fewest >= told.slots - told.distance, "order {n}, plan {plan:?}, numbering {other:?}");
            }
        }
    }
    assert_eq!(met.refused, 1 + 11 + 391 + 52_175);
    assert!(met.each_more_than(1000), "{met:?}");
}

#[test]
fn random_plans_of_small_orders() {
    let mut random = Random(54);
    let mut met = Met::default();
    for round in 0..20_000 {
        let n = 5 + random.below(4) as u32;
        let plan = if round % 4 == 0 { hollow(n, &mut random) } else { networks::any(n, &mut random) };
        let given = ordered(n, &plan, random.below(4 * n as usize) as u32, &mut random);
        met.count(slots_of(n, &plan), &given);
    }
    assert!(met.each_more_than(1000), "{met:?}");
}

#[test]
fn random_networks() {
    let mut random = Random(55);
    let mut met = Met::default();
    for round in 0..1200 {
        let n = 2 + random.below(29) as u32;
        let shaped = match round % (SHAPES.len() + 2) {
            0 => star(n, 1 + random.below(n as usize) as u32),
            1 => hollow(n, &mut random),
            shape => SHAPES[shape - 2].plan(n, &mut random),
        };
        // every other one is numbered at random
        let plan = if random.chance(0.5) { renumbered(n, &shaped, &any_numbering(n, &mut random)) } else { shaped };
        let trials = [0, 1, n - 2, n - 1, n, 2 * n - 2, 5 * n + 3][random.below(7)];
        let given = ordered(n, &plan, trials, &mut random);
        met.count(slots_of(n, &plan), &given);
    }
    assert!(met.each_more_than(50), "{met:?}");
}

/// Once a round of n - 1 trials has kept nothing, no later trial keeps anything.
#[test]
fn many_trials_end_where_a_few_rounds_settle() {
    let mut random = Random(56);
    let plans = [star(5, 1), hollow(5, &mut random), renumbered(5, &networks::three_diagonal(5), &[4, 2, 5, 1, 3])];
    for plan in plans {
        let (mut work, mut numbering) = ([0; 25], [0; 5]);
        let settled = reading::order::order(5, &plan, 60, &mut work, &mut numbering).expect("an accepted plan");
        assert!(settled.tried[56..].iter().all(|trial| !trial.is_kept), "{:?}", settled.tried);
        let (mut given_work, mut given) = ([7; 26], [7; 5]);
        let answer = order(5, &plan, 100_003, &mut given_work, &mut given);
        assert_eq!(answer, Answer::fine([settled.slots, 100_003, settled.distance]), "plan {plan:?}");
        assert_eq!((given, &given_work[..25], given_work[25]), (numbering, &work[..], 7), "plan {plan:?}");
    }
}

#[test]
fn refusals() {
    let mut random = Random(57);
    let mut refused = |work_len, numbering_len, n, plan: &[u32]| {
        ordered_with(work_len, numbering_len, n, plan, 5, &mut random).expect_err("a refusal")
    };
    assert_eq!(refused(4, 0, 0, &[]), (1, 0));
    assert_eq!(refused(4, 3, 601, &[1]), (1, 0));
    assert_eq!(refused(3, 3, 2, &[5]), (2, 4));
    assert_eq!(refused(4, 3, 2, &[1, 5, 5]), (3, 2));
    assert_eq!(refused(4, 3, 2, &[1, 1]), (4, 2));
    assert_eq!(refused(5, 2, 2, &[2, 3]), (5, 1), "exchanged it misses that pivot too");
    assert_eq!(refused(5, 2, 2, &[2, 3, 4]), (5, 1), "exchanged it would be accepted");
    assert_eq!(refused(5, 3, 2, &[2, 3]), (5, 1), "before 29");
    for n in 1..=12 {
        for len in [0, n as usize - 1, n as usize + 1, 2 * n as usize] {
            assert_eq!(refused((n * n) as usize + 3, len, n, &star(n, 1)), (29, 0), "order {n}, {len} entries");
        }
    }
}

/// What is left by a refusal, as document 02 says it.
#[test]
fn refusals_leave_the_numbering() {
    for (n, plan, entries, answer, work_after) in [
        (601, &[1, 2, 3][..], 2, Answer::refused(1, 0), [9; 5]),
        (3, &[1, 2, 3], 3, Answer::refused(2, 9), [9; 5]),
        (2, &[1, 5], 2, Answer::refused(3, 2), [9; 5]),
        (2, &[2, 1], 2, Answer::refused(4, 2), [9; 5]),
        (2, &[1], 2, Answer::refused(5, 2), [0, 0, 0, 0, 9]),
        (2, &[1], 0, Answer::refused(5, 2), [0, 0, 0, 0, 9]),
        (2, &[1, 2, 4], 0, Answer::refused(29, 0), [1, 2, 0, 3, 9]),
        (2, &[1, 2, 4], 1, Answer::refused(29, 0), [1, 2, 0, 3, 9]),
        (2, &[1, 2, 3], 3, Answer::refused(29, 0), [1, 2, 3, 4, 9]),
    ] {
        let (mut work, mut numbering) = ([9; 5], vec![7; entries]);
        assert_eq!(order(n, plan, 5, &mut work, &mut numbering), answer, "order {n}, plan {plan:?}, {entries} entries");
        assert_eq!((work, numbering), (work_after, vec![7; entries]), "order {n}, plan {plan:?}, {entries} entries");
    }
}

#[test]
fn the_checks_come_in_order() {
    let mut random = Random(58);
    let mut met = [0; 30];
    for _ in 0..20_000 {
        let (n, small, plan) = networks::perhaps_damaged(&mut random);
        let work_len = (small * small) as usize + random.below(5) - usize::from(random.chance(0.2));
        let numbering_len = if random.chance(0.3) { random.below(9) } else { small as usize };
        let given = ordered_with(work_len, numbering_len, n, &plan, random.below(12) as u32, &mut random);
        met[given.map_or_else(|(number, _)| number as usize, |_| 0)] += 1;
    }
    assert!([0, 1, 2, 3, 4, 5, 29].iter().all(|&number| met[number] > 200), "{met:?}");
}
