//! `crout_fill_path` against the reading: every place of all small plans beside all lists that there are, random plans of several shapes,
//! the largest orders, plans that are refused, and lists that are no paths.

use crout_tests::calls::{Answer, path::fill_path};
use crout_tests::lent::Lent;
use crout_tests::networks::{self, SHAPES};
use crout_tests::random::Random;
use crout_tests::reading::labels::label;
use crout_tests::reading::path::{Rooms, trace};
use crout_tests::reading::plan::Held;

/// What a call gives: the path, or the refusal's number.
type Given = Result<Vec<u32>, u32>;

/// The library's path of a place, with so many work numbers and so many entries of the list, all junk before. Its refusal is the reading's,
/// and what it gives is a path; work numbers, list and out are as the reading says, and the plan is as it was.
fn path_with(work_len: usize, list_len: usize, n: u32, plan: &[u32], place: (u32, u32), random: &mut Random) -> Given {
    let before = Lent::<u32>::new(list_len, random);
    let mut list = before.clone();
    let mut work = Lent::<u32>::new(work_len, random);
    let mut read_work = work.clone();
    let plan_before = plan.to_vec();
    let answer = fill_path(n, plan, place, work.part(), list.part());
    let what =
        || format!("order {n}, place {place:?}, work {work_len}, list {list_len}, plan {:?}", &plan[..plan.len().min(400)]);
    let verdict = trace(n, plan, place, read_work.part(), list_len);
    assert!(plan == plan_before, "the plan has changed: {}", what());
    assert!(work.same(&read_work), "work numbers: {}", what());
    if let Err((number, detail)) = verdict {
        assert_eq!(answer, Answer::refused(number, detail), "{}", what());
        assert!(list.same(&before), "the list of a refused call: {}", what());
        return Err(number);
    }
    let entries = answer.out[0] as usize;
    assert_eq!(answer, Answer::fine([entries as u64, 0, 0]), "{}", what());
    let path = list.entries()[..entries].to_vec();
    assert!(Rooms::of(n, plan).is_path(place, &path), "{path:?}: {}", what());
    let mut expected = before;
    expected.part()[..entries].copy_from_slice(&path);
    assert!(list.same(&expected), "later entries: {}", what());
    Ok(path)
}

/// The same with as many work numbers and entries as it needs, or a few more.
fn path(n: u32, plan: &[u32], place: (u32, u32), random: &mut Random) -> Given {
    let (work_len, list_len) = ((n * n) as usize + random.below(9), n as usize + 1 + random.below(9));
    path_with(work_len, list_len, n, plan, place, random)
}

/// All lists of two to n + 1 rooms.
fn all_lists(n: u32) -> Vec<Vec<u32>> {
    let longer = |lists: &Vec<Vec<u32>>| -> Vec<Vec<u32>> {
        lists.iter().flat_map(|list| (1..=n).map(|room| [&list[..], &[room]].concat())).collect()
    };
    let of_each_length = std::iter::successors(Some(vec![Vec::new()]), |lists| Some(longer(lists)));
    of_each_length.skip(2).take(n as usize).flatten().collect()
}

#[test]
fn every_place_of_every_plan_of_order_up_to_3_beside_all_lists() {
    let mut random = Random(31);
    for n in 1..=3 {
        let lists = all_lists(n);
        for subset in 0..1u32 << (n * n) {
            let plan: Vec<u32> = (1..=n * n).filter(|label| subset >> (label - 1) & 1 == 1).collect();
            let (rooms, held) = (Rooms::of(n, &plan), Held::of(n, &plan));
            for place in (0..=n + 1).flat_map(|i| (0..=n + 1).map(move |j| (i, j))) {
                let given = path(n, &plan, place, &mut random);
                let exists = lists.iter().any(|list| rooms.is_path(place, list));
                let is_held = label(n, place.0, place.1) != 0 && held.at(place.0 as usize, place.1 as usize);
                assert!(given.is_ok() == exists && exists == is_held, "order {n}, place {place:?}, plan {plan:?}: {given:?}");
            }
        }
    }
}

#[test]
fn places_of_random_plans() {
    let mut random = Random(32);
    let (mut longest, mut unheld) = (0, 0);
    for round in 0..600 {
        let n = 1 + random.below(40) as u32;
        let plan = SHAPES[round % SHAPES.len()].plan(n, &mut random);
        let held = Held::of(n, &plan);
        for _ in 0..40 {
            let place = (1 + random.below(n as usize) as u32, 1 + random.below(n as usize) as u32);
            let given = path(n, &plan, place, &mut random);
            assert_eq!(given.is_ok(), held.at(place.0 as usize, place.1 as usize), "order {n}, place {place:?}, plan {plan:?}");
            match given {
                Ok(path) => longest = longest.max(path.len()),
                Err(_) => unheld += 1,
            }
        }
    }
    assert!(longest > 12 && unheld > 2000, "paths of up to {longest} entries, {unheld} places not held");
}

#[test]
fn fill_places_of_the_largest_orders() {
    let mut random = Random(33);
    for (n, plan) in
        [(576, networks::grid(576, 24)), (600, networks::tree(600, &mut random)), (300, networks::any(300, &mut random))]
    {
        let held = Held::of(n, &plan);
        let all = (1..=n).flat_map(|i| (1..=n).map(move |j| (i, j)));
        let fill: Vec<(u32, u32)> =
            all.filter(|&(i, j)| held.at(i as usize, j as usize) && plan.binary_search(&label(n, i, j)).is_err()).collect();
        for _ in 0..12.min(fill.len()) {
            let place = fill[random.below(fill.len())];
            assert!(path(n, &plan, place, &mut random).is_ok_and(|path| path.len() > 2), "order {n}, place {place:?}");
        }
    }
}

#[test]
fn the_longest_path_names_every_room() {
    let mut random = Random(34);
    let round = networks::plan_of(600, (1..600).map(|room| (room, room + 1)).chain([(600, 1)]));
    let expected: Vec<u32> = [600].into_iter().chain(1..=600).collect();
    assert_eq!(path_with(360_000, 601, 600, &round, (600, 600), &mut random), Ok(expected));
    assert_eq!(path_with(360_000, 600, 600, &round, (600, 600), &mut random), Err(23));
}

#[test]
fn known_paths() {
    let mut random = Random(35);
    let (corner, round) = ([3, 4], [4, 5, 11, 15]);
    assert_eq!(path(3, &corner, (3, 2), &mut random), Ok(vec![3, 1, 2]));
    assert_eq!(path(3, &corner, (2, 3), &mut random), Err(22));
    assert_eq!(path(4, &round, (4, 4), &mut random), Ok(vec![4, 1, 2, 3, 4]));
    let mut work = [9; 10];
    fill_path(3, &corner, (3, 2), &mut work, &mut [0; 4]);
    assert_eq!(work, [0, 0, 1, 2, 0, 0, 3, 0, 0, 9]);
}

#[test]
fn the_checks_come_in_order() {
    let mut random = Random(36);
    let mut met = [0; 24];
    for _ in 0..20_000 {
        let (n, small, plan) = networks::perhaps_damaged(&mut random);
        let any_room = |random: &mut Random| match random.below(12) {
            0 => 0,
            1 => small + 1,
            2 => u32::MAX,
            _ => 1 + random.below(small as usize) as u32,
        };
        let place = (any_room(&mut random), any_room(&mut random));
        let work_len = (small * small) as usize + random.below(5) - usize::from(random.chance(0.2));
        let list_len = small as usize + random.below(4);
        let given = path_with(work_len, list_len, n, &plan, place, &mut random);
        met[given.map_or_else(|number| number as usize, |_| 0)] += 1;
    }
    assert!([0, 1, 2, 3, 4, 22, 23].iter().all(|&number| met[number] > 200), "{met:?}");
}

#[test]
fn lists_that_are_no_paths() {
    let full = Rooms::of(4, &networks::full(4));
    assert!(full.is_path((4, 3), &[4, 1, 2, 3]) && full.is_path((4, 4), &[4, 1, 2, 4]) && full.is_path((4, 3), &[4, 3]));
    assert!(!full.is_path((4, 3), &[4, 1, 2, 1, 3]), "a room twice");
    assert!(!full.is_path((4, 4), &[4, 1, 1, 4]), "a room twice in turn");
    assert!(!full.is_path((3, 4), &[3, 3, 4]) && !full.is_path((4, 3), &[4, 3, 3]), "an end twice");
    assert!(!full.is_path((2, 3), &[2, 4, 3]), "a room above both");
    assert!(!full.is_path((4, 2), &[4, 3, 2]), "a room above one of them");
    assert!(!full.is_path((4, 3), &[4, 1, 2]) && !full.is_path((4, 3), &[1, 3]), "another end, another beginning");
    assert!(!full.is_path((4, 4), &[4]) && !full.is_path((4, 4), &[]), "fewer than two entries");
    let corner = Rooms::of(3, &[3, 4]);
    assert!(corner.is_path((3, 2), &[3, 1, 2]));
    assert!(!corner.is_path((2, 3), &[2, 1, 3]), "the wrong way round");
    assert!(!corner.is_path((3, 2), &[3, 2]), "a pair that is not in the plan");
}
