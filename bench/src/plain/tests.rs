//! The plain ones do what the reading does, refusals as well.

use std::collections::BTreeSet;

use crout_tests::calls::{self, Answer};
use crout_tests::networks::{self, SHAPES, VALUES};
use crout_tests::random::Random;
use crout_tests::reading::dense::At;
use crout_tests::{programs, reading};

use super::{Refusal, check, compact, compare, compile, dense, file, many, order, path, residual, run};

/// A call that compiles: order, plan, work numbers and words.
type Call<T> = fn(u32, &[u32], &mut [u32], &mut [u32]) -> Result<T, Refusal>;

/// Three plans of ten get a label at the end, one anywhere, or another order.
fn damage(n: &mut u32, plan: &mut Vec<u32>, random: &mut Random) {
    match random.below(10) {
        0 => plan.push(random.next() as u32),
        1 => plan.insert(random.below(plan.len() + 1), random.below((*n * *n) as usize + 2) as u32),
        2 => *n = 601 * random.below(2) as u32,
        _ => {}
    }
}

/// Both compilers on plans of all kinds and slices of many lengths; so many squares of work numbers are needed.
fn compare_compilers(plain: Call<compile::Written>, read: Call<reading::plan::Written>, squares: usize, seed: u64) {
    let random = &mut Random(seed);
    for (mut n, mut plan) in networks::plans(seed, 3000) {
        damage(&mut n, &mut plan, random);
        let needed = squares * (n * n) as usize;
        let mut work = vec![7; if random.chance(0.1) { needed / 2 } else { needed + 1 }];
        let mut words = vec![7; random.below(20_000)];
        let (mut read_work, mut read_words) = (work.clone(), words.clone());
        let read = read(n, &plan, &mut read_work, &mut read_words);
        let written = read.map(|written| [written.slots, written.products, written.records]);
        assert_eq!(plain(n, &plan, &mut work, &mut words), written);
        assert!(work == read_work && words == read_words, "order {n}, plan {plan:?}");
    }
}

#[test]
fn the_same_compiler() {
    compare_compilers(compile::compile, reading::plan::compile, 1, 1);
}

#[test]
fn the_same_compact_compiler() {
    compare_compilers(compact::compile, reading::compact::compile, 4, 6);
}

/// Networks of every shape, whose rows may be longer than a few blocks of zeros.
#[test]
fn the_same_compact_compiler_on_networks() {
    let random = &mut Random(7);
    for round in 0..300 {
        let n = 1 + random.below(120) as u32;
        let plan = SHAPES[round % SHAPES.len()].plan(n, random);
        let Some(read) = programs::compacted(n, &plan) else { continue };
        let (mut work, mut words) = (vec![7; 4 * (n * n) as usize], vec![7; read.len()]);
        let written = compact::compile(n, &plan, &mut work, &mut words).expect("an accepted plan");
        assert_eq!(written[0], u64::from(read[2]));
        assert!(words == read, "order {n}, plan {plan:?}");
    }
}

/// Crout programs of all kinds, most of them damaged.
fn crout_program(random: &mut Random) -> Vec<u32> {
    let n = 1 + random.below(8) as u32;
    let compiled = programs::of_either(n, &networks::any(n, random), random);
    damaged(compiled.unwrap_or_else(|| programs::accepted(random)), random)
}

/// The same of sweeps.
fn sweep_program(random: &mut Random) -> Vec<u32> {
    let n = 1 + random.below(8) as u32;
    let compiled = programs::swept(n, &networks::any(n, random));
    damaged(compiled.unwrap_or_else(|| programs::accepted_sweep(random)), random)
}

fn damaged(mut words: Vec<u32>, random: &mut Random) -> Vec<u32> {
    for _ in 0..random.below(3) {
        programs::change(&mut words, random);
    }
    words
}

/// Both checkers on programs of one kind.
fn compare_checkers(program: fn(&mut Random) -> Vec<u32>, seed: u64) {
    let random = &mut Random(seed);
    for _ in 0..50_000 {
        let words = program(random);
        let mut file: Vec<u8> = words.iter().flat_map(|word| word.to_le_bytes()).collect();
        if random.chance(0.1) {
            file.truncate(random.below(file.len()));
        }
        assert_eq!(check::check_file(&file), reading::file::check_file(&file), "{words:?}");
        assert_eq!(check::check_words(&words), reading::check::check(&words), "{words:?}");
    }
}

#[test]
fn the_same_checker() {
    compare_checkers(crout_program, 2);
    compare_checkers(sweep_program, 8);
}

/// A program that may be the plan's: the plan's own with spare records, with the plan's N, n and s, or of any kind; some are damaged.
fn edited(n: u32, plan: &[u32], random: &mut Random) -> Vec<u32> {
    let words = match programs::compiled(n, plan) {
        Some(words) if random.chance(0.7) => words,
        Some(words) if random.chance(0.5) => programs::accepted_as([words[0], words[1], words[2]], random),
        _ => return crout_program(random),
    };
    damaged(programs::spaced(&words, random), random)
}

#[test]
fn the_same_comparison() {
    let random = &mut Random(12);
    let mut met = BTreeSet::new();
    for _ in 0..50_000 {
        let mut n = 1 + random.below(8) as u32;
        let mut plan = networks::any(n, random);
        let words = edited(n, &plan, random);
        match random.below(20) {
            0 => plan.push(random.below(70) as u32),
            1 => n = 601 * random.below(2) as u32,
            _ => {}
        }
        let needed = (n * n) as usize;
        let mut work = vec![7; if random.chance(0.1) { needed / 2 } else { needed + 1 }];
        let mut read_work = work.clone();
        let verdict = compare::compare(n, &plan, &mut work, &words);
        assert_eq!(verdict, reading::compare::compare(n, &plan, &mut read_work, &words), "order {n}, {plan:?} {words:?}");
        assert_eq!(work, read_work, "order {n}, {plan:?} {words:?}");
        met.insert(verdict.map_or_else(|(number, _)| number, |()| 0));
    }
    assert_eq!(met, BTreeSet::from([0, 1, 2, 3, 4, 5, 8, 9, 10, 11, 12, 13, 28]));
}

#[test]
fn the_same_file() {
    let random = &mut Random(4);
    for _ in 0..3000 {
        let words: Vec<u32> = (0..random.below(50)).map(|_| random.next() as u32).collect();
        // from a little too short to a little too long
        let mut bytes = vec![7; (4 * words.len() + random.below(9)).saturating_sub(3)];
        let mut read_bytes = bytes.clone();
        assert_eq!(file::write(&words, &mut bytes), reading::file::write(&words, &mut read_bytes));
        assert_eq!(bytes, read_bytes);
        let mut back = vec![7; (words.len() + random.below(5)).saturating_sub(2)];
        let mut read_back = back.clone();
        assert_eq!(file::read(&bytes, &mut back), reading::file::read(&bytes, &mut read_back));
        assert_eq!(back, read_back);
    }
}

fn bits(tables: &[Vec<f64>; 3]) -> Vec<u64> {
    tables.iter().flatten().map(|value| value.to_bits()).collect()
}

fn outcome(read: reading::run::Outcome) -> run::Outcome {
    use reading::run::Outcome::*;
    match read {
        Solved { products, quotients, vanished, sweeps } => run::Outcome::Solved { products, quotients, vanished, sweeps },
        Stopped { number, record, table, target } => run::Outcome::Stopped { number, record, table, target },
        Refused { number, detail } => run::Outcome::Refused { number, detail },
    }
}

/// Both runners on programs of one kind; the numbers of the refusals that they met, 0 for none.
fn compare_runners(program: fn(&mut Random) -> Vec<u32>, seed: u64) -> BTreeSet<u32> {
    let random = &mut Random(seed);
    let mut met = BTreeSet::new();
    for _ in 0..50_000 {
        let words = program(random);
        let values = VALUES[random.below(VALUES.len())];
        let [n, plan, s] = [words[0], words[1], words[2]].map(|len| len.min(2000) as usize);
        let (mut a, b) = (values.row(plan, random), values.row(n, random));
        a.iter_mut().take(1).filter(|_| random.chance(0.02)).for_each(|value| *value = f64::NAN);
        let y_len = if s == 0 { 0 } else { n };
        let mut tables = [vec![7.0; s], vec![7.0; y_len], vec![7.0; n + usize::from(random.chance(0.02))]];
        let mut read_tables = tables.clone();
        let [c, y, x] = &mut tables;
        let limit = networks::any_limit(&a, random);
        let answer = run::run(&words, &a, &b, limit, c, y, x);
        let [c, y, x] = &mut read_tables;
        assert_eq!(answer, outcome(reading::run::run(&words, &a, &b, limit, c, y, x)), "{words:?} {a:?} {b:?} {limit:e}");
        assert_eq!(bits(&tables), bits(&read_tables), "{words:?} {a:?} {b:?} {limit:e}");
        met.insert(match answer {
            run::Outcome::Solved { .. } => 0,
            run::Outcome::Stopped { number, .. } | run::Outcome::Refused { number, .. } => number,
        });
    }
    met
}

#[test]
fn the_same_runner() {
    assert_eq!(compare_runners(crout_program, 3), BTreeSet::from([0, 8, 9, 10, 11, 12, 13, 14, 15, 16, 17, 21]));
}

#[test]
fn the_same_sweeps() {
    assert_eq!(compare_runners(sweep_program, 9), BTreeSet::from([0, 8, 9, 10, 11, 12, 13, 14, 15, 16, 17, 21, 27]));
}

/// Both runners of many right sides on programs of one kind; the numbers of the refusals that they met, of the call or of a side, 0 for
/// none.
fn compare_sides(program: fn(&mut Random) -> Vec<u32>, seed: u64) -> BTreeSet<u32> {
    let random = &mut Random(seed);
    let mut met = BTreeSet::new();
    for _ in 0..20_000 {
        let words = program(random);
        let [n, plan, s] = [words[0], words[1], words[2]].map(|len| len.min(2000) as usize);
        let count = if random.chance(0.9) { 1 + random.below(4) } else { random.below(66) };
        let a = VALUES[random.below(VALUES.len())].row(plan, random);
        let mut b: Vec<f64> = (0..count).flat_map(|_| VALUES[random.below(VALUES.len())].row(n, random)).collect();
        b.iter_mut().rev().take(1).filter(|_| random.chance(0.02)).for_each(|value| *value = f64::NAN);
        let mut tables = [vec![7.0; s], vec![7.0; b.len()], vec![7.0; b.len() + usize::from(random.chance(0.02))]];
        let (mut read_tables, mut out) = (tables.clone(), [7; 257]);
        let [c, y, x] = &mut tables;
        let limit = networks::any_limit(&a, random);
        let returned = match many::run(&words, count as u32, &a, &b, limit, c, y, x, &mut out) {
            Ok(()) => 0,
            Err((number, detail)) => calls::refused(number, detail),
        };
        let [c, y, x] = &mut read_tables;
        let (read, answer) = (reading::many::run(&words, count as u32, &a, &b, limit, c, y, x), Answer { returned, out });
        assert_eq!(answer, read.into(), "{words:?} {count} {a:?} {b:?} {limit:e}");
        assert_eq!(bits(&tables), bits(&read_tables), "{words:?} {count} {a:?} {b:?} {limit:e}");
        match answer.number() {
            0 => met.extend((0..count).map(|side| answer.side(side).number())),
            number => _ = met.insert(number),
        }
    }
    met
}

#[test]
fn the_same_sides() {
    assert_eq!(compare_sides(crout_program, 10), BTreeSet::from([0, 8, 9, 10, 11, 12, 13, 14, 15, 16, 17, 21, 25]));
    // a few get slots by damage
    let of_sweeps = compare_sides(sweep_program, 11);
    assert!(of_sweeps.iter().all(|number| (8..=13).contains(number)), "{of_sweeps:?}");
}

/// The rows of dense Crout's table and x as the reading has them: l and u by label, y and x.
fn as_read(n: u32, table: &[f64], x: Vec<f64>) -> [Vec<f64>; 3] {
    let entry = |i: u32, j: u32| table[((i - 1) * (n + 1) + j - 1) as usize];
    let places = reading::labels::places(n);
    [places.into_iter().map(|(i, j)| entry(i, j)).collect(), (1..=n).map(|m| entry(m, n + 1)).collect(), x]
}

#[test]
fn the_same_dense_crout() {
    let random = &mut Random(5);
    let mut met = BTreeSet::new();
    for (n, plan) in networks::plans(5, 6000) {
        let values = VALUES[random.below(VALUES.len())];
        let (a, b) = (values.coefficients(n, &plan, random), values.row(n as usize, random));
        let dense = dense::Dense::new(n, &plan);
        // it may hold anything before
        let (mut table, mut x) = (dense.table(), vec![7.0; n as usize]);
        table.fill(7.0);
        let limit = networks::limit(&a, random);
        let ended = dense.solve(&a, &b, limit, &mut table, &mut x);
        match reading::dense::dense(n, &plan, &a, &b, limit) {
            Ok(read) => {
                assert_eq!(ended, Ok(()), "order {n}, {plan:?} {a:?} {b:?}");
                assert_eq!(bits(&as_read(n, &table, x)), bits(&[read.table, read.y, read.x]), "order {n}, {plan:?} {a:?} {b:?}");
                met.insert("solution");
            }
            Err(read) => {
                assert_eq!(ended, Err(read), "order {n}, {plan:?} {a:?} {b:?}");
                met.insert(match read {
                    (17, _) => "17",
                    (_, At::Place(i, j)) if i >= j => "16 in l",
                    (_, At::Place(..)) => "16 in u",
                    (_, At::Y(_)) => "16 in y",
                    (_, At::X(_)) => "16 in x",
                });
            }
        }
    }
    assert_eq!(met.len(), 6, "only {met:?}");
}

/// Any list will do, so the reading says whether what is given is a path.
#[test]
fn the_same_refusals_and_paths() {
    let random = &mut Random(9);
    let mut refused = BTreeSet::new();
    for (mut n, mut plan) in networks::plans(9, 3000) {
        damage(&mut n, &mut plan, random);
        let place = (random.below(n as usize + 2) as u32, random.below(n as usize + 2) as u32);
        let needed = (n * n) as usize;
        let mut work = vec![7; if random.chance(0.1) { needed / 2 } else { needed + 1 }];
        let before = vec![7; n as usize + random.below(4)];
        let (mut list, mut read_work) = (before.clone(), work.clone());
        let given = path::fill_path(n, &plan, place, &mut work, &mut list);
        let verdict = reading::path::trace(n, &plan, place, &mut read_work, list.len());
        assert!(given.map(|_| ()) == verdict && work == read_work, "order {n}, place {place:?}, plan {plan:?}: {given:?}");
        let entries = given.unwrap_or(0) as usize;
        assert!(list[entries..] == before[entries..], "later entries");
        match given {
            Ok(_) => assert!(reading::path::Rooms::of(n, &plan).is_path(place, &list[..entries]), "{list:?}"),
            Err((number, _)) => drop(refused.insert(number)),
        }
    }
    assert_eq!(refused, BTreeSet::from([1, 2, 3, 4, 22, 23]));
}

/// How many of the reading's trials, which are all made, it takes until a whole round has kept nothing.
fn until_settled(n: u32, tried: &[reading::order::Trial]) -> usize {
    let round = (n as usize - 1).max(1);
    let idle = tried.windows(round).position(|trials| trials.iter().all(|trial| !trial.is_kept));
    idle.map_or(tried.len(), |before| before + round)
}

/// What the plain one should tell.
fn as_ordered(n: u32, read: &reading::order::Ordered) -> order::Ordered {
    let kept = read.tried.iter().filter(|trial| trial.is_kept).count() as u64;
    let tried = until_settled(n, &read.tried) as u64;
    order::Ordered { slots: read.slots, trials: read.trials, distance: read.distance, tried, kept }
}

/// Plans of small orders, where a pivot is more often fill, so that an exchange can lose it; and numberings of a wrong length.
#[test]
fn the_same_numbering() {
    let random = &mut Random(13);
    let (mut refused, mut kept, mut lost, mut settled) = (BTreeSet::new(), 0, 0, 0);
    for _ in 0..10_000 {
        let mut n = 1 + random.below(12) as u32;
        let mut plan = networks::any(n, random);
        let trials = random.below(4 * n as usize) as u32;
        damage(&mut n, &mut plan, random);
        let needed = (n * n) as usize;
        let mut work = vec![7; if random.chance(0.1) { needed / 2 } else { needed + 1 }];
        let mut numbering = vec![7; if random.chance(0.1) { random.below(14) } else { n as usize }];
        let [mut read_work, mut filled_work] = [work.clone(), work.clone()];
        let [mut read_numbering, mut filled_numbering] = [numbering.clone(), numbering.clone()];
        let ordered = order::order(n, &plan, trials, &mut work, &mut numbering);
        let filled = order::order_by_fill(n, &plan, trials, &mut filled_work, &mut filled_numbering);
        let read = reading::order::order(n, &plan, trials, &mut read_work, &mut read_numbering);
        match &read {
            Ok(read) => lost += read.tried.iter().filter(|trial| !trial.is_accepted).count(),
            Err((number, _)) => drop(refused.insert(*number)),
        }
        let told = read.map(|read| as_ordered(n, &read));
        assert!(ordered == told && filled == told, "order {n}, {trials} trials, plan {plan:?}: {ordered:?}, {filled:?}");
        assert!(work == read_work && filled_work == read_work, "order {n}, {trials} trials, plan {plan:?}");
        assert!(numbering == read_numbering && filled_numbering == read_numbering, "order {n}, {trials} trials, plan {plan:?}");
        kept += ordered.map_or(0, |ordered| ordered.kept);
        settled += usize::from(ordered.is_ok_and(|ordered| 0 < ordered.kept && ordered.tried < ordered.trials));
    }
    assert_eq!(refused, BTreeSet::from([1, 2, 3, 4, 5, 29]));
    assert!(kept > 2000 && lost > 200 && settled > 500, "{kept} kept, {lost} not accepted, {settled} settled");
}

/// Values of all kinds, some not finite, and slices of wrong lengths; no pivot is required.
#[test]
fn the_same_residual() {
    let random = &mut Random(14);
    let mut met = BTreeSet::new();
    for (mut n, mut plan) in networks::plans(14, 6000) {
        damage(&mut n, &mut plan, random);
        let row = |len: usize, random: &mut Random| {
            let len = if random.chance(0.02) { random.below(len + 2) } else { len };
            let mut row = VALUES[random.below(VALUES.len())].row(len, random);
            row.iter_mut().rev().take(1).filter(|_| random.chance(0.03)).for_each(|value| *value = f64::INFINITY);
            row
        };
        let [a, b, x] = [plan.len(), n as usize, n as usize].map(|len| row(len, random));
        let len = residual::WORDS * n as usize;
        let mut words = vec![7; if random.chance(0.05) { random.below(len + 9) } else { len }];
        let mut read_words = words.clone();
        let verdict = residual::residual(n, &plan, &a, &b, &x, &mut words);
        let read = reading::residual::residual(n, &plan, &a, &b, &x, &mut read_words);
        assert!(verdict == read && words == read_words, "order {n}, {plan:?} {a:?} {b:?} {x:?}");
        met.insert(verdict.map_or_else(|(number, _)| number, |()| 0));
    }
    assert_eq!(met, BTreeSet::from([0, 1, 3, 4, 14, 15, 24]));
}
