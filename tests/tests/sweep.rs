//! Runs of programs of sweeps: compiled ones are written to a file, read back, checked and run, and what comes out is the dense sweep over
//! the full table, bit for bit; other programs without slots, damaged ones, wrong lengths and bad values are held against the reading's
//! check and run.

use crout_tests::calls::run::{System, run, run_limit};
use crout_tests::calls::{Answer, compile::compile_sweep, file};
use crout_tests::lent::{Lent, same};
use crout_tests::networks::{self, BAD_LIMITS, SHAPES, VALUES, Values};
use crout_tests::programs;
use crout_tests::random::Random;
use crout_tests::reading::{self, labels::label, sweep};
use crout_tests::verdict::verdict_on;

/// A run's answer, and C, Y and X after it.
struct Ended {
    answer: Answer<4>,
    tables: [Lent<f64>; 3],
}

impl Ended {
    fn x(&self) -> &[f64] {
        self.tables[2].entries()
    }
}

fn alike(one: &[Lent<f64>; 3], other: &[Lent<f64>; 3]) -> bool {
    one.iter().zip(other).all(|(one, other)| one.same(other))
}

/// The run on tables of these lengths that are full of junk, which is the reading's and, where the tolerance is zero, that of the call
/// without one. 7 to 15 and 21 change nothing, and inputs don't change.
fn compare_lengths(words: &[u32], a: &[f64], b: &[f64], tolerance: f64, lengths: [usize; 3], random: &mut Random) -> Ended {
    let before = lengths.map(|len| Lent::<f64>::new(len, random));
    let (mut tables, mut read_tables, mut without) = (before.clone(), before.clone(), before.clone());
    let (inputs, what) = ((words.to_vec(), a.to_vec(), b.to_vec()), || format!("{words:?} {a:?} {b:?} {tolerance:e}"));
    let [c, y, x] = &mut tables;
    let answer = run_limit(words, a, b, tolerance, c.part(), y.part(), x.part());
    let [c, y, x] = &mut read_tables;
    assert_eq!(answer, reading::run::run(words, a, b, tolerance, c.part(), y.part(), x.part()).into(), "{}", what());
    assert!(alike(&tables, &read_tables), "{}", what());
    if tolerance == 0.0 {
        let [c, y, x] = &mut without;
        assert_eq!(run(words, a, b, c.part(), y.part(), x.part()), answer.into(), "{}", what());
        assert!(alike(&tables, &without), "{}", what());
    }
    assert!([0, 16, 17, 27].contains(&answer.number()) || alike(&tables, &before), "7 to 15 and 21 change nothing");
    assert!(words == inputs.0 && same(a, &inputs.1) && same(b, &inputs.2), "an input has changed");
    Ended { answer, tables }
}

/// The same with C and Y of no entries.
fn compare(words: &[u32], a: &[f64], b: &[f64], tolerance: f64, random: &mut Random) -> Ended {
    compare_lengths(words, a, b, tolerance, [0, 0, b.len()], random)
}

/// The library's program of a plan that has its diagonal, which has also been written to a file, checked there and read back.
fn compiled(n: u32, plan: &[u32]) -> Vec<u32> {
    let (mut work, mut words) = (vec![9; (n * n) as usize], vec![9; 4 * (1 + 2 * n as usize + plan.len())]);
    let records = words.len() as u64 / 4;
    assert_eq!(compile_sweep(n, plan, &mut work, &mut words), Answer::fine([0, plan.len() as u64 - u64::from(n), records]));
    let (mut bytes, mut back) = (vec![0xa5; 4 * words.len()], vec![0xa5a5_a5a5; words.len()]);
    assert_eq!(file::write(&words, &mut bytes).returned, 0);
    assert_eq!(file::check(&bytes), 0);
    assert_eq!(file::read(&bytes, &mut back).returned, 0);
    back
}

/// The whole way from a plan and values, against the dense sweep.
fn compare_with_dense(system: System, tolerance: f64, random: &mut Random) -> Answer<4> {
    let System { n, plan, a, b } = system;
    let ended = compare(&compiled(n, plan), a, b, tolerance, random);
    let what = || format!("order {n}, plan {plan:?}, {a:?}, {b:?}, tolerance {tolerance:e}");
    if BAD_LIMITS.iter().any(|bad| bad.to_bits() == tolerance.to_bits()) {
        assert_eq!(ended.answer, Answer::refused(21, 0), "{}", what());
        return ended.answer;
    }
    match sweep::dense(n, plan, a, b, tolerance) {
        sweep::Ended::Settled { x, vanished, sweeps } => {
            let counts = [sweeps * (plan.len() as u64 - u64::from(n)), sweeps * u64::from(n), vanished, sweeps];
            assert_eq!(ended.answer, Answer::fine(counts), "{}", what());
            assert!(same(ended.x(), &x), "{}", what());
        }
        sweep::Ended::Unsettled(x) => {
            assert_eq!(ended.answer, Answer::refused(27, 0), "{}", what());
            assert!(same(ended.x(), &x), "{}", what());
        }
        sweep::Ended::Stopped(number, row) => {
            assert_eq!((ended.answer.number(), ended.answer.out), (number, [3, row as u64, 0, 0]), "{}", what());
            assert!(same(ended.x(), &vec![0.0; n as usize]), "{}", what());
        }
    }
    ended.answer
}

/// A plan of any shape with its whole diagonal.
fn with_diagonal(n: u32, shape: usize, random: &mut Random) -> Vec<u32> {
    let mut plan = SHAPES[shape % SHAPES.len()].plan(n, random);
    plan.extend((1..=n).map(|m| label(n, m, m)));
    plan.sort_unstable();
    plan.dedup();
    plan
}

/// Coefficients whose diagonal is the sum of the others of its row without their signs, times so much: above 1 sweeps settle.
fn dominant(n: u32, plan: &[u32], times: f64, random: &mut Random) -> Vec<f64> {
    let mut a = Values::Moderate.row(plan.len(), random);
    let places = reading::labels::places(n);
    let place = |position: usize| places[plan[position] as usize - 1];
    let mut sums = vec![1.0; n as usize + 1];
    (0..plan.len()).filter(|&k| place(k).0 != place(k).1).for_each(|k| sums[place(k).0 as usize] += a[k].abs());
    (0..plan.len()).filter(|&k| place(k).0 == place(k).1).for_each(|k| a[k] = times * sums[place(k).0 as usize]);
    a
}

/// How often runs have ended by each number, and in how many that settled products had vanished.
#[derive(Default, Debug)]
struct Endings {
    numbers: [u32; 28],
    vanishing: u32,
}

impl Endings {
    fn add(&mut self, answer: Answer<4>) {
        self.numbers[answer.number() as usize] += 1;
        self.vanishing += u32::from(answer.number() == 0 && answer.out[2] > 0);
    }

    fn expect(&self, numbers: &[usize], hits: u32) {
        assert!(numbers.iter().all(|&number| self.numbers[number] >= hits), "{self:?}");
    }
}

#[test]
fn plans_and_values_of_every_kind() {
    let random = &mut Random(80);
    let mut endings = Endings::default();
    for round in 0..6000 {
        let n = 1 + random.below(1 + round % 16) as u32;
        let plan = with_diagonal(n, round, random);
        for values in VALUES {
            let (mut a, mut b) = (values.coefficients(n, &plan, random), values.row(n as usize, random));
            if random.chance(0.1) {
                // equal values: entries that are equal or cancel, and moves of zero
                a.fill(values.one(random));
                b.fill(values.one(random));
            }
            let tolerance = networks::any_limit(&b, random);
            endings.add(compare_with_dense(System { n, plan: &plan, a: &a, b: &b }, tolerance, random));
        }
    }
    endings.expect(&[0, 16, 17, 21, 27], 500);
    assert!(endings.vanishing >= 500, "{endings:?}");
}

#[test]
fn dominant_networks_settle() {
    let random = &mut Random(81);
    let mut endings = Endings::default();
    for round in 0..3000 {
        let n = 1 + random.below(30) as u32;
        let plan = with_diagonal(n, round, random);
        let (a, b) = (dominant(n, &plan, 0.4 + random.unit(), random), Values::Moderate.row(n as usize, random));
        let tolerance = [0.0, -0.0, 5e-324, 1e-300, 1e-15, 1e-9, 1e-3, 1.0, 1e300, f64::MAX][round % 10];
        let answer = compare_with_dense(System { n, plan: &plan, a: &a, b: &b }, tolerance, random);
        assert!(tolerance < 1e300 || answer == Answer::fine([plan.len() as u64 - u64::from(n), n.into(), 0, 1]));
        endings.add(answer);
    }
    endings.expect(&[0, 27], 300);
}

#[test]
fn networks_of_order_600() {
    let random = &mut Random(82);
    let scattered = networks::scattered(600, 1.0, 0.002, random);
    for plan in [networks::three_diagonal(600), networks::grid(600, 20), scattered] {
        let b = Values::Moderate.row(600, random);
        for (times, settles) in [(1.25, true), (0.4, false)] {
            let a = dominant(600, &plan, times, random);
            let answer = compare_with_dense(System { n: 600, plan: &plan, a: &a, b: &b }, 1e-9, random);
            assert_eq!(answer.number() == 0, settles, "{answer:?}");
        }
    }
}

/// The library's answer and X on a plan's program.
fn swept(n: u32, plan: &[u32], a: &[f64], b: &[f64], tolerance: f64) -> (Answer<4>, Vec<f64>) {
    let random = &mut Random(83);
    compare_with_dense(System { n, plan, a, b }, tolerance, random);
    let ended = compare(&compiled(n, plan), a, b, tolerance, random);
    (ended.answer, ended.x().to_vec())
}

#[test]
fn the_known_sweeps() {
    let full = [1, 2, 3, 4];
    let listing = "2 4 0 1 10 1 0 2 11 3 2 3 12 1 0 4 8 0 0 5 10 2 0 6 11 2 1 7 12 4 0 8 8 0 0 0";
    assert_eq!(compiled(2, &full), listing.split(' ').map(|word| word.parse().expect("a word")).collect::<Vec<u32>>());
    let (answer, x) = swept(2, &full, &[4.0, 2.0, 1.0, 4.0], &[6.0, 9.0], 0.5);
    assert_eq!((answer, x), (Answer::fine([4, 4, 0, 2]), vec![1.125, 1.6875]));
    let (answer, x) = swept(2, &full, &[1.0, -1.0, -1.0, 1.0], &[1.0, 1.0], 0.0);
    assert_eq!((answer, x), (Answer::refused(27, 0), vec![599.0, 600.0]));
    let (answer, x) = swept(2, &full, &[1.0, 1.0, 1.0, -0.0], &[1.0, 0.0], 0.0);
    assert_eq!(answer, Answer::stopped(17, 7, [3, 2, 0, 0]));
    assert!(same(&x, &[0.0; 2]), "all +0 after 17");
    let (answer, x) = swept(2, &full, &[1.0, -1e160, -1e160, 1.0], &[1.0, 1.0], 0.0);
    assert_eq!(answer, Answer::stopped(16, 2, [3, 1, 0, 0]), "in the second sweep");
    assert!(same(&x, &[0.0; 2]), "all +0 after 16");
    let (mut work, mut words) = ([7; 5], [7; 40]);
    assert_eq!(compile_sweep(2, &[1, 2, 3], &mut work, &mut words), Answer::refused(26, 2));
    assert_eq!((work, words), ([0, 0, 0, 0, 7], [7; 40]));
    assert_eq!(compile_sweep(2, &[1, 3, 4], &mut work, &mut words[..31]), Answer::refused(6, 8));
    assert_eq!((work, words), ([1, 0, 2, 3, 7], [7; 40]));
    let (answer, x) = swept(3, &[1, 4, 5, 6, 9], &[1.0; 5], &[1.5e308; 3], 1e308);
    assert_eq!((answer, x), (Answer::fine([6, 9, 0, 3]), vec![-1.5e308, 1.5e308, 1.5e308]), "a move that overflows is more");
}

/// Row r is x(r) = x(r+1) and the last x = 1, so that a sweep brings the 1 one row further: n sweeps move, and one more settles.
#[test]
fn the_last_sweep() {
    let last = |n: u32| {
        let upper = (1..n).flat_map(|r| [(label(n, r, r), 1.0), (label(n, r, r + 1), -1.0)]);
        let mut entries: Vec<_> = upper.chain([(n * n, 1.0)]).collect();
        entries.sort_unstable_by_key(|&(label, _)| label);
        let (plan, a): (Vec<u32>, Vec<f64>) = entries.into_iter().unzip();
        let mut b = vec![0.0; n as usize];
        b[n as usize - 1] = 1.0;
        swept(n, &plan, &a, &b, 0.0)
    };
    assert_eq!(last(1), (Answer::fine([0, 2, 0, 2]), vec![1.0]));
    assert_eq!(last(2), (Answer::fine([3, 6, 0, 3]), vec![1.0; 2]));
    assert_eq!(last(299), (Answer::fine([300 * 298, 300 * 299, 0, 300]), vec![1.0; 299]), "settles in the last");
    assert_eq!(last(300), (Answer::refused(27, 0), vec![1.0; 300]), "the last still moves an entry");
}

#[test]
fn moves_as_large_as_the_tolerance() {
    let down = |value: f64| f64::from_bits(value.to_bits() - 1);
    for b in [0.3, -0.3, 1e-300, 5e-324, -5e-324, 1e300, f64::MAX, -f64::MAX] {
        assert_eq!(swept(1, &[1], &[1.0], &[b], b.abs()), (Answer::fine([0, 1, 0, 1]), vec![b]), "a move of {b:e}");
        assert_eq!(swept(1, &[1], &[1.0], &[b], down(b.abs())), (Answer::fine([0, 2, 0, 2]), vec![b]), "one above it");
    }
    assert_eq!(swept(1, &[1], &[2.0], &[-0.0], -0.0).0, Answer::fine([0, 1, 0, 1]), "nothing moves");
    // in the second sweep x(1) goes from -2^-60 to 1, which is 1 when it is rounded; 5 makes the first sweep move by more
    let (a, b) = ([1.0, -1.0, 1.0, 1.0], [-2f64.powi(-60), 1.0, 5.0]);
    let plan = [1, 4, 6, 9];
    assert_eq!(swept(3, &plan, &a, &b, 1.0), (Answer::fine([2, 6, 0, 2]), vec![1.0, 1.0, 5.0]));
    assert_eq!(swept(3, &plan, &a, &b, down(1.0)), (Answer::fine([3, 9, 0, 3]), vec![1.0, 1.0, 5.0]));
    // new less old overflows, which is more than any tolerance
    let (a, b) = ([1.0; 5], [1.5e308; 3]);
    assert_eq!(swept(3, &[1, 4, 5, 6, 9], &a, &b, 1.5e308).0.out[3], 1);
    assert_eq!(swept(3, &[1, 4, 5, 6, 9], &a, &b, down(1.5e308)).0.out[3], 3);
}

#[test]
fn products_that_vanish_in_every_sweep() {
    let tiny = 2f64.powi(-1000);
    let (answer, x) = swept(2, &[1, 2, 3, 4], &[1.0, tiny, tiny, 1.0], &[tiny; 2], 0.0);
    assert_eq!((answer, x), (Answer::fine([4, 4, 3, 2]), vec![tiny; 2]), "the first has a factor of zero");
}

#[test]
fn each_wrong_length() {
    let random = &mut Random(84);
    for n in 1..=5 {
        let plan = networks::three_diagonal(n);
        let (words, a) = (compiled(n, &plan), dominant(n, &plan, 2.0, random));
        let right = [a.len(), n as usize, 0, 0, n as usize];
        let ended = |[la, lb, lc, ly, lx]: [usize; 5], random: &mut Random| {
            // 14 comes before 15 and 21
            let bad = if random.chance(0.5) { f64::NAN } else { 1.0 };
            let (a, b) = (vec![bad; la], vec![1.0; lb]);
            compare_lengths(&words, &a, &b, networks::any_limit(&a, random), [lc, ly, lx], random).answer
        };
        for which in 0..5 {
            for len in [0, right[which].saturating_sub(1), right[which] + 1, right[which] + n as usize] {
                let mut lengths = right;
                lengths[which] = len;
                assert_eq!(ended(lengths, random) == Answer::refused(14, 0), len != right[which], "{right:?} {lengths:?}");
            }
        }
    }
}

#[test]
fn each_value_that_is_not_finite() {
    let random = &mut Random(85);
    for bad in [f64::NAN, f64::INFINITY, f64::NEG_INFINITY] {
        let (words, n) = (compiled(3, &networks::full(3)), 9);
        for at in 0..n + 3 {
            let mut values = [1.0; 12];
            // a second one, in B, doesn't matter
            values[11] = f64::NAN;
            values[at] = bad;
            let answer = compare(&words, &values[..n], &values[n..], -1.0, random).answer;
            assert_eq!(answer, Answer::refused(15, if at < n { at + 1 } else { at + 1 - n } as u64), "15 before 21");
        }
        let tolerance = compare(&words, &[1.0; 9], &[1.0; 3], bad, random).answer;
        assert_eq!(tolerance, Answer::refused(21, 0));
    }
}

/// A run of any program without slots on values of any kind, with the lengths that its record 0 asks for if they can be had.
fn compare_program(words: &[u32], random: &mut Random) -> Answer<4> {
    let values = VALUES[random.below(VALUES.len())];
    let [n, plan] = [words[0], words[1]].map(|len| len.min(2000) as usize);
    let (a, b) = (values.row(plan, random), values.row(n, random));
    let tolerance = networks::any_limit(&b, random);
    compare(words, &a, &b, tolerance, random).answer
}

#[test]
fn programs_that_no_compiler_wrote() {
    let random = &mut Random(86);
    let mut endings = Endings::default();
    for round in 0..40_000 {
        let words = programs::accepted_sweep(random);
        let words = if round % 2 == 0 { programs::spaced(&words, random) } else { words };
        assert_eq!(verdict_on(&words), 0);
        endings.add(compare_program(&words, random));
    }
    endings.expect(&[0, 16, 17, 21, 27], 1000);
}

#[test]
fn damaged_programs() {
    let random = &mut Random(87);
    let (mut verdicts, mut endings) = ([0; 28], Endings::default());
    for round in 0..60_000 {
        let n = 1 + random.below(6) as u32;
        let plan = with_diagonal(n, round, random);
        let mut words = if round % 2 == 0 { compiled(n, &plan) } else { programs::accepted_sweep(random) };
        if random.chance(0.3) {
            words = programs::spaced(&words, random);
        }
        for _ in 0..1 + random.below(3) {
            programs::change(&mut words, random);
        }
        verdicts[verdict_on(&words) as usize] += 1;
        endings.add(compare_program(&words, random));
    }
    assert!([0, 8, 9, 10, 11, 12, 13].iter().all(|&number| verdicts[number] > 1000), "{verdicts:?}");
    endings.expect(&[0, 16, 17, 21, 27], 200);
}
