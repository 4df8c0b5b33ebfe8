//! `crout_compile`, `crout_compile_compact` and `crout_compile_sweep` against the reading's compilers: the answer, the work numbers and
//! the words, on slices that are dirty before the call and longer than they need be, just long enough, or too short.

use crout_tests::calls::{
    Answer,
    compile::{compile, compile_compact, compile_sweep},
};
use crout_tests::lent::Lent;
use crout_tests::networks::{self, SHAPES};
use crout_tests::random::Random;
use crout_tests::reading::{self, Refusal, plan::Written};

/// A call that compiles: order, plan, work numbers and words.
type Call<A> = fn(u32, &[u32], &mut [u32], &mut [u32]) -> A;

/// A compiler of the library, the reading's, how many squares of work numbers they need, and their refusal of a plan that misses a place.
struct Compiler {
    call: Call<Answer>,
    reading: Call<Result<Written, Refusal>>,
    squares: usize,
    missing: u32,
}

const PLAIN: Compiler = Compiler { call: compile, reading: reading::plan::compile, squares: 1, missing: 5 };
const COMPACT: Compiler = Compiler { call: compile_compact, reading: reading::compact::compile, squares: 4, missing: 5 };
const SWEEP: Compiler = Compiler { call: compile_sweep, reading: reading::sweep::compile, squares: 1, missing: 26 };
const ALL: [Compiler; 3] = [PLAIN, COMPACT, SWEEP];

impl Compiler {
    /// The work numbers that a plan of an order needs.
    fn work(&self, n: u32) -> usize {
        self.squares * (n * n) as usize
    }

    /// Both on slices of these lengths that hold the same junk: the answers and all of the slices are the same after it.
    fn compare(&self, n: u32, plan: &[u32], work_len: usize, words_len: usize, random: &mut Random) -> Answer {
        let before = (Lent::<u32>::new(work_len, random), Lent::<u32>::new(words_len, random));
        let (mut work, mut words) = before.clone();
        let (mut expected_work, mut expected_words) = before.clone();
        let plan_before = plan.to_vec();
        let answer = (self.call)(n, plan, work.part(), words.part());
        let expected = (self.reading)(n, plan, expected_work.part(), expected_words.part()).into();
        assert_eq!(answer, expected, "order {n}, work {work_len}, words {words_len}, plan {plan:?}");
        assert!(work.same(&expected_work), "work numbers: order {n}, plan {plan:?}");
        assert!(words.same(&expected_words), "words: order {n}, plan {plan:?}");
        assert_eq!(plan, plan_before, "the plan has changed");
        assert!(!(1..=4).contains(&answer.number()) || work.same(&before.0), "1 to 4 leave the work numbers");
        assert!(answer.number() == 0 || words.same(&before.1), "a refusal leaves the words");
        answer
    }

    /// All the lengths that matter for a plan; the answer of a call with slices that are longer than they need be.
    fn compare_lengths(&self, n: u32, plan: &[u32], random: &mut Random) -> Answer {
        let work = self.work(n);
        assert_eq!(self.compare(n, plan, work - 1, random.below(9), random), Answer::refused(2, work as u64));
        let without_words = self.compare(n, plan, work + random.below(9), 0, random);
        if without_words.number() != 6 {
            return without_words;
        }
        let needed = 4 * without_words.detail() as usize;
        for short in [needed - 1, needed - 4, random.below(needed)] {
            assert_eq!(self.compare(n, plan, work, short, random), without_words);
        }
        let exact = self.compare(n, plan, work, needed, random);
        let longer = self.compare(n, plan, work + 1 + random.below(99), needed + 1 + random.below(99), random);
        assert_eq!(exact.returned, 0);
        assert_eq!(exact, longer);
        longer
    }
}

/// What the success carries for a full table, by the sums of 1, 2, .. and of their squares.
fn full_table(n: u64) -> [u64; 3] {
    let products = n * (n - 1) * (2 * n - 1) / 6 + n * (n - 1);
    [n * n, products, 1 + 2 * (n * n + 2 * n) + products + n + n * (n - 1) / 2]
}

/// P2 to P8, with the slots that the accepted ones have.
fn known_plans(compiler: Compiler, [p2, p3, p8]: [u64; 3]) {
    let random = &mut Random(1);
    let labels = [1, 2, 4, 8, 10, 12, 15, 21, 28, 30, 33, 36];
    let fine = Answer::fine;
    let refused = Answer::refused;
    assert_eq!(compiler.compare_lengths(2, &[1, 2, 3], random), fine([p2, 3, 23]), "P2");
    assert_eq!(compiler.compare_lengths(2, &[1, 2, 4], random), fine([p3, 1, 18]), "P3");
    assert_eq!(compiler.compare_lengths(2, &[2, 3], random), refused(5, 1), "P4");
    assert_eq!(compiler.compare_lengths(3, &[], random), refused(5, 1), "P5");
    assert_eq!(compiler.compare_lengths(2, &[1, 1], random), refused(4, 2), "P6");
    assert_eq!(compiler.compare_lengths(2, &[5], random), refused(3, 1), "P6");
    assert_eq!(compiler.compare(0, &[], 9, 99, random), refused(1, 0), "P7");
    assert_eq!(compiler.compare(601, &[1], 4 * 601 * 601, 99, random), refused(1, 0), "P7");
    assert_eq!(compiler.compare_lengths(6, &labels, random), fine([p8, 19, 91]), "P8");
}

#[test]
fn the_known_plans() {
    known_plans(PLAIN, [4, 3, 18]);
    known_plans(COMPACT, [3, 2, 10]);
}

#[test]
fn the_program_of_order_1() {
    let (mut work, mut words) = ([7; 2], [7; 33]);
    assert_eq!(compile(1, &[1], &mut work, &mut words), Answer::fine([1, 0, 8]));
    assert_eq!(work, [1, 7]);
    let plain = words;
    let (mut work, mut words) = ([7; 5], [7; 33]);
    assert_eq!(compile_compact(1, &[1], &mut work, &mut words), Answer::fine([1, 0, 8]));
    assert_eq!((work, words), ([1, 0, 0, 0, 7], plain), "with one slot nothing can be renamed");
    let listing =
        [[1, 1, 1, 1], [1, 1, 1, 2], [9, 0, 0, 3], [2, 1, 0, 4], [7, 1, 0, 5], [8, 0, 0, 6], [3, 1, 0, 7], [8, 0, 0, 0]];
    assert_eq!(words[..32], listing.concat());
    assert_eq!(words[32], 7);
}

/// How many plans of an order are accepted, and how many miss each pivot first.
fn every_plan(compiler: &Compiler, n: u32, random: &mut Random) -> Vec<u32> {
    let mut counts = vec![0; n as usize + 1];
    for set in 0..1u32 << (n * n) {
        let plan: Vec<u32> = (1..=n * n).filter(|k| set >> (k - 1) & 1 == 1).collect();
        let answer = compiler.compare(n, &plan, compiler.work(n), 4 * full_table(n.into())[2] as usize, random);
        counts[answer.detail() as usize] += 1;
    }
    counts
}

#[test]
fn every_plan_of_the_orders_up_to_4() {
    let random = &mut Random(2);
    for (compiler, of_order_2) in ALL.iter().zip([[5, 8, 3], [5, 8, 3], [4, 8, 4]]) {
        assert_eq!(every_plan(compiler, 1, random), [1, 1]);
        assert_eq!(every_plan(compiler, 2, random), of_order_2);
        every_plan(compiler, 3, random);
        every_plan(compiler, 4, random);
    }
}

/// Random plans of the orders up to 40: some are accepted, some miss a place.
fn random_plans(compiler: Compiler, seed: u64) {
    let random = &mut Random(seed);
    let (mut accepted, mut missing) = (0, 0);
    for (n, plan) in networks::plans(seed, 2500) {
        match compiler.compare_lengths(n, &plan, random).number() {
            0 => accepted += 1,
            number if number == compiler.missing => missing += 1,
            other => panic!("refused by {other}: order {n}, plan {plan:?}"),
        }
    }
    assert!(accepted > 1500 && missing > 200, "{accepted} accepted, {missing} miss a place");
}

#[test]
fn random_plans_up_to_order_40() {
    random_plans(PLAIN, 3);
}

#[test]
fn more_random_plans_up_to_order_40() {
    random_plans(PLAIN, 4);
}

#[test]
fn random_plans_made_compact() {
    random_plans(COMPACT, 3);
}

#[test]
fn more_random_plans_made_compact() {
    random_plans(COMPACT, 4);
}

#[test]
fn random_plans_made_sweeps() {
    random_plans(SWEEP, 3);
    random_plans(SWEEP, 4);
}

#[test]
fn networks_of_every_shape() {
    let random = &mut Random(5);
    for _ in 0..100 {
        for shape in SHAPES {
            let n = 1 + random.below(40) as u32;
            let plan = shape.plan(n, random);
            for compiler in ALL {
                compiler.compare_lengths(n, &plan, random);
            }
        }
    }
}

#[test]
fn full_tables() {
    let random = &mut Random(6);
    for n in (1..=40).chain([128]) {
        let (plan, [slots, products, records]) = (networks::full(n), full_table(n.into()));
        assert_eq!(PLAIN.compare_lengths(n, &plan, random), Answer::fine([slots, products, records]), "order {n}");
        assert_eq!(COMPACT.compare_lengths(n, &plan, random).out[1..], [products, records], "order {n}");
        let square = u64::from(n * n);
        let swept = [0, square - u64::from(n), 1 + 2 * u64::from(n) + square];
        assert_eq!(SWEEP.compare_lengths(n, &plan, random), Answer::fine(swept), "order {n}");
    }
    // a Crout program would need more than a gigabyte
    let [_, _, crout] = full_table(600);
    for (compiler, records) in ALL.into_iter().zip([crout, crout, 1 + 2 * 600 + 600 * 600]) {
        assert_eq!(compiler.compare(600, &networks::full(600), compiler.work(600), 99, random), Answer::refused(6, records));
    }
}

#[test]
fn plans_of_order_128() {
    let random = &mut Random(7);
    let mut plans: Vec<Vec<u32>> = SHAPES.iter().map(|shape| shape.plan(128, random)).collect();
    for density in [0.0, 0.01, 0.03, 0.1, 0.9] {
        plans.push(networks::scattered(128, 1.0, density, random));
        plans.push(networks::scattered(128, 0.97, density, random));
    }
    for plan in plans {
        for compiler in ALL {
            compiler.compare_lengths(128, &plan, random);
        }
    }
}

fn of_order_600(compiler: Compiler) {
    let random = &mut Random(8);
    let plans = [
        networks::three_diagonal(600),
        networks::grid(600, 6),
        networks::tree(600, random),
        networks::banded(600, 4, 0.5, random),
        networks::scattered(600, 1.0, 0.001, random),
    ];
    let work = compiler.work(600);
    for plan in plans {
        let answer = compiler.compare(600, &plan, work, 0, random);
        assert_eq!(answer.number(), 6);
        let needed = 4 * answer.detail() as usize;
        assert_eq!(compiler.compare(600, &plan, work + 5, needed + 5, random).number(), 0);
        assert_eq!(compiler.compare(600, &plan, work, needed - 1, random), answer);
    }
    let mut without = networks::three_diagonal(600);
    without.pop();
    // the last pivot is fill, which a sweep has not; the first can't be
    assert_eq!(compiler.compare(600, &without, work, 0, random).number(), if compiler.missing == 5 { 6 } else { 26 });
    assert_eq!(compiler.compare(600, &without[1..], work, 0, random), Answer::refused(compiler.missing, 1));
}

#[test]
fn plans_of_order_600() {
    ALL.into_iter().for_each(of_order_600);
}

#[test]
fn orders_out_of_range() {
    let random = &mut Random(9);
    // the square of 65,536 doesn't fit 32 bits; order comes before work slice, labels and words
    for n in [0, 601, 602, 1000, 65_535, 65_536, 65_537, 1 << 31, u32::MAX] {
        for plan in [&[][..], &[1], &[0], &[2, 1]] {
            for work_len in [0, 1, 500] {
                for compiler in ALL {
                    assert_eq!(compiler.compare(n, plan, work_len, random.below(200), random), Answer::refused(1, 0));
                }
            }
        }
    }
}

fn short_work(compiler: Compiler) {
    let random = &mut Random(10);
    for n in (1..=20).chain([599, 600]) {
        let needed = compiler.work(n);
        // also where a label is bad or a pivot is missing, and where the other compiler would have enough
        for work_len in [0, 1, (n * n) as usize, needed / 2, needed - 1].into_iter().filter(|&len| len < needed) {
            for plan in [&[][..], &[1], &[0], &[2, 1]] {
                assert_eq!(compiler.compare(n, plan, work_len, random.below(200), random), Answer::refused(2, needed as u64));
            }
        }
    }
}

#[test]
fn work_slices_too_short() {
    ALL.into_iter().for_each(short_work);
}

/// A label that is bad at this position of a rising plan, with its refusal.
fn bad_label(n: u32, before: u32, random: &mut Random) -> (u32, u32) {
    match random.below(6) {
        0 => (0, 3),
        1 => (n * n + 1, 3),
        2 => (u32::MAX - random.below(9) as u32, 3),
        3 => (n * n + 1 + random.below(1000) as u32, 3),
        _ if before == 0 => (0, 3),
        4 => (before, 4),
        _ => (1 + random.below(before as usize) as u32, 4),
    }
}

#[test]
fn bad_labels() {
    let random = &mut Random(11);
    let mut hits = [0; 5];
    for _ in 0..5000 {
        let n = 1 + random.below(20) as u32;
        let mut plan = networks::any(n, random);
        let at = random.below(plan.len() + 1);
        let before = if at == 0 { 0 } else { plan[at - 1] };
        let (label, number) = bad_label(n, before, random);
        if at < plan.len() && random.chance(0.5) {
            plan[at] = label;
        } else {
            plan.insert(at, label);
        }
        // what comes after the first bad label doesn't matter
        plan.extend((0..random.below(4)).map(|_| random.next() as u32));
        let words_len = random.below(300);
        for compiler in ALL {
            let answer = compiler.compare(n, &plan, compiler.work(n), words_len, random);
            assert_eq!(answer, Answer::refused(number, at as u64 + 1));
        }
        hits[number as usize] += 1;
    }
    assert!(hits[3] > 1000 && hits[4] > 1000, "{hits:?}");
}

#[test]
fn a_plan_longer_than_the_table() {
    let random = &mut Random(12);
    for n in 1..=12 {
        let mut plan = networks::full(n);
        plan.push(n * n);
        for compiler in ALL {
            assert_eq!(compiler.compare(n, &plan, 1600, 4000, random), Answer::refused(4, u64::from(n * n) + 1));
        }
        plan[(n * n) as usize] += 1;
        for compiler in ALL {
            assert_eq!(compiler.compare(n, &plan, 1600, 4000, random), Answer::refused(3, u64::from(n * n) + 1));
        }
    }
}

#[test]
fn missing_places() {
    let random = &mut Random(13);
    let mut first = [0; 21];
    for _ in 0..4000 {
        let n = 1 + random.below(20) as u32;
        // no more fill than lets the later pivots be missing too
        let plan = networks::scattered(n, 1.0 - 1.0 / f64::from(n), 0.5 / f64::from(n), random);
        for compiler in ALL {
            let answer = compiler.compare(n, &plan, compiler.work(n) + random.below(5), random.below(3000), random);
            if answer.number() == compiler.missing {
                first[answer.detail() as usize] += 1;
            }
        }
    }
    assert!(first[1..].iter().all(|&hits| hits > 3), "{first:?}");
}
