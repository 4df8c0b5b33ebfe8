//! `crout_run` and `crout_solve`, with a limit and without. Plans are compiled, written to a file, read back, checked and run, and what
//! comes out is dense Crout on the full table, bit for bit; other programs, wrong lengths and bad values are held against the reading's
//! runner.

use crout_tests::calls::run::{System, run, run_limit, solve, solve_limit};
use crout_tests::calls::{Answer, compile::compile, file};
use crout_tests::lent::{Lent, same};
use crout_tests::networks::{self, BAD_LIMITS, SHAPES, Shape, VALUES, Values};
use crout_tests::programs;
use crout_tests::random::Random;
use crout_tests::reading::dense::{At, Solution, dense};
use crout_tests::reading::plan::Held;
use crout_tests::reading::{self, labels};

/// The slices that a run may write.
#[derive(Clone)]
struct Tables {
    c: Lent<f64>,
    y: Lent<f64>,
    x: Lent<f64>,
}

impl Tables {
    fn new([c, y, x]: [usize; 3], random: &mut Random) -> Self {
        Self { c: Lent::new(c, random), y: Lent::new(y, random), x: Lent::new(x, random) }
    }

    fn same(&self, other: &Self) -> bool {
        self.c.same(&other.c) && self.y.same(&other.y) && self.x.same(&other.x)
    }

    /// Where the limit is zero, of either sign, the call without one does the same.
    fn run(&mut self, words: &[u32], a: &[f64], b: &[f64], limit: f64) -> Answer<4> {
        let mut without = self.clone();
        let answer = run_limit(words, a, b, limit, self.c.part(), self.y.part(), self.x.part());
        if limit == 0.0 {
            assert_eq!(run(words, a, b, without.c.part(), without.y.part(), without.x.part()), answer.into());
            assert!(without.same(self), "{words:?} {a:?} {b:?}");
        }
        answer
    }

    fn run_reading(&mut self, words: &[u32], a: &[f64], b: &[f64], limit: f64) -> Answer<4> {
        reading::run::run(words, a, b, limit, self.c.part(), self.y.part(), self.x.part()).into()
    }

    /// As `run`, of a plan.
    fn solve(&mut self, system: System, limit: f64, work: &mut Lent<u32>, words: &mut Lent<u32>) -> Answer<4> {
        let (mut without, mut same_work, mut same_words) = (self.clone(), work.clone(), words.clone());
        let answer = solve_limit(system, limit, work.part(), words.part(), self.c.part(), self.y.part(), self.x.part());
        if limit == 0.0 {
            let (c, y, x) = (without.c.part(), without.y.part(), without.x.part());
            assert_eq!(solve(system, same_work.part(), same_words.part(), c, y, x), answer.into());
            assert!(without.same(self) && same_work.same(work) && same_words.same(words));
        }
        answer
    }

    fn set(&mut self, c: &[f64], y: &[f64], x: &[f64]) {
        self.c.part().copy_from_slice(c);
        self.y.part().copy_from_slice(y);
        self.x.part().copy_from_slice(x);
    }

    fn clear(&mut self) {
        [self.c.part(), self.y.part(), self.x.part()].into_iter().for_each(|table| table.fill(0.0));
    }
}

/// Both runners on slices that hold the same junk: answers and slices are the same, 7 to 15 and 21 change nothing, inputs don't
/// change.
fn compare_run(words: &[u32], a: &[f64], b: &[f64], limit: f64, lengths: [usize; 3], random: &mut Random) -> Answer<4> {
    let before = Tables::new(lengths, random);
    let (mut tables, mut expected_tables) = (before.clone(), before.clone());
    let inputs = (words.to_vec(), a.to_vec(), b.to_vec());
    let answer = tables.run(words, a, b, limit);
    assert_eq!(answer, expected_tables.run_reading(words, a, b, limit), "{words:?} {a:?} {b:?} {limit:e}");
    assert!(tables.same(&expected_tables), "{words:?} {a:?} {b:?} {limit:e}");
    assert!([0, 16, 17].contains(&answer.number()) || tables.same(&before), "7 to 15 and 21 change nothing");
    assert!(words == inputs.0 && same(a, &inputs.1) && same(b, &inputs.2), "an input has changed");
    answer
}

/// A plan's compiled program, which has also been written to a file, checked there and read back.
#[derive(Debug)]
struct Compiled {
    work: Vec<u32>,
    words: Vec<u32>,
    answer: Answer,
}

fn through_a_file(words: &[u32]) -> Vec<u32> {
    let mut bytes = vec![0xa5; 4 * words.len()];
    assert_eq!(file::write(words, &mut bytes), Answer::fine([bytes.len() as u64, 0, 0]));
    assert_eq!(file::check(&bytes), 0);
    let mut back = vec![0xa5a5_a5a5; words.len()];
    assert_eq!(file::read(&bytes, &mut back), Answer::fine([words.len() as u64, 0, 0]));
    back
}

/// The program, or the refusal 5.
fn compiled(n: u32, plan: &[u32]) -> Result<Compiled, Answer> {
    let mut work = vec![9; (n * n) as usize];
    let without_words = compile(n, plan, &mut work, &mut []);
    if without_words.number() != 6 {
        return Err(without_words);
    }
    let mut words = vec![9; 4 * without_words.detail() as usize];
    let answer = compile(n, plan, &mut work, &mut words);
    assert_eq!(answer.returned, 0);
    Ok(Compiled { work, words: through_a_file(&words), answer })
}

/// What dense Crout says that a run leaves and answers. Its record index isn't known there; the answer has a 0 for it.
struct Expected {
    answer: Answer<4>,
    /// C by slots, Y and X; nothing after a refusal.
    tables: Option<(Vec<f64>, Vec<f64>, Vec<f64>)>,
}

fn by_dense_crout(system: System, limit: f64, work: &[u32]) -> Expected {
    let System { n, plan, a, b } = system;
    match dense(n, plan, a, b, limit) {
        Ok(Solution { table, y, x, vanished }) => {
            let held = Held::of(n, plan);
            let c = table.iter().zip(work).filter(|(_, &slot)| slot != 0).map(|(&value, _)| value).collect();
            let answer = Answer::fine([held.products(), u64::from(n) + held.above(), vanished, 0]);
            Expected { answer, tables: Some((c, y, x)) }
        }
        Err((number, at)) => {
            let (table, target) = match at {
                At::Place(i, j) => (1, work[labels::label(n, i as u32, j as u32) as usize - 1] as usize),
                At::Y(m) => (2, m),
                At::X(i) => (3, i),
            };
            Expected { answer: Answer::stopped(number, 0, [table, target as u64, 0, 0]), tables: None }
        }
    }
}

/// The whole way from a plan and values, by separate calls and by one, against dense Crout.
fn compare_with_dense(system: System, limit: f64, random: &mut Random) -> Answer<4> {
    let System { n, plan, a, b } = system;
    let what = || format!("order {n}, plan {plan:?}, {a:?}, {b:?}, limit {limit:e}");
    let inputs = (plan.to_vec(), a.to_vec(), b.to_vec());
    let compiled = match compiled(n, plan) {
        Ok(compiled) => compiled,
        Err(refused) => {
            compare_refused(system, limit, refused, random);
            return Answer::refused(refused.number(), refused.detail());
        }
    };
    let lengths = [compiled.answer.out[0] as usize, n as usize, n as usize];
    let before = Tables::new(lengths, random);
    let (mut tables, mut expected_tables, mut solved) = (before.clone(), before.clone(), before);
    let answer = tables.run(&compiled.words, a, b, limit);
    if BAD_LIMITS.iter().any(|bad| bad.to_bits() == limit.to_bits()) {
        assert_eq!(answer, Answer::refused(21, 0), "{}", what());
    } else {
        let expected = by_dense_crout(system, limit, &compiled.work);
        match &expected.tables {
            Some((c, y, x)) => expected_tables.set(c, y, x),
            None => expected_tables.clear(),
        }
        assert_eq!(answer.number(), expected.answer.number(), "{}", what());
        assert_eq!(answer.out, expected.answer.out, "{}", what());
    }
    assert!(tables.same(&expected_tables), "{}", what());
    if answer.returned == 0 {
        assert_eq!(answer.out[0], compiled.answer.out[1], "the compiler's product count");
    } else {
        // the record is the reading's
        assert_eq!(answer, expected_tables.run_reading(&compiled.words, a, b, limit));
    }
    compare_solve(system, limit, &compiled, &mut solved, answer, random);
    assert!(solved.same(&tables), "solve: {}", what());
    assert!(plan == inputs.0 && same(a, &inputs.1) && same(b, &inputs.2), "an input has changed");
    answer
}

/// Solving on slices that are a little longer leaves the compiler's work and words, and answers as the run does.
fn compare_solve(system: System, limit: f64, compiled: &Compiled, tables: &mut Tables, answer: Answer<4>, random: &mut Random) {
    let (n_work, n_words) = (compiled.work.len(), compiled.words.len());
    let mut work = Lent::new(n_work + random.below(3), random);
    let mut words = Lent::new(n_words + random.below(9), random);
    let (mut expected_work, mut expected_words) = (work.clone(), words.clone());
    expected_work.part()[..n_work].copy_from_slice(&compiled.work);
    expected_words.part()[..n_words].copy_from_slice(&compiled.words);
    assert_eq!(tables.solve(system, limit, &mut work, &mut words), answer);
    assert!(work.same(&expected_work) && words.same(&expected_words), "what solve leaves of the compiler");
}

/// A plan that the compiler refuses: solving refuses alike and touches no table.
fn compare_refused(system: System, limit: f64, refused: Answer, random: &mut Random) {
    let n = system.n as usize;
    let before = Tables::new([n, n, n], random);
    let mut tables = before.clone();
    let (mut work, mut words) = (Lent::new(n * n, random), Lent::new(random.below(99), random));
    let words_before = words.clone();
    assert_eq!(Answer::from(tables.solve(system, limit, &mut work, &mut words)), refused);
    assert!(tables.same(&before) && words.same(&words_before));
    assert_eq!(refused.number(), 5);
    assert!(work.entries().iter().all(|&number| number == 0));
    let ended = dense(system.n, system.plan, system.a, system.b, limit.abs());
    assert!(ended.is_err(), "a pivot is missing, but dense Crout has a solution");
}

fn compare_network(n: u32, plan: &[u32], values: Values, random: &mut Random) -> Answer<4> {
    let (a, b) = (values.coefficients(n, plan, random), values.row(n as usize, random));
    let limit = networks::any_limit(&a, random);
    compare_with_dense(System { n, plan, a: &a, b: &b }, limit, random)
}

/// Networks of a shape with values of each kind; how many are solved, and how many refused by each number. Some of those that are solved
/// have products that vanished.
fn compare_networks(shape: Shape, rounds: u32, seed: u64) -> [u32; 22] {
    let random = &mut Random(seed);
    let (mut endings, mut vanishing) = ([0; 22], 0);
    for _ in 0..rounds {
        for values in VALUES {
            // small orders more often than large ones
            let largest = 1 + random.below(60);
            let n = 1 + random.below(largest) as u32;
            let plan = shape.plan(n, random);
            let answer = compare_network(n, &plan, values, random);
            endings[answer.number() as usize] += 1;
            vanishing += u32::from(answer.number() == 0 && answer.out[2] > 0);
        }
    }
    for ending in [0, 16, 17, 21] {
        assert!(endings[ending] >= rounds / 20, "{shape:?}: {endings:?}");
    }
    assert!(vanishing >= rounds / 20, "{shape:?}: products vanished in {vanishing} runs");
    endings
}

/// For each of the six shapes: seven kinds of values, so that these make more than 100,000 networks.
const ROUNDS: u32 = 2400;

#[test]
fn three_diagonal_networks() {
    compare_networks(Shape::ThreeDiagonal, ROUNDS, 40);
}

#[test]
fn grids() {
    compare_networks(Shape::Grid, ROUNDS, 41);
}

#[test]
fn trees() {
    compare_networks(Shape::Tree, ROUNDS, 42);
}

#[test]
fn banded_plans() {
    compare_networks(Shape::Banded, ROUNDS, 43);
}

#[test]
fn scattered_plans() {
    let endings = compare_networks(Shape::Scattered, ROUNDS, 44);
    assert!(endings[5] > ROUNDS / 2, "{endings:?}");
}

#[test]
fn full_tables() {
    compare_networks(Shape::Full, ROUNDS, 45);
}

#[test]
fn orders_up_to_4_many_times() {
    let random = &mut Random(46);
    let mut endings = [0; 22];
    for round in 0..30_000 {
        let n = 1 + random.below(4) as u32;
        let plan = SHAPES[random.below(SHAPES.len())].plan(n, random);
        endings[compare_network(n, &plan, VALUES[round % VALUES.len()], random).number() as usize] += 1;
    }
    assert!([0, 5, 16, 17, 21].iter().all(|&ending| endings[ending] > 500), "{endings:?}");
}

#[test]
fn networks_of_order_200() {
    let random = &mut Random(47);
    for shape in SHAPES {
        for values in VALUES {
            compare_network(200, &shape.plan(200, random), values, random);
        }
        compare_dominant(200, &shape.plan(200, random), random);
    }
}

#[test]
fn networks_of_order_600() {
    let random = &mut Random(48);
    let plans = [
        networks::three_diagonal(600),
        networks::grid(600, 12),
        networks::tree(600, random),
        networks::banded(600, 4, 0.5, random),
        networks::scattered(600, 1.0, 0.001, random),
    ];
    for plan in plans {
        compare_dominant(600, &plan, random);
        compare_network(600, &plan, Values::Moderate, random);
        compare_network(600, &plan, VALUES[random.below(VALUES.len())], random);
    }
}

/// Coefficients with a strong diagonal, as heating networks have them, and a small limit: there is a solution unless a pivot is
/// missing.
fn compare_dominant(n: u32, plan: &[u32], random: &mut Random) {
    let (mut a, b) = (Values::Moderate.row(plan.len(), random), Values::Moderate.row(n as usize, random));
    for at in (1..=n).filter_map(|m| plan.binary_search(&labels::label(n, m, m)).ok()) {
        a[at] += 10.0 * f64::from(n);
    }
    let ending = compare_with_dense(System { n, plan, a: &a, b: &b }, 1e-9, random).number();
    assert!(ending == 0 || Held::of(n, plan).missing().is_some(), "ends in {ending}");
}

/// The known systems with full tables of order 1 and 2: the answer, C, Y and X.
fn known(n: u32, a: &[f64], b: &[f64], limit: f64) -> (Answer<4>, Vec<f64>, Vec<f64>, Vec<f64>) {
    let plan = networks::full(n);
    let system = System { n, plan: &plan, a, b };
    if a.iter().chain(b).all(|value| value.is_finite()) {
        compare_with_dense(system, limit, &mut Random(49));
    }
    let size = n as usize;
    let mut tables = Tables::new([size * size, size, size], &mut Random(50));
    let answer = tables.run(&compiled(n, &plan).expect("a full table").words, a, b, limit);
    (answer, tables.c.entries().to_vec(), tables.y.entries().to_vec(), tables.x.entries().to_vec())
}

#[test]
fn the_known_values() {
    let (answer, c, y, x) = known(2, &[2.0, 4.0, 1.0, 4.0], &[4.0, 12.0], 0.0);
    assert_eq!(answer, Answer::fine([3, 3, 0, 0]), "V1");
    assert_eq!((c, y, x), (vec![2.0, 4.0, 0.5, 2.0], vec![2.0, 2.0], vec![1.0, 2.0]), "V1");
    let (answer, c, y, x) = known(2, &[1.0; 4], &[4.0, 12.0], 0.0);
    assert_eq!(answer, Answer::stopped(17, 13, [1, 4, 0, 0]), "V2");
    assert!(same(&[c, y, x].concat(), &[0.0; 8]), "V2");
    let (answer, ..) = known(1, &[2f64.powi(-1000)], &[2f64.powi(1000)], 0.0);
    assert_eq!(answer, Answer::stopped(16, 4, [2, 1, 0, 0]), "V3");
    let (answer, _, _, x) = known(1, &[-1.0], &[0.0], 0.0);
    assert_eq!(answer, Answer::fine([0, 1, 0, 0]), "V4");
    assert!(same(&x, &[0.0]), "V4");
}

#[test]
fn the_known_limits() {
    let (answer, c, y, x) = known(1, &[-0.5], &[1.0], 0.5);
    assert_eq!(answer, Answer::stopped(17, 2, [1, 1, 0, 0]), "a pivot of exactly -t");
    assert!(same(&[c, y, x].concat(), &[0.0; 3]), "all +0 after 17");
    let (answer, _, _, x) = known(1, &[0.5], &[1.0], 0.49999999999999994);
    assert_eq!((answer, x), (Answer::fine([0, 1, 0, 0]), vec![2.0]), "one just above t");
    assert_eq!(known(1, &[5e-324], &[0.0], -0.0).0, Answer::fine([0, 1, 0, 0]), "-0 is a limit");
    assert_eq!(known(1, &[1.0], &[1.0], -5e-324).0, Answer::refused(21, 0), "just below 0");
    assert_eq!(known(1, &[1.0], &[f64::INFINITY], -1.0).0, Answer::refused(15, 1), "15 before 21");
    let nearly_equal = [1.0, 1.0, 1.0, 1.0000000000000002];
    assert_eq!(known(2, &nearly_equal, &[4.0, 12.0], 1e-9).0, Answer::stopped(17, 13, [1, 4, 0, 0]), "a pivot of 2^-52");
    assert_eq!(known(2, &nearly_equal, &[4.0, 12.0], 0.0).0, Answer::fine([3, 3, 0, 0]), "the same with t 0");
}

#[test]
fn the_known_products_that_vanish() {
    let weak = |v: f64| [1.0, v, v, 1.0];
    let (answer, c, y, x) = known(2, &weak(1e-200), &[1.0, 1.0], 0.0);
    assert_eq!(answer, Answer::fine([3, 3, 1, 0]), "l(2,1) u(1,2) is 1e-400");
    assert_eq!((c, y, x), (weak(1e-200).to_vec(), vec![1.0; 2], vec![1.0; 2]));
    let tiny = 2f64.powi(-1000);
    let (answer, _, y, x) = known(2, &weak(tiny), &[tiny; 2], 0.0);
    assert_eq!((answer, y, x), (Answer::fine([3, 3, 3, 0]), vec![tiny; 2], vec![tiny; 2]), "one in C, one in Y and one in X");
    let (answer, _, _, x) = known(2, &[1e300, 0.0, -1e-300, 1.0], &[1e-300, 1.0], 0.0);
    assert_eq!((answer, x), (Answer::fine([3, 3, 0, 0]), vec![0.0, 1.0]), "quotients underflow, products have a zero factor");
    let (answer, ..) = known(2, &weak(5e-324), &[0.5, 0.5], 0.0);
    assert_eq!(answer, Answer::fine([3, 3, 3, 0]), "the smallest value squared, and its half, a tie, which is rounded to zero");
    let (answer, ..) = known(2, &weak(5e-324), &[0.5000000000000001, 0.5], 0.0);
    assert_eq!(answer, Answer::fine([3, 3, 2, 0]), "just above its half doesn't vanish");
}

/// What a refused run had counted is not told.
#[test]
fn no_count_after_a_refusal() {
    assert_eq!(known(2, &[1.0, 1e-200, 1e-200, 0.0], &[1.0, 1.0], 0.0).0, Answer::stopped(17, 13, [1, 4, 0, 0]));
}

/// A strong diagonal, coefficients from 1e-300 to 1 off it, and right sides from 1e-300 to 1e300: most of these networks are solved, and
/// in many of them products vanish.
#[test]
fn products_that_vanish() {
    let random = &mut Random(60);
    let (mut solved, mut vanishing) = (0, 0);
    for round in 0..3000 {
        let n = 2 + random.below(12) as u32;
        let plan = SHAPES[round % SHAPES.len()].plan(n, random);
        let at_most_one = |value: f64| if value.abs() > 1.0 { 1.0 / value } else { value };
        let mut a: Vec<f64> = Values::Wide.row(plan.len(), random).into_iter().map(at_most_one).collect();
        for at in (1..=n).filter_map(|m| plan.binary_search(&labels::label(n, m, m)).ok()) {
            a[at] = 1.0 + random.unit();
        }
        let b = Values::Wide.row(n as usize, random);
        let answer = compare_with_dense(System { n, plan: &plan, a: &a, b: &b }, 0.0, random);
        solved += u32::from(answer.number() == 0);
        vanishing += u32::from(answer.number() == 0 && answer.out[2] > 0);
    }
    assert!(solved > 2000 && vanishing > 1000, "{vanishing} of {solved}");
}

/// A foreign program that closes its pivot by 8 doesn't see the limit, and neither does a divisor.
#[test]
fn the_limit_is_kind_9s_alone() {
    let random = &mut Random(59);
    let (mut words, ..) = solvable(1, &[1]);
    assert_eq!(compare_run(&words, &[0.5], &[1.0], 1.0, [1, 1, 1], random), Answer::stopped(17, 2, [1, 1, 0, 0]));
    assert_eq!(words[4 * 2], 9, "the pivot's close");
    words[4 * 2] = 8;
    assert_eq!(compare_run(&words, &[0.5], &[1.0], 1.0, [1, 1, 1], random), Answer::fine([0, 1, 0, 0]));
    assert_eq!(compare_run(&words, &[0.0], &[1.0], 1.0, [1, 1, 1], random), Answer::stopped(17, 4, [2, 1, 0, 0]));
}

#[test]
fn the_example_of_document_002() {
    let plan = [1, 2, 4, 8, 10, 12, 15, 21, 28, 30, 33, 36];
    let a = [7.0, 2.0, -3.0, -3.0, -1.0, 8.0, -1.0, 1.0, 5.0, -2.0, 4.0, 6.0];
    let b = [-11.0, 38.0, 0.0, 13.0, 11.0, -22.0];
    let random = &mut Random(51);
    assert_eq!(compare_with_dense(System { n: 6, plan: &plan, a: &a, b: &b }, 0.0, random), Answer::fine([19, 11, 0, 0]));
    let mut tables = Tables::new([18, 6, 6], random);
    let answer = tables.run(&compiled(6, &plan).expect("P8").words, &a, &b, 0.0);
    assert_eq!(answer.out[0], 19);
    for (x, published) in tables.x.entries().iter().zip([-1.0, 5.0, 0.0, 2.0, 4.0, -3.0]) {
        assert!((x - published).abs() < 1e-14, "{x}, published {published}");
    }
}

/// A program that has a solution for the values 1, 2, ..: its words, A, B, and the lengths of C, Y and X.
fn solvable(n: u32, plan: &[u32]) -> (Vec<u32>, Vec<f64>, Vec<f64>, [usize; 3]) {
    let compiled = compiled(n, plan).expect("no pivot is missing");
    let numbers = |len: usize| (1..=len).map(|k| k as f64).collect();
    (compiled.words, numbers(plan.len()), numbers(n as usize), [compiled.answer.out[0] as usize, n as usize, n as usize])
}

fn resized(values: &[f64], len: usize) -> Vec<f64> {
    (0..len).map(|k| values.get(k).copied().unwrap_or(1.0)).collect()
}

#[test]
fn each_wrong_length() {
    let random = &mut Random(52);
    for n in 1..=6 {
        let (words, a, b, [s, ..]) = solvable(n, &networks::three_diagonal(n));
        let right = [a.len(), b.len(), s, n as usize, n as usize];
        let try_lengths = |[la, lb, lc, ly, lx]: [usize; 5], random: &mut Random| {
            let mut a = resized(&a, la);
            // 14 comes before 15 and 21
            a.iter_mut().take(random.below(2)).for_each(|value| *value = f64::NAN);
            let limit = networks::any_limit(&a, random);
            compare_run(&words, &a, &resized(&b, lb), limit, [lc, ly, lx], random)
        };
        for which in 0..5 {
            for len in [0, right[which] - 1, right[which] + 1, right[which] + 2, 2 * right[which]] {
                let mut lengths = right;
                lengths[which] = len;
                assert_eq!(try_lengths(lengths, random), Answer::refused(14, 0), "{right:?} {lengths:?}");
            }
            // two of them wrong, the sum right
            let mut lengths = right;
            lengths[which] += 1;
            lengths[(which + 1) % 5] -= 1;
            assert_eq!(try_lengths(lengths, random), Answer::refused(14, 0), "{right:?} {lengths:?}");
        }
        assert_ne!(try_lengths(right, random).number(), 14);
    }
}

#[test]
fn solve_with_wrong_lengths() {
    let random = &mut Random(53);
    let plan = networks::three_diagonal(4);
    let (program, a, b, right) = solvable(4, &plan);
    let try_lengths = |a: &[f64], b: &[f64], limit: f64, lengths: [usize; 3], random: &mut Random| {
        let (mut work, mut words) = (Lent::new(16, random), Lent::new(program.len(), random));
        let before = Tables::new(lengths, random);
        let mut tables = before.clone();
        let answer = tables.solve(System { n: 4, plan: &plan, a, b }, limit, &mut work, &mut words);
        assert!(tables.same(&before), "a refusal that touches a table");
        assert_eq!(words.entries(), program, "the compiler has done its work");
        answer
    };
    for which in 0..3 {
        for more in [true, false] {
            let mut lengths = right;
            lengths[which] = if more { lengths[which] + 1 } else { lengths[which] - 1 };
            assert_eq!(try_lengths(&a, &b, -1.0, lengths, random), Answer::refused(14, 0));
        }
    }
    assert_eq!(try_lengths(&a[1..], &b, 0.0, right, random), Answer::refused(14, 0));
    assert_eq!(try_lengths(&a, &b[1..], 0.0, right, random), Answer::refused(14, 0));
    assert_eq!(try_lengths(&a, &[1.0, f64::INFINITY, 3.0, 4.0], f64::NAN, right, random), Answer::refused(15, 2));
    for limit in BAD_LIMITS {
        assert_eq!(try_lengths(&a, &b, limit, right, random), Answer::refused(21, 0));
    }
}

#[test]
fn solve_refuses_as_the_compiler_does() {
    let random = &mut Random(54);
    let (a, b) = ([1.0; 4], [1.0; 2]);
    let mut try_plan = |n: u32, plan: &[u32], work_len: usize, words_len: usize| {
        let before = Tables::new([4, 2, 2], random);
        let (mut tables, mut work, mut words) = (before.clone(), Lent::new(work_len, random), Lent::new(words_len, random));
        let (mut same_work, mut same_words) = (work.clone(), words.clone());
        let limit = networks::any_limit(&a, random);
        let answer = Answer::from(tables.solve(System { n, plan, a: &a, b: &b }, limit, &mut work, &mut words));
        assert_eq!(answer, compile(n, plan, same_work.part(), same_words.part()));
        assert!(tables.same(&before) && work.same(&same_work) && words.same(&same_words));
        answer
    };
    assert_eq!(try_plan(0, &[1], 4, 99), Answer::refused(1, 0));
    assert_eq!(try_plan(601, &[1], 4, 99), Answer::refused(1, 0));
    assert_eq!(try_plan(2, &[1, 2, 3, 4], 3, 99), Answer::refused(2, 4));
    assert_eq!(try_plan(2, &[1, 2, 3, 5], 4, 99), Answer::refused(3, 4));
    assert_eq!(try_plan(2, &[1, 2, 2, 4], 4, 99), Answer::refused(4, 3));
    assert_eq!(try_plan(2, &[2, 3], 4, 99), Answer::refused(5, 1));
    assert_eq!(try_plan(2, &[1, 2, 3, 4], 4, 91), Answer::refused(6, 23));
}

#[test]
fn each_position_of_a_value_that_is_not_finite() {
    let random = &mut Random(55);
    for n in 1..=7 {
        let (words, a, b, lengths) = solvable(n, &networks::full(n));
        // 15 comes before 21
        let limit = networks::any_limit(&a, random);
        for bad in [f64::NAN, -f64::NAN, f64::INFINITY, f64::NEG_INFINITY, f64::from_bits(0x7ff0_0000_0000_0001)] {
            for at in 0..a.len() {
                let mut a = a.clone();
                a[at] = bad;
                assert_eq!(compare_run(&words, &a, &b, limit, lengths, random), Answer::refused(15, at as u64 + 1));
                // a second one, later in A or in B, doesn't matter
                let (mut b, later) = (b.clone(), at + random.below(a.len() - at));
                a[later] = f64::INFINITY;
                b[random.below(n as usize)] = f64::NAN;
                assert_eq!(compare_run(&words, &a, &b, limit, lengths, random), Answer::refused(15, at as u64 + 1));
            }
            for at in 0..b.len() {
                let mut b = b.clone();
                b[at] = bad;
                assert_eq!(compare_run(&words, &a, &b, limit, lengths, random), Answer::refused(15, at as u64 + 1));
            }
        }
    }
}

/// A run of any Crout program on values of any kind, with the lengths that its record 0 asks for if they can be had.
fn compare_program(words: &[u32], random: &mut Random) -> u32 {
    let values = VALUES[random.below(VALUES.len())];
    let [n, plan, s] = [words[0], words[1], words[2]].map(|len| len.min(2000) as usize);
    let (a, b) = (values.row(plan, random), values.row(n, random));
    let limit = networks::any_limit(&a, random);
    compare_run(words, &a, &b, limit, [s, n, n], random).number()
}

#[test]
fn damaged_programs() {
    let random = &mut Random(56);
    let mut endings = [0; 22];
    for round in 0..60_000 {
        let n = 1 + random.below(6) as u32;
        let compiled = programs::of_either(n, &networks::any(n, random), random);
        let mut words = compiled.unwrap_or_else(|| programs::accepted(random));
        if round % 3 == 0 {
            words = programs::spaced(&words, random);
        }
        for _ in 0..1 + random.below(3) {
            programs::change(&mut words, random);
        }
        if random.chance(0.05) {
            words.truncate(random.below(words.len() + 1).max(3));
        }
        endings[compare_program(&words, random) as usize] += 1;
    }
    for ending in [0, 7, 8, 9, 10, 11, 12, 13, 16, 17, 21] {
        assert!(endings[ending] > 300, "{endings:?}");
    }
}

#[test]
fn programs_that_no_compiler_wrote() {
    let random = &mut Random(57);
    let mut endings = [0; 22];
    for _ in 0..60_000 {
        let words = programs::accepted(random);
        let words = if random.chance(0.5) { programs::spaced(&words, random) } else { words };
        endings[compare_program(&words, random) as usize] += 1;
    }
    for ending in [0, 16, 17, 21] {
        assert!(endings[ending] > 2000, "{endings:?}");
    }
}

/// C(1) is 3 and is opened again with 10, less its square: until it is closed again it is read as 3, and afterwards as 1.
#[test]
fn a_slot_that_is_open_again_is_read() {
    let random = &mut Random(61);
    let opened = [[1, 1, 1], [8, 0, 0], [1, 2, 1], [4, 1, 1], [8, 0, 0]];
    let y = [[2, 1, 0], [7, 1, 0], [8, 0, 0], [2, 2, 0], [5, 1, 1], [8, 0, 0]];
    let x = [[3, 2, 0], [8, 0, 0], [3, 1, 0], [6, 1, 2], [8, 0, 0]];
    let words = programs::in_order([2, 2, 1], opened.into_iter().chain(y).chain(x));
    let (a, b) = ([3.0, 10.0], [4.0, 12.0]);
    assert_eq!(compare_run(&words, &a, &b, 0.0, [1, 2, 2], random), Answer::fine([3, 1, 0, 0]));
    let mut tables = Tables::new([1, 2, 2], random);
    tables.run(&words, &a, &b, 0.0);
    assert_eq!((tables.c.entries(), tables.y.entries(), tables.x.entries()), (&[1.0][..], &[4.0, 8.0][..], &[-4.0, 8.0][..]));
    // refused while it is open again: its number is the slot's
    let huge = compare_run(&words, &[1e200, 1.0], &b, 0.0, [1, 2, 2], random);
    assert_eq!(huge, Answer::stopped(16, 4, [1, 1, 0, 0]));
}

/// The check's own lengths: no words, a row that isn't whole records, and one that is too long.
#[test]
fn rows_that_are_no_program() {
    let random = &mut Random(58);
    let (words, a, b, lengths) = solvable(3, &networks::full(3));
    for len in (0..words.len()).filter(|len| len % 4 != 0 || *len == 0) {
        assert_eq!(compare_run(&words[..len], &a, &b, -1.0, lengths, random), Answer::refused(7, 0));
    }
    assert_eq!(compare_run(&words[..4], &a, &b, -1.0, lengths, random), Answer::refused(9, 0));
    // a row of zeros, never touched here, takes no memory, and its length alone decides
    let zeros = vec![0; 400_000_004];
    let before = Tables::new(lengths, random);
    let mut tables = before.clone();
    assert_eq!(tables.run(&zeros, &a, &b, 0.0), Answer::refused(7, 0), "100,000,001 records");
    assert_eq!(tables.run(&zeros[4..], &a, &b, 0.0), Answer::refused(8, 0), "100,000,000 records, order 0");
    assert!(tables.same(&before));
}
