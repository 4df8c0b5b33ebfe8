//! `crout_run_many`: each right side ends as a run of its own, by the reading and by `crout_run_limit`, bit for bit. Counts out of range,
//! wrong lengths, bad values and damaged programs are held against the reading.

use crout_tests::calls::many::{Call, run_many};
use crout_tests::calls::{Answer, run::run_limit};
use crout_tests::lent::{Lent, same};
use crout_tests::networks::{self, BAD_LIMITS, SHAPES, VALUES, Values};
use crout_tests::programs;
use crout_tests::random::Random;
use crout_tests::reading::{self, labels::label};

/// A call's answer, and C, Y and X after it.
struct Ended {
    answer: Answer<257>,
    tables: [Lent<f64>; 3],
}

impl Ended {
    fn c(&self) -> &[f64] {
        self.tables[0].entries()
    }

    fn y(&self) -> &[f64] {
        self.tables[1].entries()
    }

    fn x(&self) -> &[f64] {
        self.tables[2].entries()
    }

    fn all_zero(&self) -> bool {
        self.tables.iter().all(|table| same(table.entries(), &vec![0.0; table.entries().len()]))
    }
}

fn alike(one: &[Lent<f64>; 3], other: &[Lent<f64>; 3]) -> bool {
    one.iter().zip(other).all(|(one, other)| one.same(other))
}

/// The call, or of a long one what there is.
fn what(call: Call) -> String {
    let Call { words, count, a, b, limit } = call;
    let long = || format!("{} words, {count} right sides, {} and {} values, limit {limit:e}", words.len(), a.len(), b.len());
    if words.len() + b.len() > 2000 { long() } else { format!("{call:?}") }
}

/// The call on tables of these lengths that are full of junk: answer and tables are the reading's. A refusal changes no table and leaves
/// zeros in out, zeros stand past the last side, and inputs don't change.
fn compare_lengths(call: Call, lengths: [usize; 3], random: &mut Random) -> Ended {
    let before = lengths.map(|len| Lent::<f64>::new(len, random));
    let (mut tables, mut read_tables) = (before.clone(), before.clone());
    let Call { words, count, a, b, limit } = call;
    let inputs = (words.to_vec(), a.to_vec(), b.to_vec());
    let [c, y, x] = &mut tables;
    let answer = run_many(call, c.part(), y.part(), x.part());
    let [c, y, x] = &mut read_tables;
    let read = reading::many::run(words, count, a, b, limit, c.part(), y.part(), x.part());
    assert_eq!(answer, read.into(), "{}", what(call));
    assert!(alike(&tables, &read_tables), "{}", what(call));
    let used = if answer.number() == 0 { 4 * count as usize + 1 } else { 0 };
    assert!(answer.out[used..].iter().all(|&number| number == 0), "{}", what(call));
    assert!(answer.number() == 0 || alike(&tables, &before), "a refusal has changed a table: {}", what(call));
    assert!(words == inputs.0 && same(a, &inputs.1) && same(b, &inputs.2), "an input has changed");
    Ended { answer, tables }
}

/// The same on tables of the lengths that the program and the number of sides ask for, if they can be had: a program has more words than
/// slots.
fn compare(call: Call, random: &mut Random) -> Ended {
    let Call { words, count, .. } = call;
    let (n, slots) = (words[0].min(2000) as usize, words.len().min(words[2] as usize));
    let rows = count.min(66) as usize * n;
    compare_lengths(call, [slots, rows, rows], random)
}

/// How many sides have ended by each number, and how many calls have had sides that are solved and such that aren't, sides that are refused
/// by different records and none that is solved, and products that vanish for some of the solved sides alone.
#[derive(Default, Debug)]
struct Endings {
    numbers: [u32; 28],
    mixed: u32,
    apart: u32,
    vanishing: u32,
}

impl Endings {
    fn add(&mut self, call: Call, ended: &Ended) {
        if ended.answer.number() != 0 {
            self.numbers[ended.answer.number() as usize] += 1;
            return;
        }
        let sides: Vec<Answer<4>> = (0..call.count as usize).map(|side| ended.answer.side(side)).collect();
        sides.iter().for_each(|side| self.numbers[side.number() as usize] += 1);
        let (solved, refused): (Vec<_>, Vec<_>) = sides.into_iter().partition(|side| side.number() == 0);
        let differ = |sides: &[Answer<4>]| sides.iter().any(|side| *side != sides[0]);
        self.mixed += u32::from(!solved.is_empty() && !refused.is_empty());
        self.apart += u32::from(solved.is_empty() && differ(&refused));
        self.vanishing += u32::from(differ(&solved));
    }

    fn expect(&self, numbers: &[usize], hits: u32) {
        assert!(numbers.iter().all(|&number| self.numbers[number] >= hits), "{self:?}");
    }
}

/// The call, and each of its sides by `crout_run_limit` on dirty tables of its own: its answer, its Y and its X, and C if it is solved.
fn compare_with_runs(call: Call, random: &mut Random) -> Ended {
    let ended = compare(call, random);
    let (n, slots) = (call.words[0] as usize, call.words[2] as usize);
    let mut solved = false;
    for side in 0..call.count as usize {
        let part = side * n..(side + 1) * n;
        let [mut c, mut y, mut x] = [slots, n, n].map(|len| Lent::<f64>::new(len, random));
        let alone = run_limit(call.words, call.a, &call.b[part.clone()], call.limit, c.part(), y.part(), x.part());
        assert_eq!(ended.answer.side(side), alone, "side {side} of {}", what(call));
        assert!(same(&ended.y()[part.clone()], y.entries()), "side {side} of {}", what(call));
        assert!(same(&ended.x()[part], x.entries()), "side {side} of {}", what(call));
        if alone.returned == 0 {
            solved = true;
            assert!(same(ended.c(), c.entries()), "side {side} of {}", what(call));
        }
    }
    assert!(solved || same(ended.c(), &vec![0.0; slots]), "{}", what(call));
    assert!(!solved || ended.answer.out[0] == chain(call.words).len() as u64, "{}", what(call));
    ended
}

/// The records of a program's chain, without record 0.
fn chain(words: &[u32]) -> Vec<u64> {
    let (mut at, mut records) = (words[3], vec![]);
    while at != 0 {
        records.push(at.into());
        at = words[4 * at as usize + 3];
    }
    records
}

/// Right sides one after another, each of its own kind: random values, equal ones, or those of the side before.
fn sides(n: usize, count: u32, random: &mut Random) -> Vec<f64> {
    let mut b: Vec<f64> = vec![];
    for _ in 0..count {
        let values = VALUES[random.below(VALUES.len())];
        match random.below(8) {
            0 if !b.is_empty() => b.extend_from_within(b.len() - n..),
            1 => b.extend(vec![values.one(random); n]),
            _ => b.extend(values.row(n, random)),
        }
    }
    b
}

/// Coefficients for a plan, every other time such that C is most likely without a refusal.
fn coefficients(n: u32, plan: &[u32], random: &mut Random) -> Vec<f64> {
    let values = if random.chance(0.5) { Values::Moderate } else { VALUES[random.below(VALUES.len())] };
    values.coefficients(n, plan, random)
}

/// The program of a plan of any shape that misses no pivot, and coefficients for it.
fn network(n: u32, random: &mut Random) -> (Vec<u32>, Vec<f64>) {
    loop {
        let plan = SHAPES[random.below(SHAPES.len())].plan(n, random);
        if let Some(words) = programs::compiled(n, &plan) {
            return (words, coefficients(n, &plan, random));
        }
    }
}

/// The four numbers of each side in turn, behind the records read.
fn out<const K: usize>(read: u64, sides: [[u64; 4]; K]) -> [u64; 257] {
    let mut out = [0; 257];
    out[0] = read;
    out[1..].iter_mut().zip(sides.as_flattened()).for_each(|(number, &given)| *number = given);
    out
}

/// The answer of a side that is refused.
fn refused(number: u64, record: u64, table: u64, target: u64) -> [u64; 4] {
    [number << 32 | record, table, target, 0]
}

/// The call on the program of order 2 with the places (1,1) and (2,2).
fn two_pivots(a: &[f64], b: &[f64]) -> Ended {
    let words = programs::compiled(2, &[1, 4]).expect("no pivot is missing");
    compare_with_runs(Call { words: &words, count: b.len() as u32 / 2, a, b, limit: 0.0 }, &mut Random(100))
}

#[test]
fn the_known_sides() {
    let [tiny, huge] = [-1000, 1000].map(|exponent| 2f64.powi(exponent));
    let ended = two_pivots(&[tiny, tiny], &[1.0, huge, huge, 1.0]);
    assert_eq!(ended.answer, Answer::fine(out(9, [refused(16, 9, 2, 2), refused(16, 4, 2, 1)])));
    assert!(ended.all_zero());
    let ended = two_pivots(&[tiny, 1.0], &[1.0, 1.0, huge, 1.0, 5.0, 6.0]);
    let solved = [0, 0, 2, 0];
    assert_eq!(ended.answer, Answer::fine(out(14, [solved, refused(16, 4, 2, 1), solved])));
    let y_and_x = [huge, 1.0, 0.0, 0.0, 5.0 * huge, 6.0];
    assert!(same(ended.c(), &[tiny, 1.0]) && same(ended.y(), &y_and_x) && same(ended.x(), &y_and_x));
}

#[test]
fn every_count_on_networks() {
    let random = &mut Random(101);
    let mut endings = Endings::default();
    for _ in 0..30 {
        for count in 1..=64 {
            let n = 1 + random.below(10) as u32;
            let (words, a) = network(n, random);
            let b = sides(n as usize, count, random);
            let call = Call { words: &words, count, a: &a, b: &b, limit: networks::limit(&a, random) };
            endings.add(call, &compare_with_runs(call, random));
        }
    }
    endings.expect(&[0, 16, 17], 5000);
    assert!(endings.mixed > 300 && endings.apart > 20 && endings.vanishing > 50, "{endings:?}");
}

/// A strong diagonal, small coefficients off it, and right sides of any size: in C, in Y and in X products vanish, in the last two for some
/// sides alone.
#[test]
fn products_that_vanish_for_some_sides() {
    let random = &mut Random(102);
    let mut endings = Endings::default();
    for round in 0..300 {
        let n = 2 + random.below(10) as u32;
        let plan = SHAPES[round % SHAPES.len()].plan(n, random);
        let Some(words) = programs::compiled(n, &plan) else { continue };
        let at_most_one = |value: f64| if value.abs() > 1.0 { 1.0 / value } else { value };
        let mut a: Vec<f64> = Values::Wide.row(plan.len(), random).into_iter().map(at_most_one).collect();
        for at in (1..=n).filter_map(|m| plan.binary_search(&label(n, m, m)).ok()) {
            a[at] = 1.0 + random.unit();
        }
        let count = 1 + random.below(64) as u32;
        let b = Values::Wide.row((count * n) as usize, random);
        let call = Call { words: &words, count, a: &a, b: &b, limit: 0.0 };
        endings.add(call, &compare_with_runs(call, random));
    }
    assert!(endings.vanishing > 100, "{endings:?}");
    // one in C, which is every side's, one in Y for the second side and the third, and one in X for the second
    let tiny = 2f64.powi(-1000);
    let words = programs::compiled(2, &networks::full(2)).expect("a full table");
    let call = Call { words: &words, count: 3, a: &[1.0, tiny, tiny, 1.0], b: &[1.0, 1.0, tiny, tiny, tiny, 1.0], limit: 0.0 };
    assert_eq!(compare_with_runs(call, random).answer.out, out(22, [[0, 3, 3, 1], [0, 3, 3, 3], [0, 3, 3, 2]]));
}

/// On a diagonal of tiny coefficients a side with one huge entry is refused where its y is divided: five records for each row, the fourth
/// of them. Only the latest of these decides how many are read, wherever its side stands.
#[test]
fn sides_refused_at_different_records() {
    let random = &mut Random(103);
    let [tiny, huge] = [-1000, 1000].map(|exponent| 2f64.powi(exponent));
    let plan: Vec<u32> = (1..=5).map(|m| label(5, m, m)).collect();
    let (words, a) = (programs::compiled(5, &plan).expect("no pivot is missing"), [tiny; 5]);
    let side = |row: usize| (1..=5).map(move |k| if k == row { huge } else { 1.0 });
    let ended = |rows: &[usize], random: &mut Random| {
        let b: Vec<f64> = rows.iter().copied().flat_map(side).collect();
        compare_with_runs(Call { words: &words, count: rows.len() as u32, a: &a, b: &b, limit: 0.0 }, random)
    };
    let at = |row: u64| refused(16, 5 * row - 1, 2, row);
    let all_refused = ended(&[3, 1, 5, 2, 5], random);
    assert_eq!(all_refused.answer.out, out(24, [at(3), at(1), at(5), at(2), at(5)]));
    assert!(all_refused.all_zero());
    assert_eq!(ended(&[1, 2], random).answer.out, out(9, [at(1), at(2)]));
    assert_eq!(ended(&[2, 1], random).answer.out, out(9, [at(2), at(1)]));
    assert_eq!(ended(&[1; 64], random).answer.out, out(4, [at(1); 64]));
    let one_solved = ended(&[3, 1, 0, 2], random);
    assert_eq!(one_solved.answer.out, out(35, [at(3), at(1), [0, 0, 5, 0], at(2)]));
    assert!(same(one_solved.c(), &a) && same(&one_solved.x()[10..15], &[huge; 5]));
    assert!(same(&one_solved.y()[..10], &[0.0; 10]) && same(&one_solved.x()[15..], &[0.0; 5]));
}

/// The first side is refused in y(1), the second in the product and the third in the difference of x(1), and the others are solved:
/// zeros of either sign, the smallest numbers and equal ones.
#[test]
fn sides_refused_in_y_and_in_x() {
    let random = &mut Random(104);
    let [tiny, huge] = [-1000, 1000].map(|exponent| 2f64.powi(exponent));
    let (words, a) = (programs::compiled(2, &[1, 3, 4]).expect("no pivot is missing"), [tiny, -huge * tiny, 1.0]);
    let call = |count: u32, b| Call { words: &words, count, a: &a, b, limit: 0.0 };
    let b = [huge, 1.0, 1.0, huge, tiny * f64::MAX, f64::MAX / huge, -0.0, -0.0, 5e-324, 5e-324, 1.0, 1.0];
    let three = [refused(16, 4, 2, 1), refused(16, 17, 3, 1), refused(16, 17, 3, 1)];
    let ended = compare_with_runs(call(3, &b[..6]), random);
    assert_eq!(ended.answer.out, out(17, three));
    assert!(ended.all_zero());
    let ended = compare_with_runs(call(6, &b), random);
    let solved = [0, 1, 3, 0];
    assert_eq!(ended.answer.out, out(18, [three[0], three[1], three[2], solved, solved, solved]));
    assert!(same(&ended.x()[..8], &[0.0; 8]) && same(ended.c(), &[tiny, -huge, 1.0]));
    assert!(same(&ended.x()[8..], &[2f64.powi(-73), 5e-324, 2.0 * huge, 1.0]), "{:?}", ended.x());
}

#[test]
fn a_refusal_in_c_is_every_sides() {
    let random = &mut Random(105);
    let words = programs::compiled(2, &networks::full(2)).expect("a full table");
    for count in 1..=64 {
        let b = sides(2, count, random);
        let mut every = |a: &[f64], limit: f64, expected: [u64; 4]| {
            let ended = compare_with_runs(Call { words: &words, count, a, b: &b, limit }, random);
            assert!(ended.answer.out[1..=4 * count as usize].chunks_exact(4).all(|four| four == expected), "{:?}", ended.answer);
            assert!(ended.answer.out[0] == expected[0] & 0xffff_ffff && ended.all_zero());
        };
        every(&[1.0; 4], 0.0, refused(17, 13, 1, 4));
        every(&[1.0, 1.0, 1.0, 1.0000000000000002], 1e-9, refused(17, 13, 1, 4));
        every(&[1.0, 1e200, 1e200, 1.0], 0.0, refused(16, 12, 1, 4));
        every(&[-0.0, 1.0, 1.0, 1.0], 0.0, refused(17, 2, 1, 1));
    }
    // a side that was refused in Y before keeps its own
    let [tiny, huge] = [-1000, 1000].map(|exponent| 2f64.powi(exponent));
    let call = Call { words: &words, count: 3, a: &[tiny, 1.0, tiny, 1.0], b: &[1.0, 1.0, huge, 1.0, 3.0, 4.0], limit: 0.0 };
    let singular = refused(17, 13, 1, 4);
    assert_eq!(compare_with_runs(call, random).answer.out, out(13, [singular, refused(16, 6, 2, 1), singular]));
}

/// Answer and tables are those of `crout_run_limit` on tables with the same junk, refusals of the call as well.
#[test]
fn one_side_is_a_run_with_a_limit() {
    let random = &mut Random(106);
    let mut numbers = [0; 22];
    for _ in 0..30_000 {
        let mut words = crout_program(random);
        if random.chance(0.2) {
            programs::change(&mut words, random);
        }
        if words[2] == 0 {
            continue;
        }
        let values = VALUES[random.below(VALUES.len())];
        let [n, plan, s] = [words[0], words[1], words[2]].map(|len| len.min(2000) as usize);
        let (mut a, b) = (values.row(plan, random), values.row(n, random));
        a.iter_mut().take(1).filter(|_| random.chance(0.05)).for_each(|value| *value = f64::INFINITY);
        let limit = networks::any_limit(&a, random);
        let mut tables = [s, n, n + usize::from(random.chance(0.05))].map(|len| Lent::<f64>::new(len, random));
        let mut alone_tables = tables.clone();
        let [c, y, x] = &mut tables;
        let answer = run_many(Call { words: &words, count: 1, a: &a, b: &b, limit }, c.part(), y.part(), x.part());
        let [c, y, x] = &mut alone_tables;
        let alone = run_limit(&words, &a, &b, limit, c.part(), y.part(), x.part());
        match alone.number() {
            0 | 16 | 17 => assert_eq!((answer.returned, answer.side(0)), (0, alone), "{words:?} {a:?} {b:?} {limit:e}"),
            number => assert_eq!(answer, Answer::refused(number, alone.detail()), "{words:?} {a:?} {b:?} {limit:e}"),
        }
        assert!(alike(&tables, &alone_tables), "{words:?} {a:?} {b:?} {limit:e}");
        numbers[alone.number() as usize] += 1;
    }
    assert!([0, 8, 9, 10, 11, 12, 13, 14, 15, 16, 17, 21].iter().all(|&number| numbers[number] > 20), "{numbers:?}");
}

/// A Crout program of one compiler or the other, or of none; every third has spare records.
fn crout_program(random: &mut Random) -> Vec<u32> {
    let n = 1 + random.below(6) as u32;
    let compiled = programs::of_either(n, &networks::any(n, random), random);
    let words = compiled.filter(|_| random.chance(0.8)).unwrap_or_else(|| programs::accepted(random));
    if random.chance(0.33) { programs::spaced(&words, random) } else { words }
}

/// A three-diagonal program of order n whose values 1, 2, .. have a solution, and right sides for it: words, A and B.
fn solvable(n: u32, count: u32) -> (Vec<u32>, Vec<f64>, Vec<f64>) {
    let plan = networks::three_diagonal(n);
    let numbers = |len: usize| (1..=len).map(|k| k as f64).collect();
    let words = programs::compiled(n, &plan).expect("no pivot is missing");
    (words, numbers(plan.len()), numbers((count * n) as usize))
}

/// The call on tables that hold so many sides.
fn compare_sides(call: Call, sides: usize, random: &mut Random) -> Answer<257> {
    let rows = sides * call.words[0] as usize;
    compare_lengths(call, [call.words[2] as usize, rows, rows], random).answer
}

#[test]
fn counts_outside_1_to_64() {
    let random = &mut Random(107);
    for n in 1..=4 {
        for count in [0, 65, 66, 127, 128, 1 << 8, (1 << 8) + 1, 1 << 16, (1 << 16) + 1, 1 << 31, u32::MAX - 1, u32::MAX] {
            // 25 comes before 14, 15 and 21, also where the lengths are right for so many sides
            for lent in [0, 1, 64, 65, count.min(1000)] {
                let (words, mut a, b) = solvable(n, lent);
                let limit = networks::any_limit(&a, random);
                a.iter_mut().take(random.below(2)).for_each(|value| *value = f64::NAN);
                let call = Call { words: &words, count, a: &a, b: &b, limit };
                assert_eq!(compare_sides(call, lent as usize, random), Answer::refused(25, 0), "{count}");
            }
        }
        for count in [1, 2, 63, 64] {
            let (words, a, b) = solvable(n, count);
            let call = Call { words: &words, count, a: &a, b: &b, limit: 0.0 };
            assert_eq!(compare_sides(call, count as usize, random).out[0], chain(&words).len() as u64);
        }
    }
}

#[test]
fn each_wrong_length() {
    let random = &mut Random(108);
    for (n, count) in [(1, 1), (1, 2), (2, 1), (2, 3), (3, 7), (4, 64)] {
        let (words, a, b) = solvable(n, count);
        let (slots, single) = (words[2] as usize, n as usize);
        let right = [a.len(), b.len(), slots, b.len(), b.len()];
        let mut refused = |lengths: [usize; 5]| {
            let [la, lb, lc, ly, lx] = lengths;
            let resized = |values: &[f64], len: usize| (0..len).map(|k| values.get(k).copied().unwrap_or(1.0)).collect();
            let (mut a, b): (Vec<f64>, Vec<f64>) = (resized(&a, la), resized(&b, lb));
            // 14 comes before 15 and 21
            a.iter_mut().take(random.below(2)).for_each(|value| *value = f64::NAN);
            let limit = networks::any_limit(&a, random);
            let answer = compare_lengths(Call { words: &words, count, a: &a, b: &b, limit }, [lc, ly, lx], random).answer;
            assert_eq!(answer == Answer::refused(14, 0), lengths != right, "{right:?} {lengths:?}");
        };
        refused(right);
        for which in 0..5 {
            let len = right[which];
            // among them a single side's, a side more and a side less
            for wrong in [0, 1, len - 1, len + 1, 2 * len, single, len + single, len - single.min(len), count as usize * len] {
                let mut lengths = right;
                lengths[which] = wrong;
                refused(lengths);
            }
            // two of them wrong, the sum right
            let mut lengths = right;
            lengths[which] += 1;
            lengths[(which + 1) % 5] -= 1;
            refused(lengths);
        }
        // the lengths of another number of sides
        for other in [0, 1, count as usize - 1, count as usize + 1, 2 * count as usize] {
            refused([a.len(), other * single, slots, other * single, other * single]);
        }
    }
}

#[test]
fn each_position_of_a_value_that_is_not_finite() {
    let random = &mut Random(109);
    for (n, count) in [(1, 1), (1, 5), (2, 2), (3, 1), (3, 4), (2, 64)] {
        let (words, a, b) = solvable(n, count);
        for bad in [f64::NAN, -f64::NAN, f64::INFINITY, f64::NEG_INFINITY, f64::from_bits(0x7ff0_0000_0000_0001)] {
            for at in 0..a.len() + b.len() {
                let mut values = [&a[..], &b[..]].concat();
                // a second one, later in A or in B, doesn't matter
                let later = at + random.below(values.len() - at);
                values[later] = f64::NAN;
                values[at] = bad;
                let (a, b) = values.split_at(a.len());
                // 15 comes before 21
                let call = Call { words: &words, count, a, b, limit: networks::any_limit(a, random) };
                let position = if at < a.len() { at } else { at - a.len() } as u64 + 1;
                assert_eq!(compare(call, random).answer, Answer::refused(15, position), "{at} of {call:?}");
            }
        }
    }
}

#[test]
fn limits() {
    let random = &mut Random(110);
    for count in [1, 2, 64] {
        let (words, a, b) = solvable(3, count);
        let call = |limit: f64| Call { words: &words, count, a: &a, b: &b, limit };
        for limit in BAD_LIMITS {
            assert_eq!(compare(call(limit), random).answer, Answer::refused(21, 0), "{limit:e}");
        }
        // the pivots are 1, 4 - 2 * 3 and 7 - 5 * -3
        for (limit, ending) in [(0.0, 0), (-0.0, 0), (5e-324, 0), (0.9999999999999999, 0), (1.0, 17), (f64::MAX, 17)] {
            let answer = compare_with_runs(call(limit), random).answer;
            assert!((0..count as usize).all(|side| answer.side(side).number() == ending), "{limit:e}");
        }
    }
}

/// A call in which everything is wrong, from the limit on to the length of the row of words: what is checked first is told.
#[test]
fn the_order_of_the_refusals() {
    let random = &mut Random(111);
    let words = programs::compiled(2, &[1, 4]).expect("no pivot is missing");
    let (a, good, mut b) = ([1.0, 2.0], [1.0; 6], [1.0; 6]);
    b[4] = f64::NAN;
    let mut told = |words: &[u32], count, a: &[f64], b: &[f64], limit, lengths| {
        compare_lengths(Call { words, count, a, b, limit }, lengths, random).answer
    };
    let right = [2, 6, 6];
    assert_eq!(told(&words, 3, &a, &good, 0.0, right).number(), 0);
    assert_eq!(told(&words, 3, &a, &good, -1.0, right), Answer::refused(21, 0));
    assert_eq!(told(&words, 3, &a, &b, -1.0, right), Answer::refused(15, 5));
    assert_eq!(told(&words, 3, &[1.0, f64::NAN], &b, -1.0, right), Answer::refused(15, 2));
    assert_eq!(told(&words, 3, &a, &b, -1.0, [2, 6, 2]), Answer::refused(14, 0));
    assert_eq!(told(&words, 65, &a, &b, -1.0, [2, 6, 2]), Answer::refused(25, 0));
    // each change comes before those that have been made already: the word, what it becomes, and the refusal
    let changes = [
        (4 * 12 + 3, 0, 13, 0),
        (4 * 8 + 1, 3, 12, 8),
        (4 * 6, 4, 11, 6),
        (4 * 4 + 2, 1, 10, 4),
        (4 * 2 + 3, 2, 9, 2),
        (0, 601, 8, 0),
    ];
    let mut words = words;
    for (word, becomes, number, detail) in changes {
        words[word] = becomes;
        assert_eq!(told(&words, 0, &a, &b, -1.0, [2, 6, 2]), Answer::refused(number, detail));
    }
    for len in (0..words.len()).filter(|len| len % 4 != 0 || *len == 0) {
        assert_eq!(told(&words[..len], 0, &a, &b, -1.0, [2, 6, 2]), Answer::refused(7, 0));
    }
    // a row of zeros, never touched here, takes no memory, and its length alone decides
    let zeros = vec![0; 400_000_004];
    let told = |words| run_many(Call { words, count: 0, a: &a, b: &b, limit: -1.0 }, &mut [], &mut [], &mut []);
    assert_eq!(told(&zeros), Answer::refused(7, 0), "100,000,001 records");
    assert_eq!(told(&zeros[4..]), Answer::refused(8, 0), "100,000,000 records, order 0");
}

/// They are refused by 8, before 9 to 13 and before 25, whatever else is wrong, and so is a Crout program whose slots are taken away.
#[test]
fn programs_of_sweeps() {
    let random = &mut Random(112);
    for round in 0..3000 {
        let n = 1 + random.below(6) as u32;
        let mut words = match round % 3 {
            0 => programs::swept(n, &networks::full(n)).expect("every diagonal"),
            1 => programs::accepted_sweep(random),
            _ => crout_program(random),
        };
        words[2] = 0;
        let (n, count) = (words[0] as usize, [0, 1, 2, 64, 65, u32::MAX][random.below(6)]);
        if random.chance(0.3) {
            let index = 3 + random.below(words.len() - 3);
            words[index] = random.next() as u32;
        }
        let rows = n * count.min(65) as usize;
        let values = if random.chance(0.5) { Values::Moderate.one(random) } else { f64::NAN };
        let (a, b) = (vec![values; words[1] as usize], vec![1.0; rows]);
        let call = Call { words: &words, count, a: &a, b: &b, limit: networks::any_limit(&a, random) };
        for lengths in [[0, rows, rows], [0, 0, rows], [1, rows, rows]] {
            assert_eq!(compare_lengths(call, lengths, random).answer, Answer::refused(8, 0));
        }
        let cut = Call { words: &words[..words.len() - 1], ..call };
        assert_eq!(compare_lengths(cut, [0, rows, rows], random).answer, Answer::refused(7, 0));
    }
}

/// A call of any Crout program on right sides of any kind, with the lengths that its record 0 asks for if they can be had.
fn compare_program(words: &[u32], endings: &mut Endings, random: &mut Random) {
    let count = match random.below(40) {
        0 => 0,
        1 => 65,
        2..=5 => 1 + random.below(64) as u32,
        _ => 1 + random.below(4) as u32,
    };
    let [n, plan] = [words[0], words[1]].map(|len| len.min(2000) as usize);
    let values = if random.chance(0.5) { Values::Moderate } else { VALUES[random.below(VALUES.len())] };
    let (a, mut b) = (values.row(plan, random), sides(n, count, random));
    b.iter_mut().rev().take(1).filter(|_| random.chance(0.02)).for_each(|value| *value = f64::NAN);
    let call = Call { words, count, a: &a, b: &b, limit: networks::any_limit(&a, random) };
    endings.add(call, &compare(call, random));
}

#[test]
fn damaged_programs() {
    let random = &mut Random(113);
    let mut endings = Endings::default();
    for _ in 0..40_000 {
        let mut words = crout_program(random);
        for _ in 0..1 + random.below(3) {
            programs::change(&mut words, random);
        }
        if random.chance(0.05) {
            words.truncate(random.below(words.len() + 1).max(3));
        }
        compare_program(&words, &mut endings, random);
    }
    endings.expect(&[0, 7, 8, 9, 10, 11, 12, 13, 15, 16, 17, 21, 25], 100);
}

#[test]
fn programs_that_no_compiler_wrote() {
    let random = &mut Random(114);
    let mut endings = Endings::default();
    for round in 0..30_000 {
        let words = programs::accepted(random);
        let words = if round % 2 == 0 { programs::spaced(&words, random) } else { words };
        compare_program(&words, &mut endings, random);
    }
    endings.expect(&[0, 15, 16, 17, 21, 25], 300);
    assert!(endings.mixed > 300 && endings.apart > 300 && endings.vanishing > 20, "{endings:?}");
}

/// Y, X, the records read and each side's answer are those of the plain program, but for the number of a slot.
#[test]
fn compact_programs() {
    let random = &mut Random(115);
    let mut endings = Endings::default();
    for _ in 0..600 {
        let n = 1 + random.below(10) as u32;
        let plan = networks::any(n, random);
        let (Some(plain), Some(words)) = (programs::compiled(n, &plan), programs::compacted(n, &plan)) else { continue };
        let (count, a) = (1 + random.below(64) as u32, coefficients(n, &plan, random));
        let b = sides(n as usize, count, random);
        let call = Call { words: &plain, count, a: &a, b: &b, limit: networks::limit(&a, random) };
        let (first, ended) = (compare(call, random), compare_with_runs(Call { words: &words, ..call }, random));
        let without_slots = |ended: &Ended| {
            let mut out = ended.answer.out;
            out[1..].chunks_exact_mut(4).filter(|four| four[0] != 0 && four[1] == 1).for_each(|four| four[2] = 0);
            out
        };
        assert_eq!(without_slots(&first), without_slots(&ended), "{call:?}");
        assert!(same(first.y(), ended.y()) && same(first.x(), ended.x()), "{call:?}");
        endings.add(call, &ended);
    }
    endings.expect(&[0, 16, 17], 1000);
}

/// Tables and counts are those of the program without its spare records, the records read as well, which the chain alone counts; only the
/// records that refuse stand elsewhere.
#[test]
fn spare_records_are_not_counted() {
    let random = &mut Random(116);
    let mut endings = Endings::default();
    for _ in 0..600 {
        let n = 1 + random.below(8) as u32;
        let (words, a) = network(n, random);
        let (count, spaced) = (1 + random.below(64) as u32, programs::spaced(&words, random));
        let b = sides(n as usize, count, random);
        let call = Call { words: &words, count, a: &a, b: &b, limit: networks::limit(&a, random) };
        let (first, ended) = (compare(call, random), compare_with_runs(Call { words: &spaced, ..call }, random));
        let places = chain(&spaced);
        let mut moved = first.answer.out;
        for four in moved[1..].chunks_exact_mut(4).filter(|four| four[0] != 0) {
            four[0] = four[0] >> 32 << 32 | places[four[0] as u32 as usize - 1];
        }
        assert_eq!(ended.answer.out, moved, "{call:?}");
        let tables = |ended: &Ended| [ended.c(), ended.y(), ended.x()].concat();
        assert!(same(&tables(&first), &tables(&ended)), "{call:?}");
        endings.add(call, &ended);
    }
    endings.expect(&[0, 16, 17], 1000);
    assert!(endings.apart > 5, "{endings:?}");
}

#[test]
fn networks_of_order_600() {
    let random = &mut Random(117);
    for (n, plan) in [(600, networks::three_diagonal(600)), (576, networks::grid(576, 24))] {
        let words = programs::compiled(n, &plan).expect("no pivot is missing");
        let mut a = Values::Moderate.row(plan.len(), random);
        for at in (1..=n).filter_map(|m| plan.binary_search(&label(n, m, m)).ok()) {
            a[at] += 10.0 * f64::from(n);
        }
        let mut b = Values::Moderate.row(64 * n as usize, random);
        // the last side overflows on the way
        b.iter_mut().rev().take(n as usize).for_each(|value| *value = f64::MAX.copysign(*value));
        let call = Call { words: &words, count: 64, a: &a, b: &b, limit: 1e-9 };
        let answer = compare_with_runs(call, random).answer;
        assert!((0..63).all(|side| answer.side(side).number() == 0) && answer.side(63).number() == 16);
    }
}
