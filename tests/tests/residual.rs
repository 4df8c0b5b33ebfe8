//! `crout_residual` against the reading, and both against numbers written down here: the known rows, every bit that a product can have,
//! carries through all 66 words, rows that cancel, random plans with values of every kind, and what is refused.

use crout_tests::calls::{refused, residual::residual};
use crout_tests::lent::{Lent, same};
use crout_tests::networks::{self, VALUES};
use crout_tests::random::Random;
use crout_tests::reading::residual::WORDS;
use crout_tests::reading::{self, Refusal, labels::label};

/// The largest value, the smallest above zero, and the largest with fewer than 53 bits.
const LARGEST: f64 = f64::MAX;
const SMALLEST: f64 = 5e-324;
const LARGEST_SUBNORMAL: f64 = f64::from_bits(0x000f_ffff_ffff_ffff);

/// What isn't finite.
const NOT_FINITE: [f64; 5] =
    [f64::INFINITY, f64::NEG_INFINITY, f64::NAN, f64::from_bits(0xfff8_0000_0000_0001), f64::from_bits(0x7ff0_0000_0000_0001)];

/// What a call is given but for its words.
#[derive(Clone, Debug)]
struct Given {
    n: u32,
    plan: Vec<u32>,
    a: Vec<f64>,
    b: Vec<f64>,
    x: Vec<f64>,
}

impl Given {
    fn new(n: u32, plan: &[u32], a: &[f64], b: &[f64], x: &[f64]) -> Self {
        Self { n, plan: plan.to_vec(), a: a.to_vec(), b: b.to_vec(), x: x.to_vec() }
    }

    /// A table of order 1.
    fn single(a: f64, b: f64, x: f64) -> Self {
        Self::new(1, &[1], &[a], &[b], &[x])
    }

    /// As many columns as there are products, which are all in the first row; the other rows have no place, and 0 as right side.
    fn row(b: f64, products: &[(f64, f64)]) -> Self {
        let n = products.len() as u32;
        let plan: Vec<u32> = (1..=n).map(|j| label(n, 1, j)).collect();
        assert!(plan.is_sorted(), "the first row's labels rise");
        let (a, x): (Vec<f64>, Vec<f64>) = products.iter().copied().unzip();
        let mut right = vec![0.0; n as usize];
        right[0] = b;
        Self { n, plan, a, b: right, x }
    }

    /// The library's answer with so many words, all junk before. It is the reading's, also in the words, and the others are as they were.
    fn left_over_in(&self, words_len: usize, random: &mut Random) -> Result<Vec<u64>, Refusal> {
        let Self { n, plan, a, b, x } = self;
        let before = self.clone();
        let mut words = Lent::<u64>::new(words_len, random);
        let (mut read_words, junk) = (words.clone(), words.clone());
        let returned = residual(*n, plan, a, b, x, words.part());
        let read = reading::residual::residual(*n, plan, a, b, x, read_words.part());
        let what = || {
            let shown = |values: &[f64]| format!("{:?}", &values[..values.len().min(150)]);
            let plan = &plan[..plan.len().min(150)];
            format!("order {n}, {words_len} words, plan {plan:?}, a {}, b {}, x {}", shown(a), shown(b), shown(x))
        };
        assert_eq!(returned, read.map_or_else(|(number, detail)| refused(number, detail), |()| 0), "{}", what());
        assert!(words.same(&read_words), "the words {:x?}: {}", &words.entries()[..words_len.min(2 * WORDS)], what());
        assert!(read.is_ok() || words.same(&junk), "a refusal changes nothing: {}", what());
        let are_as_before = same(a, &before.a) && same(b, &before.b) && same(x, &before.x);
        assert!(plan == &before.plan && are_as_before, "what is only read has changed: {}", what());
        read.map(|()| words.entries().to_vec())
    }

    /// The rows, with as many words as they want.
    fn left_over(&self, random: &mut Random) -> Vec<[u64; WORDS]> {
        let words = self.left_over_in(WORDS * self.n as usize, random).expect("what is left over");
        words.chunks_exact(WORDS).map(|row| row.try_into().expect("66 words")).collect()
    }
}

/// A number times 2^power in 66 words.
fn scaled(number: i64, power: usize) -> [u64; WORDS] {
    let wide = i128::from(number) << (power % 64);
    let sign = if number < 0 { u64::MAX } else { 0 };
    std::array::from_fn(|at| match at as isize - (power / 64) as isize {
        0 => wide as u64,
        1 => (wide >> 64) as u64,
        above if above > 1 => sign,
        _ => 0,
    })
}

/// The lowest bit that a row has.
fn lowest_bit(row: &[u64; WORDS]) -> usize {
    let at = row.iter().position(|&word| word != 0).expect("a row that isn't zero");
    64 * at + row[at].trailing_zeros() as usize
}

/// 2^exponent, from -1074 to 1023.
fn power_of_two(exponent: i32) -> f64 {
    f64::from_bits(if exponent < -1022 { 1 << (exponent + 1074) } else { ((exponent + 1023) as u64) << 52 })
}

/// A value of any kind.
fn any_value(random: &mut Random) -> f64 {
    let edges = [0.0, SMALLEST, LARGEST_SUBNORMAL, f64::MIN_POSITIVE, LARGEST, 1.0, 2.0f64.next_down(), 1e308];
    let power = power_of_two(random.below(2098) as i32 - 1074);
    let size = match random.below(5) {
        0 => edges[random.below(edges.len())],
        1 => power,
        // near a power of two
        2 => f64::from_bits((power.to_bits() + random.below(6) as u64).saturating_sub(3)),
        _ => VALUES[random.below(VALUES.len())].one(random).abs(),
    };
    if random.chance(0.5) { size } else { -size }
}

#[test]
fn known_rows() {
    let mut random = Random(61);
    let mut half = [0; WORDS];
    half[33] = 0xffff_fff8_0000_0000;
    half[34..].fill(u64::MAX);
    assert_eq!(Given::single(0.5, 0.0, 1.0).left_over(&mut random), [half]);
    assert_eq!(Given::single(SMALLEST, 0.0, SMALLEST).left_over(&mut random), [[u64::MAX; WORDS]]);
    let two = Given::new(2, &[2, 3], &[1.0, 3.0], &[5.0, 7.0], &[2.0, 4.0]).left_over(&mut random);
    assert_eq!(two, [scaled(-7, 2148), scaled(5, 2148)]);
    assert_eq!((two[0][33], two[1][33], two[1][34]), (0xffff_ff90_0000_0000, 0x50_0000_0000, 0));
    let no_places = Given::new(2, &[], &[], &[-3.0, SMALLEST], &[9.0, LARGEST]).left_over(&mut random);
    assert_eq!(no_places, [scaled(-3, 2148), scaled(1, 1074)]);
    let largest = 0x001f_ffff_ffff_ffff;
    assert_eq!(Given::single(0.0, -LARGEST, -0.0).left_over(&mut random), [scaled(-largest, 2148 + 971)]);
    assert_eq!(Given::single(LARGEST, LARGEST, 1.0).left_over(&mut random), [[0; WORDS]]);
    assert_eq!(Given::single(LARGEST, 0.0, SMALLEST).left_over(&mut random), [scaled(-largest, 1074 + 971)]);
    assert_eq!(Given::single(LARGEST_SUBNORMAL, 0.0, 1.0).left_over(&mut random), [scaled(-0x000f_ffff_ffff_ffff, 1074)]);
    assert_eq!(Given::single(f64::MIN_POSITIVE, 0.0, -1.0).left_over(&mut random), [scaled(1 << 52, 1074)]);
}

/// The solution of V1 leaves nothing; one printed with a last digit too large does.
#[test]
fn a_solution_that_is_exact() {
    let mut random = Random(62);
    let mut given = Given::new(2, &[1, 2, 3, 4], &[2.0, 4.0, 1.0, 4.0], &[4.0, 12.0], &[1.0, 2.0]);
    assert_eq!(given.left_over(&mut random), [[0; WORDS]; 2]);
    given.x[0] = 1.0f64.next_up();
    assert_eq!(given.left_over(&mut random), [scaled(-1, 2148 - 51), scaled(-1, 2148 - 50)]);
    given.x = vec![1.0, 2.0f64.next_down()];
    assert_eq!(given.left_over(&mut random), [scaled(1, 2148 - 52), scaled(1, 2148 - 50)]);
}

#[test]
fn every_sign() {
    let mut random = Random(63);
    for signs in 0..8 {
        let signed = |bit: i64, value: i64| if signs >> bit & 1 == 1 { -value } else { value };
        let (a, b, x) = (signed(0, 3), signed(1, 7), signed(2, 5));
        let given = Given::single(a as f64, b as f64, x as f64);
        assert_eq!(given.left_over(&mut random), [scaled(b - a * x, 2148)], "{given:?}");
        let zeros = Given::single(signed(0, 1) as f64 * 0.0, signed(1, 1) as f64 * 0.0, signed(2, 1) as f64 * 0.0);
        assert_eq!(zeros.left_over(&mut random), [[0; WORDS]], "{zeros:?}");
    }
}

/// A single bit at each position that a product of two powers of two can have, taken away and added; and each that a right side can have.
#[test]
fn every_bit() {
    let mut random = Random(64);
    for bit in 0..=2 * 2097 {
        let fewest = (bit - 2097i32).max(0);
        let more = fewest + random.below((bit.min(2097) - fewest + 1) as usize) as i32;
        let (a, x) = (power_of_two(more - 1074), power_of_two(bit - more - 1074));
        let given = Given::new(2, &[1, 2], &[a, -a], &[0.0, -0.0], &[x, -1.0]);
        assert_eq!(given.left_over(&mut random), [scaled(-1, bit as usize), scaled(1, bit as usize)], "{given:?}");
    }
    for bit in 0..2098 {
        let b = power_of_two(bit - 1074);
        let given = Given::new(2, &[], &[], &[b, -b], &[1.0, 1.0]);
        assert_eq!(given.left_over(&mut random), [scaled(1, 1074 + bit as usize), scaled(-1, 1074 + bit as usize)], "{given:?}");
    }
}

/// All 53 bits of both factors, at every position that their product can have.
#[test]
fn every_shift_of_whole_factors() {
    let mut random = Random(65);
    let all_ones = |exponent: usize| f64::from_bits((exponent as u64) << 52 | 0x000f_ffff_ffff_ffff);
    for shift in 0..=2 * 2046 {
        let fewest = shift - shift.min(2046);
        let first = fewest + random.below(shift.min(2046) - fewest + 1);
        let (a, x) = (all_ones(first), all_ones(shift - first));
        let pairs = [(a, x), (-a, x), (a, -x), (-a, -x)];
        let (a, x) = pairs[random.below(4)];
        let b = if random.chance(0.5) { any_value(&mut random) } else { 0.0 };
        Given::single(a, b, x).left_over(&mut random);
    }
}

/// 1 + 2^-52 times 1 - 2^-52 is 104 ones in a row. At every position that they can have: a carry or a borrow comes to a word that is
/// added or taken whole.
#[test]
fn whole_words_of_ones() {
    let mut random = Random(76);
    for shift in 0..=2 * 2045 {
        let fewest = shift - shift.min(2045);
        let first = fewest + random.below(shift.min(2045) - fewest + 1);
        let a = f64::from_bits((first as u64 + 1) << 52 | 1);
        let x = f64::from_bits(((shift - first) as u64 + 1) << 52 | 0x000f_ffff_ffff_fffe);
        let (up, down) = ((-a, x), (a, x));
        for steps in [&[down][..], &[down, down], &[up, up], &[up, up, up, down, down, down, down]] {
            Given::row(0.0, steps).left_over(&mut random);
        }
        for steps in [[down, down, up, up], [up, up, down, down], [up, down, down, up]] {
            assert_eq!(Given::row(0.0, &steps).left_over(&mut random)[0], [0; WORDS], "{steps:?}");
        }
    }
}

/// A row goes to -1 and back, and to 1 and beyond 0, at the lowest bit and at each other one: carries and borrows run to the last word.
#[test]
fn carries_through_all_words() {
    let mut random = Random(66);
    let (up, down) = ((SMALLEST, -SMALLEST), (SMALLEST, SMALLEST));
    for (steps, left) in [
        (&[down, up][..], 0),
        (&[up, down], 0),
        (&[down, up, down], -1),
        (&[up, down, down], -1),
        (&[down, down, up, up, up], 1),
        (&[down, up, down, up, down, up], 0),
    ] {
        assert_eq!(Given::row(0.0, steps).left_over(&mut random)[0], scaled(left, 0), "{steps:?}");
    }
    for power in 0..2098 {
        let value = power_of_two(power - 1074);
        let bit = power as usize;
        // from 0 below it and back, above it and back
        let steps = [(value, SMALLEST), (-value, SMALLEST), (value, -SMALLEST), (value, SMALLEST)];
        for (count, left) in [(1, -1), (2, 0), (3, 1), (4, 0)] {
            assert_eq!(Given::row(0.0, &steps[..count]).left_over(&mut random)[0], scaled(left, bit), "{count} of {steps:?}");
        }
        // from a right side to 0, then to -1, to 0, to 1
        for right in [value, -value] {
            let steps = [(right, 1.0), down, up, up];
            for (count, left) in [(1, 0), (2, -1), (3, 0), (4, 1)] {
                assert_eq!(Given::row(right, &steps[..count]).left_over(&mut random)[0], scaled(left, 0), "{count} of {steps:?}");
            }
        }
        // 2^top less 1 is all ones below that bit, and 1 less 2^top is the lowest bit and all ones from that one on
        let top = 1074 + bit;
        let below = Given::single(SMALLEST, value, SMALLEST).left_over(&mut random)[0];
        let above = Given::single(SMALLEST, -value, -SMALLEST).left_over(&mut random)[0];
        let ones = std::array::from_fn(|at| match 64 * at {
            low if low + 64 <= top => u64::MAX,
            low if low < top => (1 << (top - low)) - 1,
            _ => 0,
        });
        assert_eq!(below, ones, "2^{top} less 1");
        assert_eq!(above, std::array::from_fn(|at| !ones[at] + u64::from(at == 0)), "1 less 2^{top}");
    }
}

/// Whole numbers times a power of two for each row and one for x, and as b what they come to: nothing is left.
fn cancelled(n: u32, random: &mut Random) -> Given {
    let plan = networks::any(n, random);
    let mut whole = |len: usize| -> Vec<i64> { (0..len).map(|_| random.below(2001) as i64 - 1000).collect() };
    let (a, x) = (whole(plan.len()), whole(n as usize));
    let column_power = random.below(1000) as i32 - 530;
    let row_powers: Vec<i32> = (0..n).map(|_| random.below(1000) as i32 - 530).collect();
    let places = reading::labels::places(n);
    let mut sums = vec![0; n as usize];
    let mut scaled_a = vec![];
    for (&label, &value) in plan.iter().zip(&a) {
        let (i, j) = places[label as usize - 1];
        sums[i as usize - 1] += value * x[j as usize - 1];
        scaled_a.push(value as f64 * power_of_two(row_powers[i as usize - 1]));
    }
    let scaled_sum = |(&sum, &power): (&i64, &i32)| sum as f64 * power_of_two(power + column_power);
    let b: Vec<f64> = sums.iter().zip(&row_powers).map(scaled_sum).collect();
    let x = x.iter().map(|&value| value as f64 * power_of_two(column_power)).collect();
    Given { n, plan, a: scaled_a, b, x }
}

#[test]
fn rows_that_cancel() {
    let mut random = Random(67);
    for _ in 0..3000 {
        let n = 1 + random.below(12) as u32;
        let mut given = cancelled(n, &mut random);
        assert!(given.left_over(&mut random).iter().all(|row| row == &[0; WORDS]), "{given:?}");
        // one right side moved by the least that it can be, and then twice its own size
        let row = random.below(n as usize);
        let right = given.b[row];
        given.b[row] = f64::from_bits(right.to_bits() + 1);
        for (at, left) in given.left_over(&mut random).iter().enumerate() {
            let away = if right < 0.0 { -1 } else { 1 };
            let expected = if at == row { scaled(away, lowest_bit(left)) } else { [0; WORDS] };
            assert_eq!(left, &expected, "row {at}: {given:?}");
        }
        given.b[row] = -right;
        given.left_over(&mut random);
    }
}

#[test]
fn the_largest_rows() {
    let mut random = Random(68);
    for n in [1, 2, 3, 63, 64, 65] {
        let plan = networks::full(n);
        for (a, b, x) in [(LARGEST, -LARGEST, LARGEST), (-LARGEST, LARGEST, LARGEST), (LARGEST, LARGEST, -LARGEST)] {
            let len = n as usize;
            Given::new(n, &plan, &vec![a; plan.len()], &vec![b; len], &vec![x; len]).left_over(&mut random);
        }
    }
    let plan = networks::full(600);
    let mut given = Given::new(600, &plan, &[LARGEST; 360_000], &[-LARGEST; 600], &[LARGEST; 600]);
    let rows = given.left_over(&mut random);
    // a little above -600 times 2^4196, and 4196 is 65 times 64 and 36
    assert!(rows.iter().all(|row| row == &rows[0]) && rows[0][65] == (-600i64 << 36) as u64, "{:x?}", rows[0]);
    given.a.fill(-LARGEST);
    given.b.fill(LARGEST);
    let opposite = given.left_over(&mut random);
    let negated = |row: [u64; WORDS]| {
        let lowest = lowest_bit(&row) / 64;
        std::array::from_fn::<u64, WORDS, _>(|at| if at <= lowest { row[at].wrapping_neg() } else { !row[at] })
    };
    assert!(opposite.iter().all(|row| row == &negated(rows[0])), "{:x?}", opposite[0]);
    // every other product has the other sign: all of them cancel
    let places = reading::labels::places(600);
    given.a = places.iter().map(|(_, j)| if j % 2 == 0 { LARGEST } else { -LARGEST }).collect();
    given.b.fill(SMALLEST);
    assert!(given.left_over(&mut random).iter().all(|row| row == &scaled(1, 1074)));
}

#[test]
fn random_plans_and_values() {
    let mut random = Random(69);
    let mut met = [0; 3];
    for round in 0..12_000 {
        let n = 1 + random.below(12) as u32;
        let plan = networks::any(n, &mut random);
        let kind = round % (VALUES.len() + 2);
        let same_size = any_value(&mut random);
        let mut row = |len: usize| -> Vec<f64> {
            let mut one = || match kind {
                0 => any_value(&mut random),
                1 if random.chance(0.5) => same_size,
                1 => -same_size,
                kind => VALUES[kind - 2].one(&mut random),
            };
            (0..len).map(|_| one()).collect()
        };
        let given = Given { n, a: row(plan.len()), b: row(n as usize), x: row(n as usize), plan };
        for left in given.left_over(&mut random) {
            met[if left[WORDS - 1] >> 63 == 1 { 0 } else { usize::from(left != [0; WORDS]) + 1 }] += 1;
        }
    }
    assert!(met.iter().all(|&rows| rows > 2000), "negative, zero, positive: {met:?}");
}

/// A few values in the rows of a large network.
#[test]
fn random_networks() {
    let mut random = Random(70);
    for shape in networks::SHAPES {
        let n = 100 + random.below(30) as u32;
        let plan = shape.plan(n, &mut random);
        let mut row = |len: usize| -> Vec<f64> { (0..len).map(|_| any_value(&mut random)).collect() };
        let given = Given { n, a: row(plan.len()), b: row(n as usize), x: row(n as usize), plan };
        given.left_over(&mut random);
    }
    let plan = networks::three_diagonal(600);
    let mut row = |len: usize| -> Vec<f64> { (0..len).map(|_| any_value(&mut random)).collect() };
    Given { n: 600, a: row(plan.len()), b: row(600), x: row(600), plan }.left_over(&mut random);
}

#[test]
fn refused_plans() {
    let mut random = Random(71);
    let (ones, bad) = ([1.0; 4], [f64::NAN; 3]);
    for (n, plan, answer) in [
        (0, &[][..], (1, 0)),
        (0, &[1, 1], (1, 0)),
        (601, &[1], (1, 0)),
        (65536, &[1], (1, 0)),
        (u32::MAX, &[], (1, 0)),
        (2, &[0], (3, 1)),
        (2, &[5], (3, 1)),
        (2, &[1, 5, 5], (3, 2)),
        (2, &[1, u32::MAX], (3, 2)),
        (2, &[1, 1], (4, 2)),
        (2, &[1, 3, 2, 5], (4, 3)),
        (600, &[360_000, 360_001], (3, 2)),
        (600, &[360_000, 1], (4, 2)),
    ] {
        for words in [0, 1, 66, 132, 133] {
            let right = Given::new(n, plan, &ones[..plan.len()], &ones[..2], &ones[..2]);
            assert_eq!(right.left_over_in(words, &mut random), Err(answer), "{right:?}");
            let all_wrong = Given::new(n, plan, &bad, &bad, &bad);
            assert_eq!(all_wrong.left_over_in(words, &mut random), Err(answer), "before 14, 15 and 24: {all_wrong:?}");
        }
    }
    // no pivot is wanted
    for plan in [&[][..], &[2], &[3], &[2, 3], &[4]] {
        Given::new(2, plan, &ones[..plan.len()], &ones[..2], &ones[..2]).left_over(&mut random);
    }
}

#[test]
fn refused_lengths() {
    let mut random = Random(72);
    for n in 1..=6u32 {
        let plan = networks::any(n, &mut random);
        let wanted = [plan.len(), n as usize, n as usize];
        for which in 0..27 {
            let off = [which % 3, which / 3 % 3, which / 9];
            let len = |list: usize| (wanted[list] + off[list]).checked_sub(1);
            let [Some(a), Some(b), Some(x)] = [len(0), len(1), len(2)] else { continue };
            let value = if random.chance(0.3) { f64::INFINITY } else { 1.0 };
            let given = Given { n, plan: plan.clone(), a: vec![value; a], b: vec![value; b], x: vec![value; x] };
            let words = if random.chance(0.5) { WORDS * n as usize } else { 0 };
            if off != [1; 3] {
                assert_eq!(given.left_over_in(words, &mut random), Err((14, 0)), "{given:?}");
            }
        }
        let lengths = [[0, wanted[1], wanted[2]], [wanted[0], 0, wanted[2]], [wanted[0], wanted[1], 0], [0, 0, 0]];
        for [a, b, x] in lengths {
            let given = Given { n, plan: plan.clone(), a: vec![1.0; a], b: vec![1.0; b], x: vec![1.0; x] };
            let is_right = [a, b, x] == wanted;
            assert_eq!(given.left_over_in(WORDS * n as usize, &mut random).err(), (!is_right).then_some((14, 0)), "{given:?}");
        }
        let [a, b, x] = wanted.map(|len| vec![1.0; len]);
        let fitting = Given { n, plan, a, b, x };
        let right = WORDS * n as usize;
        for words in [0, 1, n as usize, right - WORDS, right - 1, right + 1, right + WORDS, 2 * right] {
            assert_eq!(fitting.left_over_in(words, &mut random), Err((24, 0)), "{words} words: {fitting:?}");
        }
    }
}

#[test]
fn refused_values() {
    let mut random = Random(73);
    for n in 1..=4 {
        let plan = networks::full(n);
        let edges = [LARGEST, -LARGEST, 0.0, -0.0, SMALLEST];
        let mut row = |len: usize| -> Vec<f64> { (0..len).map(|_| edges[random.below(edges.len())]).collect() };
        let fitting = Given { n, a: row(plan.len()), b: row(n as usize), x: row(n as usize), plan };
        let words = WORDS * n as usize;
        let cases = (0..fitting.a.len()).map(|at| (0, at)).chain((0..n as usize).flat_map(|at| [(1, at), (2, at)]));
        for ((list, at), bad) in cases.flat_map(|case| NOT_FINITE.map(|bad| (case, bad))) {
            let mut given = fitting.clone();
            [&mut given.a, &mut given.b, &mut given.x][list][at] = bad;
            assert_eq!(given.left_over_in(words, &mut random), Err((15, at as u64 + 1)), "{given:?}");
            assert_eq!(given.left_over_in(words - 1, &mut random), Err((15, at as u64 + 1)), "before 24: {given:?}");
            // all that comes later is wrong too: later entries of the list, and the lists after it
            let mut later = given.clone();
            let lists = [&mut later.a, &mut later.b, &mut later.x];
            for (other, values) in lists.into_iter().enumerate().skip(list) {
                let from = if other == list { at } else { 0 };
                values[from..].fill(bad);
            }
            assert_eq!(later.left_over_in(words + 1, &mut random), Err((15, at as u64 + 1)), "{later:?}");
        }
    }
}

/// The last entries and the lengths of the largest order.
#[test]
fn refusals_of_order_600() {
    let mut random = Random(75);
    let plan = networks::three_diagonal(600);
    let labels = plan.len();
    let fitting = Given::new(600, &plan, &vec![1.0; labels], &[1.0; 600], &[1.0; 600]);
    let mut refused = |change: &dyn Fn(&mut Given), words: usize| {
        let mut given = fitting.clone();
        change(&mut given);
        given.left_over_in(words, &mut random).expect_err("a refusal")
    };
    assert_eq!(refused(&|given| given.plan[labels - 1] = 360_001, 39_600), (3, labels as u64));
    assert_eq!(refused(&|given| given.plan[labels - 1] = given.plan[labels - 2], 39_600), (4, labels as u64));
    assert_eq!(refused(&|given| given.a.truncate(labels - 1), 39_600), (14, 0));
    assert_eq!(refused(&|given| given.b.push(1.0), 39_600), (14, 0));
    assert_eq!(refused(&|given| given.x.truncate(599), 39_600), (14, 0));
    assert_eq!(refused(&|given| given.a[labels - 1] = f64::NAN, 39_600), (15, labels as u64));
    assert_eq!(refused(&|given| given.b[599] = f64::INFINITY, 39_600), (15, 600));
    assert_eq!(refused(&|given| given.x[599] = f64::NEG_INFINITY, 39_600), (15, 600));
    assert_eq!(refused(&|_| {}, 39_599), (24, 0));
    assert_eq!(refused(&|_| {}, 39_601), (24, 0));
}

#[test]
fn the_checks_come_in_order() {
    let mut random = Random(74);
    let mut met = [0; 25];
    for _ in 0..30_000 {
        let n = if random.chance(0.1) { [0, 601, 65536, u32::MAX][random.below(4)] } else { 1 + random.below(6) as u32 };
        let small = n.clamp(1, 6);
        let mut plan = networks::any(small, &mut random);
        let labels = plan.len();
        if random.chance(0.3) && labels > 0 {
            let at = random.below(labels);
            plan[at] = [0, small * small + 1, u32::MAX, plan[0]][random.below(4)];
        }
        let mut row = |len: usize| -> Vec<f64> {
            let len = (len + random.below(3) * usize::from(random.chance(0.1))).saturating_sub(usize::from(random.chance(0.05)));
            let mut one = || match random.below(25) {
                0 => NOT_FINITE[random.below(NOT_FINITE.len())],
                _ => any_value(&mut random),
            };
            (0..len).map(|_| one()).collect()
        };
        let given = Given { n, plan, a: row(labels), b: row(small as usize), x: row(small as usize) };
        let fitting = WORDS * small as usize;
        let words = if random.chance(0.3) { fitting - 2 + random.below(5) } else { fitting };
        met[given.left_over_in(words, &mut random).map_or_else(|(number, _)| number as usize, |_| 0)] += 1;
    }
    assert!([0, 1, 3, 4, 14, 15, 24].iter().all(|&number| met[number] > 200), "{met:?}");
}
