//! Plans and values for tests and benchmarks: networks of several shapes, random plans, and numbers that are hard on a solver.

use crate::random::Random;
use crate::reading::labels::label;

/// The plan that has these places, in any order and perhaps more than once.
pub fn plan_of(n: u32, places: impl IntoIterator<Item = (u32, u32)>) -> Vec<u32> {
    let mut plan: Vec<u32> = places.into_iter().map(|(i, j)| label(n, i, j)).collect();
    plan.sort_unstable();
    plan.dedup();
    plan
}

/// The plan of rooms and the walls that they share: the diagonal, and each wall both ways.
fn walled(n: u32, walls: impl IntoIterator<Item = (u32, u32)>) -> Vec<u32> {
    let both_ways = walls.into_iter().flat_map(|(i, j)| [(i, j), (j, i)]);
    plan_of(n, (1..=n).map(|i| (i, i)).chain(both_ways))
}

pub fn three_diagonal(n: u32) -> Vec<u32> {
    walled(n, (1..n).map(|i| (i, i + 1)))
}

/// Rooms in rows of the given width, the last row perhaps shorter.
pub fn grid(n: u32, width: u32) -> Vec<u32> {
    let beside = (1..n).filter(|i| i % width != 0).map(|i| (i, i + 1));
    let below = (1..=n.saturating_sub(width)).map(|i| (i, i + width));
    walled(n, beside.chain(below))
}

/// A tree whose rooms are numbered at random, so that some plans fill and some don't.
pub fn tree(n: u32, random: &mut Random) -> Vec<u32> {
    let mut rooms: Vec<u32> = (1..=n).collect();
    for k in (1..rooms.len()).rev() {
        rooms.swap(k, random.below(k + 1));
    }
    let walls: Vec<(u32, u32)> = (1..rooms.len()).map(|k| (rooms[k], rooms[random.below(k)])).collect();
    walled(n, walls)
}

/// The diagonal, and places up to the width away from it with the given density; not the same above it as below.
pub fn banded(n: u32, width: u32, density: f64, random: &mut Random) -> Vec<u32> {
    let near = (1..=n).flat_map(|i| (i.saturating_sub(width).max(1)..=(i + width).min(n)).map(move |j| (i, j)));
    plan_of(n, near.filter(|&(i, j)| i == j || random.chance(density)).collect::<Vec<_>>())
}

/// Any places, one density on the diagonal and one elsewhere: a pivot may be missing, or be fill.
pub fn scattered(n: u32, diagonal: f64, elsewhere: f64, random: &mut Random) -> Vec<u32> {
    let all = (1..=n).flat_map(|i| (1..=n).map(move |j| (i, j)));
    plan_of(n, all.filter(|&(i, j)| random.chance(if i == j { diagonal } else { elsewhere })).collect::<Vec<_>>())
}

/// The diagonal, the first row, the last row and the last column: no fill, and products for l(n,n), y(n) and x(1) with every other line.
pub fn framed(n: u32) -> Vec<u32> {
    plan_of(n, (1..=n).flat_map(|k| [(k, k), (1, k), (n, k), (k, n)]))
}

pub fn full(n: u32) -> Vec<u32> {
    (1..=n * n).collect()
}

#[derive(Clone, Copy, Debug)]
pub enum Shape {
    ThreeDiagonal,
    Grid,
    Tree,
    Banded,
    Scattered,
    Full,
}

pub const SHAPES: [Shape; 6] = [Shape::ThreeDiagonal, Shape::Grid, Shape::Tree, Shape::Banded, Shape::Scattered, Shape::Full];

impl Shape {
    /// A plan of this shape; only a scattered one may miss a pivot.
    pub fn plan(self, n: u32, random: &mut Random) -> Vec<u32> {
        match self {
            Shape::ThreeDiagonal => three_diagonal(n),
            Shape::Grid => grid(n, 1 + random.below(n.min(25) as usize) as u32),
            Shape::Tree => tree(n, random),
            Shape::Banded => {
                let (width, density) = (random.below(n.min(9) as usize) as u32, random.unit());
                banded(n, width, density, random)
            }
            Shape::Scattered => any(n, random),
            Shape::Full => full(n),
        }
    }
}

/// A scattered plan of any density from 0 to 1, most often with the whole diagonal.
pub fn any(n: u32, random: &mut Random) -> Vec<u32> {
    let elsewhere = match random.below(8) {
        0 => 0.0,
        1 => 1.0,
        2..=4 => random.unit(),
        // a few places in each row: little fill
        _ => (3.0 * random.unit() / f64::from(n)).min(1.0),
    };
    let diagonal = if random.chance(0.7) { 1.0 } else { random.unit().sqrt() };
    scattered(n, diagonal, elsewhere, random)
}

/// An order, at times one that 1 refuses, then a small one, the same if 1 lets it through, and a plan of the small one, which 3 or 4 may
/// refuse.
pub fn perhaps_damaged(random: &mut Random) -> (u32, u32, Vec<u32>) {
    let n = if random.chance(0.1) { [0, 601, 65536, u32::MAX][random.below(4)] } else { 1 + random.below(6) as u32 };
    let small = n.clamp(1, 6);
    let mut plan = any(small, random);
    if random.chance(0.3) && !plan.is_empty() {
        let at = random.below(plan.len());
        plan[at] = [0, small * small + 1, u32::MAX, plan[0]][random.below(4)];
    }
    (n, small, plan)
}

/// Random plans of the orders up to 40, the same for the same seed.
pub fn plans(seed: u64, count: usize) -> impl Iterator<Item = (u32, Vec<u32>)> {
    let mut random = Random(seed);
    (0..count).map(move |_| {
        let n = 1 + random.below(40) as u32;
        (n, any(n, &mut random))
    })
}

#[derive(Clone, Copy, Debug)]
pub enum Values {
    Moderate,
    /// -2 to 2: many pivots come out as zero.
    SmallIntegers,
    /// Half of them zeros, of either sign.
    SignedZeros,
    Subnormal,
    NearOverflow,
    /// Of any size from 1e-300 to 1e300: many products vanish.
    Wide,
    /// Each of any of the others, or of any finite bits.
    Mixed,
}

pub const VALUES: [Values; 7] = [
    Values::Moderate,
    Values::SmallIntegers,
    Values::SignedZeros,
    Values::Subnormal,
    Values::NearOverflow,
    Values::Wide,
    Values::Mixed,
];

fn signed(magnitude: f64, random: &mut Random) -> f64 {
    if random.chance(0.5) { magnitude } else { -magnitude }
}

fn any_finite(random: &mut Random) -> f64 {
    loop {
        let value = f64::from_bits(random.next());
        if value.is_finite() {
            return value;
        }
    }
}

impl Values {
    pub fn one(self, random: &mut Random) -> f64 {
        match self {
            Values::Moderate => 20.0 * random.unit() - 10.0,
            Values::SmallIntegers => random.below(5) as f64 - 2.0,
            Values::SignedZeros => match random.below(4) {
                0 => 0.0,
                1 => -0.0,
                _ => signed(1.0 + random.unit(), random),
            },
            Values::Subnormal => {
                let bits = random.next() >> (12 + random.below(52));
                signed(f64::from_bits(bits), random)
            }
            Values::NearOverflow => {
                let exponent = 0x7fe - random.below(3) as u64;
                f64::from_bits(random.next() << 63 | exponent << 52 | random.next() >> 12)
            }
            Values::Wide => signed(10f64.powf(600.0 * random.unit() - 300.0), random),
            Values::Mixed => match VALUES[random.below(VALUES.len())] {
                Values::Mixed => any_finite(random),
                values => values.one(random),
            },
        }
    }

    pub fn row(self, len: usize, random: &mut Random) -> Vec<f64> {
        (0..len).map(|_| self.one(random)).collect()
    }

    /// Coefficients for a plan; for every other plan those on the diagonal aren't zero, which makes more solutions.
    pub fn coefficients(self, n: u32, plan: &[u32], random: &mut Random) -> Vec<f64> {
        let mut a = self.row(plan.len(), random);
        if random.chance(0.5) {
            for position in (1..=n).filter_map(|m| plan.binary_search(&label(n, m, m)).ok()) {
                while a[position] == 0.0 {
                    a[position] = self.one(random);
                }
            }
        }
        a
    }
}

/// A limit for a run on such coefficients: zero of either sign, small, or the size of one of them.
pub fn limit(a: &[f64], random: &mut Random) -> f64 {
    match random.below(19) {
        0..=7 => signed(0.0, random),
        8..=12 => Values::Mixed.one(random).abs(),
        13..=17 if !a.is_empty() => a[random.below(a.len())].abs(),
        _ => 1e-9,
    }
}

/// Limits that no run takes: negative, or not finite.
pub const BAD_LIMITS: [f64; 6] = [-5e-324, -1.0, f64::NEG_INFINITY, f64::INFINITY, f64::NAN, -f64::NAN];

/// As `limit`, but now and then a bad one.
pub fn any_limit(a: &[f64], random: &mut Random) -> f64 {
    match random.below(20) {
        0 => BAD_LIMITS[random.below(BAD_LIMITS.len())],
        _ => limit(a, random),
    }
}
