//! Two plans of one order, the second with all labels of the first and zeros as the added coefficients (document 02, A.9). Both are
//! compiled and run through the exported functions and end alike, slots compared by the places that they stand for: as the reading's
//! dense Crout does, on either plan.

use crout_tests::calls::compile::compile;
use crout_tests::calls::run::{System, run_limit, solve_limit};
use crout_tests::lent::Lent;
use crout_tests::networks::{self, SHAPES, VALUES, Values};
use crout_tests::random::Random;
use crout_tests::reading::dense::{At, Solution, dense};
use crout_tests::reading::labels::{label, places};

/// How a plan's run ends, by places.
#[derive(Debug, PartialEq)]
enum Placed {
    /// The bits of l or u by label, +0 where a place isn't held, of Y and of X, and the products that vanished.
    Solved { c: Vec<u64>, y: Vec<u64>, x: Vec<u64>, vanished: u64 },
    /// 16 or 17.
    Refused(u32, At),
}

fn bits(values: &[f64]) -> Vec<u64> {
    values.iter().map(|value| value.to_bits()).collect()
}

fn by_dense_crout(system: System, limit: f64) -> Placed {
    match dense(system.n, system.plan, system.a, system.b, limit) {
        Ok(Solution { table, y, x, vanished }) => Placed::Solved { c: bits(&table), y: bits(&y), x: bits(&x), vanished },
        Err((number, at)) => Placed::Refused(number, at),
    }
}

/// An accepted plan's compiled program.
struct Program {
    words: Vec<u32>,
    /// By label, 0 where a place isn't held.
    slots: Vec<u32>,
    count: usize,
    products: u64,
}

impl Program {
    /// None if a pivot is missing.
    fn of(n: u32, plan: &[u32]) -> Option<Self> {
        let mut slots = vec![9; (n * n) as usize];
        let without_words = compile(n, plan, &mut slots, &mut []);
        if without_words.number() == 5 {
            return None;
        }
        assert_eq!(without_words.number(), 6);
        let mut words = vec![9; 4 * without_words.detail() as usize];
        let answer = compile(n, plan, &mut slots, &mut words);
        assert_eq!(answer.returned, 0);
        Some(Self { words, slots, count: answer.out[0] as usize, products: answer.out[1] })
    }

    fn expect(n: u32, plan: &[u32]) -> Self {
        Self::of(n, plan).expect("no pivot is missing")
    }

    /// Its run, on tables full of junk. Solving does the same, and a solution has made the plan's products.
    fn run(&self, system: System, limit: f64, random: &mut Random) -> Placed {
        let n = system.n as usize;
        let mut tables = [self.count, n, n].map(|len| Lent::<f64>::new(len, random));
        let mut solved = tables.clone();
        let [c, y, x] = &mut tables;
        let answer = run_limit(&self.words, system.a, system.b, limit, c.part(), y.part(), x.part());
        let (mut work, mut words) = (vec![9; n * n], vec![9; self.words.len()]);
        let [c, y, x] = &mut solved;
        assert_eq!(solve_limit(system, limit, &mut work, &mut words, c.part(), y.part(), x.part()), answer);
        assert!(tables.iter().zip(&solved).all(|(one, other)| one.same(other)));
        let [c, y, x] = [0, 1, 2].map(|table| tables[table].entries());
        let target = answer.out[1] as usize;
        match (answer.number(), answer.out[0]) {
            (0, products) => {
                assert_eq!(products, self.products, "the compiler's product count");
                let by_label: Vec<f64> =
                    self.slots.iter().map(|&slot| if slot == 0 { 0.0 } else { c[slot as usize - 1] }).collect();
                Placed::Solved { c: bits(&by_label), y: bits(y), x: bits(x), vanished: answer.out[2] }
            }
            (number @ (16 | 17), 1) => {
                let at = self.slots.iter().position(|&slot| slot as usize == target).expect("a slot of the plan");
                let (i, j) = places(system.n)[at];
                Placed::Refused(number, At::Place(i as usize, j as usize))
            }
            (number @ (16 | 17), 2) => Placed::Refused(number, At::Y(target)),
            (number @ (16 | 17), 3) => Placed::Refused(number, At::X(target)),
            _ => panic!("{answer:?}"),
        }
    }
}

/// A plan and one with more places, and values for both.
#[derive(Debug)]
struct Pair {
    n: u32,
    first: Vec<u32>,
    second: Vec<u32>,
    a: Vec<f64>,
    /// The same coefficients, and zeros of either sign as the added ones.
    z: Vec<f64>,
    b: Vec<f64>,
    limit: f64,
}

impl Pair {
    fn new(n: u32, first: Vec<u32>, second: Vec<u32>, a: Vec<f64>, b: Vec<f64>, limit: f64, random: &mut Random) -> Self {
        let zero = |random: &mut Random| if random.chance(0.5) { 0.0 } else { -0.0 };
        let z = second.iter().map(|label| first.binary_search(label).map_or_else(|_| zero(random), |at| a[at])).collect();
        Self { n, first, second, a, z, b, limit }
    }

    fn any(n: u32, first: Vec<u32>, second: Vec<u32>, values: Values, random: &mut Random) -> Self {
        let (a, b) = (values.coefficients(n, &first, random), values.row(n as usize, random));
        let limit = networks::limit(&a, random);
        Self::new(n, first, second, a, b, limit, random)
    }

    fn systems(&self) -> [System<'_>; 2] {
        let Self { n, first, second, a, z, b, .. } = self;
        [System { n: *n, plan: first, a, b }, System { n: *n, plan: second, a: z, b }]
    }
}

/// Which of the two are accepted, and how those end.
#[derive(Debug)]
enum Ending {
    Both(Placed),
    SecondAlone,
    Neither,
}

/// Compiles and runs both plans, and holds them against each other and against dense Crout.
fn compare(pair: &Pair, random: &mut Random) -> Ending {
    let Pair { n, first, second, limit, .. } = pair;
    let [system, marked] = pair.systems();
    let by_dense = by_dense_crout(system, *limit);
    assert_eq!(by_dense_crout(marked, *limit), by_dense, "the full tables are the same: {pair:?}");
    match (Program::of(*n, first), Program::of(*n, second)) {
        (Some(plain), Some(more)) => {
            let held = plain.slots.iter().zip(&more.slots);
            assert!(held.clone().all(|(&plain, &more)| plain <= more && (plain == 0 || more != 0)), "{pair:?}");
            assert!(plain.products <= more.products, "{pair:?}");
            let [ending, with_more] = [plain.run(system, *limit, random), more.run(marked, *limit, random)];
            assert_eq!(ending, by_dense, "{pair:?}");
            assert_eq!(with_more, ending, "{pair:?}");
            if let Placed::Solved { c, .. } = &with_more {
                let added = held.zip(c).filter(|((&plain, &more), _)| plain == 0 && more != 0);
                assert!(added.into_iter().all(|(_, &value)| value == 0), "+0 where the second alone holds a place: {pair:?}");
            }
            Ending::Both(ending)
        }
        (Some(_), None) => panic!("a place more, and a pivot is missing: {pair:?}"),
        (None, Some(more)) => {
            let ending = more.run(marked, *limit, random);
            assert!(matches!(ending, Placed::Refused(..)), "solved, though a pivot is missing in the first: {pair:?}");
            assert_eq!(ending, by_dense, "{pair:?}");
            Ending::SecondAlone
        }
        (None, None) => Ending::Neither,
    }
}

/// How often pairs have ended in each way.
#[derive(Default, Debug)]
struct Endings {
    solved: u32,
    vanishing: u32,
    /// In C, Y and X.
    refused: [u32; 3],
    second_alone: u32,
    neither: u32,
}

impl Endings {
    fn add(&mut self, ending: Ending) {
        match ending {
            Ending::Both(Placed::Solved { vanished, .. }) => {
                self.solved += 1;
                self.vanishing += u32::from(vanished > 0);
            }
            Ending::Both(Placed::Refused(_, at)) => {
                self.refused[match at {
                    At::Place(..) => 0,
                    At::Y(_) => 1,
                    At::X(_) => 2,
                }] += 1;
            }
            Ending::SecondAlone => self.second_alone += 1,
            Ending::Neither => self.neither += 1,
        }
    }

    /// Each at least this often, but the few refusals in X.
    fn expect(&self, hits: u32, in_x: u32) {
        let Self { solved, vanishing, refused: [c, y, x], second_alone, neither } = *self;
        assert!([solved, vanishing, c, y, second_alone, neither].iter().all(|&count| count >= hits) && x >= in_x, "{self:?}");
    }
}

/// The plan with both places of each of these walls.
fn with_walls(n: u32, plan: &[u32], walls: impl IntoIterator<Item = (u32, u32)>) -> Vec<u32> {
    let marked = walls.into_iter().flat_map(|(i, j)| [label(n, i, j), label(n, j, i)]);
    let mut all: Vec<u32> = plan.iter().copied().chain(marked).collect();
    all.sort_unstable();
    all.dedup();
    all
}

/// The plan with more places: a few walls, each other place with some chance, or all of them; now and then none.
fn with_more(n: u32, plan: &[u32], random: &mut Random) -> Vec<u32> {
    match random.below(8) {
        0 => plan.to_vec(),
        1 => networks::full(n),
        2..=4 => {
            let mut room = || 1 + random.below(n as usize) as u32;
            let walls: Vec<(u32, u32)> = (0..3).map(|_| (room(), room())).collect();
            with_walls(n, plan, walls)
        }
        _ => {
            let density = random.unit().powi(2);
            (1..=n * n).filter(|label| plan.binary_search(label).is_ok() || random.chance(density)).collect()
        }
    }
}

#[test]
fn networks_of_every_shape() {
    let random = &mut Random(90);
    let mut endings = Endings::default();
    for round in 0..1200 {
        for shape in SHAPES {
            for values in VALUES {
                let n = 1 + random.below(1 + round % 30) as u32;
                let first = shape.plan(n, random);
                let second = with_more(n, &first, random);
                endings.add(compare(&Pair::any(n, first, second, values, random), random));
            }
        }
    }
    endings.expect(400, 20);
}

/// Each place in neither plan, in the second alone or in both.
#[test]
fn every_pair_of_the_orders_up_to_3() {
    let random = &mut Random(91);
    let mut endings = Endings::default();
    for n in 1..=3 {
        for mut sets in 0..3u32.pow(n * n) {
            let [mut first, mut second] = [vec![], vec![]];
            for label in 1..=n * n {
                if sets % 3 == 2 {
                    first.push(label);
                }
                if sets % 3 >= 1 {
                    second.push(label);
                }
                sets /= 3;
            }
            for values in VALUES {
                endings.add(compare(&Pair::any(n, first.clone(), second.clone(), values, random), random));
            }
        }
    }
    endings.expect(200, 20);
}

#[test]
fn large_networks() {
    let random = &mut Random(92);
    for (n, plan) in [(600, networks::three_diagonal(600)), (576, networks::grid(576, 24)), (300, networks::tree(300, random))] {
        let second = with_walls(n, &plan, [(1, 3), (n / 2, n)]);
        let (mut a, b) = (Values::Moderate.row(plan.len(), random), Values::Moderate.row(n as usize, random));
        for at in (1..=n).filter_map(|m| plan.binary_search(&label(n, m, m)).ok()) {
            a[at] += 60.0;
        }
        let ending = compare(&Pair::new(n, plan, second, a, b, 1e-9, random), random);
        assert!(matches!(ending, Ending::Both(Placed::Solved { .. })), "order {n}");
    }
}

/// The known pairs: slots differ, places do not.
#[test]
fn the_known_pairs() {
    let random = &mut Random(93);
    let (diagonal, full) = (vec![1, 4], networks::full(2));
    let mut pair = |first: &[u32], a: &[f64], b: [f64; 2]| {
        let pair = Pair::new(2, first.to_vec(), full.clone(), a.to_vec(), b.to_vec(), 0.0, random);
        compare(&pair, random)
    };
    let Ending::Both(Placed::Solved { c, y, x, vanished }) = pair(&diagonal, &[2.0, 4.0], [2.0, 12.0]) else { panic!("solved") };
    assert_eq!((c, y, x, vanished), (bits(&[2.0, 0.0, 0.0, 4.0]), bits(&[1.0, 3.0]), bits(&[1.0, 3.0]), 0), "W1");
    let singular = pair(&diagonal, &[2.0, 0.0], [2.0, 12.0]);
    assert!(matches!(singular, Ending::Both(Placed::Refused(17, At::Place(2, 2)))), "W2: slot 2 and slot 4");
    assert!(matches!(pair(&[2, 3], &[4.0, 1.0], [2.0, 12.0]), Ending::SecondAlone), "W3");
    assert_eq!([&diagonal, &full].map(|plan| Program::expect(2, plan).products), [0, 3], "W1's products");
}

/// The README's numbers for a grid of 6 by 6: the products of its plan, and with one wall marked.
#[test]
fn what_a_wall_costs() {
    let grid = networks::grid(36, 6);
    let products = |walls: &[(u32, u32)]| Program::expect(36, &with_walls(36, &grid, walls.iter().copied())).products;
    assert_eq!(products(&[]), 1415);
    assert_eq!(products(&[(29, 36)]), 1430);
    assert_eq!(products(&[(1, 36)]), 1830);
    assert_eq!(products(&[(30, 35)]), 1415, "its places are fill");
}

/// What a coefficient that isn't zero changes, so that the comparison is one.
#[test]
fn a_marked_place_that_is_not_zero() {
    let random = &mut Random(94);
    let (diagonal, full, b) = ([1, 4], networks::full(2), [2.0, 12.0]);
    let opened = System { n: 2, plan: &full, a: &[2.0, 1.0, 0.0, 4.0], b: &b };
    let shut = System { n: 2, plan: &diagonal, a: &[2.0, 4.0], b: &b };
    let [first, second] =
        [Program::expect(2, &diagonal).run(shut, 0.0, random), Program::expect(2, &full).run(opened, 0.0, random)];
    assert_ne!(first, second);
}
