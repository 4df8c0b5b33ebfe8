//! `crout_compile_compact` beside `crout_compile`: no more slots than values are alive, a program that passes the check, and a run that
//! ends as the plain program's does.

use crout_tests::calls::run::{System, run, run_limit};
use crout_tests::calls::{
    Answer,
    compile::{compile, compile_compact},
    file,
};
use crout_tests::lent::{Lent, same};
use crout_tests::networks::{self, SHAPES, VALUES, Values};
use crout_tests::random::Random;
use crout_tests::reading::compact::{most_alive, opened};
use crout_tests::reading::{self, labels};

/// What a compiler writes for a plan, or None if a pivot is missing.
fn written(compiler: fn(u32, &[u32], &mut [u32], &mut [u32]) -> Answer, n: u32, plan: &[u32]) -> Option<(Answer, Vec<u32>)> {
    let mut work = vec![9; 4 * (n * n) as usize];
    let without_words = compiler(n, plan, &mut work, &mut []);
    if without_words.number() == 5 {
        return None;
    }
    assert_eq!(without_words.number(), 6);
    let mut words = vec![9; 4 * without_words.detail() as usize];
    let answer = compiler(n, plan, &mut work, &mut words);
    assert_eq!(answer.returned, 0);
    Some((answer, words))
}

/// A plan's two programs.
#[derive(Debug)]
struct Programs {
    plain: Vec<u32>,
    compact: Vec<u32>,
}

impl Programs {
    /// None if a pivot is missing. The compact program has as many slots as values are alive at any record, the plain program's counts
    /// and all of its words but the slots, and it passes the check.
    fn of(n: u32, plan: &[u32]) -> Option<Self> {
        let compiled = [written(compile, n, plan), written(compile_compact, n, plan)];
        let [Some((plain_answer, plain)), Some((answer, compact))] = compiled else {
            assert!(compiled.iter().all(Option::is_none), "order {n}, plan {plan:?}");
            return None;
        };
        let [slots, products, records] = answer.out;
        assert_eq!(slots, most_alive(&plain), "order {n}, plan {plan:?}");
        assert_eq!(slots, compact[2].into());
        assert_eq!([products, records], plain_answer.out[1..]);
        assert_eq!(without_slots(&plain), without_slots(&compact));
        passes(&compact);
        Some(Self { plain, compact })
    }

    fn slots(&self) -> u32 {
        self.compact[2]
    }
}

/// A program with zeros for its slots.
fn without_slots(words: &[u32]) -> Vec<u32> {
    let mut words = words.to_vec();
    words[2] = 0;
    for record in words.chunks_exact_mut(4).skip(1) {
        match record[0] {
            1 => record[2] = 0,
            4 => (record[1], record[2]) = (0, 0),
            5..=7 => record[1] = 0,
            _ => {}
        }
    }
    words
}

/// The check of the program's file, which is read back as it was.
fn passes(words: &[u32]) {
    let (mut bytes, mut back) = (vec![0xa5; 4 * words.len()], vec![0xa5a5_a5a5; words.len()]);
    assert_eq!(file::write(words, &mut bytes).returned, 0);
    assert_eq!(file::check(&bytes), 0);
    assert_eq!(file::read(&bytes, &mut back).returned, 0);
    assert!(back == words);
}

/// A run's answer, and C, Y and X after it.
struct Ended {
    answer: Answer<4>,
    tables: [Lent<f64>; 3],
}

impl Ended {
    /// The run, on tables full of junk, which is the reading's and, where the limit is zero, that of the call without one.
    fn of(words: &[u32], a: &[f64], b: &[f64], limit: f64, random: &mut Random) -> Self {
        let before = [words[2], words[0], words[0]].map(|len| Lent::<f64>::new(len as usize, random));
        let (mut tables, mut read_tables, mut without) = (before.clone(), before.clone(), before);
        let alike = |one: &[Lent<f64>; 3], other: &[Lent<f64>; 3]| one.iter().zip(other).all(|(one, other)| one.same(other));
        let [c, y, x] = &mut tables;
        let answer = run_limit(words, a, b, limit, c.part(), y.part(), x.part());
        let [c, y, x] = &mut read_tables;
        assert_eq!(answer, reading::run::run(words, a, b, limit, c.part(), y.part(), x.part()).into());
        assert!(alike(&tables, &read_tables), "{words:?} {a:?} {b:?} {limit:e}");
        if limit == 0.0 {
            let [c, y, x] = &mut without;
            assert_eq!(run(words, a, b, c.part(), y.part(), x.part()), answer.into());
            assert!(alike(&tables, &without), "{words:?} {a:?} {b:?}");
        }
        Self { answer, tables }
    }

    fn entries(&self) -> [&[f64]; 3] {
        [0, 1, 2].map(|table| self.tables[table].entries())
    }

    /// What a program that opens these slots in turn is to answer where this, the plain program's run, does: a number in C is a slot's.
    fn renamed(&self, slots: &[u32]) -> Answer<4> {
        let mut answer = self.answer;
        if [16, 17].contains(&answer.number()) && answer.out[0] == 1 {
            answer.out[1] = slots[answer.out[1] as usize - 1].into();
        }
        answer
    }

    /// What such a program is to leave in C: each value in its slot, and the later of two stays.
    fn put_into(&self, slots: &[u32], count: u32) -> Vec<f64> {
        let mut c = vec![f64::NAN; count as usize];
        slots.iter().zip(self.entries()[0]).for_each(|(&slot, &value)| c[slot as usize - 1] = value);
        c
    }
}

/// Both programs on the same values: they end alike. The plain answer, if the plan is accepted.
fn compare(system: System, limit: f64, random: &mut Random) -> Option<Answer<4>> {
    let System { n, plan, a, b } = system;
    let programs = Programs::of(n, plan)?;
    let plain = Ended::of(&programs.plain, a, b, limit, random);
    let compact = Ended::of(&programs.compact, a, b, limit, random);
    let slots = opened(&programs.compact);
    let what = || format!("order {n}, plan {plan:?}, {a:?}, {b:?}, limit {limit:e}");
    assert_eq!(compact.answer, plain.renamed(&slots), "{}", what());
    if [0, 16, 17].contains(&plain.answer.number()) {
        let ([_, y, x], [compact_c, compact_y, compact_x]) = (plain.entries(), compact.entries());
        assert!(same(compact_y, y) && same(compact_x, x), "{}", what());
        assert!(same(compact_c, &plain.put_into(&slots, programs.slots())), "{}", what());
    }
    Some(plain.answer)
}

fn compare_values(n: u32, plan: &[u32], values: Values, random: &mut Random) -> Option<Answer<4>> {
    let (mut a, mut b) = (values.coefficients(n, plan, random), values.row(n as usize, random));
    if random.chance(0.1) {
        // equal values: pivots and differences of zero
        a.fill(values.one(random));
        b.fill(values.one(random));
    }
    let limit = networks::any_limit(&a, random);
    compare(System { n, plan, a: &a, b: &b }, limit, random)
}

/// How often the plain programs' runs have ended by each number, and in which tables they stopped.
#[derive(Default, Debug)]
struct Endings {
    numbers: [u32; 22],
    stopped: [u32; 4],
    vanishing: u32,
}

impl Endings {
    fn add(&mut self, answer: Option<Answer<4>>) {
        let Some(answer) = answer else { return };
        self.numbers[answer.number() as usize] += 1;
        match answer.number() {
            0 => self.vanishing += u32::from(answer.out[2] > 0),
            16 | 17 => self.stopped[answer.out[0] as usize] += 1,
            _ => {}
        }
    }

    /// Each ending, a refusal in C and in Y, and products that vanish at least this often; the few refusals in X this often.
    fn expect(&self, hits: u32, in_x: u32) {
        assert!([0, 16, 17, 21].iter().all(|&number| self.numbers[number] >= hits) && self.vanishing >= hits, "{self:?}");
        assert!(self.stopped[1] >= hits && self.stopped[2] >= hits && self.stopped[3] >= in_x, "{self:?}");
    }
}

#[test]
fn networks_of_every_shape() {
    let random = &mut Random(70);
    let mut endings = Endings::default();
    for round in 0..900 {
        for shape in SHAPES {
            for values in VALUES {
                let n = 1 + random.below(1 + round % 40) as u32;
                let plan = shape.plan(n, random);
                endings.add(compare_values(n, &plan, values, random));
            }
        }
    }
    endings.expect(900, 30);
}

#[test]
fn every_plan_of_the_orders_up_to_3() {
    let random = &mut Random(71);
    let mut endings = Endings::default();
    for n in 1..=3 {
        for set in 0..1u32 << (n * n) {
            let plan: Vec<u32> = (1..=n * n).filter(|k| set >> (k - 1) & 1 == 1).collect();
            VALUES.into_iter().for_each(|values| endings.add(compare_values(n, &plan, values, random)));
        }
    }
    endings.expect(10, 1);
}

#[test]
fn large_networks() {
    let random = &mut Random(72);
    for shape in SHAPES {
        let plan = shape.plan(128, random);
        compare_dominant(128, &plan, random);
        compare_values(128, &plan, Values::Wide, random);
    }
    for plan in [networks::three_diagonal(600), networks::grid(600, 12), networks::banded(600, 4, 0.5, random)] {
        compare_dominant(600, &plan, random);
        compare_values(600, &plan, VALUES[random.below(VALUES.len())], random);
    }
}

/// A strong diagonal, so that there is a solution unless a pivot is missing.
fn compare_dominant(n: u32, plan: &[u32], random: &mut Random) {
    let (mut a, b) = (Values::Moderate.row(plan.len(), random), Values::Moderate.row(n as usize, random));
    for at in (1..=n).filter_map(|m| plan.binary_search(&labels::label(n, m, m)).ok()) {
        a[at] += 10.0 * f64::from(n);
    }
    let answer = compare(System { n, plan, a: &a, b: &b }, 1e-9, random);
    assert_eq!(answer.map_or(0, |answer| answer.number()), 0, "order {n}, plan {plan:?}");
}

/// The slots that a plan's compact program opens, in turn.
fn slots_of(n: u32, plan: &[u32]) -> Vec<u32> {
    let programs = Programs::of(n, plan).expect("no pivot is missing");
    assert_eq!(programs.slots(), opened(&programs.compact).into_iter().max().expect("an order is at least 1"));
    opened(&programs.compact)
}

#[test]
fn the_slots_of_known_plans() {
    let count = |n: u32, plan: &[u32]| slots_of(n, plan).into_iter().max();
    assert_eq!(slots_of(1, &[1]), [1]);
    assert_eq!(slots_of(2, &[1, 4]), [1, 1]);
    assert_eq!(slots_of(2, &networks::full(2)), [1, 2, 3, 1]);
    assert_eq!(slots_of(4, &[1, 3, 5, 8, 13, 15, 16]), [1, 2, 3, 1, 4, 1, 4, 1]);
    assert_eq!(count(6, &[1, 2, 4, 8, 10, 12, 15, 21, 28, 30, 33, 36]), Some(10), "P8");
    for (n, slots) in (1..).zip([1, 3, 7, 12, 18, 26]) {
        assert_eq!(count(n, &networks::full(n)), Some(slots), "a full table of order {n}");
    }
    assert_eq!(count(600, &networks::three_diagonal(600)), Some(601));
}

/// The plan 1 4 of order 2, whose two pivots share a slot.
#[test]
fn two_pivots_in_one_slot() {
    let random = &mut Random(73);
    let (answer, words) = written(compile_compact, 2, &[1, 4]).expect("no pivot is missing");
    assert_eq!(answer, Answer::fine([1, 0, 15]));
    let (a, singular, b) = ([2.0, 4.0], [2.0, 0.0], [2.0, 12.0]);
    let solved = Ended::of(&words, &a, &b, 0.0, random);
    assert_eq!(solved.answer, Answer::fine([0, 2, 0, 0]));
    assert_eq!(solved.entries(), [&[4.0][..], &[1.0, 3.0], &[1.0, 3.0]]);
    let stopped = Ended::of(&words, &singular, &b, 0.0, random);
    assert_eq!(
        stopped.answer,
        Answer::stopped(17, 7, [1, 1, 0, 0]),
        "the slot, which is not the second pivot's in the plain program"
    );
    assert!(stopped.entries().iter().all(|table| table.iter().all(|value| value.to_bits() == 0)), "all +0 after 17");
    let plain = compare(System { n: 2, plan: &[1, 4], a: &singular, b: &b }, 0.0, random);
    assert_eq!(plain, Some(Answer::stopped(17, 7, [1, 2, 0, 0])));
    let [mut c, mut y, mut x] = [[7.0; 2]; 3];
    assert_eq!(run_limit(&words, &a, &b, 0.0, &mut c, &mut y, &mut x), Answer::refused(14, 0), "C has one entry");
}
