//! `crout_compare` against the reading's comparison: compiled programs with spare records between, with words changed, with records
//! exchanged, left out, put between and put after the last; programs of other plans and of the other compilers; and plans that are refused.

use std::collections::BTreeMap;

use crout_tests::calls::run::run;
use crout_tests::calls::{Answer, compare::compare, compile::compile, file::check, refused};
use crout_tests::lent::Lent;
use crout_tests::networks::{self, SHAPES, VALUES};
use crout_tests::programs::{self, bytes_of, in_order};
use crout_tests::random::Random;
use crout_tests::reading::{self, Verdict, check::chain};

/// The library's verdict on a program for a plan, with so many work numbers, all junk before. It is the reading's, and by this library's
/// other calls the compiler's or the check's where these refuse; it leaves the work numbers as the reading and the compiler do, and plan
/// and words as they were.
fn verdict_with(work_len: usize, n: u32, plan: &[u32], words: &[u32], random: &mut Random) -> Verdict {
    let before = Lent::<u32>::new(work_len, random);
    let [mut work, mut read_work, mut compiled_work] = [before.clone(), before.clone(), before];
    let (plan_before, words_before) = (plan.to_vec(), words.to_vec());
    let returned = compare(n, plan, work.part(), words);
    assert!(plan == plan_before && words == words_before, "plan or words have changed");
    let what =
        || format!("order {n}, work {work_len}, plan {plan:?}, {} words: {:?}", words.len(), &words[..words.len().min(400)]);
    let verdict = reading::compare::compare(n, plan, read_work.part(), words);
    assert_eq!(returned, verdict.map_or_else(|(number, detail)| refused(number, detail), |()| 0), "{}", what());
    let compiled = compile(n, plan, compiled_work.part(), &mut []);
    assert!(work.same(&read_work) && work.same(&compiled_work), "work numbers: {}", what());
    let earlier = if compiled.number() == 6 { check(&bytes_of(words)) } else { compiled.returned };
    assert!(if earlier == 0 { matches!(returned >> 32, 0 | 28) } else { returned == earlier }, "{earlier}: {}", what());
    verdict
}

/// The same with as many work numbers as it needs, or a few more.
fn verdict(n: u32, plan: &[u32], words: &[u32], random: &mut Random) -> Verdict {
    verdict_with((n * n) as usize + random.below(9), n, plan, words, random)
}

/// How often each refusal has been met, 0 for none.
#[derive(Default, Debug)]
struct Tally(BTreeMap<u32, u32>);

impl Tally {
    fn add(&mut self, verdict: Verdict) {
        *self.0.entry(verdict.map_or_else(|(number, _)| number, |()| 0)).or_default() += 1;
    }

    fn expect(&self, numbers: impl IntoIterator<Item = u32>, hits: u32) {
        for number in numbers {
            assert!(self.0.get(&number).is_some_and(|&met| met >= hits), "{number} less often than {hits} times: {self:?}");
        }
    }
}

/// Kind and operands of a record.
type Record = [u32; 3];

/// An accepted plan with its program.
#[derive(Clone)]
struct Case {
    n: u32,
    plan: Vec<u32>,
    words: Vec<u32>,
}

impl Case {
    /// None if a pivot is missing.
    fn of(n: u32, plan: Vec<u32>) -> Option<Self> {
        programs::compiled(n, &plan).map(|words| Self { n, plan, words })
    }

    fn head(&self) -> Record {
        [self.words[0], self.words[1], self.words[2]]
    }

    /// The compiler's records, without record 0.
    fn records(&self) -> Vec<Record> {
        records_of(&self.words)
    }

    /// The program with one word changed.
    fn with(&self, index: usize, word: u32) -> Vec<u32> {
        let mut words = self.words.clone();
        words[index] = word;
        words
    }

    fn verdict(&self, words: &[u32], random: &mut Random) -> Verdict {
        verdict(self.n, &self.plan, words, random)
    }

    /// The verdict on a program with these records, half of the time with spare ones between. If 28 refuses it, then at the first record
    /// that isn't the compiler's.
    fn edited(&self, records: Vec<Record>, random: &mut Random) -> Verdict {
        let words = perhaps_spaced(&in_order(self.head(), records.clone()), random);
        let verdict = self.verdict(&words, random);
        let own = self.records();
        let alike = own.iter().zip(&records).take_while(|(own, record)| own == record).count();
        match verdict {
            Ok(()) => assert_eq!(records, own),
            Err((28, at)) => assert_eq!(chain(&words).get(alike), Some(&at)),
            _ => {}
        }
        verdict
    }

    /// The verdict with one word changed, which is changed back. What stands in a spare record doesn't matter; what stands in a chained
    /// one does, and if 28 names a record for its kind, p or q, then this one.
    fn changed(&self, words: &mut [u32], index: usize, word: u32, random: &mut Random) -> Verdict {
        let (at, chained) = ((index / 4) as u64, index < 4 || chain(words).contains(&(index as u64 / 4)));
        let was = std::mem::replace(&mut words[index], word);
        let verdict = self.verdict(words, random);
        words[index] = was;
        if word == was || !chained {
            assert_eq!(verdict, Ok(()));
        } else if index % 4 != 3 {
            assert!(matches!(verdict, Err((number, detail)) if number != 28 || detail == at), "{verdict:?}");
        }
        verdict
    }
}

fn records_of(words: &[u32]) -> Vec<Record> {
    words.chunks_exact(4).skip(1).map(|record| [record[0], record[1], record[2]]).collect()
}

fn perhaps_spaced(words: &[u32], random: &mut Random) -> Vec<u32> {
    if random.chance(0.5) { programs::spaced(words, random) } else { words.to_vec() }
}

/// The accepted ones among the random plans of a seed.
fn cases(seed: u64, count: usize) -> impl Iterator<Item = Case> {
    networks::plans(seed, count).filter_map(|(n, plan)| Case::of(n, plan))
}

fn small_cases() -> Vec<Case> {
    let plans = [(1, vec![1]), (2, vec![1, 4]), (2, vec![1, 2, 3]), (2, networks::full(2)), (3, networks::three_diagonal(3))];
    plans.into_iter().filter_map(|(n, plan)| Case::of(n, plan)).collect()
}

/// E1 to E5.
#[test]
fn the_known_programs() {
    let random = &mut Random(90);
    let [one, diagonal, full] =
        [(1, vec![1]), (2, vec![1, 4]), (2, networks::full(2))].map(|(n, plan)| Case::of(n, plan).expect("fine"));
    let spaced: [[u32; 4]; 9] =
        [[1, 1, 1, 2], [99; 4], [1, 1, 1, 3], [9, 0, 0, 4], [2, 1, 0, 5], [7, 1, 0, 6], [8, 0, 0, 7], [3, 1, 0, 8], [8, 0, 0, 0]];
    assert_eq!(one.verdict(&spaced.concat(), random), Ok(()), "E1");
    let further = [one.with(31, 8), vec![1, 1, 1, 9, 9, 0, 0, 0]].concat();
    assert_eq!(one.verdict(&further, random), Err((28, 8)), "E2");
    assert_eq!(one.verdict(&one.with(8, 8), random), Err((28, 2)), "E3, kind 8 for 9");
    assert_eq!(full.verdict(&full.with(49, 3), random), Err((28, 12)), "E3, another p");
    assert_eq!(full.verdict(&full.with(50, 2), random), Err((28, 12)), "E3, another q");
    assert_eq!(diagonal.verdict(&one.words, random), Err((28, 0)), "E4, that of order 1");
    assert_eq!(diagonal.verdict(&programs::compacted(2, &[1, 4]).expect("fine"), random), Err((28, 0)), "E4, the compact one");
    assert_eq!(full.verdict(&programs::compiled(2, &[1, 2, 3]).expect("fine"), random), Err((28, 0)), "E4, that of 1 2 3");
    assert_eq!(full.verdict(&programs::swept(2, &full.plan).expect("fine"), random), Err((28, 0)), "E4, sweeps");
    assert_eq!(verdict(2, &[2, 3], &[], random), Err((5, 1)), "E5");
    assert_eq!(one.verdict(&[], random), Err((7, 0)), "E5");
    assert_eq!(one.verdict(&one.with(23, 0), random), Err((13, 0)), "E5, cut before x(1)");
}

/// E6.
#[test]
fn the_work_numbers() {
    let program = programs::compiled(2, &[1, 4]).expect("no pivot is missing");
    let mut sweeps = programs::swept(2, &[1, 4]).expect("the plan has its diagonal");
    let work_after = |plan: &[u32], words: &[u32]| {
        let mut work = [9; 5];
        let returned = compare(2, plan, &mut work, words);
        (returned, work)
    };
    assert_eq!(work_after(&[1, 4], &program), (0, [1, 0, 0, 2, 9]));
    assert_eq!(work_after(&[1, 4], &[]), (refused(7, 0), [1, 0, 0, 2, 9]));
    assert_eq!(work_after(&[1, 4], &sweeps), (refused(28, 0), [1, 0, 0, 2, 9]));
    sweeps.truncate(4);
    sweeps[3] = 0;
    assert_eq!(work_after(&[1, 4], &sweeps), (refused(13, 0), [1, 0, 0, 2, 9]), "28 comes last");
    assert_eq!(work_after(&[2, 3], &program), (refused(5, 1), [0, 0, 0, 0, 9]));
    assert_eq!(work_after(&[4, 1], &program), (refused(4, 2), [9; 5]));
}

#[test]
fn spare_records_between() {
    let random = &mut Random(91);
    let [mut accepted, mut spare] = [0; 2];
    for case in cases(91, 1500) {
        let words = programs::spaced(&case.words, random);
        assert_eq!(case.verdict(&words, random), Ok(()));
        assert_eq!(case.verdict(&case.words, random), Ok(()));
        spare += (words.len() - case.words.len()) / 4;
        accepted += 1;
    }
    assert!(accepted > 1000 && spare > 100_000, "{accepted} accepted, {spare} spare records");
}

/// The run of a program on tables that hold the same junk each time: the answer and C, Y and X.
fn ran(words: &[u32], a: &[f64], b: &[f64]) -> (Answer, [Lent<f64>; 3]) {
    let random = &mut Random(92);
    let mut tables = [words[2], words[0], words[0]].map(|len| Lent::new(len as usize, random));
    let [c, y, x] = &mut tables;
    (run(words, a, b, c.part(), y.part(), x.part()), tables)
}

#[test]
fn what_is_accepted_runs_as_the_compiled_program() {
    let random = &mut Random(93);
    let mut tally = Tally::default();
    for (round, case) in cases(93, 700).enumerate() {
        let words = programs::spaced(&case.words, random);
        assert_eq!(case.verdict(&words, random), Ok(()));
        let values = VALUES[round % VALUES.len()];
        let (a, b) = (values.coefficients(case.n, &case.plan, random), values.row(case.n as usize, random));
        let ((own, own_tables), (answer, tables)) = (ran(&case.words, &a, &b), ran(&words, &a, &b));
        assert!(own_tables.iter().zip(&tables).all(|(own, table)| own.same(table)), "{:?}, {a:?}, {b:?}", case.plan);
        assert_eq!((answer.number(), answer.out), (own.number(), own.out), "{:?}, {a:?}, {b:?}", case.plan);
        if own.number() != 0 {
            assert_eq!(answer.detail(), chain(&words)[own.detail() as usize - 1], "the same formula's record");
        }
        tally.add(if own.number() == 0 { Ok(()) } else { Err((own.number(), 0)) });
    }
    tally.expect([0, 16, 17], 30);
}

#[test]
fn every_word_of_small_programs() {
    let random = &mut Random(94);
    let mut tally = Tally::default();
    for case in small_cases() {
        for mut words in [case.words.clone(), programs::spaced(&case.words, random)] {
            for index in 0..words.len() {
                let values = (0..30).chain([600, 601, 1 << 31, u32::MAX]);
                values.for_each(|word| tally.add(case.changed(&mut words, index, word, random)));
            }
        }
    }
    tally.expect([0, 8, 9, 10, 11, 12, 13, 28], 100);
}

#[test]
fn random_words_of_larger_programs() {
    let random = &mut Random(95);
    let mut tally = Tally::default();
    for case in cases(95, 500) {
        let mut words = perhaps_spaced(&case.words, random);
        for _ in 0..20 {
            let (index, was) = programs::change(&mut words, random);
            let word = std::mem::replace(&mut words[index], was);
            tally.add(case.changed(&mut words, index, word, random));
        }
    }
    tally.expect([0, 8, 9, 10, 11, 12, 13, 28], 50);
}

/// Two or three words, so that what 7 to 13 refuse may come after a record that differs.
#[test]
fn the_check_before_28() {
    let random = &mut Random(96);
    let mut tally = Tally::default();
    for case in cases(96, 400).chain(small_cases().into_iter().cycle().take(1000)) {
        for _ in 0..15 {
            let mut words = perhaps_spaced(&case.words, random);
            (0..2 + random.below(2)).for_each(|_| _ = programs::change(&mut words, random));
            words.truncate(words.len() - if random.chance(0.05) { random.below(9) } else { 0 });
            tally.add(case.verdict(&words, random));
        }
    }
    tally.expect([0, 28].into_iter().chain(7..=13), 100);
}

#[test]
fn records_exchanged() {
    let random = &mut Random(97);
    let mut tally = Tally::default();
    let mut exchanged = |case: &Case, one: usize, other: usize, random: &mut Random| {
        let mut records = case.records();
        records.swap(one, other);
        tally.add(case.edited(records, random));
    };
    for case in small_cases() {
        let count = case.records().len();
        (0..count).for_each(|one| (one..count).for_each(|other| exchanged(&case, one, other, random)));
    }
    for case in cases(97, 600) {
        for distance in 1..5 {
            // near each other: often in the same formula
            let one = random.below(case.records().len() - distance);
            exchanged(&case, one, one + distance, random);
        }
    }
    tally.expect([0, 11, 28], 50);
}

#[test]
fn records_left_out() {
    let random = &mut Random(99);
    let mut tally = Tally::default();
    for case in small_cases().into_iter().chain(cases(99, 300)) {
        for _ in 0..20 {
            let mut records = case.records();
            records.remove(random.below(records.len()));
            tally.add(case.edited(records, random));
        }
    }
    tally.expect([11, 28], 500);
}

/// A formula for one of so many slots, which are closed.
fn formula(closed: usize, plan: usize, random: &mut Random) -> Vec<Record> {
    let mut slot = || 1 + random.below(closed) as u32;
    let (target, operations) = (slot(), [[4, slot(), slot()], [7, slot(), 0]]);
    let mut records = vec![[1, random.below(plan + 1) as u32, target]];
    records.extend(operations.into_iter().filter(|_| random.chance(0.3)));
    records.push([8 + random.below(2) as u32, 0, 0]);
    records
}

/// Slots that are worked out once more, before a formula or at the end.
#[test]
fn records_put_between_and_after_the_last() {
    let random = &mut Random(100);
    for case in small_cases().into_iter().chain(cases(100, 500)) {
        let own = case.records();
        let between = |at: &usize| *at == own.len() || own[*at][0] <= 3;
        let places: Vec<usize> = (2..=own.len()).filter(between).collect();
        for at in [own.len(), own.len(), places[random.below(places.len())], places[random.below(places.len())]] {
            let closed = own[..at].iter().filter(|record| record[0] == 1).count();
            let further = (0..1 + random.below(3)).flat_map(|_| formula(closed, case.plan.len(), random)).collect::<Vec<_>>();
            let records = [&own[..at], &further, &own[at..]].concat();
            assert!(matches!(case.edited(records, random), Err((28, _))));
        }
    }
}

/// Programs that belong to no plan, with the plan's N, n and s.
#[test]
fn other_programs_with_the_same_record_0() {
    let random = &mut Random(101);
    let mut tally = Tally::default();
    for _ in 0..3000 {
        let n = 1 + random.below(5) as u32;
        let Some(case) = Case::of(n, networks::any(n, random)) else { continue };
        let words = programs::accepted_as(case.head(), random);
        tally.add(case.edited(records_of(&words), random));
    }
    tally.expect([28], 1500);
}

/// Programs that pass the check, with one of N, n and s other than the plan's.
#[test]
fn another_record_0() {
    let random = &mut Random(102);
    let mut met = [0; 3];
    for _ in 0..3000 {
        let n = 1 + random.below(5) as u32;
        let Some(case) = Case::of(n, networks::any(n, random)) else { continue };
        let (mut head, column) = (case.head(), random.below(3));
        head[column] = if random.chance(0.5) { head[column] + 1 } else { head[column] - 1 };
        if head[0] == 0 || head[1..].iter().any(|&number| number > head[0] * head[0]) || head[2] == 0 {
            continue;
        }
        let words = perhaps_spaced(&programs::accepted_as(head, random), random);
        assert_eq!(case.verdict(&words, random), Err((28, 0)), "{head:?}");
        met[column] += 1;
    }
    assert!(met.iter().all(|&met| met > 200), "{met:?}");
}

/// Every row of rising labels of an order.
fn every_plan(n: u32) -> impl Iterator<Item = (u32, Vec<u32>)> {
    (0..1u32 << (n * n)).map(move |set| (n, (1..=n * n).filter(|k| set >> (k - 1) & 1 == 1).collect()))
}

/// A program tells its plan, so that of another plan is never accepted.
#[test]
fn programs_of_other_plans_with_the_same_record_0() {
    let random = &mut Random(103);
    let some: Vec<_> = (0..600).map(|_| (4, networks::scattered(4, 0.9, 0.5, random))).collect();
    let mut groups: BTreeMap<Record, Vec<Case>> = BTreeMap::new();
    for case in (1..=3).flat_map(every_plan).chain(some).filter_map(|(n, plan)| Case::of(n, plan)) {
        groups.entry(case.head()).or_default().push(case);
    }
    let mut tally = Tally::default();
    for group in groups.values() {
        for (case, other) in group.iter().flat_map(|case| group.iter().map(move |other| (case, other))) {
            let verdict = case.edited(other.records(), random);
            assert_eq!(verdict.is_ok(), case.plan == other.plan, "plans {:?} and {:?}", case.plan, other.plan);
            tally.add(verdict);
        }
    }
    tally.expect([0], 500);
    tally.expect([28], 5000);
}

#[test]
fn programs_of_the_other_compilers() {
    let random = &mut Random(104);
    let mut tally = Tally::default();
    for case in small_cases().into_iter().chain(cases(104, 400)) {
        let compact = programs::compacted(case.n, &case.plan).expect("no pivot is missing");
        // the last pivot takes an earlier slot again, if there is one
        assert_eq!(case.verdict(&compact, random), if case.n == 1 { Ok(()) } else { Err((28, 0)) });
        let Some(mut sweeps) = programs::swept(case.n, &case.plan) else { continue };
        assert_eq!(case.verdict(&perhaps_spaced(&sweeps, random), random), Err((28, 0)));
        programs::change(&mut sweeps, random);
        tally.add(case.verdict(&sweeps, random));
    }
    tally.expect([10, 28], 20);
}

/// Spare records between, and then one word changed: in the last product of each kind, in the last record and in any one.
#[test]
fn large_programs() {
    let random = &mut Random(105);
    let of_128: Vec<_> = SHAPES.iter().map(|shape| (128, shape.plan(128, random))).collect();
    let of_600 = [networks::three_diagonal(600), networks::grid(600, 12), networks::framed(600)].map(|plan| (600, plan));
    let mut tally = Tally::default();
    for case in of_128.into_iter().chain(of_600).filter_map(|(n, plan)| Case::of(n, plan)) {
        let (mut words, records) = (programs::spaced(&case.words, random), case.records());
        tally.add(case.verdict(&words, random));
        let last_products = (4..=6).filter_map(|kind| records.iter().rposition(|record| record[0] == kind));
        for position in last_products.chain([records.len() - 1, random.below(records.len())]) {
            let index = 4 * chain(&words)[position] as usize + random.below(3);
            let word = words[index] ^ 1;
            tally.add(case.changed(&mut words, index, word, random));
        }
    }
    tally.expect([0, 28], 8);
}

/// A row of zeros, of which only the chain is touched, takes no memory.
#[test]
fn as_many_records_as_may_be() {
    let case = Case::of(1, vec![1]).expect("no pivot is missing");
    let mut words = vec![0u32; 400_000_004];
    let place = |record: u32| if record == 7 { 99_999_999 } else { 14_000_000 * record };
    for (index, record) in (0..).zip(case.words.chunks_exact(4)) {
        let at = 4 * place(index) as usize;
        words[at..at + 4].copy_from_slice(&[record[0], record[1], record[2], place(record[3])]);
    }
    let compared = |words: &[u32]| compare(1, &[1], &mut [0], words);
    assert_eq!(compared(&words[..400_000_000]), 0);
    assert_eq!(compared(&words), refused(7, 0), "100,000,001 records");
    assert_eq!(compared(&words[..399_999_996]), refused(9, 84_000_000), "the last record is cut off");
    words[4 * 28_000_000] = 8;
    assert_eq!(compared(&words[..400_000_000]), refused(28, 28_000_000), "kind 8 for 9");
}

/// Words that fit no plan: none, three, a program that passes the check, a damaged one.
fn any_words(random: &mut Random) -> Vec<u32> {
    let mut words = programs::accepted(random);
    match random.below(4) {
        0 => words.clear(),
        1 => words.truncate(3),
        2 => {}
        _ => _ = programs::change(&mut words, random),
    }
    words
}

#[test]
fn labels_and_pivots_that_are_refused() {
    let random = &mut Random(106);
    let mut tally = Tally::default();
    for (n, mut plan) in networks::plans(106, 2500) {
        let own = programs::compiled(n, &plan).filter(|_| random.chance(0.5));
        let at = random.below(plan.len() + 1);
        match random.below(3) {
            0 => plan.insert(at, 1 + random.below((n * n) as usize) as u32),
            1 => plan.insert(at, [0, n * n + 1, u32::MAX][random.below(3)]),
            _ => plan.retain(|_| random.chance(0.5)),
        }
        tally.add(verdict(n, &plan, &own.unwrap_or_else(|| any_words(random)), random));
    }
    tally.expect([3, 4, 5], 500);
}

#[test]
fn orders_and_work_slices_that_are_refused() {
    let random = &mut Random(107);
    for plan in [&[][..], &[0], &[1], &[2, 1], &[1, 4]] {
        for n in [0, 601, 65_535, 65_536, 65_537, u32::MAX] {
            assert_eq!(verdict_with(random.below(9), n, plan, &any_words(random), random), Err((1, 0)));
        }
        for n in (1..=20).chain([599, 600]) {
            let square = (n * n) as usize;
            for work_len in [0, square / 2, square - 1] {
                assert_eq!(verdict_with(work_len, n, plan, &any_words(random), random), Err((2, square as u64)));
            }
        }
    }
}
