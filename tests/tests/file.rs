//! `crout_check`, `crout_write` and `crout_read` against the reading's checker and file: compiled programs, damaged ones,
//! programs led round spare records, random words; and the lengths that 18, 19 and 7 speak of.

use std::collections::BTreeSet;

use crout_tests::calls::file::{check, read, write};
use crout_tests::calls::{Answer, refused};
use crout_tests::lent::Lent;
use crout_tests::programs::bytes_of;
use crout_tests::random::Random;
use crout_tests::reading::{self, Refusal};
use crout_tests::verdict::verdict;
use crout_tests::{networks, programs};

/// How often each refusal has been met, and with which details.
#[derive(Default)]
struct Tally {
    fine: u32,
    hits: [u32; 20],
    details: [BTreeSet<u64>; 20],
}

impl Tally {
    fn add(&mut self, verdict: Option<Refusal>) {
        match verdict {
            None => self.fine += 1,
            Some((number, detail)) => {
                self.hits[number as usize] += 1;
                self.details[number as usize].insert(detail);
            }
        }
    }

    fn join(mut self, other: Self) -> Self {
        self.fine += other.fine;
        for (number, (hits, details)) in other.hits.into_iter().zip(other.details).enumerate() {
            self.hits[number] += hits;
            self.details[number].extend(details);
        }
        self
    }

    fn checked(&self) -> u32 {
        self.fine + self.hits.iter().sum::<u32>()
    }

    /// 7 to 13 each at least this often, those that name a record at this many records; programs that are fine, too.
    fn expect(&self, hits: u32, records: usize) {
        assert!(self.fine >= hits, "{} fine", self.fine);
        for number in 7..=13 {
            assert!(self.hits[number] >= hits, "{} hits of {number}", self.hits[number]);
            let named = self.details[number].len();
            assert!(if (9..=12).contains(&number) { named >= records } else { named == 1 }, "{named} details of {number}");
        }
    }
}

/// A program and its file, which is followed by a little junk so that a longer file can be taken.
struct Pair {
    words: Vec<u32>,
    bytes: Vec<u8>,
}

/// The bytes after the program.
const AFTER: usize = 40;

impl Pair {
    fn new(words: Vec<u32>, random: &mut Random) -> Self {
        let mut bytes = bytes_of(&words);
        bytes.extend((0..AFTER).map(|_| random.next() as u8));
        Self { words, bytes }
    }

    fn len(&self) -> usize {
        4 * self.words.len()
    }

    fn set(&mut self, (index, word): (usize, u32)) {
        self.words[index] = word;
        self.bytes[4 * index..4 * index + 4].copy_from_slice(&word.to_le_bytes());
    }

    fn change(&mut self, random: &mut Random) -> (usize, u32) {
        let (index, was) = programs::change(&mut self.words, random);
        self.set((index, self.words[index]));
        (index, was)
    }

    /// The verdict with one, two or three words changed; they are changed back.
    fn changed(&mut self, random: &mut Random) -> Option<Refusal> {
        let changes: Vec<_> = (0..1 + random.below(3)).map(|_| self.change(random)).collect();
        let verdict = verdict(&self.bytes[..self.len()]);
        changes.into_iter().rev().for_each(|was| self.set(was));
        verdict
    }

    /// The verdict on a shorter or longer file, most often of whole words.
    fn resized(&self, random: &mut Random) -> Option<Refusal> {
        let longer = self.len() + 1 + random.below(AFTER);
        let len = if random.chance(0.7) { random.below(self.len()) } else { longer };
        verdict(&self.bytes[..if random.chance(0.8) { len / 4 * 4 } else { len }])
    }

    fn damaged(&mut self, random: &mut Random) -> Option<Refusal> {
        if random.chance(0.1) { self.resized(random) } else { self.changed(random) }
    }
}

/// A program of one compiler or the other for each of the random plans of a seed, as it is and damaged.
fn damaged_programs(seed: u64) -> Tally {
    let random = &mut Random(seed);
    let mut tally = Tally::default();
    for (n, plan) in networks::plans(seed, 2500) {
        let Some(words) = programs::of_either(n, &plan, random) else { continue };
        let mut pair = Pair::new(words, random);
        assert_eq!(verdict(&pair.bytes[..pair.len()]), None);
        // a short program is damaged more often than a long one, which takes longer to check
        let times = 35 + 1_000_000 / (pair.words.len() + 2000);
        (0..times).for_each(|_| tally.add(pair.damaged(random)));
    }
    tally
}

#[test]
fn a_million_damaged_programs() {
    let tally = std::thread::scope(|scope| {
        let other = scope.spawn(|| damaged_programs(4));
        damaged_programs(3).join(other.join().expect("the other half"))
    });
    assert!(tally.checked() >= 1_000_000, "only {}", tally.checked());
    tally.expect(30_000, 1000);
    assert!(tally.hits[18] >= 10_000);
    assert!(tally.details[9].contains(&0), "first of record 0");
}

#[test]
fn chains_led_round_spare_records() {
    let random = &mut Random(20);
    let mut tally = Tally::default();
    for (n, plan) in networks::plans(20, 400) {
        let Some(words) = programs::of_either(n, &plan, random) else { continue };
        let mut pair = Pair::new(programs::spaced(&words, random), random);
        assert_eq!(verdict(&pair.bytes[..pair.len()]), None);
        (0..100).for_each(|_| tally.add(pair.damaged(random)));
    }
    tally.expect(100, 100);
}

/// The records along the chain of a program.
fn chained(words: &[u32]) -> BTreeSet<usize> {
    let mut all = BTreeSet::from([0]);
    let mut at = words[3] as usize;
    while at != 0 {
        all.insert(at);
        at = words[4 * at + 3] as usize;
    }
    all
}

#[test]
fn spare_records_may_hold_anything() {
    let random = &mut Random(21);
    let mut spare = 0;
    for _ in 0..2000 {
        let mut words = programs::spaced(&programs::accepted(random), random);
        let used = chained(&words);
        for at in (0..words.len() / 4).filter(|at| !used.contains(at)) {
            words[4 * at..4 * at + 4].fill_with(|| random.next() as u32);
            spare += 1;
        }
        let file = bytes_of(&words);
        assert_eq!(check(&file), 0);
        assert_eq!(file, bytes_of(&words), "the file has changed");
    }
    assert!(spare > 10_000, "{spare} spare records");
}

#[test]
fn random_programs_that_pass_and_their_damage() {
    let random = &mut Random(22);
    let mut tally = Tally::default();
    for _ in 0..5000 {
        let mut pair = Pair::new(programs::accepted(random), random);
        assert_eq!(verdict(&pair.bytes[..pair.len()]), None);
        (0..40).for_each(|_| tally.add(pair.damaged(random)));
    }
    tally.expect(1000, 50);
}

/// Words that look like a program: a fair record 0 and small numbers, each record's next most often the following one.
fn likely_words(random: &mut Random) -> Vec<u32> {
    let n = 1 + random.below(3) as u32;
    let records = 1 + random.below(12);
    let mut words = vec![n, random.below(1 + (n * n) as usize) as u32, random.below(2 + n as usize) as u32, 1];
    for at in 1..records {
        let next = if random.chance(0.9) { at + 1 } else { random.below(records + 1) };
        words.extend([random.below(14), random.below(3), random.below(3), next % records].map(|word| word as u32));
    }
    words
}

#[test]
fn random_words() {
    let random = &mut Random(23);
    let mut tally = Tally::default();
    for _ in 0..200_000 {
        tally.add(verdict(&bytes_of(&likely_words(random))));
        let len = random.below(60);
        tally.add(verdict(&(0..len).map(|_| random.next() as u8).collect::<Vec<_>>()));
    }
    for number in [7, 8, 9, 10, 11, 12, 13, 18] {
        assert!(tally.hits[number] > 300, "{} hits of {number}", tally.hits[number]);
    }
}

/// The program of order 1, whose listing document 01 gives.
const SMALLEST: [u32; 32] = [1, 1, 1, 1, 1, 1, 1, 2, 9, 0, 0, 3, 2, 1, 0, 4, 7, 1, 0, 5, 8, 0, 0, 6, 3, 1, 0, 7, 8, 0, 0, 0];

#[test]
fn every_two_words_of_the_smallest_program() {
    let mut pair = Pair::new(SMALLEST.to_vec(), &mut Random(24));
    let len = pair.len();
    let others = [0, 1, 2, 3, 4, 5, 6, 7, 8, 9, 10, 11, 12, 13, 1 << 31, u32::MAX];
    for one in 0..SMALLEST.len() {
        for two in 0..one {
            for word in others {
                pair.set((one, word));
                for word in others {
                    pair.set((two, word));
                    verdict(&pair.bytes[..len]);
                }
            }
            pair.set((two, SMALLEST[two]));
        }
        pair.set((one, SMALLEST[one]));
    }
}

/// The smallest program with one word changed.
fn smallest_with(index: usize, word: u32) -> u64 {
    let mut words = SMALLEST;
    words[index] = word;
    check(&bytes_of(&words))
}

#[test]
fn each_refusal_once() {
    let file = bytes_of(&SMALLEST);
    assert_eq!(check(&file), 0);
    assert_eq!(check(&file[..127]), refused(18, 0), "18 before 7");
    assert_eq!(check(&[]), refused(7, 0), "no words");
    assert_eq!(check(&file[..124]), refused(7, 0), "31 words");
    for (index, word) in [(0, 0), (0, 601), (1, 2), (2, 2)] {
        assert_eq!(smallest_with(index, word), refused(8, 0), "word {index} is {word}");
    }
    assert_eq!(smallest_with(3, 8), refused(9, 0), "first past the end");
    assert_eq!(smallest_with(3, 0), refused(13, 0), "an empty chain");
    assert_eq!(smallest_with(7, 1), refused(9, 1), "next is its own index");
    assert_eq!(smallest_with(11, 1), refused(9, 2), "next leads back");
    assert_eq!(smallest_with(31, 8), refused(9, 7), "next past the end");
    assert_eq!(smallest_with(4, 0), refused(10, 1), "kind 0");
    assert_eq!(smallest_with(8, 10), refused(10, 2), "kind 10");
    assert_eq!(smallest_with(8, 13), refused(10, 2), "kind 13");
    assert_eq!(smallest_with(2, 0), refused(10, 1), "kind 1 without slots");
    assert_eq!(smallest_with(14, 1), refused(10, 3), "an unused q");
    assert_eq!(smallest_with(29, 1), refused(10, 7), "an unused p");
    assert_eq!(smallest_with(4, 8), refused(10, 1), "10 comes before 11");
    assert_eq!(smallest_with(12, 7), refused(11, 3), "a division with nothing open");
    assert_eq!(smallest_with(20, 9), refused(11, 5), "a pivot that isn't in C");
    assert_eq!(smallest_with(5, 2), refused(12, 1), "A(2) of one");
    assert_eq!(smallest_with(6, 2), refused(12, 1), "C(2) opens first");
    assert_eq!(smallest_with(17, 2), refused(12, 4), "C(2) isn't closed");
    assert_eq!(smallest_with(27, 0), refused(13, 0), "X(1) is open at the end");
    assert_eq!(smallest_with(23, 0), refused(13, 0), "X(1) isn't closed at the end");
}

/// The file of a program of order 2 with these slots, which opens and closes them in this order before all else.
fn opening(slots: u32, order: &[u32]) -> Vec<u8> {
    let opened = order.iter().flat_map(|&slot| [[1, 0, slot], [8, 0, 0]]);
    let others = [[2, 1, 0], [2, 2, 0], [3, 2, 0], [3, 1, 0]].into_iter().flat_map(|record| [record, [8, 0, 0]]);
    bytes_of(&programs::in_order([2, 0, slots], opened.chain(others)))
}

#[test]
fn slots_used_again() {
    let check = |slots: u32, order: &[u32]| check(&opening(slots, order));
    assert_eq!(check(1, &[1]), 0, "fewer slots than the order");
    assert_eq!(check(1, &[1, 1, 1]), 0, "the only slot again");
    assert_eq!(check(4, &[1, 2, 1, 3, 2, 4, 4, 1]), 0, "in any order up to one above the highest");
    assert_eq!(check(0, &[]), refused(10, 1), "no slots: kind 2 in a sweep");
    assert_eq!(check(5, &[1, 2, 3, 4, 5]), refused(8, 0), "more slots than places");
    assert_eq!(check(4, &[2]), refused(12, 1), "C(2) opens first");
    assert_eq!(check(4, &[1, 2, 1, 4]), refused(12, 7), "two above the highest closed");
    assert_eq!(check(2, &[1, 2, 1, 3]), refused(12, 7), "past the slots");
    assert_eq!(check(2, &[1, 0]), refused(12, 3), "no slot");
    assert_eq!(check(3, &[1, 2, 1]), refused(13, 0), "C(3) is left out");
    assert_eq!(check(1, &[]), refused(13, 0), "all are left out");
}

/// Every order of one to five openings. Those with no slot out of turn are the ways to part them into groups, of which there are
/// 5, 26, 32 and 11 with 1 to 4 groups (Stirling's numbers of the second kind); with fewer groups than slots one is left out.
#[test]
fn every_order_of_slots() {
    let mut tally = Tally::default();
    for slots in 0..=5 {
        for number in 0..6u32.pow(5) {
            let order: Vec<u32> = (0..5).map(|digit| number / 6u32.pow(digit) % 6).collect();
            let len = order.iter().rposition(|&slot| slot != 0).map_or(1, |last| last + 1);
            tally.add(verdict(&opening(slots, &order[..len])));
        }
    }
    assert_eq!(tally.fine, 5 + 26 + 32 + 11);
    assert_eq!(tally.hits[13], 5 + (5 + 26) + (5 + 26 + 32));
}

#[test]
fn a_file_may_stand_at_any_address() {
    let random = &mut Random(25);
    for _ in 0..200 {
        let words = programs::accepted(random);
        let file = bytes_of(&words);
        for offset in 0..8 {
            let mut shifted = vec![0; offset];
            shifted.extend(&file);
            let mut back = vec![0; words.len()];
            assert_eq!(check(&shifted[offset..]), 0);
            assert_eq!(read(&shifted[offset..], &mut back).returned, 0);
            assert_eq!(back, words);
            assert_eq!(write(&words, &mut shifted[offset..]).returned, 0);
            assert_eq!(shifted[offset..], file);
        }
    }
}

/// Both writers on a slice of this length: answers and slices are the same, and a refusal changes nothing.
fn compare_write(words: &[u32], bytes_len: usize, random: &mut Random) -> Lent<u8> {
    let before = Lent::<u8>::new(bytes_len, random);
    let (mut bytes, mut expected_bytes, words_before) = (before.clone(), before.clone(), words.to_vec());
    let answer = write(words, bytes.part());
    let expected = reading::file::write(words, expected_bytes.part()).into();
    assert_eq!(answer, expected, "{} words into {bytes_len} bytes", words.len());
    assert!(bytes.same(&expected_bytes), "{} words into {bytes_len} bytes", words.len());
    assert!(answer.returned == 0 || bytes.same(&before), "a refusal leaves the bytes");
    assert_eq!(words, words_before, "the words have changed");
    bytes
}

/// Both readers on a slice of this length, as for the writers.
fn compare_read(bytes: &[u8], words_len: usize, random: &mut Random) -> Lent<u32> {
    let before = Lent::<u32>::new(words_len, random);
    let (mut words, mut expected_words, bytes_before) = (before.clone(), before.clone(), bytes.to_vec());
    let answer = read(bytes, words.part());
    let expected = reading::file::read(bytes, expected_words.part()).into();
    assert_eq!(answer, expected, "{} bytes into {words_len} words", bytes.len());
    assert!(words.same(&expected_words), "{} bytes into {words_len} words", bytes.len());
    assert!(answer.returned == 0 || words.same(&before), "a refusal leaves the words");
    assert_eq!(bytes, bytes_before, "the bytes have changed");
    words
}

#[test]
fn every_length_of_a_short_file() {
    let random = &mut Random(26);
    for len in 0..=40 {
        let words: Vec<u32> = (0..len).map(|_| random.next() as u32).collect();
        (0..=4 * len + 9).for_each(|bytes_len| drop(compare_write(&words, bytes_len, random)));
        let bytes: Vec<u8> = (0..len).map(|_| random.next() as u8).collect();
        (0..=len / 4 + 3).for_each(|words_len| drop(compare_read(&bytes, words_len, random)));
    }
}

#[test]
fn round_trips() {
    let random = &mut Random(27);
    for _ in 0..2000 {
        let words: Vec<u32> = (0..random.below(3000)).map(|_| random.next() as u32).collect();
        let bytes = compare_write(&words, 4 * words.len() + random.below(9), random);
        let file = &bytes.entries()[..4 * words.len()];
        assert_eq!(file, bytes_of(&words));
        let back = compare_read(file, words.len() + random.below(9), random);
        assert_eq!(back.entries()[..words.len()], words);
    }
}

#[test]
fn files_too_short_or_uneven() {
    let mut words = [7; 4];
    assert_eq!(read(&[1; 17], &mut words), Answer::refused(18, 0));
    assert_eq!(read(&[1; 19], &mut []), Answer::refused(18, 0), "18 before 19");
    assert_eq!(read(&[1; 20], &mut words), Answer::refused(19, 5));
    assert_eq!(words, [7; 4]);
    let mut bytes = [7; 7];
    assert_eq!(write(&[1, 2], &mut bytes), Answer::refused(19, 8));
    assert_eq!(bytes, [7; 7]);
    assert_eq!(write(&[], &mut bytes), Answer::fine([0; 3]));
    assert_eq!(read(&[], &mut words), Answer::fine([0; 3]));
}

/// A row of zeros, never touched here, takes no memory, and the length alone decides these.
#[test]
fn lengths_at_the_bounds_of_7() {
    let words = vec![0u32; 400_000_001];
    assert_eq!(write(&words, &mut []), Answer::refused(7, 0), "7 before 19");
    assert_eq!(write(&words[1..], &mut [1; 9]), Answer::refused(19, 1_600_000_000));
    let file = vec![0u8; 1_600_000_016];
    assert_eq!(check(&file), refused(7, 0), "100,000,001 records");
    assert_eq!(check(&file[16..]), refused(8, 0), "100,000,000 records, order 0");
    assert_eq!(read(&file, &mut [1; 9]), Answer::refused(19, 400_000_004), "the reader has no 7");
}
