//! Programs beside the compiler's own: random ones that pass the check, chains led round spare records, and damage.

use crate::random::Random;
use crate::reading::{Refusal, compact, plan, plan::Written, sweep};

/// A compiler of the reading: order, plan, work numbers and words.
type Compiler = fn(u32, &[u32], &mut [u32], &mut [u32]) -> Result<Written, Refusal>;

/// What a compiler that wants a work number for each place writes, if it accepts the plan.
fn written(compiler: Compiler, n: u32, plan: &[u32]) -> Option<Vec<u32>> {
    let mut work = vec![0; (n * n) as usize];
    let (6, records) = compiler(n, plan, &mut work, &mut []).expect_err("no words are lent") else {
        return None;
    };
    let mut words = vec![0; 4 * records as usize];
    compiler(n, plan, &mut work, &mut words).expect("the plan is accepted");
    Some(words)
}

/// The program of a plan by the reading's compiler, if no pivot is missing.
pub fn compiled(n: u32, plan: &[u32]) -> Option<Vec<u32>> {
    written(plan::compile, n, plan)
}

/// The program of sweeps by the reading's compiler of these, if every row has its diagonal place.
pub fn swept(n: u32, plan: &[u32]) -> Option<Vec<u32>> {
    written(sweep::compile, n, plan)
}

/// The same by the reading's compact compiler.
pub fn compacted(n: u32, plan: &[u32]) -> Option<Vec<u32>> {
    let mut words = compiled(n, plan)?;
    compact::rename(&mut words);
    Some(words)
}

/// The program of one Crout compiler or the other.
pub fn of_either(n: u32, plan: &[u32], random: &mut Random) -> Option<Vec<u32>> {
    if random.chance(0.5) { compiled(n, plan) } else { compacted(n, plan) }
}

/// The program with this record 0, of which first is left out, and these records, of which next is: each leads to the one after it.
pub fn in_order(head: [u32; 3], records: impl IntoIterator<Item = [u32; 3]>) -> Vec<u32> {
    let mut words = head.to_vec();
    for (index, record) in (1..).zip(records) {
        words.push(index);
        words.extend(record);
    }
    words.push(0);
    words
}

/// A program's file.
pub fn bytes_of(words: &[u32]) -> Vec<u8> {
    words.iter().flat_map(|word| word.to_le_bytes()).collect()
}

/// The program with spare records full of junk put between, and its chain led round them.
pub fn spaced(words: &[u32], random: &mut Random) -> Vec<u32> {
    let density = random.unit();
    let mut places = vec![0];
    for _ in 1..words.len() / 4 {
        let spare = (0..3).filter(|_| random.chance(density)).count();
        places.push(places[places.len() - 1] + 1 + spare);
    }
    let end = places[places.len() - 1] + 1 + random.below(3);
    let mut all: Vec<u32> = (0..4 * end).map(|_| junk(random)).collect();
    for (record, &place) in words.chunks_exact(4).zip(&places) {
        all[4 * place..4 * place + 3].copy_from_slice(&record[..3]);
        all[4 * place + 3] = places[record[3] as usize] as u32;
    }
    all
}

/// A word for a place that nobody reads: often one that could be a kind or an operand.
fn junk(random: &mut Random) -> u32 {
    if random.chance(0.5) { random.below(14) as u32 } else { random.next() as u32 }
}

/// How far a random program is: the slot opened last, the highest slot closed, and the closed entries of Y and X.
struct Closed {
    n: u32,
    slots: u32,
    slot: u32,
    c: u32,
    y: u32,
    x: u32,
}

/// A number from 1 to the bound, which isn't 0.
fn up_to(bound: u32, random: &mut Random) -> u32 {
    1 + random.below(bound as usize) as u32
}

impl Closed {
    fn finished(&self) -> bool {
        self.c == self.slots && self.y == self.n && self.x == self.n
    }

    /// The tables that may open an entry now: 1 for C, 2 for Y, 3 for X. Slots may open again to the end.
    fn open_to(&self) -> Vec<u32> {
        let allowed = [true, self.y < self.n, self.x < self.n && self.y == self.n];
        (1..).zip(allowed).filter(|&(_, allowed)| allowed).map(|(table, _)| table).collect()
    }

    fn opening(&mut self, table: u32, plan: u32, random: &mut Random) -> [u32; 3] {
        match table {
            1 => {
                let again = self.c == self.slots || self.c > 0 && random.chance(0.3);
                self.slot = if again { up_to(self.c, random) } else { self.c + 1 };
                [1, random.below(plan as usize + 1) as u32, self.slot]
            }
            2 => [2, self.y + 1, 0],
            _ => [3, self.n - self.x, 0],
        }
    }

    /// A product or a quotient for a target of this table, if there is anything to read.
    fn operation(&self, table: u32, random: &mut Random) -> Option<[u32; 3]> {
        let closed = [self.c, self.y, self.x][table as usize - 1];
        if self.c == 0 {
            None
        } else if closed == 0 || random.chance(0.3) {
            Some([7, up_to(self.c, random), 0])
        } else {
            let other = up_to(closed, random);
            Some([3 + table, up_to(self.c, random), if table == 3 { self.n + 1 - other } else { other }])
        }
    }

    fn close(&mut self, table: u32, random: &mut Random) -> [u32; 3] {
        match table {
            1 => self.c = self.c.max(self.slot),
            2 => self.y += 1,
            _ => self.x += 1,
        }
        [if table == 1 && random.chance(0.3) { 9 } else { 8 }, 0, 0]
    }
}

/// A random Crout program that passes the check. Its formulas belong to no plan: C and Y open in any mixture, a slot again and again, and
/// each formula subtracts and divides as it likes.
pub fn accepted(random: &mut Random) -> Vec<u32> {
    let n = up_to(6, random);
    let slots = up_to(n * n, random);
    let plan = random.below((n * n) as usize + 1) as u32;
    accepted_as([n, plan, slots], random)
}

/// The same with this N, n and s.
pub fn accepted_as([n, plan, slots]: [u32; 3], random: &mut Random) -> Vec<u32> {
    let mut closed = Closed { n, slots, slot: 0, c: 0, y: 0, x: 0 };
    let mut records = vec![];
    // a few slots may open again when all else is done
    while !closed.finished() || random.chance(0.3) {
        let tables = closed.open_to();
        let table = tables[random.below(tables.len())];
        records.push(closed.opening(table, plan, random));
        records.extend((0..random.below(4)).filter_map(|_| closed.operation(table, random)).collect::<Vec<_>>());
        records.push(closed.close(table, random));
    }
    in_order([n, plan, slots], records)
}

/// A random program of sweeps that passes the check. Its rows belong to no plan: each subtracts and divides as it likes, with any
/// coefficient as often as it likes and any entry of X, its own as well, and may do neither.
pub fn accepted_sweep(random: &mut Random) -> Vec<u32> {
    let n = up_to(6, random);
    let plan = random.below((n * n) as usize + 1) as u32;
    let most = random.below(6);
    let mut records = vec![];
    for row in 1..=n {
        records.push([10, row, 0]);
        for _ in 0..random.below(most + 1).min(plan as usize) {
            let product = random.chance(0.7);
            records.push(if product { [11, up_to(plan, random), up_to(n, random)] } else { [12, up_to(plan, random), 0] });
        }
        records.push([8, 0, 0]);
    }
    in_order([n, plan, 0], records)
}

fn other_kind(random: &mut Random) -> u32 {
    if random.chance(0.9) { random.below(14) as u32 } else { random.next() as u32 }
}

fn other_operand(word: u32, random: &mut Random) -> u32 {
    match random.below(8) {
        0 | 1 => word.wrapping_add(1),
        2 | 3 => word.wrapping_sub(1),
        4 => 0,
        5 => random.below(50) as u32,
        6 => word ^ 1 << random.below(32),
        _ => random.next() as u32,
    }
}

/// A next index that ends the chain, leads back, stays, skips, or leads past the end.
fn other_next(at: usize, records: usize, random: &mut Random) -> u32 {
    match random.below(8) {
        0 => 0,
        1 => at as u32,
        2 => random.below(at + 1) as u32,
        3 => (at + 2 + random.below(6)) as u32,
        4 => (at + random.below(records)) as u32,
        5 => records as u32,
        6 => (records + random.below(50)) as u32,
        _ => random.next() as u32,
    }
}

/// Changes one word, record 0's more often than its share; the index of the word and what it was.
pub fn change(words: &mut [u32], random: &mut Random) -> (usize, u32) {
    let records = words.len() / 4;
    let at = if random.chance(0.1) { 0 } else { random.below(records) };
    let column = random.below(4);
    let index = 4 * at + column;
    let was = words[index];
    words[index] = match column {
        3 => other_next(at, records, random),
        0 if at > 0 => other_kind(random),
        _ => other_operand(was, random),
    };
    (index, was)
}
