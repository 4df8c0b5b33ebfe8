//! "Fill and slots", "Records" and checks 1 to 6. Fill is found by elimination, column by column to the right, where the
//! proved code searches back from each place.

use super::{Refusal, Verdict, labels};

/// The places held, in a square of n + 1 by n + 1 of which row and column 0 are unused.
pub struct Held {
    pub n: usize,
    held: Vec<bool>,
}

impl Held {
    pub fn of(n: u32, plan: &[u32]) -> Self {
        let n = n as usize;
        let mut all = Self { n, held: vec![false; (n + 1) * (n + 1)] };
        let places = labels::places(n as u32);
        for &label in plan {
            let (i, j) = places[label as usize - 1];
            all.hold(i as usize, j as usize);
        }
        for h in 1..=n {
            let right: Vec<usize> = (h + 1..=n).filter(|&j| all.at(h, j)).collect();
            for i in (h + 1..=n).filter(|&i| all.at(i, h)).collect::<Vec<_>>() {
                right.iter().for_each(|&j| all.hold(i, j));
            }
        }
        all
    }

    pub fn at(&self, i: usize, j: usize) -> bool {
        self.held[i * (self.n + 1) + j]
    }

    fn hold(&mut self, i: usize, j: usize) {
        self.held[i * (self.n + 1) + j] = true;
    }

    /// The smallest m whose pivot is missing.
    pub fn missing(&self) -> Option<usize> {
        (1..=self.n).find(|&m| !self.at(m, m))
    }

    /// The slot of each label, 0 where it isn't held.
    pub fn slots(&self) -> Vec<u32> {
        let mut used = 0;
        labels::places(self.n as u32)
            .into_iter()
            .map(|(i, j)| {
                let held = self.at(i as usize, j as usize);
                used += u32::from(held);
                if held { used } else { 0 }
            })
            .collect()
    }

    /// The triples, the places below the diagonal and those above it, counted as document 01 says.
    pub fn products(&self) -> u64 {
        let count = |test: &dyn Fn(usize, usize) -> bool| {
            (1..=self.n).flat_map(|i| (1..=self.n).map(move |j| (i, j))).filter(|&(i, j)| test(i, j)).count() as u64
        };
        let triples: u64 = (1..=self.n)
            .map(|h| {
                let down = (h + 1..=self.n).filter(|&i| self.at(i, h)).count() as u64;
                let right = (h + 1..=self.n).filter(|&j| self.at(h, j)).count() as u64;
                down * right
            })
            .sum();
        triples + count(&|i, j| j < i && self.at(i, j)) + count(&|i, j| i < j && self.at(i, j))
    }

    pub fn above(&self) -> u64 {
        (1..=self.n).map(|i| (i + 1..=self.n).filter(|&j| self.at(i, j)).count() as u64).sum()
    }
}

/// What the compiler's success carries.
#[derive(Clone, Copy, Debug, PartialEq, Eq)]
pub struct Written {
    pub slots: u64,
    pub products: u64,
    pub records: u64,
}

/// The first bad label: its refusal and its position.
pub(super) fn judged(n: u32, plan: &[u32]) -> Verdict {
    let mut before = 0;
    for (position, &label) in (1..).zip(plan) {
        if label < 1 || label > n * n {
            return Err((3, position));
        }
        if label <= before {
            return Err((4, position));
        }
        before = label;
    }
    Ok(())
}

/// Checks 1 to 4, of which 2 wants a work number for each place.
pub(super) fn orderly(n: u32, plan: &[u32], work: &[u32]) -> Verdict {
    if !(1..=600).contains(&n) {
        return Err((1, 0));
    }
    let square = (n * n) as usize;
    if work.len() < square {
        return Err((2, square as u64));
    }
    judged(n, plan)
}

/// The compiler's answer, and what it leaves in the lent slices.
pub fn compile(n: u32, plan: &[u32], work: &mut [u32], words: &mut [u32]) -> Result<Written, Refusal> {
    orderly(n, plan, work)?;
    let square = (n * n) as usize;
    let held = Held::of(n, plan);
    if let Some(m) = held.missing() {
        work[..square].fill(0);
        return Err((5, m as u64));
    }
    let slots = held.slots();
    work[..square].copy_from_slice(&slots);
    let s = u64::from(slots.iter().copied().max().expect("an order is at least 1"));
    let records = 1 + 2 * (s + 2 * u64::from(n)) + held.products() + u64::from(n) + held.above();
    if (words.len() as u64) < 4 * records {
        return Err((6, records));
    }
    let program = program(plan, &held, &slots);
    assert_eq!(program.len() as u64, 4 * records, "document 01's count of the records");
    words[..program.len()].copy_from_slice(&program);
    Ok(Written { slots: s, products: held.products(), records })
}

/// Dense Crout's formulas in dense order, without the places that aren't held and the products with such a factor.
fn program(plan: &[u32], held: &Held, slots: &[u32]) -> Vec<u32> {
    let n = held.n;
    let slot = |i: usize, j: usize| slots[labels::label(n as u32, i as u32, j as u32) as usize - 1];
    let position = |i: usize, j: usize| {
        let label = labels::label(n as u32, i as u32, j as u32);
        plan.binary_search(&label).map_or(0, |at| at as u32 + 1)
    };
    let mut records: Vec<[u32; 3]> = Vec::new();
    let inner = |records: &mut Vec<[u32; 3]>, i: usize, j: usize, m: usize| {
        records.push([1, position(i, j), slot(i, j)]);
        let both = (1..m).filter(|&h| held.at(i, h) && held.at(h, j));
        records.extend(both.map(|h| [4, slot(i, h), slot(h, j)]));
    };
    for m in 1..=n {
        for i in (m..=n).filter(|&i| held.at(i, m)) {
            inner(&mut records, i, m, m);
            records.push([if i == m { 9 } else { 8 }, 0, 0]);
        }
        records.push([2, m as u32, 0]);
        records.extend((1..m).filter(|&h| held.at(m, h)).map(|h| [5, slot(m, h), h as u32]));
        records.extend([[7, slot(m, m), 0], [8, 0, 0]]);
        for j in (m + 1..=n).filter(|&j| held.at(m, j)) {
            inner(&mut records, m, j, m);
            records.extend([[7, slot(m, m), 0], [8, 0, 0]]);
        }
    }
    for i in (1..=n).rev() {
        records.push([3, i as u32, 0]);
        records.extend((i + 1..=n).rev().filter(|&h| held.at(i, h)).map(|h| [6, slot(i, h), h as u32]));
        records.push([8, 0, 0]);
    }
    let s = *slots.iter().max().expect("an order is at least 1");
    let mut words = vec![n as u32, plan.len() as u32, s, 1];
    let last = records.len();
    for (index, [kind, p, q]) in (1..).zip(records) {
        words.extend([kind, p, q, if index == last { 0 } else { index as u32 + 1 }]);
    }
    words
}
