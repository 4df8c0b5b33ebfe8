//! A better numbering of rooms: each exchange is decided from two batches, and the slots are found anew only where it is kept.

use super::Refusal;
use super::compile::Table;
use super::path::{between, label};

#[derive(Clone, Copy, Debug, PartialEq, Eq)]
pub struct Ordered {
    pub slots: u64,
    pub trials: u64,
    pub distance: u64,
    /// How many trials were gone through and how many exchanges kept, which the library doesn't tell.
    pub tried: u64,
    pub kept: u64,
}

pub fn order(n: u32, plan: &[u32], trials: u32, work: &mut [u32], numbering: &mut [u32]) -> Result<Ordered, Refusal> {
    let mut standing = Standing::new(n, plan, work, numbering)?;
    Ok(standing.tried(trials, |standing, t| standing.improves(t) && standing.exchange(t)))
}

/// The same by a slot pass for every trial.
pub fn order_by_fill(n: u32, plan: &[u32], trials: u32, work: &mut [u32], numbering: &mut [u32]) -> Result<Ordered, Refusal> {
    let mut standing = Standing::new(n, plan, work, numbering)?;
    let mut spare = standing.work.to_vec();
    Ok(standing.tried(trials, |standing, t| standing.exchange_by_fill(t, &mut spare)))
}

/// A plan under the numbering kept so far: its slots stand in the work slice by label.
struct Standing<'a> {
    n: usize,
    plan: &'a [u32],
    work: &'a mut [u32],
    numbering: &'a mut [u32],
    table: Table,
}

impl<'a> Standing<'a> {
    /// Checks 1 to 5 and 29, and the given numbering.
    fn new(n: u32, plan: &'a [u32], work: &'a mut [u32], numbering: &'a mut [u32]) -> Result<Self, Refusal> {
        let table = Table::of(n, plan, 1, work)?;
        if numbering.len() != n as usize {
            return Err((29, 0));
        }
        numbering.iter_mut().zip(1..).for_each(|(room, given)| *room = given);
        Ok(Self { n: n as usize, plan, work: &mut work[..(n * n) as usize], numbering, table })
    }

    /// Makes all trials, each of which says whether its exchange is kept. Once a whole round has kept nothing no later one keeps anything.
    fn tried(&mut self, trials: u32, mut keeps: impl FnMut(&mut Self, usize) -> bool) -> Ordered {
        let round = self.n - 1;
        let trials = if round == 0 { 0 } else { trials as usize };
        let (mut tried, mut kept, mut idle) = (0, 0, 0);
        while tried < trials && idle < round {
            let is_kept = keeps(self, 1 + tried % round);
            tried += 1;
            kept += u64::from(is_kept);
            idle = if is_kept { 0 } else { idle + 1 };
        }
        let (slots, distance) = (self.table.slots as u64, (self.table.slots - self.plan.len()) as u64);
        Ordered { slots, trials: trials as u64, distance, tried: tried as u64, kept }
    }

    /// Whether the plan with the rooms at t and t + 1 exchanged is accepted and has fewer slots.
    fn improves(&self, t: usize) -> bool {
        let (over, under) = (self.is_held(t, t + 1), self.is_held(t + 1, t));
        if over && under && !self.is_older(t, t + 1, t + 1) {
            return false;
        }
        let [down, right] = [self.count_past(t, false, over, under), self.count_past(t, true, under, over)];
        down[1] + right[1] < down[0] + right[0]
    }

    fn is_held(&self, i: usize, j: usize) -> bool {
        self.work[label(self.n, i, j) as usize - 1] != 0
    }

    /// Whether a held place would be without room t: it is in the plan, or the smallest h between its row and its column is below t.
    fn is_older(&self, t: usize, i: usize, j: usize) -> bool {
        let [row, column] = [i, j].map(|position| self.numbering[position - 1] as usize);
        self.plan.binary_search(&label(self.n, row, column)).is_ok() || between(&self.table, self.work, i, j) < t
    }

    /// The slots past t + 1 in the columns of both rooms or, across, in their rows: what they are, and what they would be after the
    /// exchange. A place of the second room's line is held also where the first's is and the rooms are linked.
    fn count_past(&self, t: usize, across: bool, linked: bool, back: bool) -> [usize; 2] {
        let place = |m, k| if across { (m, k) } else { (k, m) };
        let line = |m| {
            let (i, j) = place(m, t + 2);
            self.work[label(self.n, i, j) as usize - 1..].iter().map(|&slot| slot != 0)
        };
        let mut counts = [0; 2];
        for (k, (first, held)) in (t + 2..self.n + 1).zip(line(t).zip(line(t + 1))) {
            let (i, j) = place(t + 1, k);
            let second = held && (!(first && linked) || self.is_older(t, i, j));
            counts[0] += usize::from(first) + usize::from(second || first && linked);
            counts[1] += usize::from(second) + usize::from(first || second && back);
        }
        counts
    }

    /// The rooms at t and t + 1 exchanged, and the slots found anew.
    fn exchange(&mut self, t: usize) -> bool {
        self.numbering.swap(t - 1, t);
        mark(self.n, self.plan, self.numbering, self.work);
        self.table = Table::fill(self.n, self.work);
        true
    }

    /// The same, and all as it was if that isn't better.
    fn exchange_by_fill(&mut self, t: usize, spare: &mut [u32]) -> bool {
        self.numbering.swap(t - 1, t);
        mark(self.n, self.plan, self.numbering, spare);
        let table = Table::fill(self.n, spare);
        let better = table.missing == 0 && table.slots < self.table.slots;
        if better {
            self.work.copy_from_slice(spare);
            self.table = table;
        } else {
            self.numbering.swap(t - 1, t);
        }
        better
    }
}

/// Marks the plan's places where they stand under a numbering.
fn mark(n: usize, plan: &[u32], numbering: &[u32], work: &mut [u32]) {
    let mut position = vec![0; n + 1];
    numbering.iter().zip(1..).for_each(|(&room, at)| position[room as usize] = at);
    work.fill(0);
    // the labels rise, so each is in the batch of the one before or in a later one
    let (mut m, mut before) = (1, 0);
    for &k in plan {
        while before + 2 * (n - m) + 1 < k as usize {
            before += 2 * (n - m) + 1;
            m += 1;
        }
        let left = k as usize - before;
        let (i, j) = if left <= n - m + 1 { (m + left - 1, m) } else { (m, 2 * m + left - n - 1) };
        work[label(n, position[i], position[j]) as usize - 1] = 1;
    }
}
