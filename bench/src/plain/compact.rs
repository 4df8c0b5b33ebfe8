//! A plan to a program whose slots are used again. Which value is read last by which record follows from the held places, so each place
//! takes its slot by rising label, and the records are written once.

use super::Refusal;
use super::compile::{Table, Walk, Written};

pub fn compile(n: u32, plan: &[u32], work: &mut [u32], words: &mut [u32]) -> Result<Written, Refusal> {
    let table = Table::of(n, plan, 4, work)?;
    let square = (n * n) as usize;
    let (held, further) = work[..4 * square].split_at_mut(square);
    let written = table.room(words).map(|words| {
        let (given, stack) = further.split_at_mut(square);
        let used = give(&table, held, given, stack);
        table.write(plan, given, used, words);
        table.written(used)
    });
    further.fill(0);
    written
}

/// The slots: how many there are, and the free ones, the next one on top.
struct Slots<'a> {
    used: usize,
    free: usize,
    stack: &'a mut [u32],
}

impl Slots<'_> {
    fn take(&mut self) -> u32 {
        if self.free == 0 {
            self.used += 1;
            return self.used as u32;
        }
        self.free -= 1;
        self.stack[self.free]
    }

    fn put_back(&mut self, slot: u32) {
        self.stack[self.free] = slot;
        self.free += 1;
    }

    /// Puts back the slots of the held places (m, h), h rising from the start to below m, whose row h ends as asked.
    #[inline(always)]
    fn put_back_left(&mut self, n: usize, m: usize, start: usize, given: &[u32], ends: impl Fn(usize) -> bool) {
        let mut walk = Walk::new(n, m, m, start);
        while walk.h < m {
            if ends(walk.h) && given[walk.lower] != 0 {
                self.put_back(given[walk.lower]);
            }
            walk.advance();
        }
    }
}

/// How many of the numbers are 0 before one that isn't, sixteen at a time while they are.
fn zeros(numbers: &[u32]) -> usize {
    let none = |block: &&[u32]| block.iter().fold(0, |any, number| any | number) == 0;
    let passed = 16 * numbers.chunks_exact(16).take_while(none).count();
    passed + numbers[passed..].iter().take_while(|&&number| number == 0).count()
}

/// Each held place's slot; how many there are. l(m, h) is last read in u(m, j), where j is the last held column of row h, or in y(m) if
/// that isn't right of m; the pivot of batch m in its last formula. What is right of the diagonal is read to the end.
fn give(table: &Table, held: &[u32], given: &mut [u32], stack: &mut [u32]) -> usize {
    let n = table.n;
    let mut slots = Slots { used: 0, free: 0, stack };
    // the last held column of each row so far, 0 if none is right of the diagonal
    let mut last = vec![0; n + 1];
    given.fill(0);
    let mut label = 0;
    for m in 1..=n {
        let (pivot, row) = (label, label + n + 1 - m);
        let end = row + n - m;
        while label < row {
            given[label] = slots.take();
            label += 1 + zeros(&held[label + 1..row]);
        }
        slots.put_back_left(n, m, table.first_column[m], given, |h| last[h] <= m);
        label += zeros(&held[row..end]);
        while label < end {
            let j = m + 1 + label - row;
            given[label] = slots.take();
            slots.put_back_left(n, m, table.start(m, j), given, |h| last[h] == j);
            last[m] = j;
            label += 1 + zeros(&held[label + 1..end]);
        }
        slots.put_back(given[pivot]);
    }
    slots.used
}
