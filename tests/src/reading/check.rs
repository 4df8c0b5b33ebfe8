//! Checks 7 to 13: a program's words, followed along its chain. A slot may be opened again (document 02, A.11), so which of them have
//! been closed is kept one by one. A program without slots is one of sweeps (A.7), which has kinds of its own.

use super::Verdict;

struct Progress {
    /// 0 for none, else the open table: 1 for C, 2 for Y, 3 for X, which is the only one of a sweep.
    open: u32,
    /// The slot opened last.
    slot: u32,
    /// Whether each slot has been closed; the first entry is unused.
    closed: Vec<bool>,
    /// The highest slot closed so far, 0 for none.
    highest: u32,
    y: u32,
    x: u32,
}

/// Record 0's N, n and s.
struct Head {
    n: u32,
    plan: u32,
    slots: u32,
}

impl Progress {
    fn new(slots: u32) -> Self {
        Self { open: 0, slot: 0, closed: vec![false; slots as usize + 1], highest: 0, y: 0, x: 0 }
    }

    fn close(&mut self) {
        match self.open {
            1 => {
                self.closed[self.slot as usize] = true;
                self.highest = self.highest.max(self.slot);
            }
            2 => self.y += 1,
            _ => self.x += 1,
        }
        self.open = 0;
    }

    fn complete(&self, head: &Head) -> bool {
        let y = if head.slots == 0 { 0 } else { head.n };
        self.open == 0 && self.closed[1..].iter().all(|&closed| closed) && self.y == y && self.x == head.n
    }

    /// 10 to 12 for one record.
    fn step(&mut self, head: &Head, record: [u32; 3]) -> Result<(), u32> {
        if head.slots == 0 { self.step_of_sweep(head, record) } else { self.step_of_crout(head, record) }
    }

    /// Rows open as 1, 2, .. N, and their products may read every entry of X, also the open one's of the sweep before.
    fn step_of_sweep(&mut self, head: &Head, [kind, p, q]: [u32; 3]) -> Result<(), u32> {
        let (opens, unused) = match kind {
            8 => (false, p != 0 || q != 0),
            10 => (true, q != 0),
            11 => (false, false),
            12 => (false, q != 0),
            _ => return Err(10),
        };
        if unused {
            return Err(10);
        }
        if opens != (self.open == 0) {
            return Err(11);
        }
        let (coefficients, entries) = (1..=head.plan, 1..=head.n);
        let right = match kind {
            10 => entries.contains(&p) && p == self.x + 1,
            11 => coefficients.contains(&p) && entries.contains(&q),
            12 => coefficients.contains(&p),
            _ => true,
        };
        if !right {
            return Err(12);
        }
        match kind {
            10 => self.open = 3,
            8 => self.close(),
            _ => {}
        }
        Ok(())
    }

    fn step_of_crout(&mut self, head: &Head, [kind, p, q]: [u32; 3]) -> Result<(), u32> {
        let unused = match kind {
            1 | 4..=6 => false,
            2 | 3 | 7 => q != 0,
            8 | 9 => p != 0 || q != 0,
            _ => true,
        };
        if unused {
            return Err(10);
        }
        let misplaced = match kind {
            1..=3 => self.open != 0,
            4..=6 => self.open != kind - 3,
            9 => self.open != 1,
            _ => self.open == 0,
        };
        if misplaced {
            return Err(11);
        }
        let closed_c = |k: u32| self.closed.get(k as usize) == Some(&true);
        let right = match kind {
            1 => p <= head.plan && (1..=head.slots).contains(&q) && q <= self.highest + 1,
            2 => p == self.y + 1 && p <= head.n,
            3 => p >= 1 && u64::from(p) + u64::from(self.x) == u64::from(head.n) && p <= self.y,
            4 => closed_c(p) && closed_c(q),
            5 => closed_c(p) && (1..=self.y).contains(&q),
            6 => closed_c(p) && q > head.n - self.x && q <= head.n,
            7 => closed_c(p),
            _ => true,
        };
        if !right {
            return Err(12);
        }
        match kind {
            1 => (self.open, self.slot) = (1, q),
            2 | 3 => self.open = kind,
            8 | 9 => self.close(),
            _ => {}
        }
        Ok(())
    }
}

pub fn check(words: &[u32]) -> Verdict {
    check_with(words.len(), |k| words[k])
}

/// The check of a row of words of which only the length and single words are asked for.
pub fn check_with(len: usize, word: impl Fn(usize) -> u32) -> Verdict {
    let records = len / 4;
    if len == 0 || len % 4 != 0 || records > 100_000_000 {
        return Err((7, 0));
    }
    let head = Head { n: word(0), plan: word(1), slots: word(2) };
    let square = u64::from(head.n) * u64::from(head.n);
    if !(1..=600).contains(&head.n) || u64::from(head.plan) > square || u64::from(head.slots) > square {
        return Err((8, 0));
    }
    let mut progress = Progress::new(head.slots);
    let mut at = 0;
    loop {
        let next = word(4 * at + 3) as usize;
        if next == 0 {
            break;
        }
        if next <= at || next >= records {
            return Err((9, at as u64));
        }
        at = next;
        let record = [word(4 * at), word(4 * at + 1), word(4 * at + 2)];
        progress.step(&head, record).map_err(|number| (number, at as u64))?;
    }
    if progress.complete(&head) { Ok(()) } else { Err((13, 0)) }
}

/// The records of the chain in order, without record 0. The words have passed the check.
pub fn chain(words: &[u32]) -> Vec<u64> {
    let next = |at: u64| Some(u64::from(words[4 * at as usize + 3])).filter(|&next| next != 0);
    std::iter::successors(next(0), |&at| next(at)).collect()
}
