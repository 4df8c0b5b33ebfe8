//! A plan to a program: marks, fill by search, slots, counts, then the records.

use super::Refusal;

/// Slots, products, records.
pub type Written = [u64; 3];

pub fn compile(n: u32, plan: &[u32], work: &mut [u32], words: &mut [u32]) -> Result<Written, Refusal> {
    let table = Table::of(n, plan, 1, work)?;
    let words = table.room(words)?;
    table.write(plan, &work[..(n * n) as usize], table.slots, words);
    Ok(table.written(table.slots))
}

/// 3 and 4: the first bad label.
pub(super) fn judge(n: u32, plan: &[u32]) -> Result<(), Refusal> {
    let mut before = 0;
    for (position, &label) in (1..).zip(plan) {
        if label < 1 || label > n * n {
            return Err((3, position));
        }
        if label <= before {
            return Err((4, position));
        }
        before = label;
    }
    Ok(())
}

/// Work number K becomes 1 where label K is in the plan, else 0.
fn mark(plan: &[u32], work: &mut [u32]) {
    work.fill(0);
    for &label in plan {
        work[label as usize - 1] = 1;
    }
}

/// What is known of the held places beside their slots, which stand in the work slice by label. Rows and columns count from 1.
pub(super) struct Table {
    pub(super) n: usize,
    pub(super) slots: usize,
    /// The first held column of each row, and the first held row of each column; above n while there is none.
    pub(super) first_column: Vec<usize>,
    first_row: Vec<usize>,
    /// The held places below each pivot, and those to the right of it.
    below: Vec<usize>,
    right: Vec<usize>,
    /// The first missing pivot, 0 if none is.
    pub(super) missing: usize,
}

/// The indices in the work slice of (i, h) and (h, j) for h rising, by additions; h is below both i and j.
pub(super) struct Walk {
    pub(super) h: usize,
    pub(super) lower: usize,
    pub(super) upper: usize,
    step: usize,
}

impl Walk {
    pub(super) fn new(n: usize, i: usize, j: usize, h: usize) -> Self {
        Self { h, lower: (h - 1) * (2 * n - h) + i - 1, upper: h * (2 * n - h) - n + j - 1, step: 2 * (n - h) }
    }

    pub(super) fn advance(&mut self) {
        self.h += 1;
        self.lower += self.step;
        self.upper += self.step - 1;
        self.step -= 2;
    }
}

/// How many of the next places, with these marks and first held lines, are not in the plan and can have no pair in batch m.
fn empties(first: &[usize], m: usize, marks: &[u32]) -> usize {
    first.iter().zip(marks).take_while(|&(&h, &mark)| mark == 0 && h >= m).count()
}

impl Table {
    /// Checks 1 to 4, where 2 wants so many squares of work numbers; the first of them gets the slots.
    pub(super) fn slotted(n: u32, plan: &[u32], squares: usize, work: &mut [u32]) -> Result<Self, Refusal> {
        if !(1..=600).contains(&n) {
            return Err((1, 0));
        }
        let square = (n * n) as usize;
        if work.len() < squares * square {
            return Err((2, (squares * square) as u64));
        }
        judge(n, plan)?;
        let slots = &mut work[..square];
        mark(plan, slots);
        Ok(Self::fill(n as usize, slots))
    }

    /// The same, and 5.
    pub(super) fn of(n: u32, plan: &[u32], squares: usize, work: &mut [u32]) -> Result<Self, Refusal> {
        let table = Self::slotted(n, plan, squares, work)?;
        if table.missing != 0 {
            work[..squares * (n * n) as usize].fill(0);
            return Err((5, table.missing as u64));
        }
        Ok(table)
    }

    /// The slots of all places by rising label, in the place of their marks.
    pub(super) fn fill(n: usize, work: &mut [u32]) -> Self {
        let mut table = Self {
            n,
            slots: 0,
            first_column: vec![n + 1; n + 1],
            first_row: vec![n + 1; n + 1],
            below: vec![0; n + 1],
            right: vec![0; n + 1],
            missing: 0,
        };
        let mut label = 0;
        for m in 1..=n {
            let pivot = label;
            let mut i = m;
            while i <= n {
                let places = table.settle(i, m, label, work);
                label += places;
                i += places;
            }
            if work[pivot] == 0 && table.missing == 0 {
                table.missing = m;
            }
            let mut j = m + 1;
            while j <= n {
                let places = table.settle(m, j, label, work);
                label += places;
                j += places;
            }
        }
        table
    }

    /// A place takes its slot or 0, and those after it in its column or row that can't be held are passed; how many places that is.
    #[inline(always)]
    fn settle(&mut self, i: usize, j: usize, label: usize, work: &mut [u32]) -> usize {
        if work[label] != 0 || self.filled(i, j, work) {
            work[label] = self.hold(i, j);
        }
        let first = if j <= i { &self.first_column[i + 1..] } else { &self.first_row[j + 1..] };
        1 + empties(first, i.min(j), &work[label + 1..])
    }

    /// The h from which on (i, h) and (h, j) can both be held.
    pub(super) fn start(&self, i: usize, j: usize) -> usize {
        self.first_column[i].max(self.first_row[j])
    }

    /// Whether some h below both i and j has (i, h) and (h, j) held.
    #[inline(always)]
    fn filled(&self, i: usize, j: usize, work: &[u32]) -> bool {
        let start = self.start(i, j);
        start < i.min(j) && self.search(i, j, start, work)
    }

    fn search(&self, i: usize, j: usize, start: usize, work: &[u32]) -> bool {
        let mut walk = Walk::new(self.n, i, j, start);
        while walk.h < i.min(j) {
            if work[walk.lower] != 0 && work[walk.upper] != 0 {
                return true;
            }
            walk.advance();
        }
        false
    }

    /// Takes note of a held place; its slot.
    fn hold(&mut self, i: usize, j: usize) -> u32 {
        self.first_column[i] = self.first_column[i].min(j);
        self.first_row[j] = self.first_row[j].min(i);
        if i > j {
            self.below[j] += 1;
        } else if j > i {
            self.right[i] += 1;
        }
        self.slots += 1;
        self.slots as u32
    }

    fn products(&self) -> usize {
        self.below.iter().zip(&self.right).map(|(below, right)| below * right + below + right).sum()
    }

    fn records(&self) -> usize {
        let above: usize = self.right.iter().sum();
        1 + 2 * (self.slots + 2 * self.n) + self.products() + self.n + above
    }

    /// The words of the program, or 6.
    pub(super) fn room<'a>(&self, words: &'a mut [u32]) -> Result<&'a mut [u32], Refusal> {
        let records = self.records();
        if words.len() / 4 < records { Err((6, records as u64)) } else { Ok(&mut words[..4 * records]) }
    }

    /// What the success carries.
    pub(super) fn written(&self, slots: usize) -> Written {
        [slots as u64, self.products() as u64, self.records() as u64]
    }

    /// The program, with the number that each label's place has in the work slice.
    pub(super) fn write(&self, plan: &[u32], work: &[u32], slots: usize, words: &mut [u32]) {
        words[..4].copy_from_slice(&[self.n as u32, plan.len() as u32, slots as u32, 1]);
        let mut formulas = Formulas { table: self, plan, position: 0, work, words, record: 1 };
        let mut label = 0;
        for m in 1..=self.n {
            let pivot = work[label];
            for i in m..=self.n {
                if work[label] != 0 {
                    formulas.inner(i, m, label);
                    formulas.put(if i == m { 9 } else { 8 }, 0, 0);
                }
                label += 1;
            }
            formulas.y(m, pivot);
            for j in m + 1..=self.n {
                if work[label] != 0 {
                    formulas.inner(m, j, label);
                    formulas.put(7, pivot, 0);
                    formulas.put(8, 0, 0);
                }
                label += 1;
            }
        }
        (1..=self.n).rev().for_each(|i| formulas.x(i));
        words[4 * self.records() - 1] = 0;
    }
}

/// The records being written, and how far the plan has been followed.
struct Formulas<'a> {
    table: &'a Table,
    plan: &'a [u32],
    position: usize,
    work: &'a [u32],
    words: &'a mut [u32],
    record: usize,
}

impl Formulas<'_> {
    fn put(&mut self, kind: u32, p: u32, q: u32) {
        let at = 4 * self.record;
        self.record += 1;
        self.words[at..at + 4].copy_from_slice(&[kind, p, q, self.record as u32]);
    }

    /// The opening of l or u at a place, and its products. The places come by rising label.
    fn inner(&mut self, i: usize, j: usize, label: usize) {
        let planned = self.plan.get(self.position) == Some(&(label as u32 + 1));
        self.position += usize::from(planned);
        self.put(1, if planned { self.position as u32 } else { 0 }, self.work[label]);
        let end = i.min(j);
        let start = self.table.start(i, j);
        if start >= end {
            return;
        }
        let mut walk = Walk::new(self.table.n, i, j, start);
        while walk.h < end {
            let (l, u) = (self.work[walk.lower], self.work[walk.upper]);
            if l != 0 && u != 0 {
                self.put(4, l, u);
            }
            walk.advance();
        }
    }

    fn y(&mut self, m: usize, pivot: u32) {
        self.put(2, m as u32, 0);
        let start = self.table.first_column[m];
        let mut walk = Walk::new(self.table.n, m, m, start);
        while walk.h < m {
            let l = self.work[walk.lower];
            if l != 0 {
                self.put(5, l, walk.h as u32);
            }
            walk.advance();
        }
        self.put(7, pivot, 0);
        self.put(8, 0, 0);
    }

    fn x(&mut self, i: usize) {
        self.put(3, i as u32, 0);
        let n = self.table.n;
        let work = self.work;
        let row = &work[i * (2 * n - i) - n + i..i * (2 * n - i)];
        for (h, &u) in (i + 1..n + 1).zip(row).rev() {
            if u != 0 {
                self.put(6, u, h as u32);
            }
        }
        self.put(8, 0, 0);
    }
}
