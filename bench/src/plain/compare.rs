//! A program edited by hand beside its plan: the slots, the check, then the formulas of the plan against the records of the chain.

use super::Refusal;
use super::check::check_words;
use super::compile::{Table, Walk};

pub fn compare(n: u32, plan: &[u32], work: &mut [u32], words: &[u32]) -> Result<(), Refusal> {
    let table = Table::of(n, plan, 1, work)?;
    check_words(words)?;
    if words[..3] != [n, plan.len() as u32, table.slots as u32] {
        return Err((28, 0));
    }
    let mut formulas = Formulas { table: &table, plan, position: 0, work, words, at: 0, next: words[3] as usize };
    formulas.all().map_err(|record| (28, record as u64))
}

/// Nothing, or the record that differs.
type Alike = Result<(), usize>;

/// The record compared last and the one that follows it in the chain, and how far the plan has been followed.
struct Formulas<'a> {
    table: &'a Table,
    plan: &'a [u32],
    position: usize,
    work: &'a [u32],
    words: &'a [u32],
    at: usize,
    next: usize,
}

impl Formulas<'_> {
    /// The next record has to be this one.
    #[inline(always)]
    fn expect(&mut self, kind: u32, p: u32, q: u32) -> Alike {
        if self.next == 0 {
            return Err(self.at);
        }
        self.at = self.next;
        let record = &self.words[4 * self.at..4 * self.at + 4];
        self.next = record[3] as usize;
        if (record[0], record[1], record[2]) == (kind, p, q) { Ok(()) } else { Err(self.at) }
    }

    /// All formulas in dense order, and no record after them.
    fn all(&mut self) -> Alike {
        let (n, work) = (self.table.n, self.work);
        let mut label = 0;
        for m in 1..=n {
            let pivot = work[label];
            let row = label + n + 1 - m;
            for (i, &slot) in (m..).zip(&work[label..row]) {
                if slot != 0 {
                    self.inner(i, m, label + i - m)?;
                    self.expect(if i == m { 9 } else { 8 }, 0, 0)?;
                }
            }
            self.y(m, pivot)?;
            label = row + n - m;
            for (j, &slot) in (m + 1..).zip(&work[row..label]) {
                if slot != 0 {
                    self.inner(m, j, row + j - m - 1)?;
                    self.expect(7, pivot, 0)?;
                    self.expect(8, 0, 0)?;
                }
            }
        }
        (1..=n).rev().try_for_each(|i| self.x(i))?;
        if self.next == 0 { Ok(()) } else { Err(self.next) }
    }

    /// The opening of l or u at a place, and its products. The places come by rising label.
    fn inner(&mut self, i: usize, j: usize, label: usize) -> Alike {
        let planned = self.plan.get(self.position) == Some(&(label as u32 + 1));
        self.position += usize::from(planned);
        self.expect(1, if planned { self.position as u32 } else { 0 }, self.work[label])?;
        let end = i.min(j);
        let start = self.table.start(i, j);
        if start >= end {
            return Ok(());
        }
        let mut walk = Walk::new(self.table.n, i, j, start);
        while walk.h < end {
            let (l, u) = (self.work[walk.lower], self.work[walk.upper]);
            if l != 0 && u != 0 {
                self.expect(4, l, u)?;
            }
            walk.advance();
        }
        Ok(())
    }

    fn y(&mut self, m: usize, pivot: u32) -> Alike {
        self.expect(2, m as u32, 0)?;
        let mut walk = Walk::new(self.table.n, m, m, self.table.first_column[m]);
        while walk.h < m {
            let l = self.work[walk.lower];
            if l != 0 {
                self.expect(5, l, walk.h as u32)?;
            }
            walk.advance();
        }
        self.expect(7, pivot, 0)?;
        self.expect(8, 0, 0)
    }

    fn x(&mut self, i: usize) -> Alike {
        self.expect(3, i as u32, 0)?;
        let (n, work) = (self.table.n, self.work);
        let row = &work[i * (2 * n - i) - n + i..i * (2 * n - i)];
        for (h, &u) in (i + 1..n + 1).zip(row).rev() {
            if u != 0 {
                self.expect(6, u, h as u32)?;
            }
        }
        self.expect(8, 0, 0)
    }
}
