//! `crout_compile` and `crout_compile_compact` beside the plain compilers.

use std::cell::RefCell;

use crout_tests::calls::{self, Answer};

use crate::case::Case;
use crate::plain::{self, Refusal};
use crate::table;
use crate::timing::{Caller, caller, race};

/// The columns beside those of each group, where slots are used again: `crout_compile`, and ours over it.
pub const COMPACT_COLUMNS: [&str; 2] = ["compile us", "ratio"];

/// The slices that the compiler may write.
struct Written {
    work: Vec<u32>,
    words: Vec<u32>,
}

impl Written {
    fn clear(&mut self) {
        self.work.fill(0);
        self.words.fill(0);
    }
}

/// The slices for a case, with so many squares of work numbers.
fn lent(case: &Case, squares: usize) -> RefCell<Written> {
    RefCell::new(Written { work: vec![0; squares * (case.n * case.n) as usize], words: vec![0; case.words.len()] })
}

/// A call that compiles: order, plan, work numbers and words.
type Call<A> = fn(u32, &[u32], &mut [u32], &mut [u32]) -> A;

/// The library's compiler and the plain one, which both write the case's program.
pub struct Compilers<'a> {
    case: &'a Case,
    ours: Call<Answer>,
    plain: Call<Result<plain::compile::Written, Refusal>>,
    to: RefCell<Written>,
}

impl<'a> Compilers<'a> {
    pub fn new(case: &'a Case) -> Self {
        Self { case, ours: calls::compile::compile, plain: plain::compile::compile, to: lent(case, 1) }.compared()
    }

    /// Those whose slots are used again; the case is the compact one.
    fn compact(case: &'a Case) -> Self {
        Self { case, ours: calls::compile::compile_compact, plain: plain::compact::compile, to: lent(case, 4) }.compared()
    }

    /// Each once, and that they write the same.
    fn compared(self) -> Self {
        let Case { n, plan, words, .. } = self.case;
        let mut to = self.to.borrow_mut();
        let Written { work, words: written } = &mut *to;
        let answer = (self.plain)(*n, plan, work, written).expect("an accepted plan");
        assert!(written == words, "the plain program differs");
        written.fill(0);
        assert_eq!((self.ours)(*n, plan, work, written), Answer::fine(answer));
        assert!(written == words, "the programs differ");
        drop(to);
        self
    }

    pub fn ours(&self) -> Caller<'_> {
        let Case { n, plan, .. } = self.case;
        caller(&self.to, Written::clear, |to| (self.ours)(*n, plan, &mut to.work, &mut to.words))
    }

    fn plain(&self) -> Caller<'_> {
        let Case { n, plan, .. } = self.case;
        caller(&self.to, Written::clear, |to| (self.plain)(*n, plan, &mut to.work, &mut to.words))
    }
}

pub fn compile(case: &Case) {
    let compilers = Compilers::new(case);
    let [ours, plain] = race([compilers.ours(), compilers.plain()]);
    table::line(&case.name, table::cells(case, ours, plain));
}

pub fn compact(case: &Case) {
    let compact = case.compact();
    let (compilers, first) = (Compilers::compact(&compact), Compilers::new(case));
    let [ours, plain, first] = race([compilers.ours(), compilers.plain(), first.ours()]);
    let mut cells = table::cells(case, ours, plain);
    cells.extend([table::micros(first), table::ratio(ours, first)]);
    table::line(&case.name, cells);
}

/// The slots of both compilers' programs.
pub fn slots(case: &Case) {
    let (plain, compact) = (case.slots, case.compact().slots);
    let cells = [plain.to_string(), compact.to_string(), format!("{:.2}", compact as f64 / plain as f64)];
    table::line(&case.name, cells);
}
