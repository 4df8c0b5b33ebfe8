//! KLU's refactor and solve. KLU has chosen another order of rows and columns, one with less fill, and the coefficients already
//! stand by columns; neither is timed.

use std::ffi::{c_int, c_void};
use std::ptr::null_mut;

use crout_tests::reading::labels;

use crate::case::Case;

/// `klu_common`, of which only KLU knows what it holds. It is below 200 bytes in the versions that Debian has.
#[repr(C, align(64))]
struct Common([u8; 1024]);

extern "C" {
    fn klu_defaults(common: *mut Common) -> c_int;
    fn klu_analyze(n: c_int, columns: *const c_int, rows: *const c_int, common: *mut Common) -> *mut c_void;
    fn klu_factor(
        columns: *const c_int,
        rows: *const c_int,
        a: *const f64,
        symbolic: *mut c_void,
        common: *mut Common,
    ) -> *mut c_void;
    fn klu_refactor(
        columns: *const c_int,
        rows: *const c_int,
        a: *const f64,
        symbolic: *mut c_void,
        numeric: *mut c_void,
        common: *mut Common,
    ) -> c_int;
    fn klu_solve(
        symbolic: *mut c_void,
        numeric: *mut c_void,
        n: c_int,
        right_sides: c_int,
        b: *mut f64,
        common: *mut Common,
    ) -> c_int;
    fn klu_free_symbolic(symbolic: *mut *mut c_void, common: *mut Common) -> c_int;
    fn klu_free_numeric(numeric: *mut *mut c_void, common: *mut Common) -> c_int;
}

/// A case's system column by column, factored once.
pub struct Klu {
    /// Where each column starts in the rows and values; one more for the end.
    columns: Vec<c_int>,
    rows: Vec<c_int>,
    a: Vec<f64>,
    b: Vec<f64>,
    pub x: Vec<f64>,
    common: Box<Common>,
    symbolic: *mut c_void,
    numeric: *mut c_void,
}

impl Klu {
    pub fn new(case: &Case) -> Option<Self> {
        let places = labels::places(case.n);
        let place = |label: u32| places[label as usize - 1];
        let mut entries: Vec<_> = case.plan.iter().map(|&label| place(label)).zip(&case.a).collect();
        entries.sort_unstable_by_key(|&((i, j), _)| (j, i));
        let mut klu = Self {
            columns: (1..=case.n + 1).map(|j| entries.partition_point(|&((_, column), _)| column < j) as c_int).collect(),
            rows: entries.iter().map(|&((i, _), _)| i as c_int - 1).collect(),
            a: entries.iter().map(|&(_, &value)| value).collect(),
            b: case.b.clone(),
            x: vec![0.0; case.b.len()],
            common: Box::new(Common([0; 1024])),
            symbolic: null_mut(),
            numeric: null_mut(),
        };
        klu.factor();
        Some(klu)
    }

    fn factor(&mut self) {
        let (n, columns, rows, common) = (self.x.len() as c_int, self.columns.as_ptr(), self.rows.as_ptr(), &mut *self.common);
        unsafe {
            assert_eq!(klu_defaults(common), 1);
            self.symbolic = klu_analyze(n, columns, rows, common);
            assert!(!self.symbolic.is_null(), "KLU can't analyze the system");
            self.numeric = klu_factor(columns, rows, self.a.as_ptr(), self.symbolic, common);
            assert!(!self.numeric.is_null(), "KLU can't factor the system");
        }
    }

    /// Whether KLU found x.
    pub fn solve(&mut self) -> bool {
        let (n, columns, rows, common) = (self.x.len() as c_int, self.columns.as_ptr(), self.rows.as_ptr(), &mut *self.common);
        self.x.copy_from_slice(&self.b);
        unsafe {
            klu_refactor(columns, rows, self.a.as_ptr(), self.symbolic, self.numeric, common) == 1
                && klu_solve(self.symbolic, self.numeric, n, 1, self.x.as_mut_ptr(), common) == 1
        }
    }
}

impl Drop for Klu {
    fn drop(&mut self) {
        unsafe {
            klu_free_numeric(&mut self.numeric, &mut *self.common);
            klu_free_symbolic(&mut self.symbolic, &mut *self.common);
        }
    }
}
