//! The exported functions as safe Rust, one file for each group of them. A group that the library lacks is left out by its
//! line here and the file of that name in `tests/`.

use crate::reading::{Refusal, many::Sides, plan::Written, run::Outcome};

/// Declares exported functions by the types of what `call!` hands them: numbers, slices that they read, each as a pointer and a length,
/// the limit, if they take one, and slices that they may write.
macro_rules! exported {
    ($($name:ident: [$($number:ty),*], [$($read:ty),*], [$($limit:ty)?], [$($lent:ty),*];)*) => {
        mod exported {
            extern "C" {
                $(pub fn $name(
                    $(_: $number,)* $(_: *const $read, _: usize,)* $(_: $limit,)? $(_: *mut $lent, _: usize,)* out: *mut u64,
                ) -> u64;)*
            }
        }
    };
}

/// Calls one of them with an array for its answer.
macro_rules! call {
    ($name:ident, [$($number:expr),*], [$($read:expr),*], [$($limit:expr)?], [$($lent:expr),*]) => {
        Answer::of(|out| unsafe {
            exported::$name($($number,)* $($read.as_ptr(), $read.len(),)* $($limit,)? $($lent.as_mut_ptr(), $lent.len(),)* out)
        })
    };
}

pub mod census;
pub mod compare;
pub mod compile;
pub mod costs;
pub mod file;
pub mod labels;
pub mod many;
pub mod order;
pub mod path;
pub mod residual;
pub mod run;

/// A refusal and its detail as one number.
pub fn refused(number: u32, detail: u64) -> u64 {
    assert!(detail >> 32 == 0, "a detail of more than 32 bits can't be returned");
    u64::from(number) << 32 | detail
}

/// What a call that can refuse answers: the number that it returns, and the three, four or 257 that it puts into `out`.
#[derive(Clone, Copy, Debug, PartialEq, Eq)]
pub struct Answer<const K: usize = 3> {
    pub returned: u64,
    pub out: [u64; K],
}

impl<const K: usize> Answer<K> {
    pub fn fine(out: [u64; K]) -> Self {
        Self { returned: 0, out }
    }

    pub fn refused(number: u32, detail: u64) -> Self {
        Self::stopped(number, detail, [0; K])
    }

    /// A refusal that names more than its detail.
    pub fn stopped(number: u32, detail: u64, out: [u64; K]) -> Self {
        Self { returned: refused(number, detail), out }
    }

    /// The refusal's number, 0 for none.
    pub fn number(&self) -> u32 {
        (self.returned >> 32) as u32
    }

    pub fn detail(&self) -> u64 {
        self.returned & 0xffff_ffff
    }

    /// Makes a call that is lent a dirty `out`.
    fn of(call: impl FnOnce(*mut u64) -> u64) -> Self {
        let mut out = [0xdead_beef_dead_beef; K];
        let returned = call(out.as_mut_ptr());
        Self { returned, out }
    }
}

impl Answer<257> {
    /// What a right side is told, as a run of its own would tell it.
    pub fn side(&self, side: usize) -> Answer<4> {
        let four = &self.out[4 * side + 1..4 * side + 5];
        Answer { returned: four[0], out: [four[1], four[2], four[3], 0] }
    }
}

impl From<Result<Written, Refusal>> for Answer {
    fn from(read: Result<Written, Refusal>) -> Self {
        match read {
            Ok(Written { slots, products, records }) => Self::fine([slots, products, records]),
            Err((number, detail)) => Self::refused(number, detail),
        }
    }
}

/// The entries that a file call has written.
impl From<Result<u64, Refusal>> for Answer {
    fn from(read: Result<u64, Refusal>) -> Self {
        match read {
            Ok(entries) => Self::fine([entries, 0, 0]),
            Err((number, detail)) => Self::refused(number, detail),
        }
    }
}

/// A run's with a limit.
impl From<Outcome> for Answer<4> {
    fn from(read: Outcome) -> Self {
        match read {
            Outcome::Solved { products, quotients, vanished, sweeps } => Self::fine([products, quotients, vanished, sweeps]),
            Outcome::Stopped { number, record, table, target } => Self::stopped(number, record, [table, target, 0, 0]),
            Outcome::Refused { number, detail } => Self::refused(number, detail),
        }
    }
}

/// That of a run of many right sides: four numbers for each after the first, its answer's and three of its own.
impl From<Result<Sides, Refusal>> for Answer<257> {
    fn from(read: Result<Sides, Refusal>) -> Self {
        let Sides { read, endings } = match read {
            Ok(sides) => sides,
            Err((number, detail)) => return Self::refused(number, detail),
        };
        let mut out = [0; 257];
        out[0] = read;
        for (four, ending) in out[1..].chunks_exact_mut(4).zip(endings) {
            let Answer { returned, out: [first, second, third, _] } = Answer::<4>::from(ending);
            four.copy_from_slice(&[returned, first, second, third]);
        }
        Self::fine(out)
    }
}

/// Release 1's has the first two of the four numbers, and 0.
impl From<Answer<4>> for Answer {
    fn from(Answer { returned, out: [first, second, ..] }: Answer<4>) -> Self {
        Self { returned, out: [first, second, 0] }
    }
}
