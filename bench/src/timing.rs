//! Best times of callers that take turns.

use std::cell::RefCell;
use std::hint::black_box;
use std::time::{Duration, Instant};

/// A caller: clears what it is lent, then makes its call; how long the call takes.
pub type Caller<'a> = Box<dyn Fn() -> Duration + 'a>;

/// Callers may be lent the same slices.
pub fn caller<'a, S, R>(lent: &'a RefCell<S>, clear: fn(&mut S), call: impl Fn(&mut S) -> R + 'a) -> Caller<'a> {
    Box::new(move || {
        let mut lent = lent.borrow_mut();
        clear(&mut lent);
        let start = Instant::now();
        black_box(call(black_box(&mut lent)));
        start.elapsed()
    })
}

/// The best time of each caller: at least seven turns each, and at least half a second. A turn is calls for a millisecond, so
/// that a short call beside a long one is made more often.
pub fn race<const K: usize>(callers: [Caller; K]) -> [Duration; K] {
    let mut best = [Duration::MAX; K];
    let begun = Instant::now();
    let mut turns = 0;
    while turns < 7 || begun.elapsed() < Duration::from_millis(500) {
        for (best, caller) in best.iter_mut().zip(&callers) {
            let turn = Instant::now();
            while turn.elapsed() < Duration::from_millis(1) {
                *best = caller().min(*best);
            }
        }
        turns += 1;
    }
    best
}
