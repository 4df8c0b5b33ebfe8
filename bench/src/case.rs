//! The cases that are timed.

use crout_tests::networks::{self, Values};
use crout_tests::random::Random;
use crout_tests::reading::labels::label;

use crate::plain::{compact, compile::compile};

/// A plan, its compiled program and values that have a solution.
pub struct Case {
    pub name: String,
    pub n: u32,
    pub plan: Vec<u32>,
    pub slots: usize,
    pub products: u64,
    pub words: Vec<u32>,
    pub a: Vec<f64>,
    pub b: Vec<f64>,
}

impl Case {
    pub fn new(name: &str, n: u32, plan: Vec<u32>) -> Self {
        let random = &mut Random(1);
        let mut work = vec![0; (n * n) as usize];
        let (_, records) = compile(n, &plan, &mut work, &mut []).expect_err("no words are lent");
        let mut words = vec![0; 4 * records as usize];
        let [slots, products, _] = compile(n, &plan, &mut work, &mut words).expect("an accepted plan");
        let mut a = Values::Moderate.row(plan.len(), random);
        for m in 1..=n {
            let pivot = plan.binary_search(&label(n, m, m)).expect("the plan has its diagonal");
            a[pivot] += 10.0 * f64::from(n);
        }
        let b = Values::Moderate.row(n as usize, random);
        Self { name: name.into(), n, plan, slots: slots as usize, products, words, a, b }
    }

    /// The same with the compact program.
    pub fn compact(&self) -> Self {
        let Self { name, n, plan, products, a, b, .. } = self;
        let (mut work, mut words) = (vec![0; 4 * (n * n) as usize], vec![0; self.words.len()]);
        let [slots, ..] = compact::compile(*n, plan, &mut work, &mut words).expect("an accepted plan");
        let (name, plan, slots) = (name.clone(), plan.clone(), slots as usize);
        Self { name, n: *n, plan, slots, products: *products, words, a: a.clone(), b: b.clone() }
    }

    pub fn records(&self) -> usize {
        self.words.len() / 4
    }

    pub fn file(&self) -> Vec<u8> {
        self.words.iter().flat_map(|word| word.to_le_bytes()).collect()
    }
}

/// The diagonal, and about four more places in each row: a plan that fills much, since its order is as it comes.
pub fn random_sparse(n: u32) -> Vec<u32> {
    networks::scattered(n, 1.0, 4.0 / f64::from(n - 1), &mut Random(1))
}

/// The diagonal, a place from each room to the next, and one from the last to the first: the path of its last place names every room.
pub fn way_round(n: u32) -> Vec<u32> {
    let next = (1..n).map(|i| (i, i + 1)).chain([(n, 1)]);
    networks::plan_of(n, (1..=n).map(|i| (i, i)).chain(next))
}

#[cfg(test)]
mod tests {
    use crout_tests::reading::plan::Held;

    use super::*;

    #[test]
    fn a_random_sparse_plan_is_accepted() {
        let plan = random_sparse(300);
        assert_eq!(Held::of(300, &plan).missing(), None);
        assert!((4 * 300..6 * 300).contains(&plan.len()), "{} places", plan.len());
        assert_eq!(random_sparse(300), plan, "the same each time");
    }
}
