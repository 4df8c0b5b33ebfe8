//! Document 02, A.2: why two rooms are coupled. Whether there is a path is found by a search through the plan's places, where the proved
//! code asks whether the place is held.

use super::{Verdict, labels, plan};

/// The places of a plan as a graph: from a room to each room of its row.
pub struct Rooms {
    n: u32,
    next: Vec<Vec<u32>>,
}

impl Rooms {
    pub fn of(n: u32, plan: &[u32]) -> Self {
        let places = labels::places(n);
        let mut next = vec![Vec::new(); n as usize + 1];
        for &label in plan {
            let (i, j) = places[label as usize - 1];
            next[i as usize].push(j);
        }
        Self { n, next }
    }

    fn are_a_place(&self, i: u32, j: u32) -> bool {
        (1..=self.n).contains(&i) && self.next[i as usize].contains(&j)
    }

    /// Document 02's sentences, one after another.
    pub fn is_path(&self, (i, j): (u32, u32), list: &[u32]) -> bool {
        let [first, between @ .., last] = list else {
            return false;
        };
        let from_i_to_j = *first == i && *last == j;
        let by_places = list.windows(2).all(|pair| self.are_a_place(pair[0], pair[1]));
        let below_both = between.iter().all(|&room| room < i && room < j);
        let mut named = list.to_vec();
        if i == j {
            named.pop();
        }
        named.sort_unstable();
        let none_twice = named.windows(2).all(|pair| pair[0] != pair[1]);
        from_i_to_j && by_places && below_both && none_twice
    }

    /// Whether a walk leads from i to j through rooms that are below both.
    pub fn has_walk(&self, (i, j): (u32, u32)) -> bool {
        if ![i, j].iter().all(|room| (1..=self.n).contains(room)) {
            return false;
        }
        let mut seen = vec![false; self.next.len()];
        let mut open = vec![i];
        while let Some(room) = open.pop() {
            for &next in &self.next[room as usize] {
                if next == j {
                    return true;
                }
                if next < i.min(j) && !std::mem::replace(&mut seen[next as usize], true) {
                    open.push(next);
                }
            }
        }
        false
    }
}

/// 1 to 4, 22 and 23, and the slots that are left in the work numbers after 1 to 4.
pub fn trace(n: u32, plan: &[u32], place: (u32, u32), work: &mut [u32], list_len: usize) -> Verdict {
    plan::orderly(n, plan, work)?;
    work[..(n * n) as usize].copy_from_slice(&plan::Held::of(n, plan).slots());
    if !Rooms::of(n, plan).has_walk(place) {
        return Err((22, 0));
    }
    if list_len < n as usize + 1 {
        return Err((23, 0));
    }
    Ok(())
}
