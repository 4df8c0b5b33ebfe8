//! A path of a held place: the slots, then step by step to the smallest h between two entries.

use super::Refusal;
use super::compile::{Table, Walk};

/// The entries that are written into the list.
pub fn fill_path(n: u32, plan: &[u32], (i, j): (u32, u32), work: &mut [u32], list: &mut [u32]) -> Result<u64, Refusal> {
    let table = Table::slotted(n, plan, 1, work)?;
    let inside = |room: u32| (1..=n).contains(&room);
    if !inside(i) || !inside(j) || work[label(table.n, i as usize, j as usize) as usize - 1] == 0 {
        return Err((22, 0));
    }
    if list.len() <= n as usize {
        return Err((23, 0));
    }
    Ok(trace(&table, plan, work, (i, j), list))
}

fn trace(table: &Table, plan: &[u32], work: &[u32], (i, j): (u32, u32), list: &mut [u32]) -> u64 {
    let mut stack = Vec::with_capacity(table.n + 1);
    stack.push(j);
    list[0] = i;
    let mut count = 1;
    while let Some(&to) = stack.last() {
        let last = list[count - 1] as usize;
        if plan.binary_search(&label(table.n, last, to as usize)).is_ok() {
            list[count] = to;
            count += 1;
            stack.pop();
        } else {
            stack.push(between(table, work, last, to as usize) as u32);
        }
    }
    count as u64
}

/// The smallest h for which (i, h) and (h, j) are held.
pub(super) fn between(table: &Table, work: &[u32], i: usize, j: usize) -> usize {
    let mut walk = Walk::new(table.n, i, j, table.start(i, j));
    while work[walk.lower] == 0 || work[walk.upper] == 0 {
        walk.advance();
    }
    walk.h
}

/// (2.8), for a place of the table.
pub(super) fn label(n: usize, i: usize, j: usize) -> u32 {
    (if i >= j { (j - 1) * (2 * n - j) + i } else { i * (2 * n - i) - n + j }) as u32
}
