//! Document 02, A.11: the plain program with its slots renamed. Only the records are looked at: which value each opens, reads and closes.

use std::collections::{BTreeMap, BTreeSet};

use super::{Refusal, plan, plan::Written};

/// The compact compiler's answer, and what it leaves in the lent slices.
pub fn compile(n: u32, plan: &[u32], work: &mut [u32], words: &mut [u32]) -> Result<Written, Refusal> {
    let square = if (1..=600).contains(&n) { (n * n) as usize } else { 0 };
    if work.len() < 4 * square {
        return Err((2, 4 * square as u64));
    }
    let answer = plan::compile(n, plan, work, words);
    if !matches!(answer, Err((1..=4, _))) {
        work[square..4 * square].fill(0);
    }
    let mut written = answer?;
    written.slots = rename(&mut words[..4 * written.records as usize]).into();
    Ok(written)
}

/// The slots that a record reads or, if it closes the slot that is open, that one.
fn touched([kind, p, q]: [u32; 3], open: u32) -> Vec<u32> {
    match kind {
        4 => vec![p, q],
        5..=7 => vec![p],
        8 | 9 if open != 0 => vec![open],
        _ => vec![],
    }
}

/// The records after record 0, each with the slot of C that is open before it, 0 for none.
fn records(words: &[u32]) -> Vec<([u32; 3], u32)> {
    let mut open = 0;
    let with_open = |record: &[u32]| {
        let before = open;
        open = match record[0] {
            1 => record[2],
            8 | 9 => 0,
            _ => open,
        };
        ([record[0], record[1], record[2]], before)
    };
    words.chunks_exact(4).skip(1).map(with_open).collect()
}

/// For each record the values whose life ends there: the last that reads them, or their closing, which every reading comes after.
fn deaths(words: &[u32]) -> Vec<Vec<u32>> {
    let records = records(words);
    let mut last = BTreeMap::new();
    for (at, &(record, open)) in records.iter().enumerate() {
        last.extend(touched(record, open).into_iter().map(|slot| (slot, at)));
    }
    let mut deaths = vec![vec![]; records.len()];
    last.into_iter().for_each(|(slot, at): (u32, usize)| deaths[at].push(slot));
    deaths
}

/// Renames the slots of a program whose records stand in the order of its chain; the number of slots afterwards.
pub fn rename(words: &mut [u32]) -> u32 {
    let deaths = deaths(words);
    let mut rooms: BTreeMap<u32, u32> = BTreeMap::new();
    // each with the record that freed it: the one freed last is the greatest, and so is the highest of several
    let mut free: BTreeSet<(usize, u32)> = BTreeSet::new();
    let mut used = 0;
    for (at, (record, dead)) in words.chunks_exact_mut(4).skip(1).zip(deaths).enumerate() {
        if record[0] == 1 {
            let room = free.pop_last().map_or(used + 1, |(_, room)| room);
            used = used.max(room);
            rooms.insert(record[2], room);
        }
        match record[0] {
            1 => record[2] = rooms[&record[2]],
            4 => (record[1], record[2]) = (rooms[&record[1]], rooms[&record[2]]),
            5..=7 => record[1] = rooms[&record[1]],
            _ => {}
        }
        free.extend(dead.into_iter().map(|slot| (at, rooms[&slot])));
    }
    words[2] = used;
    used
}

/// The largest number of values alive at any record of a plain program, found from its end: going back, a value is alive from the
/// first record that reads or closes it to its opening.
pub fn most_alive(words: &[u32]) -> u64 {
    let mut alive = BTreeSet::new();
    let mut most = 0;
    for (record, open) in records(words).into_iter().rev() {
        alive.extend(touched(record, open));
        most = most.max(alive.len());
        if record[0] == 1 {
            assert!(alive.remove(&record[2]), "a value that is never closed");
        }
    }
    most as u64
}

/// The slots in the order in which a program opens them.
pub fn opened(words: &[u32]) -> Vec<u32> {
    words.chunks_exact(4).skip(1).filter(|record| record[0] == 1).map(|record| record[2]).collect()
}
