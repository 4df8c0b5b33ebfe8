//! The checks 7 to 13 of a program, given as words or as a file.

use super::Refusal;

pub fn check_file(file: &[u8]) -> Result<(), Refusal> {
    let words = file.len() / 4;
    if file.len() != 4 * words {
        return Err((18, 0));
    }
    let word = |four: &[u8]| u32::from_le_bytes([four[0], four[1], four[2], four[3]]);
    check(words, |at| {
        let record = &file[16 * at..16 * at + 16];
        [word(&record[..4]), word(&record[4..8]), word(&record[8..12]), word(&record[12..])]
    })
}

pub fn check_words(words: &[u32]) -> Result<(), Refusal> {
    check(words.len(), |at| {
        let record = &words[4 * at..4 * at + 4];
        [record[0], record[1], record[2], record[3]]
    })
}

/// The target that is open.
#[derive(Clone, Copy, PartialEq)]
enum Open {
    None,
    C,
    Y,
    X,
}

#[inline(always)]
fn check(words: usize, record: impl Fn(usize) -> [u32; 4]) -> Result<(), Refusal> {
    let records = words / 4;
    if words == 0 || words != 4 * records || records > 100_000_000 {
        return Err((7, 0));
    }
    let [n, plan, slots, first] = record(0);
    if !(1..=600).contains(&n) || plan > n * n || slots > n * n {
        return Err((8, 0));
    }
    if slots == 0 {
        return check_sweep(records, record);
    }
    // the closed slots are those up to c, and slot is the one opened last
    let (mut open, mut slot, mut c, mut y, mut x) = (Open::None, 0, 0, 0, 0);
    let (mut at, mut next) = (0, first as usize);
    while next != 0 {
        if next <= at || next >= records {
            return Err((9, at as u64));
        }
        at = next;
        let [kind, p, q, following] = record(at);
        next = following as usize;
        let refused = |number| Err((number, at as u64));
        let closed = |k: u32| 1 <= k && k <= c;
        match kind {
            1 => {
                if open != Open::None {
                    return refused(11);
                }
                if p > plan || q == 0 || q > c + 1 || q > slots {
                    return refused(12);
                }
                (open, slot) = (Open::C, q);
            }
            2 => {
                if q != 0 {
                    return refused(10);
                }
                if open != Open::None {
                    return refused(11);
                }
                if p != y + 1 || p > n {
                    return refused(12);
                }
                open = Open::Y;
            }
            3 => {
                if q != 0 {
                    return refused(10);
                }
                if open != Open::None {
                    return refused(11);
                }
                if p == 0 || p != n - x || p > y {
                    return refused(12);
                }
                open = Open::X;
            }
            4..=6 => {
                let (target, reads) = match kind {
                    4 => (Open::C, 1 <= q && q <= c),
                    5 => (Open::Y, 1 <= q && q <= y),
                    _ => (Open::X, n - x < q && q <= n),
                };
                if open != target {
                    return refused(11);
                }
                if !closed(p) || !reads {
                    return refused(12);
                }
            }
            7 => {
                if q != 0 {
                    return refused(10);
                }
                if open == Open::None {
                    return refused(11);
                }
                if !closed(p) {
                    return refused(12);
                }
            }
            8 | 9 => {
                if p != 0 || q != 0 {
                    return refused(10);
                }
                match open {
                    Open::C => c = c.max(slot),
                    Open::Y if kind == 8 => y += 1,
                    Open::X if kind == 8 => x += 1,
                    _ => return refused(11),
                }
                open = Open::None;
            }
            _ => return refused(10),
        }
    }
    if open == Open::None && c == slots && y == n && x == n { Ok(()) } else { Err((13, 0)) }
}

/// The chain of a program of sweeps, whose record 0 is fine.
#[inline(always)]
fn check_sweep(records: usize, record: impl Fn(usize) -> [u32; 4]) -> Result<(), Refusal> {
    let [n, plan, _, first] = record(0);
    // x entries are closed, and perhaps the next one is open
    let (mut open, mut x) = (false, 0);
    let (mut at, mut next) = (0, first as usize);
    while next != 0 {
        if next <= at || next >= records {
            return Err((9, at as u64));
        }
        at = next;
        let [kind, p, q, following] = record(at);
        next = following as usize;
        let refused = |number| Err((number, at as u64));
        match kind {
            10 => {
                if q != 0 {
                    return refused(10);
                }
                if open {
                    return refused(11);
                }
                if p != x + 1 || p > n {
                    return refused(12);
                }
                open = true;
            }
            11 => {
                if !open {
                    return refused(11);
                }
                if p == 0 || p > plan || q == 0 || q > n {
                    return refused(12);
                }
            }
            12 => {
                if q != 0 {
                    return refused(10);
                }
                if !open {
                    return refused(11);
                }
                if p == 0 || p > plan {
                    return refused(12);
                }
            }
            8 => {
                if p != 0 || q != 0 {
                    return refused(10);
                }
                if !open {
                    return refused(11);
                }
                open = false;
                x += 1;
            }
            _ => return refused(10),
        }
    }
    if !open && x == n { Ok(()) } else { Err((13, 0)) }
}
