//! The program file: 18, 19 and the writer's 7.

use super::{Refusal, Verdict, check::check_with};

pub fn write(words: &[u32], bytes: &mut [u8]) -> Result<u64, Refusal> {
    if words.len() > 400_000_000 {
        return Err((7, 0));
    }
    if bytes.len() < 4 * words.len() {
        return Err((19, 4 * words.len() as u64));
    }
    for (four, word) in bytes.chunks_exact_mut(4).zip(words) {
        four.copy_from_slice(&word.to_le_bytes());
    }
    Ok(4 * words.len() as u64)
}

/// The word at an index of a file.
fn word(bytes: &[u8], index: usize) -> u32 {
    let four = &bytes[4 * index..4 * index + 4];
    u32::from_le_bytes(four.try_into().expect("four bytes"))
}

pub fn read(bytes: &[u8], words: &mut [u32]) -> Result<u64, Refusal> {
    if bytes.len() % 4 != 0 {
        return Err((18, 0));
    }
    let needed = bytes.len() / 4;
    if words.len() < needed {
        return Err((19, needed as u64));
    }
    for (index, entry) in words[..needed].iter_mut().enumerate() {
        *entry = word(bytes, index);
    }
    Ok(needed as u64)
}

pub fn check_file(bytes: &[u8]) -> Verdict {
    if bytes.len() % 4 != 0 {
        return Err((18, 0));
    }
    check_with(bytes.len() / 4, |index| word(bytes, index))
}
