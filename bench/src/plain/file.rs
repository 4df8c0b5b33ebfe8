//! The program file: words to bytes, low byte first, and back.

use super::Refusal;

pub fn write(words: &[u32], bytes: &mut [u8]) -> Result<u64, Refusal> {
    if words.len() > 400_000_000 {
        return Err((7, 0));
    }
    let needed = 4 * words.len();
    if bytes.len() < needed {
        return Err((19, needed as u64));
    }
    for (four, word) in bytes.chunks_exact_mut(4).zip(words) {
        four.copy_from_slice(&word.to_le_bytes());
    }
    Ok(needed as u64)
}

pub fn read(bytes: &[u8], words: &mut [u32]) -> Result<u64, Refusal> {
    let fours = bytes.chunks_exact(4);
    if !fours.remainder().is_empty() {
        return Err((18, 0));
    }
    let needed = fours.len();
    if words.len() < needed {
        return Err((19, needed as u64));
    }
    for (word, four) in words.iter_mut().zip(fours) {
        *word = u32::from_le_bytes([four[0], four[1], four[2], four[3]]);
    }
    Ok(needed as u64)
}
