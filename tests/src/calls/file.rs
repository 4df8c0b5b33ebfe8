//! `crout_check`, `crout_write` and `crout_read`.

use super::Answer;

mod exported {
    extern "C" {
        pub fn crout_check(file: *const u8, file_len: usize) -> u64;
        pub fn crout_write(words: *const u32, words_len: usize, bytes: *mut u8, bytes_len: usize, out: *mut u64) -> u64;
        pub fn crout_read(bytes: *const u8, bytes_len: usize, words: *mut u32, words_len: usize, out: *mut u64) -> u64;
    }
}

/// Checks a program file: 0, or the refusal times 2^32 plus its detail.
pub fn check(file: &[u8]) -> u64 {
    unsafe { exported::crout_check(file.as_ptr(), file.len()) }
}

/// Writes words as a file; out is the bytes written, 0, 0.
pub fn write(words: &[u32], bytes: &mut [u8]) -> Answer {
    let (bytes_len, bytes) = (bytes.len(), bytes.as_mut_ptr());
    Answer::of(|out| unsafe { exported::crout_write(words.as_ptr(), words.len(), bytes, bytes_len, out) })
}

/// Reads a file into words; out is the words written, 0, 0.
pub fn read(bytes: &[u8], words: &mut [u32]) -> Answer {
    let (words_len, words) = (words.len(), words.as_mut_ptr());
    Answer::of(|out| unsafe { exported::crout_read(bytes.as_ptr(), bytes.len(), words, words_len, out) })
}
