//! The check of a file by the library and by the reading.

use crate::calls::{file::check, refused};
use crate::programs::bytes_of;
use crate::reading::{Refusal, file::check_file};

/// The reading's verdict on a file, which is also the library's.
pub fn verdict(file: &[u8]) -> Option<Refusal> {
    let expected = check_file(file).err();
    let returned = expected.map_or(0, |(number, detail)| refused(number, detail));
    assert_eq!(check(file), returned, "expected {expected:?} on a file of {} bytes", file.len());
    expected
}

/// The same of a program's file: the refusal's number, 0 for none.
pub fn verdict_on(words: &[u32]) -> u32 {
    verdict(&bytes_of(words)).map_or(0, |(number, _)| number)
}
