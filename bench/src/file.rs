//! A program to a file's bytes and back, and the way back alone: `crout_write` and `crout_read` beside plain Rust.

use std::cell::RefCell;

use crout_tests::calls::{self, Answer};

use crate::case::Case;
use crate::plain;
use crate::table;
use crate::timing::{caller, race};

/// The file, and the words that are read back.
struct Written {
    bytes: Vec<u8>,
    words: Vec<u32>,
}

impl Written {
    fn clear(&mut self) {
        self.bytes.fill(0);
        self.words.fill(0);
    }
}

pub fn round_trip(case: &Case) {
    let words = &case.words;
    let ours = |to: &mut Written| [calls::file::write(words, &mut to.bytes), calls::file::read(&to.bytes, &mut to.words)];
    let plain = |to: &mut Written| [plain::file::write(words, &mut to.bytes), plain::file::read(&to.bytes, &mut to.words)];
    let mut to = Written { bytes: vec![0; 4 * words.len()], words: vec![0; words.len()] };
    let written = plain(&mut to).map(Answer::from);
    assert!(to.words == *words, "plain Rust reads other words");
    to.clear();
    assert_eq!(ours(&mut to), written);
    assert!(to.words == *words && to.bytes == case.file(), "the files differ");
    let to = RefCell::new(to);
    let [ours, plain] = race([caller(&to, Written::clear, ours), caller(&to, Written::clear, plain)]);
    table::line(&case.name, table::cells(case, ours, plain));
}

pub fn read(case: &Case) {
    let file = case.file();
    let ours = |to: &mut Vec<u32>| calls::file::read(&file, to);
    let plain = |to: &mut Vec<u32>| plain::file::read(&file, to);
    let clear = |to: &mut Vec<u32>| to.fill(0);
    let mut to = vec![0; case.words.len()];
    let read = Answer::from(plain(&mut to));
    assert!(to == case.words, "plain Rust reads other words");
    clear(&mut to);
    assert_eq!(ours(&mut to), read);
    assert!(to == case.words, "the words differ");
    let to = RefCell::new(to);
    let [ours, plain] = race([caller(&to, clear, ours), caller(&to, clear, plain)]);
    table::line(&case.name, table::cells(case, ours, plain));
}
