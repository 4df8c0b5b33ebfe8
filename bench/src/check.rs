//! `crout_check` beside the plain checker.

use std::cell::RefCell;

use crout_tests::calls;

use crate::case::Case;
use crate::plain;
use crate::table;
use crate::timing::{caller, race};

pub fn check(case: &Case) {
    let file = case.file();
    assert_eq!(calls::file::check(&file), 0);
    assert_eq!(plain::check::check_file(&file), Ok(()));
    // a check writes nothing
    let (file, clear) = (RefCell::new(file), |_: &mut Vec<u8>| {});
    let ours = caller(&file, clear, |file| calls::file::check(file));
    let plain = caller(&file, clear, |file| plain::check::check_file(file));
    let [ours, plain] = race([ours, plain]);
    table::line(&case.name, table::cells(case, ours, plain));
}
