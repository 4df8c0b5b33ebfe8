//! `crout_label` and `crout_place`.

mod exported {
    extern "C" {
        pub fn crout_label(n: u32, i: u32, j: u32) -> u32;
        pub fn crout_place(n: u32, label: u32) -> u32;
    }
}

/// The label of (i, j) in a table of order n, 0 if any of the three is out of range.
pub fn label(n: u32, i: u32, j: u32) -> u32 {
    unsafe { exported::crout_label(n, i, j) }
}

/// The place of a label in a table of order n as 1,024 times its row plus its column, 0 if it is refused.
pub fn place(n: u32, label: u32) -> u32 {
    unsafe { exported::crout_place(n, label) }
}
