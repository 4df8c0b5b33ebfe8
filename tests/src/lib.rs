//! The exported functions as safe Rust, and an independent reading of the documents to compare them with.

pub mod calls;
pub mod lent;
pub mod networks;
pub mod programs;
pub mod random;
pub mod reading;
pub mod verdict;
