//! The lines that are printed.

use std::time::Duration;

use crate::case::Case;

/// The columns that each group has.
const COLUMNS: [&str; 5] = ["ours us", "plain us", "ratio", "ns/record", "(plain)"];

/// An empty line, then the name of a group and its columns.
pub fn head(group: &str, further: &[&str]) {
    println!();
    let columns = COLUMNS.iter().chain(further).map(|column| column.to_string());
    line(group, columns);
}

/// A name and its cells.
pub fn line(name: &str, cells: impl IntoIterator<Item = String>) {
    let cells: String = cells.into_iter().map(|cell| format!(" {cell:>11}")).collect();
    println!("{name:18}{cells}");
}

/// The cells that each group has.
pub fn cells(case: &Case, ours: Duration, plain: Duration) -> Vec<String> {
    cells_of(case.records() as f64, ours, plain)
}

/// The same for so many records.
pub fn cells_of(records: f64, ours: Duration, plain: Duration) -> Vec<String> {
    vec![micros(ours), micros(plain), ratio(ours, plain), nanos(ours, records), nanos(plain, records)]
}

pub fn micros(time: Duration) -> String {
    format!("{:.2}", time.as_secs_f64() * 1e6)
}

pub fn ratio(time: Duration, to: Duration) -> String {
    format!("{:.2}", time.as_secs_f64() / to.as_secs_f64())
}

/// The nanoseconds for each of so many.
pub fn nanos(time: Duration, count: f64) -> String {
    format!("{:.2}", time.as_secs_f64() * 1e9 / count)
}
