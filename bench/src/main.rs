//! The exported functions beside plain Rust: a line for each case with the best times in microseconds, their ratio, and the
//! nanoseconds for each record (and, for a run, each product), ours first. Beside a run stand dense Crout and, where it is
//! installed, KLU, beside the compact program ours of the plain one, and beside a program with spare records ours of the compiled
//! one. Many right sides at once stand beside as many runs, paths beside a compilation of their plan; a better numbering has
//! nanoseconds for each trial, and what is left over of a solution nanoseconds for each product. Sweeps stand beside one Crout run of
//! the same system, on some networks and then on grids of rising orders. The callers take turns, and what they may write is cleared
//! before each timing.
//!
//! The last table has the time of a run against the order. `--csv FILE` and `--plot FILE` write it as CSV and as a picture; with
//! `growth` nothing else is measured.

use std::fs;
use std::process::ExitCode;
use std::thread::available_parallelism;

use case::Case;
use crout_tests::networks;

mod case;
mod census;
mod check;
mod compare;
mod compile;
mod file;
mod growth;
#[cfg(klu)]
mod klu;
#[cfg(not(klu))]
#[path = "klu_absent.rs"]
mod klu;
mod many;
mod order;
mod path;
mod plain;
mod plot;
mod residual;
mod run;
mod sweep;
mod table;
mod timing;

/// What the arguments ask for.
#[derive(Default)]
struct Wanted {
    only_growth: bool,
    csv: Option<String>,
    plot: Option<String>,
}

impl Wanted {
    /// None if the arguments aren't understood.
    fn of(mut arguments: impl Iterator<Item = String>) -> Option<Self> {
        let mut wanted = Self::default();
        while let Some(argument) = arguments.next() {
            match argument.as_str() {
                "growth" => wanted.only_growth = true,
                "--csv" => wanted.csv = Some(arguments.next()?),
                "--plot" => wanted.plot = Some(arguments.next()?),
                _ => return None,
            }
        }
        Some(wanted)
    }
}

/// The processor's name, if the system tells it, and how many there are.
fn machine() -> String {
    let info = fs::read_to_string("/proc/cpuinfo").unwrap_or_default();
    let name = info.lines().find_map(|line| line.strip_prefix("model name")?.split_once(": "));
    let count = available_parallelism().map_or("?".into(), |count| count.to_string());
    format!("{} ({count} processors)", name.map_or("an unknown processor", |(_, name)| name.trim()))
}

/// The tables of ours beside others.
fn beside() {
    let small = Case::new("three-diagonal 100", 100, networks::three_diagonal(100));
    let large = Case::new("three-diagonal 600", 600, networks::three_diagonal(600));
    let grid = Case::new("grid 24 x 24", 576, networks::grid(576, 24));
    let random = Case::new("random sparse 300", 300, case::random_sparse(300));
    let full_100 = Case::new("full 100", 100, networks::full(100));
    let full_300 = Case::new("full 300", 300, networks::full(300));
    let cases = [&small, &large, &grid, &random, &full_100, &full_300];
    table::head("compile", &[]);
    cases.into_iter().for_each(compile::compile);
    table::head("compile compact", &compile::COMPACT_COLUMNS);
    cases.into_iter().for_each(compile::compact);
    table::head("check", &[]);
    cases.into_iter().for_each(check::check);
    table::head("compare", &[]);
    cases.into_iter().for_each(compare::compare);
    table::head("compare spaced", &compare::SPACED_COLUMNS);
    cases.into_iter().for_each(compare::compare_spaced);
    let sparse = Case::new("random sparse 600", 600, case::random_sparse(600));
    let round = Case::new("way round 600", 600, case::way_round(600));
    let full_600 = Case::new("full 600", 600, networks::full(600));
    path::paths(&grid, &[&large, &sparse, &round, &full_600]);
    census::census();
    order::orders(&[&large, &grid, &random], &grid);
    table::head("file round trip", &[]);
    cases.into_iter().for_each(file::round_trip);
    table::head("read a file", &[]);
    cases.into_iter().for_each(file::read);
    table::head("run", &run::COLUMNS);
    cases.into_iter().for_each(run::run);
    table::head("run compact", &run::COMPACT_COLUMNS);
    cases.into_iter().for_each(run::compact);
    table::head("many right sides", &many::COLUMNS);
    [&large, &grid].into_iter().for_each(many::many);
    residual::residuals(&cases);
    table::head("sweeps", &sweep::COLUMNS);
    sweep::sweeps();
    sweep::searches();
    println!();
    table::line("slots", ["plain", "compact", "ratio"].map(String::from));
    cases.into_iter().for_each(compile::slots);
}

fn refused(why: &str) -> ExitCode {
    eprintln!("{why}");
    ExitCode::FAILURE
}

fn main() -> ExitCode {
    let Some(wanted) = Wanted::of(std::env::args().skip(1)) else {
        return refused("arguments: [growth] [--csv FILE] [--plot FILE]");
    };
    println!("best times in microseconds on {}", machine());
    if !wanted.only_growth {
        beside();
    }
    let growth = growth::measure();
    let csv = wanted.csv.map(|to| fs::write(to, growth::csv(&growth)));
    let plot = wanted.plot.map(|to| fs::write(to, plot::svg(&growth::lines(&growth), &machine())));
    match csv.into_iter().chain(plot).collect::<std::io::Result<()>>() {
        Ok(()) => ExitCode::SUCCESS,
        Err(error) => refused(&format!("not written: {error}")),
    }
}
