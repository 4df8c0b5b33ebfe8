//! How the time of a run grows with the order.

use std::fmt::Write;
use std::time::Duration;

use crout_tests::networks;

use crate::case::Case;
use crate::plot::Line;
use crate::run::Run;
use crate::table;
use crate::timing::race;

/// A network of one order, and the times of a run and of dense Crout.
pub struct Point {
    network: &'static str,
    order: u32,
    records: usize,
    products: u64,
    ours: Duration,
    dense: Duration,
}

const NETWORKS: [&str; 3] = ["three-diagonal", "grid", "full"];

impl Point {
    fn of(network: &'static str, order: u32, plan: Vec<u32>) -> Self {
        let case = Case::new(network, order, plan);
        let run = Run::new(&case);
        let [ours, dense] = race([run.ours(), run.dense()]);
        Self { network, order, records: case.records(), products: case.products, ours, dense }
    }

    fn print(&self) {
        let [order, records, products] = [self.order.into(), self.records as u64, self.products].map(|count| count.to_string());
        let times = [table::micros(self.ours), table::micros(self.dense), table::ratio(self.dense, self.ours)];
        table::line(self.network, [order, records, products].into_iter().chain(times));
    }
}

/// Measures, and prints a line for each order of each network.
pub fn measure() -> Vec<Point> {
    println!();
    table::line("growth", ["order", "records", "products", "ours us", "dense us", "times ours"].map(String::from));
    let [three_diagonal, grid, full] = NETWORKS;
    let three_diagonal = [75, 150, 300, 600].map(|n| (three_diagonal, n, networks::three_diagonal(n)));
    let grid = [6, 12, 18, 24].map(|side| (grid, side * side, networks::grid(side * side, side)));
    let full = [75, 150, 300].map(|n| (full, n, networks::full(n)));
    let plans = three_diagonal.into_iter().chain(grid).chain(full);
    let measured = plans.map(|(network, order, plan)| Point::of(network, order, plan)).inspect(Point::print);
    measured.collect()
}

fn micros(time: Duration) -> f64 {
    time.as_secs_f64() * 1e6
}

pub fn csv(points: &[Point]) -> String {
    let mut csv = String::from("network,order,records,products,ours_us,dense_us\n");
    for Point { network, order, records, products, ours, dense } in points {
        let (ours, dense) = (micros(*ours), micros(*dense));
        writeln!(csv, "{network},{order},{records},{products},{ours:.3},{dense:.3}").expect("a string takes all");
    }
    csv
}

/// A line for each network, and one for dense Crout. Any plan of an order takes it the same time: the first network's.
pub fn lines(points: &[Point]) -> Vec<Line> {
    let line = |name: String, network: &str, time: fn(&Point) -> Duration| {
        let of_network = points.iter().filter(|point| point.network == network);
        Line { name, points: of_network.map(|point| (point.order.into(), micros(time(point)))).collect() }
    };
    let mut lines: Vec<Line> =
        NETWORKS.iter().map(|network| line(format!("crout_run, {network}"), network, |point| point.ours)).collect();
    lines.push(line("dense Crout, any network".into(), NETWORKS[0], |point| point.dense));
    lines
}
