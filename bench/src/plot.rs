//! A picture of time against order, both axes logarithmic.

use std::fmt::Write;

/// A name and its points, order and microseconds.
pub struct Line {
    pub name: String,
    pub points: Vec<(f64, f64)>,
}

/// Okabe and Ito's colours, which colour-blind people tell apart too, each with a marker of its own, drawn around 0, 0.
const STYLES: [(&str, &str); 4] = [
    ("#0072b2", "M-5,0a5,5 0 1,0 10,0a5,5 0 1,0 -10,0z"),
    ("#d55e00", "M-4.6,-4.6h9.2v9.2h-9.2z"),
    ("#009e73", "M0,-6L5.6,4.4H-5.6z"),
    ("#000000", "M0,-6.2L6.2,0L0,6.2L-6.2,0z"),
];

/// The powers of ten in microseconds, from -1 on.
const DECADES: [&str; 9] = ["100 ns", "1 µs", "10 µs", "100 µs", "1 ms", "10 ms", "100 ms", "1 s", "10 s"];

const WIDTH: f64 = 820.0;
const HEIGHT: f64 = 560.0;
const LEFT: f64 = 92.0;
const RIGHT: f64 = 796.0;
const TOP: f64 = 76.0;
const BOTTOM: f64 = 490.0;

/// From a value to a place in the picture.
struct Axis {
    values: [f64; 2],
    places: [f64; 2],
}

impl Axis {
    fn at(&self, value: f64) -> f64 {
        let [from, to] = self.values;
        let [start, end] = self.places;
        start + (end - start) * (value / from).ln() / (to / from).ln()
    }

    fn holds(&self, value: f64) -> bool {
        (self.values[0]..=self.values[1]).contains(&value)
    }
}

/// The smallest and the largest of some values.
fn ends(values: impl Iterator<Item = f64>) -> [f64; 2] {
    values.fold([f64::INFINITY, 0.0], |[least, most], value| [value.min(least), value.max(most)])
}

/// The axes of order and time; the time's goes from one power of ten to another.
fn axes(lines: &[Line]) -> [Axis; 2] {
    let points = || lines.iter().flat_map(|line| &line.points);
    let [least, most] = ends(points().map(|point| point.0));
    let [short, long] = ends(points().map(|point| point.1));
    let decades = [short.log10().floor(), long.log10().ceil()].map(|power| 10f64.powi(power as i32));
    [Axis { values: [least / 1.15, most * 1.15], places: [LEFT, RIGHT] }, Axis { values: decades, places: [BOTTOM, TOP] }]
}

pub fn svg(lines: &[Line], machine: &str) -> String {
    let axes = axes(lines);
    let mut svg = format!(
        "<svg xmlns=\"http://www.w3.org/2000/svg\" viewBox=\"0 0 {WIDTH} {HEIGHT}\" width=\"{WIDTH}\" height=\"{HEIGHT}\" \
         font-family=\"Helvetica, Arial, 'DejaVu Sans', sans-serif\" font-size=\"15\" fill=\"#222\">\n\
         <rect width=\"{WIDTH}\" height=\"{HEIGHT}\" fill=\"#fff\"/>\n"
    );
    let machine = machine.replace('&', "&amp;").replace('<', "&lt;");
    text(&mut svg, [LEFT, 32.0], "font-size=\"19\" font-weight=\"bold\"", "Time of one solution against the order of the system");
    text(&mut svg, [LEFT, 56.0], "font-size=\"14\" fill=\"#555\"", &format!("best times on {machine}"));
    frame(&mut svg, &axes);
    for (at, (line, style)) in lines.iter().zip(STYLES).enumerate() {
        draw(&mut svg, &axes, line, style);
        legend(&mut svg, TOP + 16.0 + 26.0 * at as f64, &line.name, style);
    }
    svg + "</svg>\n"
}

fn text(svg: &mut String, [x, y]: [f64; 2], style: &str, words: &str) {
    writeln!(svg, "<text x=\"{x:.1}\" y=\"{y:.1}\" {style}>{words}</text>").expect("a string takes all");
}

fn path(svg: &mut String, path: &str, style: &str) {
    writeln!(svg, "<path d=\"{path}\" {style}/>").expect("a string takes all");
}

/// The grid, the numbers at its ends, and what the axes are.
fn frame(svg: &mut String, [order, time]: &[Axis; 2]) {
    let grid = "stroke=\"#ddd\" fill=\"none\"";
    for tick in [25, 40, 60, 100, 150, 200, 300, 400, 600] {
        if order.holds(tick.into()) {
            let x = order.at(tick.into());
            path(svg, &format!("M{x:.1},{TOP}V{BOTTOM}"), grid);
            text(svg, [x, BOTTOM + 22.0], "text-anchor=\"middle\"", &tick.to_string());
        }
    }
    for (power, name) in (-1..).zip(DECADES).filter(|&(power, _)| time.holds(10f64.powi(power))) {
        let y = time.at(10f64.powi(power));
        path(svg, &format!("M{LEFT},{y:.1}H{RIGHT}"), grid);
        text(svg, [LEFT - 10.0, y + 5.0], "text-anchor=\"end\"", name);
    }
    path(svg, &format!("M{LEFT},{TOP}V{BOTTOM}H{RIGHT}"), "stroke=\"#222\" fill=\"none\"");
    text(svg, [(LEFT + RIGHT) / 2.0, BOTTOM + 50.0], "text-anchor=\"middle\"", "order N (number of unknowns), log scale");
    let middle = (TOP + BOTTOM) / 2.0;
    let turned = format!("text-anchor=\"middle\" transform=\"rotate(-90 22 {middle})\"");
    text(svg, [22.0, middle], &turned, "time in µs, ms or s, log scale");
}

fn draw(svg: &mut String, [order, time]: &[Axis; 2], line: &Line, style: (&str, &str)) {
    let places: Vec<[f64; 2]> = line.points.iter().map(|&(n, micros)| [order.at(n), time.at(micros)]).collect();
    let through: Vec<String> = places.iter().map(|[x, y]| format!("{x:.1},{y:.1}")).collect();
    path(svg, &format!("M{}", through.join("L")), &format!("stroke=\"{}\" stroke-width=\"2\" fill=\"none\"", style.0));
    places.into_iter().for_each(|place| mark(svg, place, style));
}

fn mark(svg: &mut String, [x, y]: [f64; 2], (colour, marker): (&str, &str)) {
    path(svg, marker, &format!("transform=\"translate({x:.1} {y:.1})\" fill=\"{colour}\" stroke=\"#fff\""));
}

/// A line's style and name, at the left where small orders leave room above the lines.
fn legend(svg: &mut String, y: f64, name: &str, style: (&str, &str)) {
    let x = LEFT + 16.0;
    // over the grid
    path(svg, &format!("M{x},{}h264v26h-264z", y - 13.0), "fill=\"#fff\"");
    path(svg, &format!("M{x},{y}h40"), &format!("stroke=\"{}\" stroke-width=\"2\"", style.0));
    mark(svg, [x + 20.0, y], style);
    text(svg, [x + 52.0, y + 5.0], "", name);
}
