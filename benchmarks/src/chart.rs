//! The chart of a step's cost over n, as SVG with both axes in powers.

use crate::rows::{Fill, Kind, Row};
use std::fmt::Write;

const WIDTH: f64 = 760.0;
const HEIGHT: f64 = 480.0;
const LEFT: f64 = 80.0;
const RIGHT: f64 = 200.0;
const TOP: f64 = 50.0;
const BOTTOM: f64 = 60.0;
const STATIONS: [u32; 5] = [1, 2, 4, 8, 16];

/// One line: its name, colour, dashes and points (n, ns).
struct Line {
    name: &'static str,
    colour: &'static str,
    dashes: &'static str,
    points: Vec<(u32, f64)>,
}

/// The SVG text.
pub fn svg(rows: &[Row]) -> String {
    let lines = lines(rows);
    let all = lines.iter().flat_map(|line| &line.points);
    let (low, high) = all.fold((f64::MAX, 0f64), |(low, high), &(_, ns)| {
        (low.min(ns), high.max(ns))
    });
    let scale = Scale {
        low: low.log10().floor(),
        high: high.log10().ceil(),
    };
    let mut out = String::new();
    frame(&mut out, &scale);
    for (k, line) in lines.iter().enumerate() {
        draw(&mut out, &scale, line);
        legend(&mut out, k, line);
    }
    out.push_str("</svg>\n");
    out
}

/// The lines of the chart.
fn lines(rows: &[Row]) -> Vec<Line> {
    let (full, empty, mixed) = (Fill::Linked(8), Fill::Linked(0), Fill::Mixed);
    let library = |name, dashes, fill| Line {
        name,
        colour: "#b03a2e",
        dashes,
        points: points(rows, fill, |row| row.times.library),
    };
    let plain = |name, dashes, fill| Line {
        name,
        colour: "#1f618d",
        dashes,
        points: points(rows, fill, |row| row.times.plain),
    };
    vec![
        library("library, full", "none", full),
        plain("plain Rust, full", "none", full),
        library("library, mixed", "12 3", mixed),
        plain("plain Rust, mixed", "12 3", mixed),
        library("library, empty", "6 4", empty),
        plain("plain Rust, empty", "6 4", empty),
        Line {
            name: "floor: one pass",
            colour: "#555555",
            dashes: "2 3",
            points: points(rows, full, |row| row.times.floor),
        },
    ]
}

/// The cost of up and down for each n; for n = 1 of the refusal.
fn points(rows: &[Row], fill: Fill, of: fn(&Row) -> f64) -> Vec<(u32, f64)> {
    let wanted = |row: &&Row| {
        row.case.kind == Kind::Refusal || row.case.kind == Kind::UpDown && row.case.fill == fill
    };
    let rows = rows.iter().filter(wanted);
    rows.map(|row| (row.case.n, of(row))).collect()
}

/// The powers of ten at both ends of the upright axis.
struct Scale {
    low: f64,
    high: f64,
}

impl Scale {
    fn x(&self, n: u32) -> f64 {
        LEFT + f64::from(n).log2() / 4.0 * (WIDTH - LEFT - RIGHT)
    }

    fn y(&self, ns: f64) -> f64 {
        let part = (ns.log10() - self.low) / (self.high - self.low);
        HEIGHT - BOTTOM - part * (HEIGHT - TOP - BOTTOM)
    }
}

/// The background, title, axes and their labels.
fn frame(out: &mut String, scale: &Scale) {
    let _ = writeln!(
        out,
        "<svg xmlns=\"http://www.w3.org/2000/svg\" viewBox=\"0 0 {WIDTH} {HEIGHT}\" \
         width=\"{WIDTH}\" height=\"{HEIGHT}\" font-family=\"sans-serif\" font-size=\"13\">\n\
         <rect width=\"100%\" height=\"100%\" fill=\"white\"/>"
    );
    let (left, right) = (LEFT, WIDTH - RIGHT);
    let (middle, upright) = ((left + right) / 2.0, (TOP + HEIGHT - BOTTOM) / 2.0);
    let title = "Cost of one step (up or down of a channel)";
    text(out, middle, 28.0, "middle", title);
    let under = "n, stations (n = 1: check and refusal)";
    text(out, middle, HEIGHT - 16.0, "middle", under);
    let _ = writeln!(
        out,
        "<text x=\"24\" y=\"{upright}\" text-anchor=\"middle\" \
         transform=\"rotate(-90 24 {upright})\">nanoseconds, log scale</text>"
    );
    for n in STATIONS {
        let x = scale.x(n);
        stroke(out, (x, TOP), (x, HEIGHT - BOTTOM), "#eeeeee");
        text(out, x, HEIGHT - BOTTOM + 20.0, "middle", &n.to_string());
    }
    for power in scale.low as i32..=scale.high as i32 {
        let ns = 10f64.powi(power);
        let y = scale.y(ns);
        stroke(out, (left, y), (right, y), "#cccccc");
        text(out, left - 8.0, y + 4.0, "end", &thousands(ns));
    }
}

/// A number with commas.
fn thousands(number: f64) -> String {
    let digits = format!("{number:.0}");
    let parts: Vec<&[u8]> = digits.as_bytes().rchunks(3).rev().collect();
    String::from_utf8(parts.join(&b',')).expect("digits")
}

fn text(out: &mut String, x: f64, y: f64, anchor: &str, words: &str) {
    let _ = writeln!(
        out,
        "<text x=\"{x:.1}\" y=\"{y:.1}\" text-anchor=\"{anchor}\">{words}</text>"
    );
}

fn stroke(out: &mut String, from: (f64, f64), to: (f64, f64), colour: &str) {
    let _ = writeln!(
        out,
        "<line x1=\"{:.1}\" y1=\"{:.1}\" x2=\"{:.1}\" y2=\"{:.1}\" stroke=\"{colour}\"/>",
        from.0, from.1, to.0, to.1
    );
}

/// A line with a dot at every point.
fn draw(out: &mut String, scale: &Scale, line: &Line) {
    let places = line.points.iter().map(|&(n, ns)| (scale.x(n), scale.y(ns)));
    let path: Vec<String> = places
        .clone()
        .map(|(x, y)| format!("{x:.1},{y:.1}"))
        .collect();
    let Line { colour, dashes, .. } = line;
    let path = path.join(" ");
    let _ = writeln!(
        out,
        "<polyline points=\"{path}\" fill=\"none\" stroke=\"{colour}\" stroke-width=\"2\" \
         stroke-dasharray=\"{dashes}\"/>"
    );
    for (x, y) in places {
        let _ = writeln!(
            out,
            "<circle cx=\"{x:.1}\" cy=\"{y:.1}\" r=\"3\" fill=\"{colour}\"/>"
        );
    }
}

/// The name of a line beside the chart, with its last value.
fn legend(out: &mut String, k: usize, line: &Line) {
    let (x, y) = (WIDTH - RIGHT + 16.0, TOP + 20.0 + 44.0 * k as f64);
    let Line { colour, dashes, .. } = line;
    let _ = writeln!(
        out,
        "<line x1=\"{x}\" y1=\"{y}\" x2=\"{}\" y2=\"{y}\" stroke=\"{colour}\" stroke-width=\"2\" \
         stroke-dasharray=\"{dashes}\"/>",
        x + 30.0
    );
    text(out, x + 38.0, y + 4.0, "start", line.name);
    if let Some(&(n, ns)) = line.points.last() {
        let at = format!("n = {n}: {} ns", thousands(ns));
        text(out, x + 38.0, y + 20.0, "start", &at);
    }
}
