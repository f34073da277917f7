//! The plot of docs/BENCHMARKS.md, as the text of an SVG: above, the speeds of sending and reading; below, the time per symbol by length.

use crate::cases::WIRE;
use crate::growth::{Growth, LENGTHS, SHORTEST};
use crate::operations::Speeds;
use crate::tables::grouped;

const WIDTH: f64 = 960.0;
const HEIGHT: f64 = 1008.0;

const VERSIONS: [(&str, &str); 3] = [("library", "#0b5fa5"), ("hand-optimised", "#e08214"), ("independent", "#8a8a8a")];
const COLOURS: [&str; 16] = [
    "#1b9e77", "#66c2a5", "#7570b3", "#d95f02", "#e7298a", "#fee391", "#fec44f", "#fe9929", "#e6ab02", "#cc4c02", "#8c2d04", "#0b5fa5",
    "#74a9cf", "#666666", "#969696", "#c00000",
];

fn rectangle(x: f64, y: f64, width: f64, height: f64, colour: &str) -> String {
    format!("<rect x=\"{x:.1}\" y=\"{y:.1}\" width=\"{width:.1}\" height=\"{height:.1}\" fill=\"{colour}\"/>\n")
}

fn line(points: &[(f64, f64)], colour: &str, width: f64) -> String {
    let points: Vec<String> = points.iter().map(|(x, y)| format!("{x:.1},{y:.1}")).collect();
    format!("<polyline points=\"{}\" fill=\"none\" stroke=\"{colour}\" stroke-width=\"{width}\"/>\n", points.join(" "))
}

/// The anchor is start, middle or end: which part of the text is at x.
fn text(x: f64, y: f64, anchor: &str, size: u32, words: &str) -> String {
    format!("<text x=\"{x:.1}\" y=\"{y:.1}\" text-anchor=\"{anchor}\" font-size=\"{size}\">{words}</text>\n")
}

/// A rectangle of the picture in which something is drawn. Heights go from 0 to 1.
struct Panel {
    left: f64,
    top: f64,
    width: f64,
    height: f64,
}

impl Panel {
    fn y(&self, part: f64) -> f64 {
        self.top + self.height * (1.0 - part)
    }

    /// A line across, with its label at the left.
    fn rule(&self, part: f64, label: &str) -> String {
        let y = self.y(part);
        line(&[(self.left, y), (self.left + self.width, y)], "#dddddd", 1.0) + &text(self.left - 6.0, y + 4.0, "end", 11, label)
    }
}

/// Bars of the first three cases of two operations, and the wire.
fn bars(speeds: &[Speeds]) -> String {
    let panel = Panel { left: 70.0, top: 60.0, width: 860.0, height: 290.0 };
    let chosen: Vec<&Speeds> =
        ["send", "read"].iter().flat_map(|name| speeds.iter().filter(move |s| s.operation == *name).take(3)).collect();
    let most = chosen.iter().map(|s| s.library.max(s.fast).max(s.plain)).fold(WIRE, f64::max);
    let top = (most / 500.0).ceil() * 500.0;
    let mut svg = text(panel.left, 30.0, "start", 15, "Sending and reading a span: M symbols/s, more is better");
    for k in 0..=(top / 500.0) as u32 {
        let rate = f64::from(k) * 500.0;
        svg += &panel.rule(rate / top, &grouped(rate));
    }
    let wire = panel.y(WIRE / top);
    svg += &line(&[(panel.left, wire), (panel.left + panel.width, wire)], "#c00000", 1.5);
    let step = panel.width / chosen.len() as f64;
    let bar = step / 4.0;
    for (k, s) in chosen.iter().enumerate() {
        let left = panel.left + step * k as f64 + bar / 2.0;
        for (v, rate) in [s.library, s.fast, s.plain].into_iter().enumerate() {
            let (x, y) = (left + bar * v as f64, panel.y(rate / top));
            svg += &rectangle(x, y, bar - 2.0, panel.y(0.0) - y, VERSIONS[v].1);
            // White behind the number, in case it is on a line.
            svg += &rectangle(x, y - 14.0, bar - 2.0, 13.0, "#ffffff");
            svg += &text(x + bar / 2.0 - 1.0, y - 4.0, "middle", 10, &grouped(rate));
        }
        svg += &text(left + bar * 1.5, panel.y(0.0) + 18.0, "middle", 11, &format!("{}, {}", s.operation, s.case));
    }
    let (mut x, y) = (panel.left, panel.y(0.0) + 44.0);
    for (label, colour) in VERSIONS.into_iter().chain([("the wire: 1,069", "#c00000")]) {
        svg += &rectangle(x, y - 10.0, 12.0, 12.0, colour);
        svg += &text(x + 18.0, y, "start", 11, label);
        x += 150.0;
    }
    svg
}

/// Both axes are logarithmic: lengths by powers of two, nanoseconds by powers of ten.
fn curves(panel: &Panel, title: &str, decades: (i32, i32), times: &[[f64; LENGTHS]]) -> String {
    let (low, high) = decades;
    let part = |time: f64| (time.log10() - f64::from(low)) / f64::from(high - low);
    let x = |k: usize| panel.left + panel.width * k as f64 / (LENGTHS - 1) as f64;
    let mut svg = text(panel.left + panel.width / 2.0, panel.top - 8.0, "middle", 12, title);
    for decade in low..=high {
        let time = 10f64.powi(decade);
        svg += &panel.rule(part(time), &format!("{time}"));
    }
    for k in 0..LENGTHS {
        svg += &text(x(k), panel.y(0.0) + 18.0, "middle", 11, &format!("2^{}", SHORTEST + k));
    }
    svg += &text(panel.left + panel.width / 2.0, panel.y(0.0) + 36.0, "middle", 11, "symbols in the recording");
    // From broad to narrow: where two coincide, both are seen.
    for (kind, (times, colour)) in times.iter().zip(COLOURS).enumerate() {
        let points: Vec<(f64, f64)> = times.iter().enumerate().map(|(k, &time)| (x(k), panel.y(part(time)))).collect();
        svg += &line(&points, colour, 5.0 - 0.3 * kind as f64);
    }
    svg
}

/// Those recordings that both versions have gone through.
fn growths(all: &[Growth]) -> String {
    let drawn: Vec<(&str, [f64; LENGTHS], [f64; LENGTHS])> =
        all.iter().filter_map(|growth| growth.fast.map(|fast| (growth.label.as_str(), growth.library, fast))).collect();
    let every = drawn.iter().flat_map(|(_, library, fast)| library.iter().chain(fast));
    let (least, most) = every.fold((f64::MAX, 0.0), |(least, most): (f64, f64), time| (least.min(*time), most.max(*time)));
    let decades = (least.log10().floor() as i32, most.log10().ceil() as i32);
    let mut svg =
        text(70.0, 450.0, "start", 15, "Finding all spans of a recording: ns per symbol, by its length; less is better, level is linear");
    let library: Vec<[f64; LENGTHS]> = drawn.iter().map(|(_, library, _)| *library).collect();
    let fast: Vec<[f64; LENGTHS]> = drawn.iter().map(|(_, _, fast)| *fast).collect();
    for (left, title, times) in [(70.0, "library", library), (530.0, "hand-optimised", fast)] {
        svg += &curves(&Panel { left, top: 490.0, width: 400.0, height: 270.0 }, title, decades, &times);
    }
    for (k, ((label, _, _), colour)) in drawn.iter().zip(COLOURS).enumerate() {
        let (x, y) = (70.0 + 460.0 * (k % 2) as f64, 826.0 + 22.0 * (k / 2) as f64);
        svg += &rectangle(x, y - 6.0, 24.0, 4.0, colour);
        svg += &text(x + 32.0, y, "start", 11, label);
    }
    svg
}

pub fn svg(speeds: &[Speeds], growth: &[Growth]) -> String {
    let open = format!(
        "<svg xmlns=\"http://www.w3.org/2000/svg\" viewBox=\"0 0 {WIDTH} {HEIGHT}\" font-family=\"sans-serif\" fill=\"#222222\">\n"
    );
    // White, so that it can also be read on a dark page.
    open + &rectangle(0.0, 0.0, WIDTH, HEIGHT, "#ffffff") + &bars(speeds) + &growths(growth) + "</svg>\n"
}
