//! The growth curves and the dialects' ratios as one SVG picture: a panel for each.

use crate::{Curve, Point, Ratio};
use std::fmt::Write as _;

const WIDTH: f64 = 300.0;
const HEIGHT: f64 = 270.0;
const ACROSS: usize = 4;
/// What a panel keeps free of the drawing, for its title, ticks and labels.
const LEFT: f64 = 62.0;
const RIGHT: f64 = 18.0;
const TOP: f64 = 34.0;
const BOTTOM: f64 = 46.0;
const HEAD: f64 = 40.0;

const OURS: &str = "#1260a8";
const RUST: &str = "#c2500e";
const WRITTEN: &str = "#3f8f4f";
const GREY: &str = "#9a9a9a";

/// A panel's place, and the decades that its axes show.
struct Panel {
    x: f64,
    y: f64,
    sizes: (f64, f64),
    times: (f64, f64),
}

impl Panel {
    fn at(number: usize, sizes: (f64, f64), times: (f64, f64)) -> Self {
        let (column, row) = (number % ACROSS, number / ACROSS);
        Self { x: column as f64 * WIDTH, y: HEAD + row as f64 * HEIGHT, sizes, times }
    }

    /// Where a size stands, both as logarithms.
    fn across(&self, size: f64) -> f64 {
        self.x + LEFT + (size - self.sizes.0) / (self.sizes.1 - self.sizes.0) * (WIDTH - LEFT - RIGHT)
    }

    fn up(&self, time: f64) -> f64 {
        self.y + HEIGHT - BOTTOM - (time - self.times.0) / (self.times.1 - self.times.0) * (HEIGHT - TOP - BOTTOM)
    }
}

fn text(svg: &mut String, x: f64, y: f64, anchor: &str, more: &str, words: &str) {
    let _ = writeln!(svg, r##"<text x="{x:.1}" y="{y:.1}" text-anchor="{anchor}" {more}>{words}</text>"##);
}

fn line(svg: &mut String, from: (f64, f64), to: (f64, f64), more: &str) {
    let _ = writeln!(svg, r##"<line x1="{:.1}" y1="{:.1}" x2="{:.1}" y2="{:.1}" {more}/>"##, from.0, from.1, to.0, to.1);
}

/// A size in short: 64, 1k, 64k.
fn short(size: usize) -> String {
    if size < 1024 { size.to_string() } else { format!("{}k", size / 1024) }
}

/// A time of so many decades of nanoseconds.
fn decade(power: i32) -> String {
    let names = ["ns", "µs", "ms", "s"];
    format!("{} {}", 10i32.pow(power as u32 % 3), names[power as usize / 3])
}

/// The panel's frame, its title, and the lines and labels of its axes.
fn axes(svg: &mut String, panel: &Panel, curve: &Curve) {
    let (left, right) = (panel.across(panel.sizes.0), panel.across(panel.sizes.1));
    let (bottom, top) = (panel.up(panel.times.0), panel.up(panel.times.1));
    text(svg, (left + right) / 2.0, top - 10.0, "middle", r##"font-weight="bold""##, curve.title);
    for power in panel.times.0 as i32..=panel.times.1 as i32 {
        let y = panel.up(f64::from(power));
        line(svg, (left, y), (right, y), r##"stroke="#e4e4e4""##);
        text(svg, left - 5.0, y + 4.0, "end", "", &decade(power));
    }
    for point in curve.points.iter().step_by(2) {
        let x = panel.across((point.size as f64).log10());
        line(svg, (x, bottom), (x, top), r##"stroke="#f0f0f0""##);
        text(svg, x, bottom + 15.0, "middle", "", &short(point.size));
    }
    line(svg, (left, bottom), (right, bottom), r##"stroke="#444""##);
    line(svg, (left, bottom), (left, top), r##"stroke="#444""##);
    text(svg, (left + right) / 2.0, bottom + 32.0, "middle", "", curve.counted);
    let turned = format!(r##"transform="rotate(-90 {:.1} {:.1})""##, panel.x + 14.0, (top + bottom) / 2.0);
    text(svg, panel.x + 14.0, (top + bottom) / 2.0, "middle", &turned, "time");
}

/// One curve: a line with a dot for each size.
fn curve(svg: &mut String, panel: &Panel, points: &[Point], of: fn(&Point) -> Option<f64>, colour: &str) {
    let places: Vec<(f64, f64)> = points
        .iter()
        .filter_map(|point| Some((panel.across((point.size as f64).log10()), panel.up(of(point)?.log10()))))
        .collect();
    let path: Vec<String> = places.iter().map(|(x, y)| format!("{x:.1},{y:.1}")).collect();
    let _ = writeln!(svg, r##"<polyline points="{}" fill="none" stroke="{colour}" stroke-width="2"/>"##, path.join(" "));
    for (x, y) in places {
        let _ = writeln!(svg, r##"<circle cx="{x:.1}" cy="{y:.1}" r="2.6" fill="{colour}"/>"##);
    }
}

/// A dashed line through our first point that grows as the size does.
fn guide(svg: &mut String, panel: &Panel, points: &[Point]) {
    let Some(Point { size, ours: Some(time), .. }) = points.first() else { return };
    let (x, y) = ((*size as f64).log10(), time.log10());
    let rise = (panel.sizes.1 - x).min(panel.times.1 - y);
    let style = format!(r##"stroke="{GREY}" stroke-width="1.2" stroke-dasharray="5 4""##);
    line(svg, (panel.across(x), panel.up(y)), (panel.across(x + rise), panel.up(y + rise)), &style);
}

fn growth(svg: &mut String, number: usize, of: &Curve, times: (f64, f64)) {
    let size = |point: Option<&Point>| point.map_or(0.0, |p| (p.size as f64).log10());
    let panel = Panel::at(number, (size(of.points.first()), size(of.points.last())), times);
    axes(svg, &panel, of);
    guide(svg, &panel, &of.points);
    curve(svg, &panel, &of.points, |point| point.rust, RUST);
    curve(svg, &panel, &of.points, |point| point.written, WRITTEN);
    curve(svg, &panel, &of.points, |point| point.ours, OURS);
}

/// The dialects: a bar for each, from 1 to the number of times that the Rust takes as long as ours, on a scale of decades.
fn bars(svg: &mut String, number: usize, ratios: &[Ratio]) {
    let most = ratios.iter().map(|r| r.ratio).fold(10.0, f64::max).log10().ceil();
    let panel = Panel::at(number, (0.0, most), (0.0, 1.0));
    let (left, top, bottom) = (panel.across(0.0), panel.up(1.0), panel.up(0.0));
    text(svg, panel.across(most / 2.0), top - 10.0, "middle", r##"font-weight="bold""##, "the dialects");
    let step = (bottom - top) / ratios.len() as f64;
    for (i, of) in ratios.iter().enumerate() {
        let y = top + step * i as f64;
        let width = (panel.across(of.ratio.log10()) - left).max(0.0);
        text(svg, left + 4.0, y + 14.0, "start", "", &format!("{}: {:.2}", of.name, of.ratio));
        let _ = writeln!(svg, r##"<rect x="{left:.1}" y="{:.1}" width="{width:.1}" height="12" fill="{OURS}"/>"##, y + 20.0);
    }
    // The aim has a tick of its own.
    for tick in (0..=most as u32).map(|power| 10i32.pow(power)).chain([5]) {
        text(svg, panel.across(f64::from(tick).log10()), bottom + 15.0, "middle", "", &tick.to_string());
    }
    let aim = panel.across(5f64.log10());
    line(svg, (aim, bottom), (aim, top), &format!(r##"stroke="{RUST}" stroke-dasharray="5 4""##));
    line(svg, (left, bottom), (panel.across(most), bottom), r##"stroke="#444""##);
    text(svg, panel.across(most / 2.0), bottom + 32.0, "middle", "", "the Rust's time / ours (dashed: the aim)");
}

/// Which colour is whose, above the panels.
fn legend(svg: &mut String) {
    let all = [(OURS, "", "Gatehazel"), (WRITTEN, "", "written back"), (RUST, "", "the Rust"), (GREY, "5 4", "linear growth")];
    for (i, (colour, dash, words)) in all.iter().enumerate() {
        let x = LEFT + 150.0 * i as f64;
        line(svg, (x, 20.0), (x + 28.0, 20.0), &format!(r##"stroke="{colour}" stroke-width="2.5" stroke-dasharray="{dash}""##));
        text(svg, x + 35.0, 24.0, "start", "", words);
    }
}

/// The whole picture. All growth panels show the same decades of time, so that they can be held together.
pub fn drawing(curves: &[Curve], ratios: &[Ratio]) -> String {
    let all: Vec<f64> = curves.iter().flat_map(|c| &c.points).flat_map(|p| [p.rust, p.ours, p.written]).flatten().collect();
    let least = all.iter().copied().fold(f64::INFINITY, f64::min).log10().floor();
    let most = all.iter().copied().fold(1.0, f64::max).log10().ceil();
    let rows = (curves.len() + 1).div_ceil(ACROSS) as f64;
    let (width, height) = (WIDTH * ACROSS as f64, HEAD + HEIGHT * rows);
    let mut svg = format!(
        r##"<svg xmlns="http://www.w3.org/2000/svg" viewBox="0 0 {width} {height}" width="{width}" height="{height}" font-family="sans-serif" font-size="12" fill="#222">"##
    );
    svg.push_str("\n<rect width=\"100%\" height=\"100%\" fill=\"#fff\"/>\n");
    legend(&mut svg);
    for (number, of) in curves.iter().enumerate() {
        growth(&mut svg, number, of, (least, most));
    }
    bars(&mut svg, curves.len(), ratios);
    svg.push_str("</svg>\n");
    svg
}
