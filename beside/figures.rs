//! Figures: Gatehazel's decoder timed beside the Rust that it ports, in one process, and its writer beside its decoder.
//! `beside/figures.sh` builds and runs it at the repository's root; with `--write` the run's lines go into docs/FIGURES.md, and its curves
//! into docs/figures.svg.
//! Nothing here passes or fails by a time: a ratio is told, never asserted.

// The wrappers serve other programs as well, which ask questions; here they stay unused.
#[allow(dead_code)]
mod gatehazel;
#[path = "figures/lists.rs"]
mod lists;
#[path = "figures/machine.rs"]
mod machine;
// The comparison takes more of it.
#[allow(dead_code)]
mod orders;
#[path = "figures/plot.rs"]
mod plot;
#[path = "figures/timing.rs"]
mod timing;

use std::fmt::Write as _;
use std::time::Duration;
use timing::{Patience, Subject};

/// A single run that would take more nanoseconds than this is left out, and a dash stands for it.
const TOO_LONG: f64 = 2.0e9;
const OF_SAMPLES: Patience = Patience { rounds: 200, time: Duration::from_millis(1500) };
const OF_ROOM: Patience = Patience { rounds: 100, time: Duration::from_millis(300) };
const OF_GROWTH: Patience = Patience { rounds: 3, time: Duration::from_millis(250) };
const OF_WRITES: Patience = Patience { rounds: 3, time: Duration::from_millis(80) };

/// What the columns of the dialects' lines mean.
const DIALECTS: &str = "\
Dialects, in microseconds: the least of the rounds, and below it the median. A round is the Rust, then ours, then clear+copy.
  the Rust     until its network stands; `with drop` until it is given back as well. Its allocator is warm: it has the memory of the round before
  ours         into tables exactly as large as the dialect takes, warm, and full of the round before
  ratio        the Rust / ours
  clear+copy   zeros into those tables, the words copied, the tables' bytes copied: what filling lent tables takes without any decoding
  roomy        ours where every table has room for 65,536 records, 8,389 kB in all; `clear roomy` is zeros into that room and nothing else
  write        the tables turned back into words, in rounds of its own, into an output exactly as long as the words; `of ours` is write / ours

dialect        words  tables  the Rust  with drop     ours  ratio  clear+copy    roomy  clear roomy    write  of ours
";

/// What the columns of the growth lines mean.
const GROWING: &str = "
Growth, in microseconds, the least of the rounds; tables as above. `grows` is the time over that of half the size: 2 is linear, 4 is quadratic.
`ns each` is ours over the size, and `of ours` is write / ours. A dash: left out, since a run would take more than two seconds.
";

/// A way to grow: what is counted, the sizes' first and last power of two, and the list of a size.
struct Growth {
    title: &'static str,
    counted: &'static str,
    sizes: std::ops::RangeInclusive<u32>,
    list: fn(usize) -> Vec<i32>,
}

const GROWTHS: [Growth; 10] = [
    Growth { title: "a chain of states", counted: "states", sizes: 8..=16, list: lists::chain },
    Growth { title: "rule edges onto one chain", counted: "rule edges", sizes: 8..=14, list: lists::rule_edges },
    Growth { title: "one state's edges", counted: "edges", sizes: 8..=16, list: lists::edges_of_one },
    Growth { title: "edges, four a state", counted: "edges", sizes: 8..=16, list: lists::edges_of_many },
    Growth { title: "one set, in order", counted: "intervals", sizes: 6..=16, list: lists::set_in_order },
    Growth { title: "one set, reversed", counted: "intervals", sizes: 6..=16, list: lists::set_reversed },
    Growth { title: "one set, shuffled", counted: "intervals", sizes: 6..=16, list: lists::set_shuffled },
    Growth { title: "one set, all equal", counted: "intervals", sizes: 6..=16, list: lists::set_of_equal },
    Growth { title: "one set, all overlapping", counted: "intervals", sizes: 6..=16, list: lists::set_overlapping },
    Growth { title: "one set, nested", counted: "intervals", sizes: 6..=16, list: lists::set_nested },
];

/// A size's least times in nanoseconds; none where the decoder was left out.
pub struct Point {
    pub size: usize,
    pub rust: Option<f64>,
    pub ours: Option<f64>,
    pub written: Option<f64>,
}

/// A curve for the plot.
pub struct Curve {
    pub title: &'static str,
    pub counted: &'static str,
    pub points: Vec<Point>,
}

/// A dialect's name, and how many times as long as ours the Rust takes.
pub struct Ratio {
    pub name: String,
    pub ratio: f64,
}

/// Microseconds, with no more digits than mean something.
fn micro(nanoseconds: f64) -> String {
    let us = nanoseconds / 1000.0;
    let digits = if us < 10.0 { 2 } else if us < 100.0 { 1 } else { 0 };
    format!("{us:.digits$}")
}

/// The samples' names, the smallest first.
fn names() -> Vec<String> {
    let folder = std::fs::read_dir("samples").expect("run it at the repository's root");
    let files = folder.map(|entry| entry.expect("the folder can be read"));
    let mut found: Vec<(u64, String)> = files
        .filter_map(|file| {
            let name = file.file_name().into_string().ok()?.strip_suffix(".atn")?.to_string();
            Some((file.metadata().ok()?.len(), name))
        })
        .collect();
    found.sort();
    found.into_iter().map(|(_, name)| name).collect()
}

fn sample_words(name: &str) -> Vec<i32> {
    let bytes = std::fs::read(format!("samples/{name}.atn")).expect("the sample is there");
    bytes.chunks_exact(4).map(|word| i32::from_le_bytes(word.try_into().expect("four bytes"))).collect()
}

/// One dialect's two lines.
fn sample(name: String, out: &mut String) -> Ratio {
    let mut subject = Subject::new(sample_words(&name));
    let m = timing::measure(&mut subject, &OF_SAMPLES, true, true);
    let (room, clearing) = timing::roomy(&subject, &OF_ROOM);
    let writes = timing::writes(&mut subject, &OF_ROOM);
    let mut line = |head: String, of: fn(&timing::Times) -> f64| {
        let (built, ours) = (of(&m.built), of(&m.ours));
        let _ = write!(out, "{head:<28}{:>10}{:>11}{:>9}{:>7.2}", micro(built), micro(of(&m.dropped)), micro(ours), built / ours);
        let _ = write!(out, "{:>12}{:>9}{:>13}", micro(of(&m.floor)), micro(of(&room)), micro(of(&clearing)));
        let _ = writeln!(out, "{:>9}{:>9.2}", micro(of(&writes)), of(&writes) / ours);
        built / ours
    };
    let ratio = line(format!("{name:<13}{:>7}{:>5} kB", subject.words.len(), subject.bytes() / 1000), timing::Times::least);
    line(String::new(), timing::Times::median);
    Ratio { name, ratio }
}

/// Whether a size that is twice the last one's would take too long, going by how the last two grew.
fn too_long(points: &[Point], of: fn(&Point) -> Option<f64>) -> bool {
    let Some(last) = points.last() else { return false };
    let Some(time) = of(last) else { return true };
    let before = points.len().checked_sub(2).and_then(|i| of(&points[i]));
    time * before.map_or(4.0, |before| (time / before).max(1.0)) > TOO_LONG
}

/// A time, and how many times that of half the size it is; a dash where it was left out.
fn grown(time: Option<f64>, before: Option<f64>) -> String {
    match (time, before) {
        (None, _) => format!("{:>12}{:>7}", "-", ""),
        (Some(time), None) => format!("{:>12}{:>7}", micro(time), ""),
        (Some(time), Some(before)) => format!("{:>12}{:>7.2}", micro(time), time / before),
    }
}

/// One size of a growth: measured, told, and kept for the plot.
fn grow_once(growth: &Growth, size: usize, points: &mut Vec<Point>, out: &mut String) {
    let mut subject = Subject::new((growth.list)(size));
    let (with_rust, with_ours) = (!too_long(points, |p| p.rust), !too_long(points, |p| p.ours));
    let m = timing::measure(&mut subject, &OF_GROWTH, with_rust, with_ours);
    let written = with_ours.then(|| timing::writes(&mut subject, &OF_WRITES).least());
    let point = Point { size, rust: with_rust.then(|| m.built.least()), ours: with_ours.then(|| m.ours.least()), written };
    let before = points.last();
    let each = point.ours.map_or("-".into(), |ours| format!("{:.1}", ours / size as f64));
    let over_ours = |time: Option<f64>| time.zip(point.ours).map_or("-".into(), |(time, ours)| format!("{:.2}", time / ours));
    let (ratio, of_ours) = (over_ours(point.rust), over_ours(point.written));
    let ours = grown(point.ours, before.and_then(|p| p.ours));
    let rust = grown(point.rust, before.and_then(|p| p.rust));
    let written = grown(point.written, before.and_then(|p| p.written));
    let _ = write!(out, "{size:>10}{:>10}{ours}{each:>11}{rust}{ratio:>9}{:>12}", subject.records(), micro(m.floor.least()));
    let _ = writeln!(out, "{written}{of_ours:>9}");
    points.push(point);
}

fn grow(growth: &Growth, out: &mut String) -> Curve {
    let _ = writeln!(out, "\n{}\n", growth.title);
    let _ = writeln!(
        out,
        "{:>10}{:>10}{:>12}{:>7}{:>11}{:>12}{:>7}{:>9}{:>12}{:>12}{:>7}{:>9}",
        growth.counted, "records", "ours", "grows", "ns each", "the Rust", "grows", "ratio", "clear+copy", "write", "grows", "of ours"
    );
    let mut points = Vec::new();
    for power in growth.sizes.clone() {
        grow_once(growth, 1 << power, &mut points, out);
    }
    Curve { title: growth.title, counted: growth.counted, points }
}

fn main() {
    let write = std::env::args().any(|argument| argument == "--write");
    let mut out = machine::lines();
    let _ = writeln!(out, "clock       {:.0} ns of every time are the clock's own\n", timing::clock());
    out.push_str(DIALECTS);
    let ratios: Vec<Ratio> = names().into_iter().map(|name| sample(name, &mut out)).collect();
    out.push_str(GROWING);
    let curves: Vec<Curve> = GROWTHS.iter().map(|growth| grow(growth, &mut out)).collect();
    print!("{out}");
    if write {
        machine::record("docs/FIGURES.md", &out);
        std::fs::write("docs/figures.svg", plot::drawing(&curves, &ratios)).expect("docs/ can be written");
    }
}
