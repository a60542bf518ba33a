//! Gatehazel's compiled archive held side by side with the Rust that it ports, list by list and word by word. README.md says how to run it.

mod asked;
mod bases;
mod damages;
mod exact;
mod gatehazel;
mod hold;
mod judged;
mod large;
mod lists;
mod orders;
mod rooms;
mod ruled;
mod run;
mod seeded;
mod selftest;
mod short;
mod shrink;
mod summary;
mod told;
mod walk;
mod writer;
mod written;
mod wrong;
mod wrong_records;

use lists::{dialects, full, hand_built, over_sets, three, whole};
use rooms::{Room, USUAL};
use run::{Care, PLAIN, Run};
use seeded::{SHAPES, damaged, large_set, loose, network, some_words};
use short::{SMALL, short};
use std::process::ExitCode;
use std::time::{Duration, Instant};
use told::MOST_ROOM;

const USAGE: &str = "usage: differential [--seed S] [--count N] [--bounded] [--self-test]";

/// Seeded lists of a bounded run, and of one that says nothing of a count.
const BOUNDED: u64 = 600_000;

struct Options {
    seed: u64,
    count: u64,
    bounded: bool,
    self_test: bool,
}

fn options() -> Option<Options> {
    let mut options = Options { seed: 1, count: BOUNDED, bounded: false, self_test: false };
    let mut words = std::env::args().skip(1);
    while let Some(word) = words.next() {
        match word.as_str() {
            "--seed" => options.seed = words.next()?.parse().ok()?,
            "--count" => options.count = words.next()?.parse().ok()?,
            "--bounded" => options.bounded = true,
            "--self-test" => options.self_test = true,
            _ => return None,
        }
    }
    Some(options)
}

/// Says how far a part of the run is, every few seconds.
struct Progress {
    name: &'static str,
    all: u64,
    said: Instant,
}

impl Progress {
    fn new(name: &'static str, all: usize) -> Progress {
        Progress { name, all: all.max(1) as u64, said: Instant::now() }
    }

    fn at(&mut self, done: u64, run: &Run) {
        if self.said.elapsed() > Duration::from_secs(4) {
            self.said = Instant::now();
            eprintln!("  {}: {}%, {} lists so far, {} mismatches", self.name, done * 100 / self.all, run.summary.lists, run.summary.mismatches);
        }
    }
}

/// Everything is done with these lists.
const ALL: Care = Care { rooms: 32, questions: usize::MAX, again: 2, most: USUAL };

fn by_hand(run: &mut Run) {
    for (family, lists) in hand_built() {
        for words in lists {
            run.list(family, &words, ALL);
        }
    }
    for words in [full(), whole(), three()] {
        for length in 0..words.len() {
            run.list("cut at every length", &words[..length], ALL);
        }
    }
}

fn every_short_list(run: &mut Run) {
    let mut turn = 0;
    for family in short() {
        eprintln!("  {}: {}", family.name, family.count());
        for words in family.lists() {
            turn += 1;
            let again = usize::from(turn % 8 == 0);
            run.list("every short list", &words, Care { questions: 200 * again, again, ..PLAIN });
        }
    }
    for (family, count, network) in SMALL {
        for number in 0..count {
            run.list(family, &network(number), PLAIN);
        }
    }
}

/// Sets of one to some thousand intervals in every order, flagged and not, or by turns if they are large; sets of one size all in one
/// list; and seeded ones.
fn large_sets(run: &mut Run, bounded: bool) {
    let family = "sets in every order";
    let care = Care { rooms: 4, questions: 2_000, again: 1, most: USUAL };
    for n in (1..=12).chain([16, 17, 63, 64, 65, 200]) {
        for (at, intervals) in orders::all(n).into_iter().enumerate() {
            run.list(family, &over_sets(&[(0, intervals.clone())]), care);
            run.list(family, &over_sets(&[(1 + at as i32, intervals)]), care);
        }
    }
    let many: &[usize] = if bounded { &[600, 2_400] } else { &[600, 1_200, 2_400, 4_800] };
    for &n in many {
        eprintln!("  {n} intervals");
        for (at, intervals) in orders::all(n).into_iter().enumerate() {
            run.list(family, &over_sets(&[((at % 3) as i32, intervals)]), Care { rooms: 2, ..care });
        }
    }
    for n in [5, 40] {
        let flagged = |(at, intervals)| ((at % 2) as i32, intervals);
        run.list(family, &over_sets(&orders::all(n).into_iter().enumerate().map(flagged).collect::<Vec<_>>()), care);
    }
    for _ in 0..if bounded { 300 } else { 3_000 } {
        let list = over_sets(&[large_set(&mut run.rng), large_set(&mut run.rng)]);
        run.list("seeded, large sets", &list, care);
    }
}

/// The real dialects: whole, with words behind, damaged, and cut at every length, or at some 300 of them if the run is bounded.
fn real(run: &mut Run, bounded: bool) {
    let whole = Care { most: MOST_ROOM, again: 3, ..ALL };
    let once = Care { rooms: 1, questions: 0, again: 0, most: MOST_ROOM };
    for (name, words) in dialects() {
        eprintln!("  {name}, {} words", words.len());
        run.list("real dialects", &words, whole);
        let longer = [&words[..], &some_words(&mut run.rng, 9)].concat();
        run.list("real dialects", &longer, Care { rooms: 3, ..once });
        let step = if bounded && words.len() > 500 { words.len() / 300 } else { 1 };
        let copies = if bounded { 40 } else { 400 };
        let mut progress = Progress::new(name, words.len());
        for length in (0..words.len()).step_by(step) {
            run.list("real dialects cut", &words[..length], once);
            progress.at(length as u64, run);
        }
        for _ in 0..copies {
            let copy = damaged(&mut run.rng, &words);
            run.list("real dialects damaged", &copy, once);
            progress.at(progress.all, run);
        }
    }
}

/// A seeded network, of each shape in turn, with words behind, cut and damaged; and a list of loose words.
fn seeded(run: &mut Run, turn: usize) {
    let (shape, name) = SHAPES[turn % SHAPES.len()];
    let words = network(&mut run.rng, shape).words();
    let care = Care { rooms: 3, questions: 4_000, again: 1, most: USUAL };
    run.list(name, &words, care);
    let more = 1 + run.rng.below(12);
    let longer = [&words[..], &some_words(&mut run.rng, more)].concat();
    run.list("seeded, with words behind", &longer, PLAIN);
    for _ in 0..4 {
        let copy = damaged(&mut run.rng, &words);
        run.list("seeded, damaged", &copy, Care { rooms: 2, ..PLAIN });
    }
    let length = run.rng.below(words.len());
    run.list("seeded, cut", &words[..length], PLAIN);
    if turn % 16 == 5 && words.len() < 120 {
        for length in 0..words.len() {
            run.list("seeded, cut at every length", &words[..length], PLAIN);
        }
    }
    let list = loose(&mut run.rng);
    run.list("seeded, loose words", &list, PLAIN);
}

fn all_seeded(run: &mut Run, count: u64) {
    let (first, mut turn) = (run.summary.lists, 0);
    let mut progress = Progress::new("seeded", count as usize);
    while run.summary.lists - first < count {
        seeded(run, turn);
        turn += 1;
        progress.at(run.summary.lists - first, run);
    }
}

fn questions_by_rule(run: &mut Run, count: u64) {
    match ruled::by_hand() {
        Ok(asked) => run.summary.ruled += asked,
        Err(what) => run.plain_mismatch(&what),
    }
    for _ in 0..count {
        match ruled::by_rule(&mut run.rng) {
            Ok(asked) => run.summary.ruled += asked,
            Err(what) => run.plain_mismatch(&what),
        }
    }
}

/// Tables put together of the records that all lists of a small kind give.
fn every_small_table(run: &mut Run) {
    match exact::kinds().and_then(|kinds| exact::hold(&kinds, &gatehazel::write_into)) {
        Ok(met) => run.summary.exact = met,
        Err(what) => run.plain_mismatch(&what),
    }
}

fn compare(run: &mut Run, options: &Options) {
    // the short ones first, so that a mismatch is first met in a small list
    run.begin("every short list");
    every_short_list(run);
    run.begin("by hand");
    by_hand(run);
    run.begin("sets in every order");
    large_sets(run, options.bounded);
    run.begin("real dialects");
    real(run, options.bounded);
    run.begin("about 65,536 records");
    large::large(run, if options.bounded { 2 } else { Room::others().len() });
    run.begin("questions by rule");
    questions_by_rule(run, options.count.div_ceil(2));
    run.begin("every small table");
    every_small_table(run);
    run.begin("tables damaged");
    judged::by_hand(run);
    run.begin("tables damaged, of seeded networks");
    judged::seeded(run, options.count / 20);
    run.begin("seeded lists");
    all_seeded(run, options.count);
    run.end();
    // what was not met would pass by itself, as a part does that compared nothing
    let unmet = [run.summary.judged.missing(), run.summary.missing()].concat();
    unmet.iter().for_each(|what| run.plain_mismatch(what));
}

fn main() -> ExitCode {
    let Some(options) = options() else {
        eprintln!("{USAGE}");
        return ExitCode::from(2);
    };
    let mut run = Run::new(options.seed);
    match selftest::self_test(options.seed) {
        Ok(caught) => run.summary.damages = caught,
        Err(what) => {
            println!("SELF-TEST: {what}");
            return ExitCode::FAILURE;
        }
    }
    if options.self_test {
        println!("self-test: {} damages, all caught", run.summary.damages);
        return ExitCode::SUCCESS;
    }
    println!("Gatehazel beside the Rust: seed {}, {} seeded lists", options.seed, options.count);
    compare(&mut run, &options);
    run.summary.print();
    if run.summary.mismatches == 0 { ExitCode::SUCCESS } else { ExitCode::FAILURE }
}
