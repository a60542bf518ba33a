//! Times one list: the Rust and Gatehazel in turn, round after round, and beside them what clearing and copying the same bytes takes; then
//! the list written from its tables.

use crate::gatehazel::{self, Counts, RANGES, Records, TABLES, Tables};
use std::hint::black_box;
use std::time::{Duration, Instant};

/// The times of many rounds, in nanoseconds.
#[derive(Default)]
pub struct Times(Vec<f64>);

impl Times {
    pub fn least(&self) -> f64 {
        self.0.iter().copied().fold(f64::INFINITY, f64::min)
    }

    pub fn median(&self) -> f64 {
        let mut sorted = self.0.clone();
        sorted.sort_by(f64::total_cmp);
        sorted[sorted.len() / 2]
    }
}

/// Runs the work once, and says how long it took.
fn timed<T>(work: impl FnOnce() -> T) -> (f64, T) {
    let start = Instant::now();
    let result = black_box(work());
    (start.elapsed().as_nanos() as f64, result)
}

/// What timing nothing gives: the clock's own share in every figure.
pub fn clock() -> f64 {
    let rounds = (0..1000).map(|_| timed(|| ()).0).collect();
    Times(rounds).median()
}

/// How long to go on: at least so many rounds, then until the time is spent.
pub struct Patience {
    pub rounds: usize,
    pub time: Duration,
}

/// A list, and lent tables exactly as large as it takes.
pub struct Subject {
    pub words: Vec<i32>,
    pub counts: Counts,
    tables: Tables,
}

/// Tables with room for so many records; the words in them are nonsense, since what they held must not matter.
fn lent(rooms: [usize; 9]) -> Tables {
    std::array::from_fn(|i| vec![0x5a5a_5a5a; rooms[i] * TABLES[i].1])
}

impl Subject {
    pub fn new(words: Vec<i32>) -> Self {
        let counts = gatehazel::decode(&words, &mut lent([65_536; 9])).expect("the list is good");
        let count = |i: usize| counts[i] as usize;
        let mut rooms = [count(2), count(3), count(5), count(6), count(7), count(8), count(9), count(10), count(2)];
        // A set needs room for its intervals before they join; the refusal says for how many.
        while let Err(refusal) = gatehazel::decode(&words, &mut lent(rooms)) {
            assert_eq!((refusal.number, refusal.field), (12, 20), "only ranges need more room than they keep");
            rooms[RANGES] = refusal.value as usize;
        }
        Self { words, counts, tables: lent(rooms) }
    }

    /// Records in all tables.
    pub fn records(&self) -> i64 {
        self.counts[2..].iter().sum::<i64>() - self.counts[4]
    }

    /// Bytes of the lent tables.
    pub fn bytes(&self) -> usize {
        self.tables.iter().map(|table| 4 * table.len()).sum()
    }

    /// Both decoders must have done the same work for their times to be held together.
    fn check(&self, network: &oracle::atn::LexerAtn) {
        let edges: usize = network.states().iter().map(|state| state.transitions.len()).sum();
        assert_eq!((network.states().len(), edges), (self.counts[2] as usize, self.counts[3] as usize));
    }
}

/// A list's times. `built` is the Rust until its network stands, `dropped` until it is given back as well.
#[derive(Default)]
pub struct Measured {
    pub built: Times,
    pub dropped: Times,
    pub ours: Times,
    pub floor: Times,
}

/// Clearing the tables, copying the words, and copying the tables' bytes: no decoder that fills lent tables does less.
fn clear_and_copy(words: &[i32], aside: &mut [i32], tables: &mut Tables, results: &Tables) {
    for table in tables.iter_mut() {
        table.fill(0);
        black_box(&mut *table);
    }
    aside.copy_from_slice(black_box(words));
    black_box(aside);
    for (table, result) in tables.iter_mut().zip(results) {
        table.copy_from_slice(black_box(result));
        black_box(&mut *table);
    }
}

/// One turn of the Rust.
fn rust_once(subject: &Subject, measured: &mut Measured) {
    let (built, network) = timed(|| oracle::decode(black_box(&subject.words)));
    subject.check(network.as_ref().expect("the Rust takes the list, too"));
    let (given_back, ()) = timed(|| drop(network));
    measured.built.0.push(built);
    measured.dropped.0.push(built + given_back);
}

/// One turn of ours. Left out turns leave no times.
fn ours_once(subject: &mut Subject, measured: &mut Measured) {
    let (ours, answer) = timed(|| gatehazel::decode(black_box(&subject.words), &mut subject.tables));
    assert_eq!(answer, Ok(subject.counts));
    measured.ours.0.push(ours);
}

/// Times both in turn; either can be left out.
pub fn measure(subject: &mut Subject, patience: &Patience, with_rust: bool, with_ours: bool) -> Measured {
    let mut measured = Measured::default();
    let mut aside = vec![0; subject.words.len()];
    let mut results = subject.tables.clone();
    let _ = gatehazel::decode(&subject.words, &mut results);
    let start = Instant::now();
    while measured.floor.0.len() < patience.rounds || start.elapsed() < patience.time {
        if with_rust {
            rust_once(subject, &mut measured);
        }
        if with_ours {
            ours_once(subject, &mut measured);
        }
        measured.floor.0.push(timed(|| clear_and_copy(&subject.words, &mut aside, &mut subject.tables, &results)).0);
    }
    measured
}

/// Ours where every table has room for 65,536 records, and clearing that room alone.
pub fn roomy(subject: &Subject, patience: &Patience) -> (Times, Times) {
    let mut tables = lent([65_536; 9]);
    let (mut ours, mut clearing) = (Times::default(), Times::default());
    let start = Instant::now();
    while ours.0.len() < patience.rounds || start.elapsed() < patience.time {
        ours.0.push(timed(|| gatehazel::decode(black_box(&subject.words), &mut tables).is_ok()).0);
        clearing.0.push(timed(|| tables.iter_mut().for_each(|table| black_box(table).fill(0))).0);
    }
    (ours, clearing)
}

/// Our write of the tables that our decode leaves, into an output exactly as long as the words; both are warm.
pub fn writes(subject: &mut Subject, patience: &Patience) -> Times {
    let _ = gatehazel::decode(&subject.words, &mut subject.tables);
    let given = Records::of(&subject.tables, &subject.counts);
    // A set that has EOF by its flag is written with two words more.
    let mut out = vec![0; 2 * subject.words.len()];
    let words = gatehazel::write(given, &mut out).expect("a decode's tables are written");
    out.truncate(words);
    let mut times = Times::default();
    let start = Instant::now();
    while times.0.len() < patience.rounds || start.elapsed() < patience.time {
        let (time, answer) = timed(|| gatehazel::write(black_box(given), &mut out));
        assert_eq!(answer, Ok(words));
        times.0.push(time);
    }
    times
}
