//! Lists with about 65,536 records of a table: the most that document 01 counts as room. The Rust goes on beyond.

use crate::lists::{Net, call, eps, state};
use crate::rooms::VAST;
use crate::run::{Care, Run};
use crate::told::MOST_ROOM;

/// A list with so many records of one table.
type Build = fn(usize) -> Net;

const TABLES: [(&str, Build); 7] = [
    ("states", |n| Net { states: vec![vec![0]; n], ..Net::default() }),
    ("edges", |n| Net { states: vec![state(1, 0)], edges: vec![eps(0, 0); n], ..Net::default() }),
    ("sets", |n| Net { sets: vec![(0, vec![]); n], ..Net::default() }),
    ("rules", |n| Net { rules: vec![[0, 1]; n], ..Net::default() }),
    ("modes", |n| Net { modes: vec![0; n], ..Net::default() }),
    ("decisions", |n| Net { decisions: vec![0; n], ..Net::default() }),
    ("actions", |n| Net { actions: vec![[6, 0, 0]; n], ..Net::default() }),
];

/// n edges in all, half of them return edges, and one more plain edge where n is odd.
fn with_returns(n: usize) -> Net {
    let mut edges = vec![call(0, 0, 1); n / 2];
    edges.resize(n / 2 + n % 2, eps(0, 1));
    Net { states: vec![state(2, 0), state(7, 0)], rules: vec![[0, 1]], edges, ..Net::default() }
}

/// n ranges, 256 in each set; a rest is kept by the EOF flag of the last.
fn with_ranges(n: usize) -> Net {
    let intervals: Vec<(i32, i32)> = (0..256).map(|at| (3 * at, 3 * at + 1)).collect();
    let mut sets = vec![(0, intervals); n / 256];
    if let Some(last) = sets.last_mut() {
        last.0 = i32::from(n % 256 == 1);
    }
    Net { sets, ..Net::default() }
}

/// n states in a row behind a call, so that the search for its tail call goes through all of them; and n rules, of which the last is called.
fn with_search(n: usize) -> Net {
    let mut states = vec![state(2, 0), state(7, 0)];
    states.resize(n, state(1, 0));
    let row = (2..n).map(|s| eps(s as i32, if s + 1 < n { s as i32 + 1 } else { 1 }));
    let edges = std::iter::once(call(0, 0, 2)).chain(row).collect();
    Net { states, rules: vec![[0, 1]; n], edges, ..Net::default() }
}

/// Where a count stands behind a header and zeros, the words that follow it being none.
const COUNTS: [usize; 7] = [0, 3, 4, 5, 6, 7, 8];

pub fn large(run: &mut Run, rooms: usize) {
    let care = Care { rooms, questions: 0, again: 0, most: VAST };
    for n in [1023, 1024, 1025, 30000] {
        run.list("a search through many states", &with_search(n).words(), care);
    }
    for n in [MOST_ROOM, MOST_ROOM + 1] {
        for (_, build) in TABLES {
            run.list("about 65,536 records", &build(n).words(), care);
        }
        run.list("about 65,536 records", &with_returns(n).words(), care);
        run.list("about 65,536 records", &with_ranges(n).words(), care);
        for zeros in COUNTS {
            run.list("a count alone", &[&[4, 0, 0][..], &vec![0; zeros], &[n as i32]].concat(), care);
            run.list("a count alone", &[&[4, 0, 0][..], &vec![0; zeros], &[i32::MAX]].concat(), care);
        }
        for flag in [0, 1] {
            run.list("a count alone", &[4, 0, 0, 0, 0, 0, 0, 0, 1, n as i32, flag], care);
            run.list("a count alone", &[4, 0, 0, 0, 0, 0, 0, 0, 1, i32::MAX, flag], care);
        }
    }
}
