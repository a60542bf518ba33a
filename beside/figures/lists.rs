//! Word lists of any size, for the growth figures: each grows in one way alone.

use crate::orders::{self, Interval};

const EPSILON: i32 = 1;
const RULE: i32 = 3;
const ATOM: i32 = 5;
const SET: i32 = 7;

const BASIC: i32 = 1;
const START: i32 = 2;
const STOP: i32 = 7;

/// The parts of a list, in word order. A state is its type and its rule; no type with a third word is used.
#[derive(Default)]
struct Parts {
    states: Vec<[i32; 2]>,
    rule_starts: Vec<usize>,
    sets: Vec<Vec<Interval>>,
    edges: Vec<[i32; 6]>,
}

impl Parts {
    fn state(&mut self, kind: i32, rule: i32) -> usize {
        self.states.push([kind, rule]);
        self.states.len() - 1
    }

    /// An edge that keeps at most one argument.
    fn edge(&mut self, from: usize, to: usize, kind: i32, a: i32) {
        self.edges.push([from as i32, to as i32, kind, a, 0, 0]);
    }

    /// The whole list: no flagged state, one mode that starts at state 0, no decision, no action.
    fn words(self) -> Vec<i32> {
        let mut words = vec![4, 0, 1, self.states.len() as i32];
        words.extend(self.states.iter().flatten());
        words.extend([0, 0, self.rule_starts.len() as i32]);
        words.extend(self.rule_starts.iter().flat_map(|&start| [start as i32, 1]));
        words.extend([1, 0, self.sets.len() as i32]);
        for set in &self.sets {
            words.extend([set.len() as i32, 0]);
            words.extend(set.iter().flat_map(|&(start, stop)| [start, stop]));
        }
        words.push(self.edges.len() as i32);
        words.extend(self.edges.iter().flatten());
        words.extend([0, 0]);
        words
    }
}

/// n states of one rule, each with an epsilon edge to the next.
pub fn chain(n: usize) -> Vec<i32> {
    let mut parts = Parts { rule_starts: vec![0], ..Parts::default() };
    for s in 0..n {
        let kind = if s == 0 { START } else if s + 1 == n { STOP } else { BASIC };
        parts.state(kind, 0);
    }
    for s in 1..n {
        parts.edge(s - 1, s, EPSILON, 0);
    }
    parts.words()
}

/// n rule edges that all return onto the first of n states, a chain that ends at the stop: every one is a tail call, and the whole chain
/// has to be seen to know it.
pub fn rule_edges(n: usize) -> Vec<i32> {
    let mut parts = Parts::default();
    let caller = parts.state(START, 0);
    for _ in 0..n {
        parts.state(BASIC, 0);
    }
    parts.state(STOP, 0);
    let called = parts.state(START, 1);
    let called_stop = parts.state(STOP, 1);
    parts.rule_starts = vec![caller, called];
    for _ in 0..n {
        parts.edges.push([caller as i32, 1, RULE, called as i32, 1, 0]);
    }
    for s in 1..=n {
        parts.edge(s, s + 1, EPSILON, 0);
    }
    parts.edge(called, called_stop, EPSILON, 0);
    parts.words()
}

/// n atom edges, so many out of each state.
fn atoms(n: usize, each: usize) -> Vec<i32> {
    let mut parts = Parts { rule_starts: vec![0], ..Parts::default() };
    for _ in 0..n.div_ceil(each) {
        parts.state(BASIC, 0);
    }
    let stop = parts.state(STOP, 0);
    for i in 0..n {
        parts.edge(i / each, stop, ATOM, 32 + (i % each) as i32);
    }
    parts.words()
}

/// One state with n edges.
pub fn edges_of_one(n: usize) -> Vec<i32> {
    atoms(n, n)
}

/// States with four edges each, n edges in all.
pub fn edges_of_many(n: usize) -> Vec<i32> {
    atoms(n, 4)
}

/// One set of these intervals, on one edge.
fn one_set(intervals: Vec<Interval>) -> Vec<i32> {
    let mut parts = Parts { rule_starts: vec![0], sets: vec![intervals], ..Parts::default() };
    let start = parts.state(START, 0);
    let stop = parts.state(STOP, 0);
    parts.edge(start, stop, SET, 0);
    parts.words()
}

pub fn set_in_order(n: usize) -> Vec<i32> {
    one_set(orders::apart(n))
}

pub fn set_reversed(n: usize) -> Vec<i32> {
    one_set(orders::apart(n).into_iter().rev().collect())
}

pub fn set_shuffled(n: usize) -> Vec<i32> {
    let mut intervals = orders::apart(n);
    orders::shuffle(&mut intervals);
    one_set(intervals)
}

pub fn set_of_equal(n: usize) -> Vec<i32> {
    one_set(orders::equal(n))
}

pub fn set_overlapping(n: usize) -> Vec<i32> {
    let mut intervals = orders::overlapping(n);
    orders::shuffle(&mut intervals);
    one_set(intervals)
}

/// The innermost comes first, so that every start is below the one before it.
pub fn set_nested(n: usize) -> Vec<i32> {
    one_set(orders::nested(n).into_iter().rev().collect())
}
