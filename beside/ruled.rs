//! The questions on tables that no decode left: bad counts, bad numbers, contradictions. The Rust has no counterpart, so what is expected
//! is written here from document 01, "Questions": a list by hand, and its rule for tables as they come.

use crate::gatehazel::{self, Asked, Denial};
use crate::seeded::Rng;

const NONE: Denial = Denial { number: 14, value: 0 };

fn missing(number: i32) -> Denial {
    Denial { number: 13, value: i64::from(number) }
}

/// A word of a record.
fn at(table: &[i32], width: usize, record: i32, word: usize) -> i32 {
    table[width * record as usize + word]
}

fn names(count: usize, number: i32) -> bool {
    usize::try_from(number).is_ok_and(|number| number < count)
}

/// The states and edges of an n-th edge, with their counts.
#[derive(Clone, Copy)]
struct Chains<'a> {
    states: &'a [i32],
    state_count: usize,
    edges: &'a [i32],
    edge_count: usize,
}

/// "Counts beyond whole records: 14, tested first. A state, then n .. 13. A first, next .. that is followed and leaves its table's count: 14."
fn nth_edge(t: Chains, state: i32, n: i32) -> Result<i64, Denial> {
    if t.state_count > t.states.len() / 8 || t.edge_count > t.edges.len() / 8 {
        return Err(NONE);
    }
    if !names(t.state_count, state) {
        return Err(missing(state));
    }
    if n < 0 || n >= at(t.states, 8, state, 7) {
        return Err(missing(n));
    }
    let mut edge = at(t.states, 8, state, 5);
    for _ in 0..n {
        edge = if names(t.edge_count, edge) { at(t.edges, 8, edge, 7) } else { return Err(NONE) };
    }
    if names(t.edge_count, edge) { Ok(i64::from(edge)) } else { Err(NONE) }
}

fn sets_fit(t: Asked) -> bool {
    t.set_count <= t.sets.len() / 2 && t.range_count <= t.ranges.len() / 2
}

/// The first word and the length of a listed set's part; none where it is not inside the ranges.
fn part(t: Asked, set: i32) -> Option<(usize, usize)> {
    let first = usize::try_from(at(t.sets, 2, set, 0)).ok()?;
    let count = usize::try_from(at(t.sets, 2, set, 1)).ok()?;
    (first + count <= t.range_count).then_some((2 * first, 2 * count))
}

fn set(t: Asked, number: i32) -> Result<(usize, usize), Denial> {
    if !sets_fit(t) {
        return Err(NONE);
    }
    if !names(t.set_count, number) {
        return Err(missing(number));
    }
    part(t, number).ok_or(NONE)
}

/// Document 01's halving; an odd last word isn't read.
fn lookup(ranges: &[i32], value: i32) -> bool {
    let (mut low, mut high) = (0, ranges.len() / 2);
    while low < high {
        let middle = low + (high - low) / 2;
        if ranges[2 * middle] <= value { low = middle + 1 } else { high = middle }
    }
    low > 0 && ranges[2 * low - 1] >= value
}

fn matches(t: Asked, edge: i32, symbol: i32, min: i32, max: i32) -> Result<bool, Denial> {
    if t.edge_count > t.edges.len() / 8 || !sets_fit(t) {
        return Err(NONE);
    }
    if !names(t.edge_count, edge) {
        return Err(missing(edge));
    }
    let [kind, p, q] = [0, 3, 4].map(|word| at(t.edges, 8, edge, word));
    let within = min <= symbol && symbol <= max;
    match kind {
        1 | 3 | 4 | 6 | 10 => Ok(false),
        2 => Ok(p <= symbol && symbol <= q),
        5 => Ok(p == symbol),
        9 => Ok(within),
        7 | 8 => {
            let (first, length) = if names(t.set_count, p) { part(t, p).ok_or(NONE)? } else { return Err(NONE) };
            let found = lookup(&t.ranges[first..first + length], symbol);
            Ok(if kind == 7 { found } else { within && !found })
        }
        _ => Err(NONE),
    }
}

/// States, edges, sets and ranges that are sound: state 0 has the edges 0, 2, 1, state 1 has none; set 0 is 5..9 and 20..20, set 1 is empty.
struct Sound {
    states: Vec<i32>,
    edges: Vec<i32>,
    sets: Vec<i32>,
    ranges: Vec<i32>,
}

fn sound() -> Sound {
    Sound {
        states: vec![1, 0, -1, -1, 0, 0, 1, 3, 7, 0, -1, -1, 0, -1, -1, 0],
        edges: vec![7, 0, 1, 0, 0, 0, 0, 2, 2, 0, 1, 30, 40, 0, 0, -1, 8, 0, 1, 1, 0, 0, 0, 1],
        sets: vec![0, 2, 2, 0],
        ranges: vec![5, 9, 20, 20],
    }
}

/// By hand, on n-th edges: a word of the state (below 16) or edge table changed, the counts, state and n; what is expected.
type EdgeCase = (Option<(usize, i32)>, [usize; 2], [i32; 2], Result<i64, Denial>);

fn edge_cases() -> Vec<EdgeCase> {
    let (max, min) = (i32::MAX, i32::MIN);
    vec![
        (None, [2, 3], [0, 0], Ok(0)), (None, [2, 3], [0, 1], Ok(2)), (None, [2, 3], [0, 2], Ok(1)),
        (None, [2, 3], [0, 3], Err(missing(3))), (None, [2, 3], [0, -1], Err(missing(-1))), (None, [2, 3], [0, max], Err(missing(max))),
        (None, [2, 3], [1, 0], Err(missing(0))), (None, [2, 3], [2, 0], Err(missing(2))), (None, [2, 3], [-1, 5], Err(missing(-1))),
        (None, [2, 3], [min, min], Err(missing(min))), (None, [0, 0], [0, 0], Err(missing(0))), (None, [1, 3], [1, 0], Err(missing(1))),
        // counts first, whatever the numbers
        (None, [3, 3], [0, 0], Err(NONE)), (None, [2, 4], [0, 0], Err(NONE)), (None, [2, 4], [-1, -1], Err(NONE)),
        (None, [usize::MAX, 3], [0, 0], Err(NONE)), (None, [2, usize::MAX], [9, 9], Err(NONE)),
        // a count below what the chain names: only what is followed matters
        (None, [2, 2], [0, 0], Ok(0)), (None, [2, 2], [0, 1], Err(NONE)), (None, [2, 0], [0, 0], Err(NONE)),
        (None, [2, 0], [1, 0], Err(missing(0))), (None, [2, 0], [0, 3], Err(missing(3))),
        // first, next and the edge count
        (Some((5, 3)), [2, 3], [0, 0], Err(NONE)), (Some((5, -1)), [2, 3], [0, 0], Err(NONE)), (Some((5, min)), [2, 3], [0, 2], Err(NONE)),
        (Some((16 + 7, 3)), [2, 3], [0, 1], Err(NONE)), (Some((16 + 7, -1)), [2, 3], [0, 0], Ok(0)),
        (Some((16 + 7, 0)), [2, 3], [0, 2], Ok(0)), (Some((7, 4)), [2, 3], [0, 3], Err(NONE)), (Some((7, -1)), [2, 3], [0, 0], Err(missing(0))),
        (Some((7, 0)), [2, 3], [0, 0], Err(missing(0))), (Some((7, max)), [2, 3], [0, max], Err(missing(max))),
        (Some((7, max)), [2, 3], [0, max - 1], Err(NONE)),
    ]
}

/// By hand, on matches: a word of the edge (below 24) or set table changed, the counts of edges, sets, ranges, the edge, the symbol; what
/// is expected within 0..100.
type MatchCase = (Option<(usize, i32)>, [usize; 3], [i32; 2], Result<bool, Denial>);

fn match_cases() -> Vec<MatchCase> {
    let max = i32::MAX;
    let all = [3, 2, 2];
    vec![
        (None, all, [0, 5], Ok(true)), (None, all, [0, 10], Ok(false)), (None, all, [0, 20], Ok(true)), (None, all, [0, 4], Ok(false)),
        (None, all, [1, 30], Ok(true)), (None, all, [1, 41], Ok(false)), (None, all, [2, 0], Ok(true)), (None, all, [2, 101], Ok(false)),
        (None, all, [3, 0], Err(missing(3))), (None, all, [-1, 0], Err(missing(-1))), (None, all, [max, 0], Err(missing(max))),
        (None, [4, 2, 2], [0, 5], Err(NONE)), (None, [3, 3, 2], [1, 30], Err(NONE)), (None, [3, 2, 3], [1, 30], Err(NONE)),
        (None, [3, 2, usize::MAX], [9, 30], Err(NONE)), (None, [0, 2, 2], [0, 5], Err(missing(0))),
        // a set number outside the count, a part outside the count, whatever the symbol; other edges do not ask for them
        (None, [3, 0, 2], [0, 5], Err(NONE)), (None, [3, 1, 2], [2, 5], Err(NONE)), (None, [3, 2, 1], [0, 5], Err(NONE)),
        (None, [3, 2, 1], [2, 500], Err(NONE)), (None, [3, 0, 0], [1, 30], Ok(true)),
        (Some((3, 2)), all, [0, 5], Err(NONE)), (Some((3, -1)), all, [0, 99], Err(NONE)), (Some((24, 1)), all, [0, 5], Err(NONE)),
        (Some((24, -1)), all, [0, 5], Err(NONE)), (Some((25, -1)), all, [0, 5], Err(NONE)), (Some((25, max)), all, [0, 5], Err(NONE)),
        (Some((24, max)), all, [0, 5], Err(NONE)), (Some((26, 3)), all, [2, 5], Err(NONE)), (Some((25, 1)), all, [0, 20], Ok(false)),
        // types
        (Some((0, 0)), all, [0, 5], Err(NONE)), (Some((0, 11)), all, [0, 5], Err(NONE)), (Some((0, -7)), all, [0, 500], Err(NONE)),
        (Some((0, 1)), all, [0, 5], Ok(false)), (Some((0, 10)), all, [0, 0], Ok(false)), (Some((0, 9)), all, [0, 100], Ok(true)),
        (Some((0, 5)), all, [0, 0], Ok(true)), (Some((0, 3)), [3, 0, 0], [0, 0], Ok(false)),
    ]
}

/// By hand, on sets: the counts of sets and ranges, the set; what is expected.
type SetCase = ([usize; 2], i32, Result<(usize, usize), Denial>);

fn set_cases() -> Vec<SetCase> {
    vec![
        ([2, 2], 0, Ok((0, 4))), ([2, 2], 1, Ok((4, 0))), ([2, 2], 2, Err(missing(2))), ([2, 2], -1, Err(missing(-1))),
        ([1, 2], 1, Err(missing(1))), ([3, 2], 0, Err(NONE)), ([2, 3], -5, Err(NONE)), ([2, 1], 0, Err(NONE)), ([2, 1], 1, Err(NONE)),
        ([2, 0], 1, Err(NONE)), ([0, 0], 0, Err(missing(0))), ([usize::MAX, 2], 0, Err(NONE)),
    ]
}

fn same<T: PartialEq + std::fmt::Debug>(what: impl Fn() -> String, wanted: T, came: T) -> Result<(), String> {
    if wanted == came { Ok(()) } else { Err(format!("{}: expected {wanted:?}, came {came:?}", what())) }
}

/// The list by hand: how many questions, or what differs. Each is also put to the rule, so that the two are held together.
pub fn by_hand() -> Result<u64, String> {
    for (number, (change, [state_count, edge_count], [state, n], wanted)) in edge_cases().into_iter().enumerate() {
        let mut t = sound();
        if let Some((word, value)) = change {
            *t.states.iter_mut().chain(&mut t.edges).nth(word).expect("a word of the tables") = value;
        }
        let what = || format!("n-th edge by hand, number {number}");
        same(what, wanted, gatehazel::nth_edge(&t.states, state_count, &t.edges, edge_count, state, n))?;
        same(what, wanted, nth_edge(Chains { states: &t.states, state_count, edges: &t.edges, edge_count }, state, n))?;
    }
    for (number, (change, [edge_count, set_count, range_count], [edge, symbol], wanted)) in match_cases().into_iter().enumerate() {
        let mut t = sound();
        if let Some((word, value)) = change {
            *t.edges.iter_mut().chain(&mut t.sets).nth(word).expect("a word of the tables") = value;
        }
        let asked = Asked { edges: &t.edges, edge_count, sets: &t.sets, set_count, ranges: &t.ranges, range_count };
        let what = || format!("matches by hand, number {number}");
        same(what, wanted, gatehazel::matches(asked, edge, symbol, 0, 100))?;
        same(what, wanted, matches(asked, edge, symbol, 0, 100))?;
    }
    let t = sound();
    for (number, ([set_count, range_count], asked, wanted)) in set_cases().into_iter().enumerate() {
        let what = || format!("set by hand, number {number}");
        same(what, wanted, gatehazel::set(&t.sets, set_count, &t.ranges, range_count, asked))?;
    }
    Ok((edge_cases().len() + match_cases().len() + set_cases().len()) as u64)
}

/// Words that are mostly small, so that most of them name something.
fn table(rng: &mut Rng, records: usize, width: usize) -> Vec<i32> {
    let length = records * width + rng.below(width);
    let one = |rng: &mut Rng| if rng.percent(6) { rng.pick(&[-1, i32::MIN, i32::MAX, 11, 99]) } else { rng.within(0, 4) };
    (0..length).map(|_| one(rng)).collect()
}

fn count(rng: &mut Rng, records: usize) -> usize {
    if rng.percent(5) { records + 1 } else { records - rng.below(2).min(records) }
}

fn number(rng: &mut Rng) -> i32 {
    if rng.percent(4) { rng.pick(&[-1, i32::MIN, i32::MAX]) } else { rng.within(0, 5) }
}

/// Tables as they come, asked every question once and held to the rule: how many questions, or what differs.
pub fn by_rule(rng: &mut Rng) -> Result<u64, String> {
    let [s, e, l, r] = std::array::from_fn(|_| rng.below(7));
    let (states, mut edges, sets, ranges) = (table(rng, s, 8), table(rng, e, 8), table(rng, l, 2), table(rng, r, 2));
    for record in edges.chunks_mut(8) {
        // most edges are of a type that is known, and half of them over a set
        record[0] = if rng.percent(95) { rng.pick(&[1, 2, 3, 4, 5, 6, 7, 7, 7, 7, 8, 8, 8, 8, 9, 10]) } else { record[0] };
    }
    let (state_count, edge_count) = (count(rng, s), count(rng, e));
    let (set_count, range_count) = (count(rng, l), count(rng, r));
    let t = Asked { edges: &edges, edge_count, sets: &sets, set_count, ranges: &ranges, range_count };
    let [a, b, min, max] = std::array::from_fn(|_| number(rng));
    let shown = || {
        format!("question {a} {b} {min} {max} on {states:?} {state_count} {edges:?} {edge_count} {sets:?} {set_count} {ranges:?} {range_count}")
    };
    let chains = Chains { states: &states, state_count, edges: &edges, edge_count };
    same(shown, nth_edge(chains, a, b), gatehazel::nth_edge(&states, state_count, &edges, edge_count, a, b))?;
    same(shown, matches(t, a, b, min, max), gatehazel::matches(t, a, b, min, max))?;
    same(shown, set(t, a), gatehazel::set(&sets, set_count, &ranges, range_count, a))?;
    same(shown, lookup(&ranges, a), gatehazel::lookup(&ranges, a))?;
    Ok(4)
}
