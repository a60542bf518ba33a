//! Word lists from a seed: networks of several shapes, most of them accepted, and damaged copies. The generator is splitmix64, so that a
//! seed gives the same lists everywhere.

use crate::lists::{Net, Set, eps};

/// splitmix64.
pub struct Rng(u64);

impl Rng {
    pub fn new(seed: u64) -> Rng {
        Rng(seed)
    }

    pub fn next(&mut self) -> u64 {
        self.0 = self.0.wrapping_add(0x9E37_79B9_7F4A_7C15);
        let mut z = self.0;
        z = (z ^ (z >> 30)).wrapping_mul(0xBF58_476D_1CE4_E5B9);
        z = (z ^ (z >> 27)).wrapping_mul(0x94D0_49BB_1331_11EB);
        z ^ (z >> 31)
    }

    /// Below n, which is not 0.
    pub fn below(&mut self, n: usize) -> usize {
        (self.next() % n as u64) as usize
    }

    pub fn within(&mut self, low: i32, high: i32) -> i32 {
        low + self.below((high - low + 1) as usize) as i32
    }

    pub fn pick<T: Copy>(&mut self, from: &[T]) -> T {
        from[self.below(from.len())]
    }

    pub fn percent(&mut self, chance: usize) -> bool {
        self.below(100) < chance
    }
}

/// What a seeded network is mostly about.
#[derive(Clone, Copy, PartialEq)]
pub enum Shape {
    Any,
    /// Many rule edges.
    Calls,
    /// One rule and plain ways to its stop.
    Tails,
    /// Loop entries, loop ends and stops that often lead to each other.
    Loops,
    /// Many and larger sets.
    Sets,
    /// Few states, and many entries in the other sections.
    Lists,
}

pub const SHAPES: [(Shape, &str); 6] = [
    (Shape::Any, "seeded, of any kind"), (Shape::Calls, "seeded, calls"), (Shape::Tails, "seeded, tail calls"),
    (Shape::Loops, "seeded, loops"), (Shape::Sets, "seeded, sets"), (Shape::Lists, "seeded, the other sections"),
];

impl Shape {
    fn state_types(self) -> &'static [i32] {
        match self {
            Shape::Calls => &[1, 1, 2, 7, 7],
            Shape::Tails => &[1, 1, 1, 1, 1, 1, 1, 1, 1, 1, 1, 1, 1, 1, 8, 7],
            Shape::Loops => &[2, 7, 10, 10, 12, 12],
            _ => &[0, 1, 2, 3, 4, 5, 6, 7, 8, 9, 10, 11, 12],
        }
    }

    /// Edge types, each as often as it shall come.
    fn edge_types(self) -> &'static [i32] {
        match self {
            Shape::Calls => &[1, 1, 1, 1, 3, 3, 3, 3, 3, 3, 3, 3, 5, 7],
            Shape::Tails => &[1, 3, 3, 3],
            Shape::Loops => &[1, 1, 1, 1, 1, 1, 1, 1, 3, 3, 5],
            Shape::Sets => &[7, 8, 7, 8, 2, 5, 9],
            _ => &[1, 1, 1, 2, 3, 3, 3, 4, 5, 6, 7, 7, 8, 8, 9, 10],
        }
    }
}

/// Mostly one of n, now and then none of them.
fn near(rng: &mut Rng, n: usize) -> i32 {
    let n = n as i32;
    if n == 0 || rng.percent(5) { rng.pick(&[n, n + 1, 99, i32::MAX]) } else { rng.within(0, n - 1) }
}

fn named(rng: &mut Rng, count: usize, most: usize) -> Vec<i32> {
    (0..rng.below(most + 1)).map(|_| rng.below(count) as i32).collect()
}

/// A set of ends that often meet, with an extreme one now and then.
pub fn some_set(rng: &mut Rng) -> Set {
    let high = rng.pick(&[6, 12, 30, 300]);
    let end = |rng: &mut Rng| {
        if rng.percent(4) { rng.pick(&[i32::MIN, i32::MIN + 1, i32::MAX - 1, i32::MAX]) } else { rng.within(-3, high) }
    };
    let count = if rng.percent(1) { rng.below(120) } else { rng.pick(&[0, 1, 2, 2, 3, 4, 6, 9, 14]) };
    (rng.pick(&[0, 0, 0, 1, 5, -1]), (0..count).map(|_| (end(rng), end(rng))).collect())
}

/// A set of up to some hundred intervals, short or long, of which few or many meet; of some sets most starts rise.
pub fn large_set(rng: &mut Rng) -> Set {
    let most = rng.pick(&[20, 80, 300]);
    let (high, long, rising) = (rng.pick(&[200, 4_000, 1_000_000]), rng.pick(&[0, 3, 30, 400]), rng.pick(&[0, 50, 95, 100]));
    let mut intervals = Vec::new();
    let mut start = 0;
    for _ in 0..=rng.below(most) {
        start = if rng.percent(rising) { start + rng.within(0, 9) } else { rng.within(-high, high) };
        let stop = start + rng.within(0, long);
        intervals.push(if rng.percent(10) { (stop, start) } else { (start, stop) });
    }
    (rng.pick(&[0, 1]), intervals)
}

fn some_state(rng: &mut Rng, kind: i32, rules: usize, count: usize) -> Vec<i32> {
    let rule = if rules == 0 || rng.percent(6) { rng.pick(&[-1, -9, rules as i32]) } else { rng.below(rules) as i32 };
    match kind {
        0 => vec![0],
        3 | 4 | 5 | 12 => vec![kind, rule, near(rng, count)],
        _ => vec![kind, rule],
    }
}

fn some_edge(rng: &mut Rng, shape: Shape, net: &Net) -> [i32; 6] {
    let count = net.states.len();
    let mut kind = rng.pick(shape.edge_types());
    if (kind == 7 || kind == 8) && net.sets.is_empty() {
        kind = 1;
    }
    let source = rng.below(count);
    let mut target = near(rng, count);
    if shape == Shape::Loops && rng.percent(70) {
        let wanted = match net.states[source][0] { 10 => 12, 12 => 7, _ => 10 };
        let of_it: Vec<i32> = (0..count).filter(|&s| net.states[s][0] == wanted).map(|s| s as i32).collect();
        target = if of_it.is_empty() { target } else { rng.pick(&of_it) };
    }
    let mut a = match kind {
        7 | 8 => rng.below(net.sets.len()) as i32,
        3 => near(rng, count),
        _ => rng.within(0, 4),
    };
    let mut b = rng.within(0, 3);
    if [1, 2, 5, 9, 10].contains(&kind) && rng.percent(30) {
        a = rng.pick(&[-1, 65, i32::MIN, i32::MAX]);
    }
    if ![3, 4].contains(&kind) && rng.percent(30) {
        b = rng.pick(&[-1, 90, i32::MIN, i32::MAX]);
    }
    [source as i32, target, kind, a, b, rng.pick(&[0, 0, 1, -1, 7])]
}

/// Ways to higher states, so that most reach the last, the stop, and few are cycles.
fn ways_up(rng: &mut Rng, count: usize) -> Vec<[i32; 6]> {
    let mut edges = Vec::new();
    for source in 0..count - 1 {
        for _ in 0..rng.pick(&[0, 1, 1, 1, 1, 1, 2, 2, 3]) {
            edges.push(eps(source as i32, rng.within(source as i32 + 1, count as i32 - 1)));
        }
    }
    edges
}

fn shuffle<T>(rng: &mut Rng, items: &mut [T]) {
    for last in (1..items.len()).rev() {
        items.swap(last, rng.below(last + 1));
    }
}

/// The numbers of states, rules, sets and edges of a shape; now and then more of each.
fn sizes(rng: &mut Rng, shape: Shape) -> [usize; 4] {
    let some = [0, 0, 1, 2, 3];
    let [states, rules, sets, edges] = small_sizes(rng, shape, &some);
    let times = if rng.percent(2) { 2 + rng.below(20) } else { 1 };
    [times * states, rules, times * sets, times * edges]
}

fn small_sizes(rng: &mut Rng, shape: Shape, some: &[usize]) -> [usize; 4] {
    match shape {
        Shape::Any => [1 + rng.below(9), rng.pick(&[0, 1, 2, 2, 3]), rng.pick(some), rng.below(28)],
        Shape::Tails => [3 + rng.below(12), 1, 0, 1 + rng.below(6)],
        Shape::Sets => [1 + rng.below(3), 1, 1 + rng.below(8), rng.below(10)],
        Shape::Lists => [1 + rng.below(2), rng.below(9), 0, rng.below(3)],
        Shape::Calls | Shape::Loops => [1 + rng.below(9), 1 + rng.below(3), rng.pick(some), rng.below(28)],
    }
}

/// A small network that is accepted.
pub fn network(rng: &mut Rng, shape: Shape) -> Net {
    let [count, rules, sets, edges] = sizes(rng, shape);
    let most = if shape == Shape::Lists { 9 } else { 3 };
    let mut net = Net { token: rng.pick(&[0, 1, 40, -1, i32::MAX]), ..Net::default() };
    for state in 0..count {
        let kind = if shape == Shape::Tails && state == count - 1 { 7 } else { rng.pick(shape.state_types()) };
        net.states.push(some_state(rng, kind, rules, count));
    }
    net.rules = (0..rules).map(|_| [near(rng, count), rng.within(-1, 9)]).collect();
    net.sets = (0..sets).map(|_| some_set(rng)).collect();
    net.non_greedy = named(rng, count, 2);
    net.recursive = named(rng, count, 2);
    if shape == Shape::Loops {
        let starts: Vec<i32> = net.rules.iter().map(|rule| rule[0]).filter(|&start| start < count as i32).collect();
        net.recursive.extend(starts);
    }
    net.edges = (0..edges).map(|_| some_edge(rng, shape, &net)).collect();
    if shape == Shape::Tails {
        net.edges.extend(ways_up(rng, count));
        shuffle(rng, &mut net.edges);
    }
    net.modes = (0..rng.below(most)).map(|_| near(rng, count)).collect();
    net.decisions = (0..rng.below(most + 1)).map(|_| near(rng, count)).collect();
    net.actions = (0..rng.below(most + 1)).map(|_| [rng.within(0, 7), rng.within(-2, 9), rng.within(-2, 9)]).collect();
    net
}

/// Words of all sorts.
pub fn some_words(rng: &mut Rng, count: usize) -> Vec<i32> {
    let one = |rng: &mut Rng| {
        let small = rng.within(-99, 999);
        rng.pick(&[0, -1, 4, i32::MIN, i32::MAX, small])
    };
    (0..count).map(|_| one(rng)).collect()
}

/// A small word, one near this word, or an extreme one.
pub fn word_near(rng: &mut Rng, word: i32) -> i32 {
    let small = rng.within(-20, 40);
    let (up, down, turned) = (word.wrapping_add(1), word.wrapping_sub(1), word.wrapping_neg());
    rng.pick(&[-1, 0, 1, 2, 3, 7, 12, up, up, down, down, turned, i32::MIN, i32::MAX, 65_537, small, small])
}

/// A damaged copy of a list that is not empty: words changed, dropped, doubled or turned round.
pub fn damaged(rng: &mut Rng, words: &[i32]) -> Vec<i32> {
    let mut copy = words.to_vec();
    let at = rng.below(copy.len());
    match rng.below(10) {
        0 => drop(copy.remove(at)),
        1 => copy.insert(at, words[at]),
        2 => copy.swap(at, (at + 1) % words.len()),
        3 | 4 => (0..3).for_each(|_| change(rng, &mut copy)),
        _ => change(rng, &mut copy),
    }
    copy
}

fn change(rng: &mut Rng, words: &mut [i32]) {
    let at = rng.below(words.len());
    words[at] = word_near(rng, words[at]);
}

/// Small words behind a header, as they come; now and then words of all sorts.
pub fn loose(rng: &mut Rng) -> Vec<i32> {
    let mut words = vec![4, 0, 0];
    if rng.percent(10) {
        let (keep, count) = (rng.below(4), rng.below(12));
        words.truncate(keep);
        words.extend(some_words(rng, count));
        return words;
    }
    for _ in 0..rng.below(40) {
        let word = rng.within(0, 12);
        words.push(rng.pick(&[0, 0, 0, 0, 1, 1, 1, 2, 3, 7, -1, word]));
    }
    words
}
