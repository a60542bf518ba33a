//! Intervals in the orders in which a set may name them: for the comparison, and for the figures.

pub type Interval = (i32, i32);

/// n intervals of every kind, in every order.
pub fn all(n: usize) -> Vec<Vec<Interval>> {
    let mut lists = Vec::new();
    for kind in [apart, touching, equal, equal_starts, overlapping, nested] {
        for arrange in [in_order, reverse, shuffle, swap_and_shuffle] {
            let mut list = kind(n);
            arrange(&mut list);
            lists.push(list);
        }
    }
    lists
}

// ---- what the intervals are to each other; all are made in the order of their starts

fn each(n: usize, one: impl Fn(i32) -> Interval) -> Vec<Interval> {
    (0..n as i32).map(one).collect()
}

/// They neither meet nor touch.
pub fn apart(n: usize) -> Vec<Interval> {
    each(n, |i| (4 * i, 4 * i + 1))
}

/// Each begins behind the one before it; behind every eighth there is a gap.
fn touching(n: usize) -> Vec<Interval> {
    each(n, |i| (4 * i, if i % 8 == 7 { 4 * i + 2 } else { 4 * i + 3 }))
}

pub fn equal(n: usize) -> Vec<Interval> {
    each(n, |_| (5, 9))
}

/// Five have one start, and the third of them stops last.
fn equal_starts(n: usize) -> Vec<Interval> {
    each(n, |i| (100 * (i / 5), 100 * (i / 5) + [3, 9, 40, 8, 0][i as usize % 5]))
}

/// Every two of them meet.
pub fn overlapping(n: usize) -> Vec<Interval> {
    each(n, |i| (i, n as i32 + i))
}

/// Each lies inside the one before it.
pub fn nested(n: usize) -> Vec<Interval> {
    each(n, |i| (i, 3 * n as i32 - i))
}

// ---- the order in which they are named

fn in_order(_: &mut [Interval]) {}

fn reverse(list: &mut [Interval]) {
    list.reverse();
}

/// The order is the same in every run: the generator starts from a fixed number.
pub fn shuffle(list: &mut [Interval]) {
    let mut state = 0x9e37_79b9_7f4a_7c15u64;
    for i in (1..list.len()).rev() {
        state ^= state << 13;
        state ^= state >> 7;
        state ^= state << 17;
        list.swap(i, (state % (i as u64 + 1)) as usize);
    }
}

/// Every other interval names its stop first.
fn swap_and_shuffle(list: &mut [Interval]) {
    for one in list.iter_mut().step_by(2) {
        *one = (one.1, one.0);
    }
    shuffle(list);
}
