//! Lists that are tried in every way: all short ones of a few words, and all small networks of some kinds.

use crate::lists::{Net, call, eps, one_rule};

const MAX: i32 = i32::MAX;
const MIN: i32 = i32::MIN;

/// Each list of `shortest` to `longest` of these letters, between a beginning and an end.
pub struct Short {
    pub name: &'static str,
    before: Vec<i32>,
    letters: Vec<i32>,
    lengths: (u32, u32),
    behind: Vec<i32>,
}

impl Short {
    fn new(name: &'static str, before: &[i32], letters: &[i32], lengths: (u32, u32), behind: &[i32]) -> Short {
        Short { name, before: before.to_vec(), letters: letters.to_vec(), lengths, behind: behind.to_vec() }
    }

    pub fn count(&self) -> usize {
        (self.lengths.0..=self.lengths.1).map(|length| self.letters.len().pow(length)).sum()
    }

    /// All of them.
    pub fn lists(&self) -> impl Iterator<Item = Vec<i32>> {
        let numbered = |length| (0..self.letters.len().pow(length)).map(move |number| (length, number));
        (self.lengths.0..=self.lengths.1).flat_map(numbered).map(|(length, number)| self.list(length, number))
    }

    /// The list of this length that the number spells, its letters being the digits.
    fn list(&self, length: u32, number: usize) -> Vec<i32> {
        let letters = self.letters.len();
        let spelled = (0..length).map(|digit| self.letters[number / letters.pow(digit) % letters]);
        self.before.iter().copied().chain(spelled).chain(self.behind.iter().copied()).collect()
    }
}

/// The short lists. Whole sections are spelled where loose words would rarely get so far.
pub fn short() -> Vec<Short> {
    let head = [4, 0, 0];
    // two states, the second a stop, one rule, no modes
    let to_sets = [4, 0, 0, 2, 1, 0, 7, 0, 0, 0, 1, 0, 1, 0];
    let one_set = [&to_sets[..], &[1]].concat();
    let one_edge = [&to_sets[..], &[1, 1, 0, 5, 9, 1]].concat();
    let intervals = |count: i32, flag: i32| [4, 0, 0, 0, 0, 0, 0, 0, 1, count, flag];
    vec![
        Short::new("from nothing", &[], &[-1, 0, 1, 4, 5], (0, 6), &[]),
        Short::new("behind a header", &head, &[-1, 0, 1, 2, 7], (0, 8), &[]),
        Short::new("behind a header, of 0, 1, 3", &head, &[0, 1, 3], (9, 11), &[]),
        Short::new("behind a header, of 0, 1", &head, &[0, 1], (12, 17), &[]),
        Short::new("behind a header, then zeros", &head, &[-1, 0, 1, 2, 12], (6, 6), &[0; 9]),
        Short::new("a set and on", &one_set, &[-1, 0, 1, 2], (1, 9), &[]),
        Short::new("one edge", &one_edge, &[-1, 0, 1, 3, 4, 6, 7, 8], (5, 5), &[0, 0, 0]),
        Short::new("one edge, its last word too", &one_edge, &[-1, 0, 1, 2, 5], (6, 6), &[0, 0]),
        Short::new("one edge, then decisions and actions", &one_edge, &[0, 1, 3], (8, 10), &[]),
        Short::new("three intervals", &intervals(3, 0), &[-1, 0, 1, 2, 3, 5], (6, 6), &[0, 0, 0]),
        Short::new("two intervals at the ends", &intervals(2, 0), &[MIN, MIN + 1, -2, -1, 0, 1, MAX - 1, MAX], (4, 4), &[0, 0, 0]),
        Short::new("two intervals and EOF", &intervals(2, 1), &[MIN, MIN + 1, -3, -2, -1, 0, 1, MAX], (4, 4), &[0, 0, 0]),
    ]
}

/// The digits of a number, the base of each being given, lowest first.
fn digits<const N: usize>(mut number: usize, bases: [usize; N]) -> [usize; N] {
    bases.map(|base| {
        let digit = number % base;
        number /= base;
        digit
    })
}

/// Plain edges on three states of a rule, with a call that returns to the first of them: bit by bit, whether there is an edge from state
/// 2, 3, 4 to the stop, 2, 3, 4.
fn tails(bits: usize) -> Vec<i32> {
    let there = (0..12).filter(|bit| bits >> bit & 1 == 1);
    let mut edges: Vec<[i32; 6]> = there.map(|bit| eps(2 + bit / 4, 1 + bit % 4)).collect();
    edges.push(call(0, 0, 2));
    one_rule(5, &[], &edges)
}

/// Two calls among the four states of two rules, of which one or both are listed; targets and follow states may be just outside.
fn calls(number: usize) -> Vec<i32> {
    let [a, b, c, d, e, f, listed] = digits(number, [4, 5, 5, 4, 5, 5, 2]).map(|digit| digit as i32);
    let rules = [[0, 1], [2, 2]];
    Net::of(&[(2, 0), (7, 0), (2, 1), (7, 1)]).rules(&rules[listed as usize..]).edges(&[call(a, b, c), call(d, e, f)]).words()
}

/// A loop: whether its start is flagged, its states' types, and up to two edges of its entry and of its end.
fn loops(number: usize) -> Vec<i32> {
    let [flagged, out, entry, end, one, two, three, four] = digits(number, [2, 2, 2, 2, 4, 4, 4, 4]);
    let states = [(2, 0), ([7, 1][out], 0), ([10, 1][entry], 0), ([12, 1][end], 0)];
    let ways = [(2, one), (2, two), (3, three), (3, four)];
    // the way 0 is none: a state's edge to its own rule's start changes nothing here
    let edges: Vec<[i32; 6]> = ways.iter().filter(|way| way.1 > 0).map(|&(source, target)| eps(source, target as i32)).collect();
    Net::of(&states).recursive(&[0][..flagged]).rules(&[[0, 1]]).edges(&edges).words()
}

/// Every small network of a kind: the family's name, how many there are, and the network of a number.
pub const SMALL: [(&str, usize, fn(usize) -> Vec<i32>); 3] =
    [("every small graph", 1 << 12, tails), ("every two calls", 2 * 100 * 100, calls), ("every small loop", 16 * 256, loops)];
