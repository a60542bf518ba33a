//! Small networks that have among them every kind of record: their tables are damaged at every word.

use crate::lists::{Net, call, edge, eps, full, whole};

const MAX: i32 = i32::MAX;

/// Document 01's P11: the follow state is the stop, or one with an epsilon edge to itself.
fn tail_call(follow: i32) -> Vec<i32> {
    Net::of(&[(2, 0), (7, 0), (1, 0)]).rules(&[[0, 1]]).edges(&[call(0, 0, follow), eps(2, follow)]).words()
}

/// Flags 1, 2 and 4: a loop entry that is a precedence decision, and one that is none, since it leads to another state than a loop end.
fn flags() -> Vec<i32> {
    let states = [(2, 0), (7, 0), (10, 0), (1, 0), (12, 0), (1, 1), (10, 0)];
    let net = Net { non_greedy: vec![3, 2, 0], ..Net::of(&states) };
    let ways = [eps(2, 3), eps(2, 4), eps(4, 1), eps(4, 3), eps(3, 1), eps(6, 3)];
    net.recursive(&[5, 0]).rules(&[[0, 1]]).edges(&ways).words()
}

/// Sets of several ranges, an empty one, touching ranges, and EOF by its flag, alone and beside others.
fn sets() -> Vec<i32> {
    let kept = [(0, vec![(5, 9), (20, 30), (10, 12)]), (0, vec![]), (1, vec![(0, 5), (8, MAX)]), (1, vec![(4, 3)]), (0, vec![(-1, -1)])];
    let over = |set: i32| edge(set % 2, 0, 7 + set % 2, set);
    Net::of(&[(1, 0), (1, 0)]).sets(&kept).edges(&[over(3), over(0), over(1), over(3)]).words()
}

/// Actions of every type; modes and decisions, of which one is not a listed state.
fn actions() -> Vec<i32> {
    let actions = (0..8).map(|kind| [kind, 10 + kind, 20 + kind]).collect();
    Net { token: -1, modes: vec![0, 1, 0], decisions: vec![1, 9], actions, ..Net::of(&[(6, -1), (0, 0)]) }.words()
}

/// Edges of all ten types, with unused arguments, with EOF by c, and without an action.
fn edges() -> Vec<i32> {
    let all = [
        [0, 1, 1, 4, 5, 6], [0, 2, 2, 65, 90, 0], [1, 2, 2, 65, 90, 3], [0, 1, 3, 0, 1, 2], [0, 2, 4, 3, 1, -1], [1, 2, 5, 66, 1, 0],
        [1, 9, 5, 66, 0, 1], [0, 2, 6, 1, 4, 1], [2, 0, 6, 0, -4, 7], [2, 0, 7, 1, 0, 0], [2, 0, 8, 0, 5, 5], [2, 0, 9, 1, 1, 1],
        [2, 0, 10, -3, 1, 1],
    ];
    Net::of(&[(2, 0), (7, 0), (8, 0)]).rules(&[[0, 1]]).sets(&[(0, vec![(1, 2)]), (1, vec![(0, 0)])]).edges(&all).words()
}

/// Calls between two rules, sources not in order and some of them equal; a stop has edges of its own; one follow state is not listed.
fn calls() -> Vec<i32> {
    let ways = [call(2, 0, 3), call(0, 2, 1), eps(3, 0), call(0, 0, 9), call(0, 2, 1), eps(4, 1), call(2, 2, 4), call(0, 2, 4)];
    Net::of(&[(2, 0), (7, 0), (2, 1), (7, 1), (1, 0)]).rules(&[[0, 1], [2, 2]]).edges(&ways).words()
}

/// States with links and without a rule; several stops of one rule, of which one leads to the other, and a rule with none.
fn stops() -> Vec<i32> {
    let states: [&[i32]; 9] = [&[3, 0, 4], &[4, -1, 9], &[5, 1, 0], &[12, 0, 2], &[0], &[7, 0], &[7, 0], &[7, -7], &[8, 2]];
    let ways = [call(0, 0, 1), eps(6, 3), call(3, 2, 3), eps(3, 6), call(0, 0, 5), eps(5, 6)];
    Net { states: states.map(<[i32]>::to_vec).into(), ..Net::default() }.rules(&[[0, -1], [2, 5], [99, 0]]).edges(&ways).words()
}

/// Name and words, the smallest first.
pub fn bases() -> Vec<(&'static str, Vec<i32>)> {
    vec![
        ("follow = stop", tail_call(1)), ("follow leads to itself", tail_call(2)), ("the whole case", whole()),
        ("a word of every field", full()), ("flags", flags()), ("sets", sets()), ("actions", actions()), ("edges", edges()),
        ("calls", calls()), ("stops", stops()),
    ]
}
