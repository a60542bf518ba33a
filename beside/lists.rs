//! Word lists built by hand, by section, and the real dialects.
//! A list is written through `Net`, section by section, so that a case shows what it is about.

const MAX: i32 = i32::MAX;
const MIN: i32 = i32::MIN;

/// A set: its EOF flag and its intervals.
pub type Set = (i32, Vec<(i32, i32)>);

/// A family's name and its lists.
pub type Family = (&'static str, Vec<Vec<i32>>);

/// A network's sections: states (type, rule, link) as far as the type has them, rules (start, token type), edges (source, word 25, type,
/// a, b, c), actions (type, d1, d2).
#[derive(Clone, Default)]
pub struct Net {
    pub token: i32,
    pub states: Vec<Vec<i32>>,
    pub non_greedy: Vec<i32>,
    pub recursive: Vec<i32>,
    pub rules: Vec<[i32; 2]>,
    pub modes: Vec<i32>,
    pub sets: Vec<Set>,
    pub edges: Vec<[i32; 6]>,
    pub decisions: Vec<i32>,
    pub actions: Vec<[i32; 3]>,
}

impl Net {
    pub fn words(&self) -> Vec<i32> {
        let mut out = vec![4, 0, self.token, self.states.len() as i32];
        out.extend(self.states.iter().flatten());
        for section in [&self.non_greedy, &self.recursive] {
            out.push(section.len() as i32);
            out.extend(section);
        }
        out.push(self.rules.len() as i32);
        out.extend(self.rules.iter().flatten());
        out.push(self.modes.len() as i32);
        out.extend(&self.modes);
        out.push(self.sets.len() as i32);
        for (flag, intervals) in &self.sets {
            out.extend([intervals.len() as i32, *flag]);
            out.extend(intervals.iter().flat_map(|&(start, stop)| [start, stop]));
        }
        out.push(self.edges.len() as i32);
        out.extend(self.edges.iter().flatten());
        out.push(self.decisions.len() as i32);
        out.extend(&self.decisions);
        out.push(self.actions.len() as i32);
        out.extend(self.actions.iter().flatten());
        out
    }

    /// States of type and rule.
    pub fn of(states: &[(i32, i32)]) -> Net {
        Net { states: states.iter().map(|&(kind, rule)| state(kind, rule)).collect(), ..Net::default() }
    }

    pub fn rules(mut self, rules: &[[i32; 2]]) -> Net {
        self.rules = rules.to_vec();
        self
    }

    pub fn sets(mut self, sets: &[Set]) -> Net {
        self.sets = sets.to_vec();
        self
    }

    pub fn edges(mut self, edges: &[[i32; 6]]) -> Net {
        self.edges = edges.to_vec();
        self
    }

    pub fn recursive(mut self, named: &[i32]) -> Net {
        self.recursive = named.to_vec();
        self
    }
}

/// A state with as many words as its type has; a link is to state 0.
pub fn state(kind: i32, rule: i32) -> Vec<i32> {
    match kind {
        0 => vec![0],
        3 | 4 | 5 | 12 => vec![kind, rule, 0],
        _ => vec![kind, rule],
    }
}

pub fn eps(source: i32, target: i32) -> [i32; 6] {
    edge(source, target, 1, 0)
}

pub fn call(source: i32, target: i32, follow: i32) -> [i32; 6] {
    [source, follow, 3, target, 0, 0]
}

pub fn edge(source: i32, target: i32, kind: i32, a: i32) -> [i32; 6] {
    [source, target, kind, a, 0, 0]
}

/// A network that has a word of every field, and is small enough to be cut and damaged at every place.
pub fn full() -> Vec<i32> {
    let net = Net {
        token: 1, non_greedy: vec![3], modes: vec![0], decisions: vec![0], actions: vec![[0, 1, 0], [6, 0, 0]],
        ..Net::of(&[(6, -1), (2, 0), (7, 0), (3, 0), (12, 0), (0, 0)])
    };
    let edges = [eps(0, 1), edge(1, 3, 7, 0), call(3, 1, 2), [4, 2, 2, 65, 90, 0]];
    net.recursive(&[1]).rules(&[[1, 1]]).sets(&[(1, vec![(48, 52), (53, 57)])]).edges(&edges).words()
}

/// Document 01's whole case.
pub fn whole() -> Vec<i32> {
    let net = Net { token: 1, modes: vec![0], decisions: vec![0], actions: vec![[6, 0, 0]], ..Net::of(&[(6, -1), (2, 0), (7, 0), (1, 0)]) };
    net.rules(&[[1, 1]]).sets(&[(0, vec![(48, 52), (53, 57)])]).edges(&[eps(0, 1), edge(1, 3, 7, 0), eps(3, 2)]).words()
}

/// A network with three records and more of every kind, to be cut and damaged at every place, too: for the records that refusals name.
pub fn three() -> Vec<i32> {
    let net = Net {
        token: 2, non_greedy: vec![3, 1, 4], modes: vec![0, 1, 0], decisions: vec![0, 3, 4], actions: vec![[0, 1, 0], [6, 0, 0], [1, 2, 3]],
        ..Net::of(&[(6, -1), (2, 0), (7, 0), (3, 0), (12, 0), (0, 0), (2, 1), (7, 1)])
    };
    let sets = [(1, vec![(48, 52), (53, 57)]), (0, vec![(65, 70), (80, 90), (97, 99)]), (0, vec![(1, 2), (5, 6), (9, 10)])];
    let edges = [eps(0, 1), edge(1, 3, 7, 0), call(3, 6, 2), [4, 2, 4, 0, 0, 0], edge(6, 7, 8, 2), edge(1, 2, 6, 1)];
    net.recursive(&[1, 6, 1]).rules(&[[1, 1], [6, 2], [3, 5]]).sets(&sets).edges(&edges).words()
}

/// Sets, each used by an edge.
pub fn over_sets(sets: &[Set]) -> Vec<i32> {
    let edges: Vec<[i32; 6]> = (0..sets.len() as i32).map(|number| edge(0, 0, 7 + number % 2, number)).collect();
    Net::of(&[(1, 0)]).sets(sets).edges(&edges).words()
}

/// Document 01, "Cases on each side".
fn document() -> Vec<Vec<i32>> {
    let nothing = Net { token: 9, ..Net::default() }.words();
    let mut out = vec![vec![], nothing.clone(), nothing[..11].to_vec(), vec![3], vec![4, 1], whole()];
    for intervals in [vec![(9, 3)], vec![(1, 3), (4, 6)], vec![(1, 3), (5, 6)], vec![(MAX, MAX), (MAX - 1, MAX - 1)]] {
        out.push(over_sets(&[(0, intervals)]));
    }
    out.push(over_sets(&[(1, vec![(0, 5)])]));
    for target in [1, 2] {
        out.push(Net::of(&[(2, 0), (7, 0), (1, 0)]).rules(&[[0, 1]]).edges(&[call(0, 0, target), eps(2, target)]).words());
    }
    out
}

/// Lists on which the Rust and public ANTLR were held side by side.
fn demos() -> Vec<Vec<i32>> {
    let words = |line: &str| {
        let list = line.rsplit(':').next().unwrap_or_default();
        list.split_ascii_whitespace().map(|word| word.parse().expect("a word")).collect()
    };
    let shows = |line: &&str| line.contains(':') && !line.starts_with(['#', ' ']);
    include_str!("../oracle/demos.txt").lines().filter(shows).map(words).collect()
}

fn headers() -> Vec<Vec<i32>> {
    let mut out = vec![vec![3, 1], vec![4, 1, 0, -1], vec![4, 0, 0, -1]];
    let whole = |head: [i32; 3]| [&head[..], &[0; 9]].concat();
    for word in [3, 5, 0, 1, 2, -1, -4, MAX, MIN] {
        out.extend([whole([word, 0, 9]), whole([4, word, 9]), whole([4, 0, word])]);
    }
    out
}

fn states() -> Vec<Vec<i32>> {
    let mut out = Vec::new();
    for kind in 0..13 {
        out.push(Net::of(&[(kind, 0), (1, 0)]).words());
        // a rule word after type 0 would be read as a state type
        out.push(Net::of(&[(kind, 0), (kind, 0), (7, 0)]).rules(&[[0, 1]]).edges(&[eps(0, 2)]).words());
    }
    for rule in [-1, -7, 1, 5, MAX, MIN] {
        out.push(Net::of(&[(1, rule), (7, rule), (3, rule), (12, rule)]).rules(&[[0, 1]]).edges(&[call(0, 0, 1)]).words());
    }
    for kind in [3, 4, 5, 12] {
        for link in [1, 99, MAX, -1, MIN] {
            out.push(Net { states: vec![vec![kind, 0, link]], ..Net::default() }.words());
        }
    }
    for kind in [13, 14, 99, -1, MAX, MIN] {
        out.push(Net::of(&[(1, 0), (kind, 0)]).words());
    }
    out.extend([vec![4, 0, 0, 1, 13], vec![4, 0, 0, 2, 0, 0, 0, 0, 0, 0, 0, 0, 0, 0], vec![4, 0, 0, 2, 0, 1]]);
    out
}

fn flags() -> Vec<Vec<i32>> {
    let mut out = vec![vec![4, 0, 0, 0, -1], vec![4, 0, 0, 0, 0, -1]];
    let three = Net::of(&[(2, 0), (8, -1), (0, 0)]);
    for named in [&[0][..], &[1], &[2], &[0, 0], &[2, 1, 0, 1], &[3], &[0, 3], &[-1], &[MAX], &[MIN], &[1, -5]] {
        out.push(Net { non_greedy: named.to_vec(), ..three.clone() }.words());
        out.push(three.clone().recursive(named).words());
        out.push(Net { non_greedy: named[..1].to_vec(), ..three.clone() }.recursive(named).words());
    }
    out.push(Net { non_greedy: vec![0], ..Net::default() }.words());
    out.push(Net::default().recursive(&[0]).words());
    out
}

fn rules_and_modes() -> Vec<Vec<i32>> {
    let stops = Net::of(&[(7, 0), (7, 1), (7, 0), (7, -1), (7, 2), (7, 9), (1, 0)]);
    let mut out = Vec::new();
    let listed: [&[[i32; 2]]; 7] = [
        &[], &[[0, 1]], &[[6, -5], [99, MAX]], &[[1, 1], [0, MIN], [MAX, 0], [2, 2]], &[[0, 0], [0, 0], [0, 0]], &[[0, 1], [-1, 0]],
        &[[0, 1], [MIN, 0]],
    ];
    out.extend(listed.iter().map(|rules| stops.clone().rules(rules).words()));
    for named in [vec![0], vec![3, 3], vec![99], vec![MAX], vec![-1], vec![0, MIN]] {
        out.push(Net { modes: named.clone(), ..Net::of(&[(6, -1)]) }.words());
        out.push(Net { decisions: named, ..Net::of(&[(6, -1)]) }.words());
    }
    out
}

fn intervals() -> Vec<Vec<(i32, i32)>> {
    vec![
        vec![], vec![(5, 5)], vec![(9, 3)], vec![(1, 3), (4, 6)], vec![(1, 3), (5, 6)], vec![(5, 6), (1, 3)], vec![(4, 6), (1, 3)],
        vec![(1, 9), (3, 4)], vec![(3, 4), (1, 9)], vec![(1, 2), (1, 5)], vec![(1, 5), (1, 2)], vec![(1, 5), (1, 5)],
        vec![(1, 2), (5, 6), (9, 10), (3, 8)], vec![(1, 2), (5, 6), (9, 10), (2, 9)], vec![(1, 2), (5, 6), (9, 10), (0, 20)],
        vec![(1, 1), (3, 3), (5, 5), (7, 7), (4, 4), (2, 2), (6, 6)], vec![(9, 9), (7, 7), (5, 5), (3, 3), (1, 1)],
        vec![(1, 8), (20, 4)], vec![(10, 1), (30, 12), (11, 11)], vec![(-5, -3), (-2, 0)], vec![(-5, -3), (-1, 0)], vec![(0, 0), (-1, -1)],
        vec![(MAX, MAX), (MAX - 1, MAX - 1)], vec![(MAX - 1, MAX - 1), (MAX, MAX)], vec![(MAX, MAX), (MAX - 2, MAX - 2)],
        vec![(MIN, MIN), (MAX, MAX)], vec![(MAX, MAX), (MIN, MIN)], vec![(MIN, MAX)], vec![(MAX, MIN)], vec![(MIN, MAX), (3, 4)],
        vec![(3, 4), (MAX, MIN)], vec![(MIN, MIN), (MIN + 1, MIN + 1)], vec![(MIN + 1, MIN + 1), (MIN, MIN)], vec![(MIN, -1), (0, MAX)],
        vec![(MIN, -2), (0, MAX)], vec![(0, MAX), (5, MAX)], vec![(MAX, 0), (1, MAX - 1)], vec![(MAX, MAX), (MAX, MAX)],
    ]
}

fn sets() -> Vec<Vec<i32>> {
    let many = intervals();
    let mut out: Vec<Vec<i32>> = many.iter().flat_map(|one| [over_sets(&[(0, one.clone())]), over_sets(&[(1, one.clone())])]).collect();
    for flag in [-1, 2, MAX, MIN] {
        out.push(over_sets(&[(flag, vec![(5, 6)]), (0, vec![(1, 2)])]));
    }
    // several sets: an empty one first, between and last; each begins behind what was kept
    let one = |flag: i32, intervals: &[(i32, i32)]| (flag, intervals.to_vec());
    out.push(over_sets(&[one(0, &[]), one(0, &[(1, 2), (3, 4)]), one(0, &[]), one(1, &[(7, 8), (1, 1)]), one(1, &[]), one(0, &[])]));
    for (flag, part) in [(0, &many[..12]), (1, &many[12..24]), (1, &many[24..])] {
        out.push(over_sets(&part.iter().map(|intervals| (flag, intervals.clone())).collect::<Vec<_>>()));
    }
    // no edge uses these
    let unused = [one(1, &[(4, 2)]), one(0, &[]), one(0, &[(8, 9), (1, 7)])];
    out.push(Net::of(&[(1, 0)]).sets(&unused).words());
    out.push(Net::of(&[(1, 0)]).sets(&unused).edges(&[edge(0, 0, 8, 2)]).words());
    out.push(Net::default().sets(&unused).words());
    for count in [-1, MIN] {
        out.extend([vec![4, 0, 0, 0, 0, 0, 0, 0, 1, count], vec![4, 0, 0, 0, 0, 0, 0, 0, count]]);
    }
    out.push(vec![4, 0, 0, 0, 0, 0, 0, 0, 1, 3, 1, 1, 1, 2]);
    out
}

fn two_states() -> Net {
    Net::of(&[(1, 0), (7, 0)]).rules(&[[0, 1]]).sets(&[(0, vec![(1, 2)]), (1, vec![(8, 9), (4, 4)])])
}

fn edges() -> Vec<Vec<i32>> {
    let mut out = Vec::new();
    let arguments = [
        [0, 0, 0], [1, 1, 1], [1, 0, -1], [-1, 0, 0], [0, -1, 0], [0, 0, -1], [-3, -4, -5], [2, 1, 0], [1, 2, MAX], [MAX, MAX, MAX],
        [MIN, 0, 0], [0, MIN, 1], [MAX, MIN, MIN], [MIN, MAX, 7],
    ];
    for kind in 1..11 {
        out.extend(arguments.iter().map(|&[a, b, c]| two_states().edges(&[[0, 1, kind, a, b, c]]).words()));
    }
    for kind in [0, 11, 12, -1, -10, MAX, MIN] {
        out.push(two_states().edges(&[edge(0, 1, kind, 0)]).words());
    }
    // the order of the tests: 24, 25 as read; then 8, then a or 9, then b, then 10
    let wrong = [
        [-1, -1, 0, -1, -1], [5, -1, 0, 0, 0], [5, 1, 0, -1, -1], [5, 1, 3, -1, -1], [5, 1, 7, 9, 0], [5, 1, 3, 0, -1], [5, 1, 4, 0, -1],
        [5, 1, 1, 0, 0], [2, 1, 3, 0, 0], [MAX, 1, 1, 0, 0], [0, MAX, 1, 0, 0], [0, MAX, 3, MAX, MAX], [5, 1, 7, -1, 0], [5, 1, 8, 1, 0],
        [5, 1, 6, -1, 0], [5, 1, 6, 0, -1], [0, 1, 7, 2, 0], [0, 1, 8, 2, 0], [0, 1, 8, MAX, 0],
    ];
    out.extend(wrong.iter().map(|&[s, t, kind, a, b]| two_states().edges(&[eps(0, 1), [s, t, kind, a, b, MIN]]).words()));
    // without sets, without states
    out.push(Net::of(&[(1, 0)]).edges(&[edge(0, 0, 7, 0)]).words());
    out.extend([eps(0, 0), eps(-1, 0), edge(0, 0, 99, 0)].map(|one| Net::default().edges(&[one]).words()));
    // chains of one and several states, mixed, and every type at once
    out.push(two_states().edges(&[eps(0, 1), eps(1, 0), eps(0, 0), eps(0, 1), edge(1, 1, 5, 65), eps(0, 9)]).words());
    let mixed: Vec<[i32; 6]> = (1..11).map(|kind| [kind % 2, 1, kind, kind % 2, kind % 2, 0]).collect();
    out.push(two_states().edges(&mixed).words());
    let down: Vec<[i32; 6]> = (1..11).rev().map(|kind| [1, 0, kind, 1, 0, kind % 3]).collect();
    out.push(two_states().edges(&down).words());
    // cut inside an edge that would be refused for its type or its argument: the words ended first
    let refused = two_states().edges(&[[5, 1, 11, -1, -1, 0]]).words();
    out.extend((refused.len() - 9..refused.len()).map(|n| refused[..n].to_vec()));
    out
}

fn actions() -> Vec<Vec<i32>> {
    let with = |actions: &[[i32; 3]]| Net { actions: actions.to_vec(), ..Net::default() }.words();
    let mut out = Vec::new();
    for kind in 0..8 {
        out.extend([[0, 0], [3, 4], [-1, -2], [MAX, MIN]].map(|[d1, d2]| with(&[[kind, d1, d2]])));
    }
    out.push(with(&std::array::from_fn::<[i32; 3], 8, _>(|kind| [kind as i32, 10 + kind as i32, 20 + kind as i32])));
    for kind in [8, 9, -1, MAX, MIN] {
        let refused = with(&[[6, 0, 0], [kind, 1, 2]]);
        // cut inside an action that would be refused for its type: the words ended first
        out.extend([refused[..refused.len() - 1].to_vec(), refused]);
    }
    for zeros in 3..9 {
        out.push([&[4, 0, 0][..], &vec![0; zeros], &[-1]].concat());
    }
    out
}

/// Where return edges arise: 0, 1 are of rule 0 and 2, 3 of rule 1.
fn returns() -> Vec<Vec<i32>> {
    let four = Net::of(&[(2, 0), (7, 0), (2, 1), (7, 1)]).rules(&[[0, 1], [2, 2]]);
    let mut out = Vec::new();
    for p in [0, 1, 7] {
        out.push(four.clone().edges(&[[0, 1, 3, 2, p, 0]]).words());
    }
    for (target, follow) in [(2, 99), (99, 1), (MAX, MAX), (4, 4), (1, 3), (0, 0)] {
        out.push(four.clone().edges(&[call(0, target, follow)]).words());
    }
    out.push(four.clone().rules(&[[0, 1]]).edges(&[call(0, 2, 1)]).words());
    out.push(four.clone().rules(&[]).edges(&[call(0, 0, 1), call(2, 2, 3)]).words());
    for (third, fourth) in [((2, -1), (7, 1)), ((0, 0), (7, 1)), ((2, 1), (8, 1)), ((2, 1), (7, -1)), ((2, 1), (7, 5))] {
        out.push(Net::of(&[(2, 0), (7, 0), third, fourth]).rules(&[[0, 1], [2, 2]]).edges(&[call(0, 2, 1)]).words());
    }
    // several stops: the last counts
    let stops = Net::of(&[(7, 1), (2, 0), (7, 0), (2, 1), (7, 1), (1, 1), (7, 1)]).rules(&[[0, 1], [2, 2]]);
    out.push(stops.edges(&[call(1, 3, 2), call(0, 1, 2), call(5, 1, 4)]).words());
    // a stop that calls itself: the shortest list that has a return edge
    out.push(Net::of(&[(7, 0)]).rules(&[[0, 0]]).edges(&[call(0, 0, 0)]).words());
    out.push(Net::of(&[(7, 0); 3]).rules(&[[0, 0]]).edges(&[call(0, 0, 0), call(1, 1, 1), call(2, 2, 2)]).words());
    // by source state, then chain order; repeats kept; behind the stop's own edges
    let mixed = [
        call(3, 0, 0), call(2, 2, 3), call(0, 2, 1), call(0, 0, 2), call(0, 2, 1), eps(3, 0), eps(1, 3), call(3, 2, 3), call(1, 0, 1),
    ];
    out.push(four.clone().edges(&mixed).words());
    out.push(four.clone().edges(&[call(0, 2, 1), call(0, 2, 1), call(0, 2, 1), call(2, 0, 3), call(2, 0, 3)]).words());
    // from a stop, and into a stop
    out.push(four.edges(&[call(1, 1, 1), call(3, 1, 0), call(1, 3, 2)]).words());
    out
}

/// A loop whose entry, state 2, may be a precedence decision: entry and end are the edges (type, target) of states 2 and 4, last and out
/// the types of states 4 and 1.
struct Loop {
    kind: i32,
    rule: i32,
    start: i32,
    flagged: Vec<i32>,
    rules: usize,
    entry: Vec<(i32, i32)>,
    end: Vec<(i32, i32)>,
    last: i32,
    out: i32,
}

impl Default for Loop {
    fn default() -> Loop {
        let (entry, end) = (vec![(1, 3), (1, 4)], vec![(1, 1)]);
        Loop { kind: 10, rule: 0, start: 0, flagged: vec![0], rules: 1, entry, end, last: 12, out: 7 }
    }
}

impl Loop {
    fn words(&self) -> Vec<i32> {
        let of = |source: i32, edges: &[(i32, i32)]| -> Vec<[i32; 6]> {
            edges.iter().map(|&(kind, target)| edge(source, target, kind, if kind == 3 { target } else { 0 })).collect()
        };
        let states = [(2, 0), (self.out, 0), (self.kind, self.rule), (1, 0), (self.last, 0), (1, 1)];
        let edges = [of(2, &self.entry), of(4, &self.end)].concat();
        Net::of(&states).recursive(&self.flagged).rules(&vec![[self.start, 1]; self.rules]).edges(&edges).words()
    }
}

fn precedence() -> Vec<Vec<i32>> {
    let mut all = vec![Loop::default(), Loop { rules: 0, ..Loop::default() }];
    all.extend([0, 1, 3, 5, 9, 11, 12, 7].map(|kind| Loop { kind, ..Loop::default() }));
    for rule in [-1, 1, 2, MAX] {
        all.extend([1, 2].map(|rules| Loop { rule, rules, ..Loop::default() }));
    }
    for start in [1, 3, 5, 6, MAX] {
        all.extend([vec![0], vec![0, 1, 3]].map(|flagged| Loop { start, flagged, ..Loop::default() }));
    }
    for flagged in [vec![], vec![1], vec![2], vec![0, 0], vec![5, 0]] {
        all.push(Loop { flagged, ..Loop::default() });
    }
    // the last edge of the entry counts, and the first of the loop end, of any type
    let ways: [&[(i32, i32)]; 13] = [
        &[], &[(1, 4)], &[(1, 4), (1, 3)], &[(1, 3), (5, 4)], &[(1, 4), (3, 4)], &[(1, 3), (3, 3)], &[(1, 6)], &[(1, 99)], &[(1, MAX)],
        &[(9, 4)], &[(1, 3), (1, 1)], &[(1, 1), (1, 3)], &[(5, 1)],
    ];
    for way in ways {
        all.push(Loop { entry: way.to_vec(), ..Loop::default() });
        all.push(Loop { end: way.to_vec(), ..Loop::default() });
    }
    all.extend([1, 8, 9, 10, 0, 7].map(|last| Loop { last, ..Loop::default() }));
    all.extend([1, 2, 8, 12, 0].map(|out| Loop { out, ..Loop::default() }));
    all.iter().map(Loop::words).collect()
}

/// States 0 to n - 1 of rule 0 with its stop, state 1; `others` changes type and rule of single states.
pub fn one_rule(n: usize, others: &[(usize, i32, i32)], edges: &[[i32; 6]]) -> Vec<i32> {
    let mut states = vec![(1, 0); n];
    states[1] = (7, 0);
    for &(at, kind, rule) in others {
        states[at] = (kind, rule);
    }
    Net::of(&states).rules(&[[0, 1], [0, 2]]).edges(edges).words()
}

fn tail_calls() -> Vec<Vec<i32>> {
    let mut out = vec![
        one_rule(3, &[], &[call(0, 0, 1)]),
        one_rule(3, &[], &[call(0, 0, 3), call(0, 0, 99), call(0, 0, MAX)]),
        one_rule(3, &[], &[eps(2, 1), eps(2, 99), call(0, 0, 2)]),
        one_rule(3, &[], &[eps(2, 1), eps(2, 1), eps(2, 1), call(0, 0, 2)]),
    ];
    for kind in 2..11 {
        let sets = [(0, vec![(1, 2)])];
        let edges = [call(0, 0, 2), eps(2, 3), edge(3, 1, kind, 0), eps(2, 1)];
        out.push(Net::of(&[(2, 0), (7, 0), (1, 0), (1, 0)]).rules(&[[0, 1]]).sets(&sets).edges(&edges).words());
    }
    let way = [eps(2, 3), eps(3, 1), call(0, 0, 2)];
    for rule in [1, -1, 5] {
        out.extend([0, 2, 3].map(|at| one_rule(5, &[(at, 1, rule)], &way)));
    }
    out.extend([0, 2, 6, 7, 8, 9, 10, 11, 12, 3].map(|kind| one_rule(5, &[(3, kind, 0)], &way)));
    out.push(one_rule(5, &[(3, 7, 0)], &[eps(2, 1), eps(1, 3), call(0, 0, 2), call(0, 0, 1), call(0, 0, 3)]));
    out.push(one_rule(5, &[(3, 7, 1)], &[eps(2, 3), eps(3, 1), call(0, 0, 2), call(0, 0, 3), call(0, 0, 1)]));
    // the stop's own edges do not count
    out.push(one_rule(4, &[], &[eps(2, 1), eps(1, 1), edge(1, 3, 5, 65), call(0, 0, 2), call(1, 0, 2), call(1, 0, 1)]));
    // diamonds behind diamonds, closed by the stop and by a cycle
    let mut diamonds = Vec::new();
    for first in [2, 5, 8, 11] {
        diamonds.extend([eps(first, first + 1), eps(first, first + 2), eps(first + 1, first + 3), eps(first + 2, first + 3)]);
    }
    for end in [1, 8] {
        out.push(one_rule(15, &[], &[&diamonds[..], &[eps(14, end), call(0, 0, 2), call(0, 0, 8), call(0, 0, 12)]].concat()));
    }
    // a long chain, from its far end on and from its near end on
    let down: Vec<[i32; 6]> = (2..40).rev().map(|state| eps(state, state - 1)).collect();
    out.push(one_rule(40, &[], &[&down[..], &[call(0, 0, 39), call(0, 0, 5), call(7, 0, 39)]].concat()));
    let up: Vec<[i32; 6]> = (2..39).map(|state| eps(state, state + 1)).collect();
    out.push(one_rule(40, &[], &[&up[..], &[eps(39, 1), call(0, 0, 2)]].concat()));
    out
}

/// One word changed at every place.
pub fn every_word_changed(base: &[i32]) -> Vec<Vec<i32>> {
    let changed = |at: usize, word: i32| {
        let mut copy = base.to_vec();
        copy[at] = word;
        copy
    };
    (0..base.len()).flat_map(|at| [-1, base[at] + 1, base[at] - 1, 0, MIN, MAX, 65_537].map(|word| changed(at, word))).collect()
}

/// All hand-built families.
pub fn hand_built() -> Vec<Family> {
    vec![
        ("document 01's cases", document()), ("held against ANTLR", demos()), ("headers", headers()), ("states", states()),
        ("flags", flags()), ("rules and modes", rules_and_modes()), ("sets", sets()), ("edges", edges()), ("actions", actions()),
        ("return edges", returns()), ("precedence", precedence()), ("tail calls", tail_calls()),
        ("every word changed", [full(), whole(), three()].map(|words| every_word_changed(&words)).concat()),
    ]
}

/// The real dialects: name and words.
pub fn dialects() -> Vec<(&'static str, Vec<i32>)> {
    let words = |bytes: &[u8]| bytes.as_chunks::<4>().0.iter().map(|&word| i32::from_le_bytes(word)).collect();
    vec![
        ("XPath", words(include_bytes!("../samples/xpathlexer.atn"))),
        ("Autolev", words(include_bytes!("../samples/autolevlexer.atn"))),
        ("LaTeX", words(include_bytes!("../samples/latexlexer.atn"))),
        ("Unicode", words(include_bytes!("../samples/unicode.atn"))),
    ]
}
