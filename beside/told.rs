//! What the Rust says of a word list, put as document 01 puts it: a refusal's number, field, place, value and record, or the counts and the
//! records of every table. All of it is the Rust's own, but for a refusal's record, the edges' numbers and the room that a list takes,
//! which the words give; and `short_of_room`, since the Rust knows no rooms.

use crate::gatehazel::{Counts, EDGES, RANGES, Refusal, SETS, STATES, TABLES, Tables};
use crate::walk::Walk;
use oracle::EdgeWords;
use oracle::atn::{IntervalSet, LexerAtn, LexerAtnState, LexerTransition};

pub const RULES: usize = 4;
pub const MODES: usize = 5;
pub const DECISIONS: usize = 6;
pub const ACTIONS: usize = 7;
pub const SCRATCH: usize = 8;

/// The most records that document 01 counts as room.
pub const MOST_ROOM: usize = 65_536;

/// An answer of a decode.
pub type Answer = Result<Counts, Refusal>;

/// A test of room: made when so many words are read, and refused so where the table is shorter than the value.
pub struct Test {
    pub read: usize,
    pub table: usize,
    pub refusal: Refusal,
}

/// What is said of one list.
pub struct Told {
    pub words: Vec<i32>,
    /// The answer where there is room for all.
    pub answer: Answer,
    /// How many words the answer rests on.
    pub rests_on: usize,
    pub network: Option<LexerAtn>,
    /// What each set keeps, as far as sets are there whole.
    pub kept: Vec<IntervalSet>,
    /// The words of an accepted list's records, by table; none for scratch.
    pub records: Tables,
    /// The numbers of each state's edges, in order.
    pub chains: Vec<Vec<i32>>,
    /// The records that the list asks for, by table.
    pub room: [usize; 9],
    pub tests: Vec<Test>,
    /// False where a count would have the Rust ask for too much memory.
    pub asked: bool,
}

impl Told {
    pub fn of(words: &[i32]) -> Told {
        if oracle::too_large(words).is_some() {
            return Told::not_asked(words);
        }
        let decoded = oracle::decode(words);
        let rests_on = oracle::rests_on(words, &decoded);
        Told::from(words, decoded, rests_on)
    }

    /// The same for a list of which most likely all words are read: the Rust is asked less often then.
    pub fn of_all(words: &[i32]) -> Told {
        let last = words.len().checked_sub(1).filter(|_| oracle::too_large(words).is_none());
        match last.map(|last| (oracle::decode(words), oracle::decode(&words[..last]))) {
            Some((Ok(network), Err(_))) => Told::from(words, Ok(network), words.len()),
            _ => Told::of(words),
        }
    }

    /// Of the Rust's answer, which rests on so many words.
    fn from(words: &[i32], decoded: Result<LexerAtn, String>, rests_on: usize) -> Told {
        let walk = Walk::of(&words[..rests_on]);
        let kept = kept_sets(&walk);
        let all_edges = all_edges(&walk, &decoded);
        let (answer, network) = match decoded {
            Ok(network) => (Ok(Counts::default()), Some(network)),
            Err(text) => (Err(refusal(&text, &walk)), None),
        };
        let mut told = Told {
            words: words.to_vec(), answer, rests_on, network, kept, records: Tables::default(), chains: Vec::new(), room: [0; 9],
            tests: Vec::new(), asked: true,
        };
        told.set_room(&walk, all_edges);
        if let Some(network) = told.network.take() {
            told.fill(&walk, &network);
            told.network = Some(network);
        }
        told
    }

    /// For a count that the Rust cannot be asked about: it is asked about the words before, and if they are good the count is 12 in any room.
    fn not_asked(words: &[i32]) -> Told {
        let walk = Walk::of(words);
        let large = |table: usize| walk.counts[table].filter(|&(_, count)| count > oracle::GUARD as usize).map(|found| (table, found));
        let (table, (place, count)) = [RULES, SETS, ACTIONS].into_iter().find_map(large).expect("a count above the guard");
        let mut told = Told::of(&words[..place]);
        told.words = words.to_vec();
        told.asked = false;
        if told.answer.is_err_and(|refusal| refusal.number == 1) {
            told.test(&walk, table, place, count);
        }
        told
    }

    /// The room that the list takes and the tests of it, in reading order.
    fn set_room(&mut self, walk: &Walk, all_edges: Option<usize>) {
        for (table, found) in walk.counts.iter().enumerate() {
            if let Some((place, count)) = *found {
                self.room[table] = count;
                self.test(walk, table, place, count);
            }
        }
        let mut before = 0;
        for (number, &(place, size)) in walk.flags.iter().enumerate() {
            self.room[RANGES] = self.room[RANGES].max(before + size);
            self.test(walk, RANGES, place, before + size);
            before += self.kept.get(number).map_or(0, |set| set.ranges().len());
        }
        if let (Some(all), Some(end)) = (all_edges, walk.edges_end) {
            self.room[EDGES] = all;
            let refusal = Refusal { number: 12, field: 23, place: end, value: all as i64, record: 0 };
            self.tests.push(Test { read: end, table: EDGES, refusal });
        }
        self.room[SCRATCH] = self.room[STATES];
        self.tests.sort_by_key(|test| test.read);
    }

    /// A test that is made as soon as the word at a place is read.
    fn test(&mut self, walk: &Walk, table: usize, place: usize, need: usize) {
        self.tests.push(Test { read: place + 1, table, refusal: walk.refusal(12, place, need as i64) });
    }

    /// The tables and the counts of an accepted list.
    fn fill(&mut self, walk: &Walk, network: &LexerAtn) {
        self.number_edges(walk, network);
        let records = &mut self.records;
        for (state, chain) in network.states().iter().zip(&self.chains) {
            records[STATES].extend(state_record(state, chain));
        }
        for set in &self.kept {
            records[SETS].extend([(records[RANGES].len() / 2) as i32, set.ranges().len() as i32]);
            records[RANGES].extend(set.ranges().iter().flat_map(|&(start, stop)| [start, stop]));
        }
        let stops = network.rule_to_stop_state().iter().map(|&stop| oracle::or_none(Some(stop)) as i32);
        for ((&start, stop), &token) in network.rule_to_start_state().iter().zip(stops).zip(network.rule_to_token_type()) {
            records[RULES].extend([start as i32, stop, token]);
        }
        records[MODES].extend(network.mode_to_start_state().iter().map(|&state| state as i32));
        records[DECISIONS].extend(network.decision_to_state().iter().map(|&state| state as i32));
        for action in network.lexer_actions() {
            let (kind, d1, d2) = oracle::action_words(action);
            records[ACTIONS].extend([kind, d1, d2]);
        }
        let size = |table: usize| (self.records[table].len() / TABLES[table].1) as i64;
        let derived = size(EDGES) - walk.edges.len() as i64;
        self.answer = Ok([
            self.rests_on as i64, i64::from(network.max_token_type()), size(STATES), size(EDGES), derived, size(RANGES), size(SETS),
            size(RULES), size(MODES), size(DECISIONS), size(ACTIONS),
        ]);
    }

    /// The edge records. The words number the edges, in word order; all else is from the Rust's network, which has each state's edges in
    /// order. Return edges are numbered behind, by source state and then chain order; that each state has just these is asserted.
    fn number_edges(&mut self, walk: &Walk, network: &LexerAtn) {
        let states = network.states();
        self.chains = vec![Vec::new(); states.len()];
        for &[source, _, kind, a, _, _] in &walk.edges {
            let source = source as usize;
            let edge = &states[source].transitions[self.chains[source].len()];
            let [found, p, q, r] = self.plain(edge, a);
            assert_eq!(found, kind, "not the edge of the words: {:?}", self.words);
            self.put(source, [kind, source as i32, edge.target() as i32, p, q, r, 2 * i32::from(edge.is_tail_call()), -1]);
        }
        for (stop, follow) in returns(network, &self.chains) {
            let edge = states[stop].transitions.get(self.chains[stop].len());
            assert_eq!(edge, Some(&LexerTransition::Epsilon { target: follow }), "not document 01's return edge: {:?}", self.words);
            self.put(stop, [1, stop as i32, follow as i32, 0, 0, 0, 1, -1]);
        }
        for (state, chain) in states.iter().zip(&self.chains) {
            assert_eq!(state.transitions.len(), chain.len(), "other return edges than document 01's: {:?}", self.words);
            for pair in chain.windows(2) {
                self.records[EDGES][8 * pair[0] as usize + 7] = pair[1];
            }
        }
    }

    fn put(&mut self, source: usize, record: [i32; 8]) {
        self.chains[source].push((self.records[EDGES].len() / 8) as i32);
        self.records[EDGES].extend(record);
    }

    /// An edge's type, p, q, r; for an edge over a set, p is the set's number a, once it is seen to be that set.
    fn plain(&self, edge: &LexerTransition, a: i32) -> [i32; 4] {
        match oracle::edge_words(edge) {
            EdgeWords::Plain(kind, p, q, r) => [kind, p as i32, q as i32, r as i32],
            EdgeWords::OverSet(kind, set) => {
                assert_eq!(*set, self.kept[a as usize], "not the set of the words");
                [kind, a, 0, 0]
            }
        }
    }

    /// The 12 that document 01 has for slices of these lengths; none where there is room, or where another refusal comes first.
    pub fn short_of_room(&self, lent: &[usize; 9]) -> Option<Refusal> {
        let mut room: [usize; 9] = std::array::from_fn(|table| (lent[table] / TABLES[table].1).min(MOST_ROOM));
        room[STATES] = room[STATES].min(room[SCRATCH]);
        let test = self.tests.iter().find(|test| test.refusal.value > room[test.table] as i64)?;
        let first = self.answer.is_ok() || self.answer.is_err_and(|refusal| refusal.number == 1 || test.read < self.rests_on);
        first.then_some(test.refusal)
    }

    /// The answer that document 01 has for slices of these lengths.
    pub fn expected(&self, lent: &[usize; 9]) -> Answer {
        self.short_of_room(lent).map_or(self.answer, Err)
    }
}

/// What each set keeps. The Rust has sets in its edges only, so it is asked about a list that has an edge over each.
fn kept_sets(walk: &Walk) -> Vec<IntervalSet> {
    if walk.set_ends.is_empty() {
        return Vec::new();
    }
    let network = oracle::decode(&walk.sets_alone()).expect("sets alone are accepted");
    let set_of = |edge: &LexerTransition| match edge {
        LexerTransition::Set { set, .. } => set.clone(),
        _ => unreachable!("every edge of it is over a set"),
    };
    network.states()[0].transitions.iter().map(set_of).collect()
}

/// How many edges there are with the return edges, if all edges are good; a list that is refused later is asked up to its edges.
fn all_edges(walk: &Walk, decoded: &Result<LexerAtn, String>) -> Option<usize> {
    let count = |network: &LexerAtn| network.states().iter().map(|state| state.transitions.len()).sum();
    match decoded {
        Ok(network) => Some(count(network)),
        Err(_) => oracle::decode(&walk.to_edges()?).ok().as_ref().map(count),
    }
}

/// Document 01's return edges, by source state and then chain order: the called rule's stop, and the follow state.
fn returns(network: &LexerAtn, chains: &[Vec<i32>]) -> Vec<(usize, usize)> {
    let stop_of = |target: usize| {
        let rule = network.state(target)?.rule_index?;
        network.rule_to_stop_state().get(rule).copied().filter(|&stop| stop != usize::MAX)
    };
    let mut found = Vec::new();
    for (state, chain) in network.states().iter().zip(chains) {
        for edge in &state.transitions[..chain.len()] {
            if let LexerTransition::Rule { target, follow_state, .. } = edge {
                found.extend(stop_of(*target).map(|stop| (stop, *follow_state)));
            }
        }
    }
    found
}

fn state_record(state: &LexerAtnState, chain: &[i32]) -> [i32; 8] {
    let none = |number| oracle::or_none(number) as i32;
    let flags =
        i32::from(state.non_greedy) + 2 * i32::from(state.left_recursive_rule) + 4 * i32::from(state.precedence_rule_decision);
    let end = |edge: Option<&i32>| edge.copied().unwrap_or(-1);
    [
        oracle::state_type(state.kind), none(state.rule_index), none(state.end_state), none(state.loop_back_state), flags,
        end(chain.first()), end(chain.last()), chain.len() as i32,
    ]
}

/// The Rust's labels, at the place of document 01's fields, the first being field 1.
const FIELDS: [&str; 35] = [
    "version", "grammar type", "max token type", "state count", "state type", "rule index", "loop back state", "block end state",
    "non-greedy state count", "non-greedy state", "precedence state count", "precedence state", "rule count", "rule start state",
    "rule token type", "mode count", "mode start state", "set count", "interval count", "set contains EOF", "interval start",
    "interval stop", "transition count", "transition source", "transition target", "transition type", "transition arg 1",
    "transition arg 2", "transition arg 3", "decision count", "decision state", "lexer action count", "lexer action type",
    "lexer action data 1", "lexer action data 2",
];

/// An edge's arguments are named by what they mean, and are tested once its six words are read.
const ARGUMENTS: [(&str, u32); 7] = [
    ("rule transition target", 27), ("rule transition rule index", 28), ("predicate rule index", 27), ("predicate index", 28),
    ("action rule index", 27), ("set transition set index", 27), ("not-set transition set index", 27),
];

/// How an error text begins and ends around the refused word; number, field, and how far that word stands before the last one that was
/// looked at: an edge is refused with its six words read and an action with its three, all else at the word itself.
const ERRORS: [(&str, &str, u32, u32, usize); 9] = [
    ("serialized ATN version ", "; expected 4", 3, 1, 0),
    ("serialized ATN grammar type ", "", 5, 2, 0),
    ("ATN state type ", "", 6, 5, 0),
    ("non-greedy state ", " outside state list", 7, 10, 0),
    ("precedence state ", " outside state list", 7, 12, 0),
    ("ATN transition type ", "", 8, 26, 3),
    ("set index ", " outside set list", 9, 27, 2),
    ("transition source ", " outside state list", 10, 24, 5),
    ("lexer action type ", "", 11, 33, 2),
];

fn field(label: &str) -> u32 {
    1 + FIELDS.iter().position(|&name| name == label).unwrap_or_else(|| panic!("no field is known for the label: {label}")) as u32
}

/// The refusal of an error text that rests on the words of the walk.
fn refusal(text: &str, walk: &Walk) -> Refusal {
    let words = walk.words;
    let (number, field, place, value) = if let Some(label) = text.strip_prefix("serialized ATN ended while reading ") {
        (1, field(label), words.len(), 0)
    } else {
        let (number, field, before, value) = said(text).unwrap_or_else(|| panic!("no refusal number is known for the error text: {text}"));
        let place = words.len() - 1 - before;
        assert_eq!(i64::from(words[place]), value, "the word at that place is another than the one that was refused: {text}");
        (number, field, place, value)
    };
    let refusal = walk.refusal(number, place, value);
    assert_eq!(refusal.field, field, "the walk has another field at that place than the Rust: {text}; {words:?}");
    refusal
}

/// Number, field, how far the word stands before the last one that was looked at, and the word.
fn said(text: &str) -> Option<(u32, u32, usize, i64)> {
    if text == "parser ATNs require AtnDeserializer::deserialize_parser()" {
        return Some((4, 2, 0, 1));
    }
    if let Some((label, word)) = text.split_once(" cannot be negative: ") {
        let argument = ARGUMENTS.iter().find(|(name, _)| *name == label);
        let (field, before) = argument.map_or_else(|| (field(label), 0), |&(_, field)| (field, 29 - field as usize));
        return Some((2, field, before, word.parse().ok()?));
    }
    ERRORS.iter().find_map(|(start, end, number, field, before)| {
        let word = text.strip_prefix(start)?.strip_suffix(end)?.parse().ok()?;
        Some((*number, *field, *before, word))
    })
}
