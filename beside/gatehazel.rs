//! Gatehazel's C interface (include/gatehazel.h), each function wrapped in a safe one, for the programs of this folder.

mod c {
    #[link(name = "capi", kind = "static")]
    unsafe extern "C" {
        pub fn gatehazel_decode(
            words: *const i32, words_len: usize,
            states: *mut i32, states_len: usize, edges: *mut i32, edges_len: usize, ranges: *mut i32, ranges_len: usize,
            sets: *mut i32, sets_len: usize, rules: *mut i32, rules_len: usize, modes: *mut i32, modes_len: usize,
            decisions: *mut i32, decisions_len: usize, actions: *mut i32, actions_len: usize, scratch: *mut i32, scratch_len: usize,
            answer: *mut i64, answer_len: usize,
        ) -> u32;
        pub fn gatehazel_nth_edge(
            states: *const i32, states_len: usize, state_count: usize, edges: *const i32, edges_len: usize, edge_count: usize,
            state: i32, n: i32, answer: *mut i64, answer_len: usize,
        ) -> u32;
        pub fn gatehazel_matches(
            edges: *const i32, edges_len: usize, edge_count: usize, sets: *const i32, sets_len: usize, set_count: usize,
            ranges: *const i32, ranges_len: usize, range_count: usize,
            edge: i32, symbol: i32, min: i32, max: i32, answer: *mut i64, answer_len: usize,
        ) -> u32;
        pub fn gatehazel_set(
            sets: *const i32, sets_len: usize, set_count: usize, ranges: *const i32, ranges_len: usize, range_count: usize,
            set: i32, answer: *mut i64, answer_len: usize,
        ) -> u32;
        pub fn gatehazel_lookup(ranges: *const i32, ranges_len: usize, value: i32) -> u32;
        pub fn gatehazel_write(
            states: *const i32, states_len: usize, states_count: usize, edges: *const i32, edges_len: usize, edges_count: usize,
            ranges: *const i32, ranges_len: usize, ranges_count: usize, sets: *const i32, sets_len: usize, sets_count: usize,
            rules: *const i32, rules_len: usize, rules_count: usize, modes: *const i32, modes_len: usize, modes_count: usize,
            decisions: *const i32, decisions_len: usize, decisions_count: usize,
            actions: *const i32, actions_len: usize, actions_count: usize,
            max_token_type: i32, out: *mut i32, out_len: usize, answer: *mut i64, answer_len: usize,
        ) -> u32;
    }
}

/// Document 01's tables in the order in which they are lent, and the words of a record.
pub const TABLES: [(&str, usize); 9] = [
    ("states", 8), ("edges", 8), ("ranges", 2), ("sets", 2), ("rules", 3), ("modes", 1), ("decisions", 1), ("actions", 3), ("scratch", 4),
];
pub const STATES: usize = 0;
pub const EDGES: usize = 1;
pub const RANGES: usize = 2;
pub const SETS: usize = 3;

/// The nine lent tables.
pub type Tables = [Vec<i32>; 9];

/// An acceptance's counts: words read, max token type, states, edges, derived edges, ranges, sets, rules, modes, decisions, actions.
pub type Counts = [i64; 11];

/// A decode's refusal, as document 01 gives it, and the number of the refused word's record (request R-2).
#[derive(Clone, Copy, Debug, PartialEq, Eq, PartialOrd, Ord)]
pub struct Refusal {
    pub number: u32,
    pub field: u32,
    pub place: usize,
    pub value: i64,
    pub record: usize,
}

/// A question's refusal: number and value.
#[derive(Clone, Copy, Debug, PartialEq, Eq)]
pub struct Denial {
    pub number: u32,
    pub value: i64,
}

/// The bare call: the number that it returns. The answer may be of any length.
pub fn decode_into(words: &[i32], parts: [&mut [i32]; 9], answer: &mut [i64]) -> u32 {
    let [states, edges, ranges, sets, rules, modes, decisions, actions, scratch] = parts;
    // Sound: every pointer comes from a slice with its own length, and the borrow checker keeps the slices apart.
    unsafe {
        c::gatehazel_decode(
            words.as_ptr(), words.len(),
            states.as_mut_ptr(), states.len(), edges.as_mut_ptr(), edges.len(), ranges.as_mut_ptr(), ranges.len(),
            sets.as_mut_ptr(), sets.len(), rules.as_mut_ptr(), rules.len(), modes.as_mut_ptr(), modes.len(),
            decisions.as_mut_ptr(), decisions.len(), actions.as_mut_ptr(), actions.len(), scratch.as_mut_ptr(), scratch.len(),
            answer.as_mut_ptr(), answer.len(),
        )
    }
}

/// Decodes the words into the lent tables.
pub fn decode(words: &[i32], tables: &mut Tables) -> Result<Counts, Refusal> {
    let mut answer = [-1i64; 16];
    let number = decode_into(words, tables.each_mut().map(Vec::as_mut_slice), &mut answer);
    let values = if number == 0 { 11 } else { 5 };
    assert!(answer[values..].iter().all(|&v| v == 0), "the answer has zeros behind its values");
    if number == 0 {
        return Ok(std::array::from_fn(|i| answer[i]));
    }
    assert_eq!(answer[0], i64::from(number), "the number is given twice, and alike");
    Err(Refusal { number, field: answer[1] as u32, place: answer[2] as usize, value: answer[3], record: answer[4] as usize })
}

/// What a question's call answered: its so many values, or the refusal.
fn asked(number: u32, answer: [i64; 16], values: usize) -> Result<[i64; 16], Denial> {
    let values = if number == 0 { values } else { 2 };
    assert!(answer[values..].iter().all(|&v| v == 0), "the answer has zeros behind its values");
    if number == 0 {
        return Ok(answer);
    }
    assert_eq!(answer[0], i64::from(number), "the number is given twice, and alike");
    Err(Denial { number, value: answer[1] })
}

/// The number of a state's n-th edge.
pub fn nth_edge(states: &[i32], state_count: usize, edges: &[i32], edge_count: usize, state: i32, n: i32) -> Result<i64, Denial> {
    let mut answer = [-1i64; 16];
    // Sound: as for `decode`; nothing but the answer is written.
    let number = unsafe {
        c::gatehazel_nth_edge(
            states.as_ptr(), states.len(), state_count, edges.as_ptr(), edges.len(), edge_count, state, n, answer.as_mut_ptr(), answer.len(),
        )
    };
    asked(number, answer, 1).map(|values| values[0])
}

/// The tables that `matches` asks, with their counts.
#[derive(Clone, Copy)]
pub struct Asked<'a> {
    pub edges: &'a [i32],
    pub edge_count: usize,
    pub sets: &'a [i32],
    pub set_count: usize,
    pub ranges: &'a [i32],
    pub range_count: usize,
}

/// Whether an edge matches a symbol.
pub fn matches(t: Asked, edge: i32, symbol: i32, min: i32, max: i32) -> Result<bool, Denial> {
    let mut answer = [-1i64; 16];
    // Sound: as for `decode`; nothing but the answer is written.
    let number = unsafe {
        c::gatehazel_matches(
            t.edges.as_ptr(), t.edges.len(), t.edge_count, t.sets.as_ptr(), t.sets.len(), t.set_count,
            t.ranges.as_ptr(), t.ranges.len(), t.range_count, edge, symbol, min, max, answer.as_mut_ptr(), answer.len(),
        )
    };
    asked(number, answer, 1).map(|values| {
        assert!(values[0] == 0 || values[0] == 1, "the answer is yes or no");
        values[0] == 1
    })
}

/// A set's ranges: the first word of its part of the range table, and the part's length in words.
pub fn set(sets: &[i32], set_count: usize, ranges: &[i32], range_count: usize, set: i32) -> Result<(usize, usize), Denial> {
    let mut answer = [-1i64; 16];
    // Sound: as for `decode`; nothing but the answer is written.
    let number = unsafe {
        c::gatehazel_set(sets.as_ptr(), sets.len(), set_count, ranges.as_ptr(), ranges.len(), range_count, set, answer.as_mut_ptr(), answer.len())
    };
    asked(number, answer, 2).map(|values| (values[0] as usize, values[1] as usize))
}

/// Whether a value lies in one of the ranges.
pub fn lookup(ranges: &[i32], value: i32) -> bool {
    // Sound: the pointer comes from a slice with its length.
    let answer = unsafe { c::gatehazel_lookup(ranges.as_ptr(), ranges.len(), value) };
    assert!(answer <= 1, "the answer is yes or no");
    answer == 1
}

/// What a write is given: the eight tables that hold records, how many of them count, and max token type.
#[derive(Clone, Copy)]
pub struct Records<'a> {
    pub tables: [&'a [i32]; 8],
    pub counts: [usize; 8],
    pub token: i32,
}

impl<'a> Records<'a> {
    /// As a decode left them.
    pub fn of(tables: &'a Tables, counts: &Counts) -> Records<'a> {
        let [_, token, states, edges, _, ranges, sets, rules, modes, decisions, actions] = *counts;
        let counts = [states, edges, ranges, sets, rules, modes, decisions, actions].map(|count| count as usize);
        Records { tables: std::array::from_fn(|table| &tables[table][..]), counts, token: token as i32 }
    }
}

/// Writes the words of the records: the number that it returns. The answer may be of any length.
pub fn write_into(given: Records, out: &mut [i32], answer: &mut [i64]) -> u32 {
    let [states, edges, ranges, sets, rules, modes, decisions, actions] = given.tables;
    let n = given.counts;
    // Sound: as for `decode_into`; nothing but the output and the answer is written.
    unsafe {
        c::gatehazel_write(
            states.as_ptr(), states.len(), n[0], edges.as_ptr(), edges.len(), n[1], ranges.as_ptr(), ranges.len(), n[2],
            sets.as_ptr(), sets.len(), n[3], rules.as_ptr(), rules.len(), n[4], modes.as_ptr(), modes.len(), n[5],
            decisions.as_ptr(), decisions.len(), n[6], actions.as_ptr(), actions.len(), n[7],
            given.token, out.as_mut_ptr(), out.len(), answer.as_mut_ptr(), answer.len(),
        )
    }
}

/// How many words are written, or the refusal's number.
pub fn write(given: Records, out: &mut [i32]) -> Result<usize, u32> {
    let mut answer = [-1i64; 16];
    let number = write_into(given, out, &mut answer);
    if number == 0 { Ok(answer[0] as usize) } else { Err(number) }
}
