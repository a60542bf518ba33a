//! A second writer, from request R-1's sentences and document 01's records alone: the words of lent tables in the one fixed form. It judges
//! nothing: of tables that no list decodes to it makes words as well as it can.

use crate::gatehazel::{EDGES, RANGES, Records, SETS, STATES, TABLES};
use crate::lists::{Net, Set};
use crate::told::{ACTIONS, DECISIONS, MODES, RULES};

/// The records of a table, which has all that count.
pub fn rows<'a>(given: Records<'a>, table: usize) -> impl Iterator<Item = &'a [i32]> {
    let width = TABLES[table].1;
    given.tables[table][..given.counts[table] * width].chunks(width)
}

/// Whether no count exceeds its table's whole records.
pub fn fits(given: Records) -> bool {
    (0..given.counts.len()).all(|table| given.counts[table] <= given.tables[table].len() / TABLES[table].1)
}

/// So many words as the type has; the link is the loop back of type 12, else the block end. An absent rule is -1 in the record, too.
fn state(record: &[i32]) -> Vec<i32> {
    let [kind, rule, block_end, loop_back] = [0, 1, 2, 3].map(|word| record[word]);
    match kind {
        0 => vec![kind],
        3 | 4 | 5 => vec![kind, rule, block_end],
        12 => vec![kind, rule, loop_back],
        _ => vec![kind, rule],
    }
}

/// "flagged states ascending"
fn flagged(given: Records, flag: i32) -> Vec<i32> {
    rows(given, STATES).enumerate().filter(|(_, record)| record[4] & flag != 0).map(|(number, _)| number as i32).collect()
}

/// "EOF flag always 0 with -1 kept as a range". None where the set's part is not inside the ranges.
fn set(given: Records, record: &[i32]) -> Option<Set> {
    let (first, count) = (usize::try_from(record[0]).ok()?, usize::try_from(record[1]).ok()?);
    let part = (first + count <= given.counts[RANGES]).then(|| rows(given, RANGES).skip(first).take(count))?;
    Some((0, part.map(|range| (range[0], range[1])).collect()))
}

/// Source, word 25, type, a, b, c. "c of types 2 and 5 always 0, absent .. action -1, unused arguments 0". Word 25 of a rule edge is its
/// follow state, and a its target.
fn edge(record: &[i32]) -> [i32; 6] {
    let [kind, source, target, p, q, r] = [0, 1, 2, 3, 4, 5].map(|word| record[word]);
    let (second, [a, b, c]) = match kind {
        2 => (target, [p, q, 0]),
        3 => (q, [target, p, r]),
        4 | 6 => (target, [p, q, r]),
        5 | 7 | 8 | 10 => (target, [p, 0, 0]),
        _ => (target, [0, 0, 0]),
    };
    [source, second, kind, a, b, c]
}

fn action(record: &[i32]) -> [i32; 3] {
    match record[0] {
        0 | 2 | 5 | 7 => [record[0], record[1], 0],
        1 => [record[0], record[1], record[2]],
        _ => [record[0], 0, 0],
    }
}

/// The sections that the records came from; none where they cannot be told. "derived edges not written": their mark is 1.
pub fn network_of(given: Records) -> Option<Net> {
    if !fits(given) {
        return None;
    }
    let single = |table| rows(given, table).map(|record| record[0]).collect();
    Some(Net {
        token: given.token,
        states: rows(given, STATES).map(state).collect(),
        non_greedy: flagged(given, 1),
        recursive: flagged(given, 2),
        rules: rows(given, RULES).map(|record| [record[0], record[2]]).collect(),
        modes: single(MODES),
        sets: rows(given, SETS).map(|record| set(given, record)).collect::<Option<Vec<Set>>>()?,
        edges: rows(given, EDGES).filter(|record| record[6] != 1).map(edge).collect(),
        decisions: single(DECISIONS),
        actions: rows(given, ACTIONS).map(action).collect(),
    })
}

/// The words; none where they cannot be told.
pub fn words_of(given: Records) -> Option<Vec<i32>> {
    network_of(given).map(|network| network.words())
}
