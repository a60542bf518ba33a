//! Request R-1's 15 taken at its word, over small kinds of lists: the Rust is asked about every list of a kind, and a write about every
//! table that can be put together of records which those lists gave, each at its own place. It is 15 exactly where no list gave the table.
//! Neither the second writer nor the judgement by it has a say here.
//!
//! No list outside of a kind gives such a table either. In a kind, each word of a list that shows in a record is the same throughout, or
//! free of the others; so a list that is not of it shows in some record, or differs only in words that no record shows, as unused
//! arguments and the max token type, or in how a set's ranges are cut into intervals.

use crate::damages::Lent;
use crate::gatehazel::TABLES;
use crate::lists::{Net, Set, call, eps};
use crate::told::Told;
use crate::written::Write;
use std::collections::{BTreeMap, BTreeSet};

/// A kind of lists.
pub struct Kind {
    name: &'static str,
    /// All tables that its lists give, by their counts.
    given: BTreeMap<[usize; 8], BTreeSet<[Vec<i32>; 8]>>,
}

/// So many of the letters in a row, in every way.
fn rows<T: Copy>(letters: &[T], count: usize) -> Vec<Vec<T>> {
    let longer = |rows: Vec<Vec<T>>, _| rows.iter().flat_map(|row| letters.iter().map(|&letter| [&row[..], &[letter]].concat())).collect();
    (0..count).fold(vec![Vec::new()], longer)
}

/// Every two of these.
fn pairs<T: Copy, U: Copy>(ones: &[T], others: &[U]) -> Vec<(T, U)> {
    ones.iter().flat_map(|&one| others.iter().map(move |&other| (one, other))).collect()
}

/// Every set of up to two intervals between these ends.
fn sets(ends: &[i32]) -> Vec<Set> {
    (0..3).flat_map(|count| rows(&pairs(ends, ends), count)).map(|intervals| (0, intervals)).collect()
}

fn one_set() -> Vec<Net> {
    sets(&[-1, 0, 1, 2, 3, 4, 5]).into_iter().map(|set| Net::default().sets(&[set])).collect()
}

fn two_sets() -> Vec<Net> {
    let all = sets(&[0, 1, 2]);
    all.iter().flat_map(|one| all.iter().map(|other| Net::default().sets(&[one.clone(), other.clone()]))).collect()
}

/// Three edges of two states.
fn chains() -> Vec<Net> {
    let edges = pairs(&[0, 1], &[0, 1]).into_iter().map(|(source, target)| eps(source, target)).collect::<Vec<_>>();
    rows(&edges, 3).iter().map(|edges| Net::of(&[(1, 0), (1, 0)]).edges(edges)).collect()
}

/// Two of these calls among the states of two rules.
fn two_calls(calls: Vec<[i32; 6]>) -> Vec<Net> {
    let net = Net::of(&[(2, 0), (7, 0), (2, 1), (7, 1)]).rules(&[[0, 1], [2, 2]]);
    rows(&calls, 2).iter().map(|calls| net.clone().edges(calls)).collect()
}

/// Return edges that differ in where they come from.
fn called_rules() -> Vec<Net> {
    two_calls(pairs(&[0, 2], &[0, 2]).into_iter().map(|(source, target)| call(source, target, 1)).collect())
}

/// Return edges that differ in where they lead.
fn follow_states() -> Vec<Net> {
    two_calls(pairs(&[0, 2], &[1, 3]).into_iter().map(|(source, follow)| call(source, 0, follow)).collect())
}

/// A call whose follow state leads to the stop, to itself, or to a third state, which does the same.
fn tail_calls() -> Vec<Net> {
    let net = Net::of(&[(2, 0), (7, 0), (1, 0), (1, 0)]).rules(&[[0, 1]]);
    let targets = [1, 2, 3];
    pairs(&targets, &targets).into_iter().map(|(one, other)| net.clone().edges(&[call(0, 0, 2), eps(2, one), eps(3, other)])).collect()
}

/// A loop's entry and its end, each with an edge to any state but the start, which is left-recursive or not.
fn decisions() -> Vec<Net> {
    let net = Net::of(&[(2, 0), (7, 0), (10, 0), (12, 0)]).rules(&[[0, 1]]);
    let targets = [1, 2, 3];
    let ways = pairs(&[0, 1], &pairs(&targets, &targets));
    ways.into_iter().map(|(flags, (one, other))| net.clone().recursive(&[0][..flags]).edges(&[eps(2, one), eps(3, other)])).collect()
}

/// All kinds, with what the Rust says of their lists.
pub fn kinds() -> Result<Vec<Kind>, String> {
    let all = [
        ("one set", one_set()), ("two sets", two_sets()), ("chains", chains()), ("two calls of any rule", called_rules()),
        ("two calls with any follow state", follow_states()), ("tail calls", tail_calls()), ("decisions", decisions()),
    ];
    all.into_iter().map(|(name, nets)| Kind::new(name, &nets)).collect()
}

impl Kind {
    fn new(name: &'static str, nets: &[Net]) -> Result<Kind, String> {
        let mut given: BTreeMap<_, BTreeSet<_>> = BTreeMap::new();
        for net in nets {
            let lent = Lent::of(&Told::of(&net.words())).ok_or_else(|| format!("a list of the kind is refused: {name}"))?;
            given.entry(lent.counts).or_default().insert(lent.tables);
        }
        Ok(Kind { name, given })
    }

    /// How many tables are 15, and how many are not; there must be both. Else the first that is answered wrongly.
    fn hold(&self, write: Write) -> Result<[u64; 2], String> {
        let mut met = [0; 2];
        for (&counts, given) in &self.given {
            for_each_table(counts, given, |lent| {
                let (number, writable) = (write(lent.records(), &mut [0; 100], &mut []), given.contains(&lent.tables));
                met[usize::from(writable)] += 1;
                match (number, writable) {
                    (0, true) | (15, false) => Ok(()),
                    (_, true) => Err(format!("of {}, {number} for tables that a list gives: {:?}", self.name, lent.tables)),
                    (_, false) => Err(format!("of {}, {number} for tables that no list gives: {:?}", self.name, lent.tables)),
                }
            })?;
        }
        if met.contains(&0) { Err(format!("of {}, all tables are writable, or none is", self.name)) } else { Ok(met) }
    }
}

/// The same of all kinds together.
pub fn hold(kinds: &[Kind], write: Write) -> Result<[u64; 2], String> {
    kinds.iter().try_fold([0; 2], |[refused, writable], kind| {
        let met = kind.hold(write)?;
        Ok([refused + met[0], writable + met[1]])
    })
}

/// Every table of these counts that is put together of given records, each at a place where it was given.
fn for_each_table(
    counts: [usize; 8], given: &BTreeSet<[Vec<i32>; 8]>, mut each: impl FnMut(&Lent) -> Result<(), String>,
) -> Result<(), String> {
    let mut lent = Lent { tables: std::array::from_fn(|table| vec![0; counts[table] * TABLES[table].1]), counts, token: 0 };
    let places = (0..counts.len()).flat_map(|table| (0..counts[table]).map(move |record| (table, record * TABLES[table].1)));
    let choices: Vec<(usize, usize, Vec<&[i32]>)> = places
        .map(|(table, at)| {
            let records: BTreeSet<&[i32]> = given.iter().map(|tables| &tables[table][at..at + TABLES[table].1]).collect();
            (table, at, records.into_iter().collect())
        })
        .collect();
    let all: usize = choices.iter().map(|choice| choice.2.len()).product();
    for number in 0..all {
        // the number's digits are the choices
        let mut rest = number;
        for (table, at, records) in &choices {
            let record = records[rest % records.len()];
            lent.tables[*table][*at..at + record.len()].copy_from_slice(record);
            rest /= records.len();
        }
        each(&lent)?;
    }
    Ok(())
}
