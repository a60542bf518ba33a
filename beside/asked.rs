//! The questions held against the Rust: n-th edges, `matches` at every range's borders, set parts, lookups.

use crate::gatehazel::{self, Asked, Denial, EDGES, RANGES, SETS, STATES};
use crate::gatehazel::{Counts, Tables};
use crate::seeded::Rng;
use crate::told::Told;
use oracle::atn::LexerTransition;

/// How many questions were compared.
#[derive(Clone, Copy, Default)]
pub struct Tally {
    pub matches: u64,
    pub edges: u64,
    pub parts: u64,
    pub lookups: u64,
    /// Lists that were asked at every border, and lists that were asked at some.
    pub all_borders: u64,
    pub some_borders: u64,
}

impl Tally {
    pub fn add(&mut self, more: Tally) {
        self.matches += more.matches;
        self.edges += more.edges;
        self.parts += more.parts;
        self.lookups += more.lookups;
        self.all_borders += more.all_borders;
        self.some_borders += more.some_borders;
    }
}

/// What bounds a not-set's and a wildcard's symbols; the third holds nothing.
const BOUNDS: [(i32, i32); 4] = [(0, 0x10_FFFF), (1, 10), (10, 1), (i32::MIN, i32::MAX)];

/// An accepted list's tables, ready to be asked.
pub struct Accepted<'a> {
    pub told: &'a Told,
    pub tables: &'a Tables,
    pub counts: Counts,
}

impl Accepted<'_> {
    fn sets(&self) -> usize {
        self.counts[6] as usize
    }

    fn asked(&self) -> Asked<'_> {
        let [_, edges, ranges, sets, ..] = self.tables;
        let [_, _, _, edge_count, _, range_count, set_count, ..] = self.counts.map(|count| count as usize);
        Asked { edges, edge_count, sets, set_count, ranges, range_count }
    }

    /// All questions; `most` bounds how often `matches` is asked, beyond which symbols are left out as they come.
    pub fn questions(&self, most: usize, rng: &mut Rng) -> Result<Tally, String> {
        let mut tally = Tally { edges: self.nth_edges()?, ..Tally::default() };
        let mut symbols = self.symbols();
        let wanted = (most / (BOUNDS.len() * self.counts[3].max(1) as usize)).max(12);
        (tally.all_borders, tally.some_borders) = if symbols.len() <= wanted { (1, 0) } else { (0, 1) };
        while symbols.len() > wanted {
            symbols.swap_remove(rng.below(symbols.len()));
        }
        for (chain, state) in self.told.chains.iter().zip(self.network_states()) {
            for (&number, edge) in chain.iter().zip(&state.transitions) {
                tally.matches += self.matching(number, edge, &symbols)?;
            }
        }
        let mut before = 0;
        for (number, kept) in self.told.kept.iter().enumerate() {
            tally.lookups += self.set(number, before, &symbols)?;
            before += 2 * kept.ranges().len();
        }
        tally.parts = self.sets() as u64 + self.outside()?;
        Ok(tally)
    }

    fn network_states(&self) -> &[oracle::atn::LexerAtnState] {
        self.told.network.as_ref().map_or(&[], |network| network.states())
    }

    /// Each state's edges by number, and what lies just outside.
    fn nth_edges(&self) -> Result<u64, String> {
        let (states, edges) = (&self.tables[STATES], &self.tables[EDGES]);
        let [_, _, state_count, edge_count, ..] = self.counts.map(|count| count as usize);
        let mut asked = 0;
        let mut ask = |state: i32, n: i32, wanted: Result<i64, Denial>| {
            asked += 1;
            let came = gatehazel::nth_edge(states, state_count, edges, edge_count, state, n);
            if came == wanted { Ok(()) } else { Err(format!("edge {n} of state {state}: expected {wanted:?}, came {came:?}")) }
        };
        for (state, chain) in self.told.chains.iter().enumerate() {
            let state = state as i32;
            for (n, &number) in chain.iter().enumerate() {
                ask(state, n as i32, Ok(i64::from(number)))?;
            }
            for n in [-1, chain.len() as i32, i32::MAX, i32::MIN] {
                ask(state, n, missing(n))?;
            }
        }
        for state in [-1, state_count as i32, i32::MAX, i32::MIN] {
            ask(state, 0, missing(state))?;
        }
        Ok(asked)
    }

    /// Every range's and every edge's borders, and the ends of all.
    fn symbols(&self) -> Vec<i32> {
        let mut symbols = vec![-2, -1, 0, 0x10_FFFF, i32::MIN, i32::MAX];
        let mut border = |start: i32, stop: i32| {
            symbols.extend([start.saturating_sub(1), start, stop, stop.saturating_add(1)]);
        };
        self.told.kept.iter().flat_map(|set| set.ranges()).for_each(|&(start, stop)| border(start, stop));
        for edge in self.network_states().iter().flat_map(|state| &state.transitions) {
            match *edge {
                LexerTransition::Atom { label, .. } => border(label, label),
                LexerTransition::Range { start, stop, .. } => border(start, stop),
                _ => {}
            }
        }
        BOUNDS.iter().for_each(|&(min, max)| border(min, max));
        symbols.sort_unstable();
        symbols.dedup();
        symbols
    }

    fn matching(&self, number: i32, edge: &LexerTransition, symbols: &[i32]) -> Result<u64, String> {
        for (min, max) in BOUNDS {
            for &symbol in symbols {
                let wanted = Ok(edge.matches(symbol, min, max));
                let came = gatehazel::matches(self.asked(), number, symbol, min, max);
                if came != wanted {
                    return Err(format!("edge {number}, symbol {symbol} within {min}..{max}: expected {wanted:?}, came {came:?}"));
                }
            }
        }
        Ok((BOUNDS.len() * symbols.len()) as u64)
    }

    /// A set's part, behind so many words, is what the Rust keeps, and lookup in it says what the Rust's `contains` says.
    fn set(&self, number: usize, before: usize, symbols: &[i32]) -> Result<u64, String> {
        let (ranges, sets) = (&self.tables[RANGES], &self.tables[SETS]);
        let kept = &self.told.kept[number];
        let words: Vec<i32> = kept.ranges().iter().flat_map(|&(start, stop)| [start, stop]).collect();
        let came = gatehazel::set(sets, self.sets(), ranges, self.counts[5] as usize, number as i32);
        let wanted = Ok((before, words.len()));
        if came != wanted {
            return Err(format!("set {number}: expected {wanted:?}, came {came:?}"));
        }
        let part = &ranges[before..before + words.len()];
        if part != words {
            return Err(format!("the ranges of set {number}: expected {words:?}, came {part:?}"));
        }
        for &symbol in symbols {
            if gatehazel::lookup(part, symbol) != kept.contains(symbol) {
                return Err(format!("lookup of {symbol} in set {number}: expected {}", kept.contains(symbol)));
            }
        }
        Ok(symbols.len() as u64)
    }

    /// Sets and edges just outside are 13, with the number that was asked for.
    fn outside(&self) -> Result<u64, String> {
        let asked = self.asked();
        for number in [-1, asked.set_count as i32, i32::MAX, i32::MIN] {
            let came = gatehazel::set(asked.sets, asked.set_count, asked.ranges, asked.range_count, number);
            if came != missing(number) {
                return Err(format!("set {number}: expected 13, came {came:?}"));
            }
        }
        for number in [-1, asked.edge_count as i32, i32::MAX, i32::MIN] {
            let came = gatehazel::matches(asked, number, 0, 0, 0);
            if came != missing(number) {
                return Err(format!("edge {number}: expected 13, came {came:?}"));
            }
        }
        Ok(8)
    }
}

fn missing<T>(number: i32) -> Result<T, Denial> {
    Err(Denial { number: 13, value: i64::from(number) })
}
