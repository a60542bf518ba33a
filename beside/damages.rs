//! Tables lent to a write, and what may be done to them: words and counts that are changed alone, and changes of several words that go
//! together, after which tables may be as good as before.

use crate::gatehazel::{EDGES, RANGES, Records, SETS, STATES, TABLES};
use crate::told::{RULES, Told};

/// Tables with their counts, and max token type.
#[derive(Clone, PartialEq)]
pub struct Lent {
    pub tables: [Vec<i32>; 8],
    pub counts: [usize; 8],
    pub token: i32,
}

#[derive(Clone, Copy, Debug)]
pub enum Damage {
    /// A word of a table gets this value.
    Word { table: usize, at: usize, value: i32 },
    /// The table's words stay, the count is another.
    Count { table: usize, count: usize },
    /// Two records change places, and what names them does not follow.
    Swap { table: usize, one: usize, other: usize },
    /// A record of zeros is counted behind the last.
    Zeros { table: usize },
    /// A record comes once more, behind the last.
    Double { table: usize, record: usize },
    /// A record is taken out, and those behind it move up.
    Drop { table: usize, record: usize },
    /// Two edges change numbers, and what names them follows.
    Renumber { one: usize, other: usize },
    /// Of a state's edges this one, from 0, and the next change places in the chain; the edges stay where they are.
    Rechain { state: usize, nth: usize },
    /// Two sets change numbers with their ranges, and edges over them follow.
    Sets { one: usize, other: usize },
    /// A rule edge has another follow state, and its return edge leads there.
    Follow { edge: usize, state: i32 },
    /// Two records exchange one word.
    Exchange { table: usize, word: usize, one: usize, other: usize },
}

/// The kinds of damages, for counting; and whether there are tables of each that no list decodes to, and tables that some list decodes to: a
/// chain always goes up, and sets may have any numbers.
pub const KINDS: [(&str, [bool; 2]); 11] = [
    ("a word", [true, true]), ("a count", [true, true]), ("records swapped", [true, true]), ("zeros counted", [true, true]),
    ("a record doubled", [true, true]), ("a record dropped", [true, true]), ("edges renumbered", [true, true]),
    ("edges chained otherwise", [true, false]), ("sets renumbered", [false, true]), ("another follow state", [true, true]),
    ("a word exchanged", [true, true]),
];

/// A table's place of a word.
fn place(table: usize, record: usize, word: usize) -> usize {
    record * TABLES[table].1 + word
}

/// The one for the other, and the other for the one.
fn renamed(word: i32, one: usize, other: usize) -> i32 {
    match usize::try_from(word) {
        Ok(number) if number == one => other as i32,
        Ok(number) if number == other => one as i32,
        _ => word,
    }
}

impl Lent {
    /// The records that the Rust has of an accepted list.
    pub fn of(told: &Told) -> Option<Lent> {
        let counts = told.answer.ok()?;
        Some(Lent::copy(Records::of(&told.records, &counts)))
    }

    pub fn copy(given: Records) -> Lent {
        Lent { tables: given.tables.map(<[i32]>::to_vec), counts: given.counts, token: given.token }
    }

    pub fn records(&self) -> Records<'_> {
        Records { tables: self.tables.each_ref().map(Vec::as_slice), counts: self.counts, token: self.token }
    }

    fn word(&self, table: usize, record: usize, word: usize) -> i32 {
        self.tables[table][place(table, record, word)]
    }

    fn word_mut(&mut self, table: usize, record: usize, word: usize) -> &mut i32 {
        &mut self.tables[table][place(table, record, word)]
    }

    /// A number that names a record which counts.
    fn named(&self, table: usize, number: i32) -> Option<usize> {
        usize::try_from(number).ok().filter(|&number| number < self.counts[table])
    }

    /// A state's edges in order, as far as they are there.
    fn chain(&self, state: usize) -> Vec<usize> {
        let mut chain = Vec::new();
        let mut next = self.word(STATES, state, 5);
        while let Some(edge) = self.named(EDGES, next) {
            if chain.len() > self.counts[EDGES] {
                break;
            }
            chain.push(edge);
            next = self.word(EDGES, edge, 7);
        }
        chain
    }

    /// None where there is no next edge.
    fn rechain(&mut self, state: usize, nth: usize) -> Option<()> {
        let mut chain = self.chain(state);
        (nth + 1 < chain.len()).then(|| chain.swap(nth, nth + 1))?;
        for (at, &edge) in chain.iter().enumerate() {
            *self.word_mut(EDGES, edge, 7) = chain.get(at + 1).map_or(-1, |&next| next as i32);
        }
        *self.word_mut(STATES, state, 5) = chain[0] as i32;
        *self.word_mut(STATES, state, 6) = chain[chain.len() - 1] as i32;
        Some(())
    }

    fn swap(&mut self, table: usize, one: usize, other: usize) {
        for word in 0..TABLES[table].1 {
            self.tables[table].swap(place(table, one, word), place(table, other, word));
        }
    }

    fn lengthen(&mut self, table: usize, record: &[i32]) {
        self.tables[table].extend(record);
        self.counts[table] += 1;
    }

    fn double(&mut self, table: usize, record: usize) {
        let copy = self.tables[table][place(table, record, 0)..place(table, record + 1, 0)].to_vec();
        self.lengthen(table, &copy);
    }

    fn drop(&mut self, table: usize, record: usize) {
        self.tables[table].drain(place(table, record, 0)..place(table, record + 1, 0));
        self.counts[table] -= 1;
    }

    fn renumber(&mut self, one: usize, other: usize) {
        self.swap(EDGES, one, other);
        for state in 0..self.counts[STATES] {
            for word in [5, 6] {
                let named = self.word_mut(STATES, state, word);
                *named = renamed(*named, one, other);
            }
        }
        for edge in 0..self.counts[EDGES] {
            let next = self.word_mut(EDGES, edge, 7);
            *next = renamed(*next, one, other);
        }
    }

    /// None where a set's part is not inside the ranges.
    fn renumber_sets(&mut self, one: usize, other: usize) -> Option<()> {
        let mut parts = Vec::new();
        for set in 0..self.counts[SETS] {
            let [first, count] = [0, 1].map(|word| usize::try_from(self.word(SETS, set, word)));
            parts.push(self.tables[RANGES].get(2 * first.ok()?..)?.get(..2 * count.ok()?)?.to_vec());
        }
        parts.swap(one, other);
        let behind = |at: usize| parts[..at].iter().map(|part| part.len() as i32 / 2).sum();
        self.tables[SETS] = (0..parts.len()).flat_map(|at| [behind(at), parts[at].len() as i32 / 2]).collect();
        self.tables[RANGES] = parts.concat();
        self.counts[RANGES] = self.tables[RANGES].len() / 2;
        for edge in 0..self.counts[EDGES] {
            if [7, 8].contains(&self.word(EDGES, edge, 0)) {
                let set = self.word_mut(EDGES, edge, 3);
                *set = renamed(*set, one, other);
            }
        }
        Some(())
    }

    /// None where the edge is no rule edge, or has no return edge.
    fn follow(&mut self, edge: usize, state: i32) -> Option<()> {
        let (target, before) = (self.word(EDGES, edge, 2), self.word(EDGES, edge, 4));
        let rule = self.named(RULES, self.word(STATES, self.named(STATES, target)?, 1))?;
        let stop = self.word(RULES, rule, 1);
        let leads = |&edge: &usize| [0, 1, 2, 6].map(|word| self.word(EDGES, edge, word)) == [1, stop, before, 1];
        let back = (self.word(EDGES, edge, 0) == 3).then(|| (0..self.counts[EDGES]).find(leads))??;
        *self.word_mut(EDGES, edge, 4) = state;
        *self.word_mut(EDGES, back, 2) = state;
        Some(())
    }
}

impl Damage {
    pub fn kind(self) -> usize {
        match self {
            Damage::Word { .. } => 0,
            Damage::Count { .. } => 1,
            Damage::Swap { .. } => 2,
            Damage::Zeros { .. } => 3,
            Damage::Double { .. } => 4,
            Damage::Drop { .. } => 5,
            Damage::Renumber { .. } => 6,
            Damage::Rechain { .. } => 7,
            Damage::Sets { .. } => 8,
            Damage::Follow { .. } => 9,
            Damage::Exchange { .. } => 10,
        }
    }

    /// Does it to tables whose counts are those of their records; none where it does not suit them.
    pub fn apply(self, lent: &mut Lent) -> Option<()> {
        let there = |table: usize, record: usize| (record < lent.counts[table]).then_some(());
        match self {
            Damage::Word { table, at, value } => *lent.tables[table].get_mut(at)? = value,
            Damage::Count { table, count } => lent.counts[table] = count,
            Damage::Swap { table, one, other } => there(table, one.max(other)).map(|()| lent.swap(table, one, other))?,
            Damage::Zeros { table } => lent.lengthen(table, &vec![0; TABLES[table].1]),
            Damage::Double { table, record } => there(table, record).map(|()| lent.double(table, record))?,
            Damage::Drop { table, record } => there(table, record).map(|()| lent.drop(table, record))?,
            Damage::Renumber { one, other } => there(EDGES, one.max(other)).map(|()| lent.renumber(one, other))?,
            Damage::Rechain { state, nth } => there(STATES, state).and_then(|()| lent.rechain(state, nth))?,
            Damage::Sets { one, other } => there(SETS, one.max(other)).and_then(|()| lent.renumber_sets(one, other))?,
            Damage::Follow { edge, state } => there(EDGES, edge).and_then(|()| lent.follow(edge, state))?,
            Damage::Exchange { table, word, one, other } => {
                there(table, one.max(other)).map(|()| lent.tables[table].swap(place(table, one, word), place(table, other, word)))?;
            }
        }
        Some(())
    }

    /// The same to records before: for a list that was made smaller.
    fn before(self) -> Vec<Damage> {
        match self {
            Damage::Word { table, at, value } => {
                let width = TABLES[table].1;
                (at % width..at).step_by(width).map(|at| Damage::Word { table, at, value }).collect()
            }
            Damage::Swap { table, one, other } => lower(one, other).map(|(one, other)| Damage::Swap { table, one, other }).into(),
            Damage::Double { table, record } => (0..record).map(|record| Damage::Double { table, record }).collect(),
            Damage::Drop { table, record } => (0..record).map(|record| Damage::Drop { table, record }).collect(),
            Damage::Renumber { one, other } => lower(one, other).map(|(one, other)| Damage::Renumber { one, other }).into(),
            Damage::Rechain { state, nth } => lower(state, nth).map(|(state, nth)| Damage::Rechain { state, nth }).into(),
            Damage::Sets { one, other } => lower(one, other).map(|(one, other)| Damage::Sets { one, other }).into(),
            Damage::Follow { edge, state } => (0..edge).map(|edge| Damage::Follow { edge, state }).collect(),
            Damage::Exchange { table, word, one, other } => {
                lower(one, other).map(|(one, other)| Damage::Exchange { table, word, one, other }).into()
            }
            Damage::Count { .. } | Damage::Zeros { .. } => Vec::new(),
        }
    }

    /// Said in words.
    pub fn shown(self) -> String {
        let name = |table: usize| TABLES[table].0;
        match self {
            Damage::Word { table, at, value } => format!("word {at} of {} set to {value}", name(table)),
            Damage::Count { table, count } => format!("{count} {} count", name(table)),
            Damage::Swap { table, one, other } => format!("records {one} and {other} of {} swapped", name(table)),
            Damage::Zeros { table } => format!("a record of zeros behind {}", name(table)),
            Damage::Double { table, record } => format!("record {record} of {} doubled", name(table)),
            Damage::Drop { table, record } => format!("record {record} of {} dropped", name(table)),
            Damage::Renumber { one, other } => format!("edges {one} and {other} renumbered"),
            Damage::Rechain { state, nth } => format!("edges {nth} and {} of state {state} chained the other way round", nth + 1),
            Damage::Sets { one, other } => format!("sets {one} and {other} renumbered"),
            Damage::Follow { edge, state } => format!("edge {edge} has the follow state {state}"),
            Damage::Exchange { table, word, one, other } => format!("records {one} and {other} of {} exchange word {word}", name(table)),
        }
    }
}

/// One of two numbers made smaller, or both.
fn lower(one: usize, other: usize) -> [(usize, usize); 3] {
    let (before_one, before_other) = (one.saturating_sub(1), other.saturating_sub(1));
    [(one, before_other), (before_one, other), (before_one, before_other)]
}

/// Every damage of these tables by itself.
pub fn every(lent: &Lent) -> Vec<Damage> {
    let mut all = every_word(lent);
    for table in 0..lent.counts.len() {
        let count = lent.counts[table];
        let others = [count + 1, count + 2, count.wrapping_sub(1), 0, usize::MAX].into_iter().filter(|&other| other != count);
        all.extend(others.map(|count| Damage::Count { table, count }));
        all.push(Damage::Zeros { table });
        all.extend((0..count).flat_map(|record| [Damage::Double { table, record }, Damage::Drop { table, record }]));
        all.extend(twos(count).map(|(one, other)| Damage::Swap { table, one, other }));
        let of_words = |(one, other)| (0..TABLES[table].1).map(move |word| Damage::Exchange { table, word, one, other });
        all.extend(twos(count).flat_map(of_words));
    }
    let [states, edges] = [STATES, EDGES].map(|table| lent.counts[table]);
    all.extend(twos(edges).map(|(one, other)| Damage::Renumber { one, other }));
    all.extend(twos(lent.counts[SETS]).map(|(one, other)| Damage::Sets { one, other }));
    all.extend((0..states).flat_map(|state| (0..edges).map(move |nth| Damage::Rechain { state, nth })));
    all.extend((0..edges).flat_map(|edge| (0..states as i32 + 2).map(move |state| Damage::Follow { edge, state })));
    all
}

/// Every two numbers below n.
pub fn twos(n: usize) -> impl Iterator<Item = (usize, usize)> {
    (0..n).flat_map(move |one| (one + 1..n).map(move |other| (one, other)))
}

/// Every two words of the tables, each set to small values.
pub fn every_two_words(lent: &Lent) -> impl Iterator<Item = [Damage; 2]> {
    let mut single = Vec::new();
    for (table, words) in lent.tables.iter().enumerate() {
        for (at, &word) in words.iter().enumerate() {
            let others = (-1..4).filter(|&value| value != word);
            single.extend(others.map(|value| ((table, at), Damage::Word { table, at, value })));
        }
    }
    let all = twos(single.len()).map(move |(one, other)| [single[one], single[other]]);
    all.filter(|[one, other]| one.0 != other.0).map(|two| two.map(|(_, damage)| damage))
}

/// Every word of every record, set to values around it, around the counts, and at the ends.
fn every_word(lent: &Lent) -> Vec<Damage> {
    let mut all = Vec::new();
    for (table, words) in lent.tables.iter().enumerate() {
        for (at, &word) in words.iter().enumerate() {
            let count = |table: usize| lent.counts[table] as i32;
            let mut values = vec![-2, -1, 0, 1, 2, 3, 7, 10, 12, 65_535, i32::MIN, i32::MAX, word.wrapping_add(1), word.wrapping_sub(1)];
            values.extend([table, STATES, EDGES].iter().flat_map(|&table| [count(table), count(table) - 1]));
            values.sort_unstable();
            values.dedup();
            all.extend(values.into_iter().filter(|&value| value != word).map(|value| Damage::Word { table, at, value }));
        }
    }
    all
}

/// These damages with one of them left out, all of them, and all with one of them done to a record before.
pub fn nearer(damages: &[Damage]) -> Vec<Vec<Damage>> {
    let without = |at: usize| [&damages[..at], &damages[at + 1..]].concat();
    let with = |at: usize, other: Damage| [&damages[..at], &[other], &damages[at + 1..]].concat();
    let mut all: Vec<Vec<Damage>> = (0..damages.len()).map(without).collect();
    all.push(damages.to_vec());
    for (at, damage) in damages.iter().enumerate() {
        all.extend(damage.before().into_iter().map(|other| with(at, other)));
    }
    all
}
