//! What a run counted, and how it is printed. Nothing in it depends on the time, so that a seed and a count print the same again.

use crate::asked::Tally;
use crate::damages::{self, Damage};
use crate::gatehazel::{Refusal, TABLES};
use crate::rooms::{KINDS, Room};
use crate::told::{Answer, MOST_ROOM, RULES, Told};
use crate::written::{Compared, Written};
use std::collections::{BTreeMap, BTreeSet};

/// A kind of intended difference: how often it was met, and the shortest list that showed it.
#[derive(Default)]
pub struct Met {
    pub times: u64,
    smallest: Option<Vec<i32>>,
}

impl Met {
    fn again(&mut self, words: &[i32]) {
        self.times += 1;
        // of lists of one length, the one with the smaller words
        let size = |list: &[i32]| (list.len(), list.iter().map(|word| u64::from(word.unsigned_abs())).sum::<u64>());
        if self.smallest.as_ref().is_none_or(|least| words.len() <= least.len() && size(words) < size(least)) {
            self.smallest = Some(words.to_vec());
        }
    }

    fn shown(&self) -> String {
        match &self.smallest {
            None => String::from("not met"),
            Some(words) => format!("{} times, smallest `{}`", self.times, spelled(words)),
        }
    }
}

/// The kinds of damages, then several together, and none.
const SEVERAL: usize = damages::KINDS.len();
const NONE: usize = SEVERAL + 1;

/// What became of tables that were damaged and judged.
#[derive(Default)]
pub struct Judged {
    /// By kind: how many are 15, and how many writable.
    kinds: [[u64; 2]; NONE + 1],
    /// Table and word of a record where one changed word is 15.
    refused: BTreeSet<(usize, usize)>,
}

impl Judged {
    pub fn add(&mut self, damages: &[Damage], writable: bool) {
        let kind = match damages {
            [] => NONE,
            [one] => one.kind(),
            _ => SEVERAL,
        };
        self.kinds[kind][usize::from(writable)] += 1;
        if let ([Damage::Word { table, at, .. }], false) = (damages, writable) {
            self.refused.insert((*table, at % TABLES[*table].1));
        }
    }

    /// How many are 15, and how many writable.
    pub fn both(&self) -> [u64; 2] {
        [0, 1].map(|writable| self.kinds.iter().map(|counts| counts[writable]).sum())
    }

    /// What has to be met, and was not: of each kind of damage tables that are 15 and tables that are not, as far as there are any; and at
    /// every word of a record 15, but for a rule's token type, which may be any.
    pub fn missing(&self) -> Vec<String> {
        let other = |&kind: &usize| self.kinds[kind].map(|count| count > 0) != damages::KINDS[kind].1;
        let kinds = (0..damages::KINDS.len()).filter(other);
        let words = (0..8).flat_map(|table| (0..TABLES[table].1).map(move |word| (table, word)));
        let free = words.filter(|word| self.refused.contains(word) == (*word == (RULES, 2)));
        let several = self.kinds[SEVERAL].contains(&0).then(|| "tables with several damages are not of both kinds".to_string());
        let above = (self.kinds[NONE][0] == 0).then(|| "no table above 65,536 records was judged".to_string());
        kinds.map(|kind| format!("damaged tables are not of the kinds that there are: {}", damages::KINDS[kind].0))
            .chain(several)
            .chain(above)
            .chain(free.map(|(table, word)| format!("damaged tables do not show word {word} of {}", TABLES[table].0)))
            .collect()
    }

    fn print(&self) {
        let [refused, writable] = self.both();
        println!("tables damaged and judged by request R-1: {}, of them 15: {refused}, writable after all: {writable}", refused + writable);
        for (name, at) in [("15", 0), ("writable", 1)] {
            let names = damages::KINDS.into_iter().map(|kind| kind.0).chain(["several of these", "none, above 65,536"]);
            println!("  {name}, by damage: {}", listed(names.zip(self.kinds.iter().map(|counts| counts[at]))));
        }
    }
}

/// The refusals that can name a record above 0: number, and fields.
const NAMING: [(u32, &[u32]); 9] = [
    (1, &[5, 6, 7, 8, 10, 12, 14, 15, 17, 19, 20, 21, 22, 24, 25, 26, 27, 28, 29, 31, 33, 34, 35]),
    (2, &[7, 8, 10, 12, 14, 17, 19, 24, 25, 27, 28, 31]),
    (6, &[5]), (7, &[10, 12]), (8, &[26]), (9, &[27]), (10, &[24]), (11, &[33]), (12, &[20]),
];

/// How often a decode was refused with a record above 0, by number and field.
#[derive(Default)]
struct Named(BTreeMap<(u32, u32), u64>);

impl Named {
    fn add(&mut self, refusal: Refusal) {
        if refusal.record > 0 {
            *self.0.entry((refusal.number, refusal.field)).or_default() += 1;
        }
    }

    /// Where there can be one and none was met, and where one was met and there can be none.
    fn missing(&self) -> Vec<String> {
        let pairs = NAMING.into_iter().flat_map(|(number, fields)| fields.iter().map(move |&field| (number, field)));
        let (can, met): (BTreeSet<(u32, u32)>, BTreeSet<(u32, u32)>) = (pairs.collect(), self.0.keys().copied().collect());
        let said = |what: &'static str| move |(number, field): &(u32, u32)| format!("{what}: refusal {number}, field {field}");
        let not_met = can.difference(&met).map(said("no record above 0 was met"));
        not_met.chain(met.difference(&can).map(said("a record above 0 was met where there is none"))).collect()
    }

    fn print(&self) {
        let mut fields: BTreeMap<u32, u64> = BTreeMap::new();
        self.0.iter().for_each(|(&(_, field), count)| *fields.entry(field).or_default() += count);
        println!("  with a record above 0: {} pairs of number and field, by field: {}", self.0.len(), listed(fields.into_iter()));
    }
}

#[derive(Default)]
pub struct Summary {
    pub lists: u64,
    families: Vec<(&'static str, u64)>,
    /// What the Rust says: accepted first, then by refusal number.
    told: [u64; 15],
    pairs: BTreeSet<(u32, u32)>,
    decodes: u64,
    words: u64,
    rooms: [u64; 8],
    short: [[u64; 9]; 2],
    answers: [u64; 15],
    no_room: BTreeMap<(u32, bool), u64>,
    named: Named,
    /// Accepted lists with return edges, a tail call, a precedence decision, a set.
    with: [u64; 4],
    pub apart: u64,
    /// With words behind: accepted lists, refused ones.
    pub behind: [u64; 2],
    pub cut: u64,
    pub asked: Tally,
    pub ruled: u64,
    /// Lists whose tables were written, and their words; lists that were written other than they were read; outputs of another length, and
    /// those of them that were too short.
    writes: [u64; 5],
    /// Lists compared with earlier ones: those that gave the records of another, and those that gave new ones.
    same: [u64; 2],
    pub judged: Judged,
    /// Tables held to every list of a kind: how many are 15, and how many writable.
    pub exact: [u64; 2],
    pub damages: u64,
    short_of_room: Met,
    above_most: Met,
    accepted_above_most: Met,
    not_asked: Met,
    unused_sets: Met,
    derived: Met,
    pub mismatches: u64,
}

/// The words on a line; of a long list its beginning and its length.
pub fn spelled(words: &[i32]) -> String {
    let shown: Vec<String> = words.iter().take(60).map(i32::to_string).collect();
    let rest = if words.len() > 60 { format!(" .. ({} words)", words.len()) } else { String::new() };
    shown.join(" ") + &rest
}

fn listed<'a, N: std::fmt::Display + 'a>(counts: impl Iterator<Item = (N, u64)>) -> String {
    counts.filter(|(_, count)| *count > 0).map(|(name, count)| format!("{name}: {count}")).collect::<Vec<_>>().join(", ")
}

impl Summary {
    /// A list that the Rust was asked about.
    pub fn list(&mut self, family: &'static str, told: &Told) {
        self.lists += 1;
        match self.families.iter_mut().find(|(name, _)| *name == family) {
            Some((_, count)) => *count += 1,
            None => self.families.push((family, 1)),
        }
        if !told.asked {
            return self.not_asked.again(&told.words);
        }
        match &told.answer {
            Err(refusal) => {
                self.told[refusal.number as usize] += 1;
                self.pairs.insert((refusal.number, refusal.field));
            }
            Ok(counts) => {
                self.told[0] += 1;
                let marked = told.records[1].chunks(8).any(|edge| edge[6] == 2);
                let decided = told.records[0].chunks(8).any(|state| state[4] & 4 != 0);
                for (count, has) in self.with.iter_mut().zip([counts[4] > 0, marked, decided, counts[6] > 0]) {
                    *count += u64::from(has);
                }
                let named: BTreeSet<i32> = told.records[1].chunks(8).filter(|edge| edge[0] == 7 || edge[0] == 8).map(|edge| edge[3]).collect();
                if named.len() < told.kept.len() {
                    self.unused_sets.again(&told.words);
                }
                if counts[4] > 0 {
                    self.derived.again(&told.words);
                }
            }
        }
    }

    /// How much was compared so far, in the numbers of which each part of a run raises one.
    pub fn compared(&self) -> u64 {
        self.decodes + self.ruled + self.judged.both().iter().chain(&self.exact).sum::<u64>()
    }

    /// A decode that was compared.
    pub fn decode(&mut self, told: &Told, room: Room, lengths: &[usize; 9], answer: &Answer) {
        self.decodes += 1;
        self.words += lengths.iter().sum::<usize>() as u64;
        let capped = room == Room::Full && (0..TABLES.len()).any(|table| lengths[table] < told.room[table] * TABLES[table].1);
        self.rooms[if capped { 7 } else { room.kind() }] += 1;
        match room {
            Room::WordShort(table) => self.short[0][table] += 1,
            Room::RecordShort(table) => self.short[1][table] += 1,
            _ => {}
        }
        let Err(refusal) = answer else {
            self.answers[0] += 1;
            return;
        };
        self.answers[refusal.number as usize] += 1;
        self.named.add(*refusal);
        if refusal.number == 12 {
            self.twelve(told, *refusal);
        }
    }

    /// An accepted list whose tables were written.
    pub fn written(&mut self, told: &Told, written: &Written, compared: &Compared) {
        let words = &written.words;
        let otherwise = told.words[..told.rests_on] != *words;
        let [other, short] = [usize::MAX, words.len()].map(|above| u64::from(written.other.is_some_and(|length| length < above)));
        let more = [1, words.len() as u64, u64::from(otherwise), other, short];
        self.writes.iter_mut().zip(more).for_each(|(count, more)| *count += more);
        match compared {
            Compared::Same => self.same[0] += 1,
            Compared::New => self.same[1] += 1,
            Compared::Left => {}
        }
    }

    fn twelve(&mut self, told: &Told, refusal: Refusal) {
        // return edges are tested before the word at that place is read, all else after
        let derived = told.tests.iter().any(|test| test.refusal == refusal && test.read == refusal.place);
        *self.no_room.entry((refusal.field, derived)).or_default() += 1;
        match (refusal.value > MOST_ROOM as i64, told.answer.is_ok()) {
            _ if !told.asked => {}
            (false, true) => self.short_of_room.again(&told.words),
            (false, false) => {}
            (true, accepted) => {
                self.above_most.again(&told.words);
                if accepted {
                    self.accepted_above_most.again(&told.words);
                }
            }
        }
    }

    pub fn print(&self) {
        println!("lists compared: {}, by family:", self.lists);
        for row in self.families.chunks(8) {
            println!("  {}", listed(row.iter().copied()));
        }
        let numbers = |counts: &[u64; 15]| listed(counts.iter().copied().enumerate().skip(1));
        println!("the Rust accepted {}, refused {} ({})", self.told[0], self.told[1..].iter().sum::<u64>(), numbers(&self.told));
        let kinds = ["return edges", "a tail call", "a precedence decision", "a set"];
        println!("  accepted lists with {}", listed(kinds.into_iter().zip(self.with)));
        println!("  pairs of refusal number and field that it gave: {} of the 66 that there are", self.pairs.len());
        println!("decodes compared: {} ({} words of lent tables)", self.decodes, self.words);
        println!("  by answer: accepted {}, refused by number: {}", self.answers[0], numbers(&self.answers));
        println!("  by room: {}", listed(KINDS.into_iter().zip(self.rooms)));
        for (kind, counts) in KINDS[1..3].iter().zip(self.short) {
            println!("  {kind}, by table: {}", listed(TABLES.iter().map(|table| table.0).zip(counts)));
        }
        let name = |field: u32, derived: bool| if derived { format!("{field} for return edges") } else { field.to_string() };
        println!("  12 by field: {}", listed(self.no_room.iter().map(|(&(field, derived), &count)| (name(field, derived), count))));
        self.named.print();
        println!("  into slices of one block, with an answer of 0 to 20 elements: {}", self.apart);
        let [accepted, refused] = self.behind;
        println!("demand 3: accepted lists with words behind {accepted}, cut short {}; refused lists with words behind {refused}", self.cut);
        let asked = &self.asked;
        println!("questions compared: matches {}, n-th edge {}, set's part {}, lookup {}", asked.matches, asked.edges, asked.parts, asked.lookups);
        println!("  lists asked at every border: {}; at some, for their size: {}", asked.all_borders, asked.some_borders);
        println!("questions on tables that no decode left, expected by document 01's rule: {}", self.ruled);
        self.print_written();
        self.judged.print();
        let [refused, writable] = self.exact;
        println!("tables held to every list of a small kind: {}, of them 15: {refused}, writable: {writable}", refused + writable);
        self.print_intended();
        println!("self-test: {} damages, all caught", self.damages);
        println!("mismatches: {}", self.mismatches);
    }

    /// What has to be met, and was not: numbers that the lists which come from no seed make more than 0 in any run.
    pub fn missing(&self) -> Vec<String> {
        let [lists, words, otherwise, other, short] = self.writes;
        let [same, new] = self.same;
        let asked = &self.asked;
        let counts = [
            ("lists whose tables were written", lists), ("words written", words), ("lists written otherwise than they were read", otherwise),
            ("outputs of another length", other), ("outputs too short", short), ("lists of the same records", same),
            ("lists of new records", new), ("slices of one block", self.apart), ("accepted lists with words behind", self.behind[0]),
            ("refused lists with words behind", self.behind[1]), ("lists cut short", self.cut), ("matches", asked.matches),
            ("n-th edges", asked.edges), ("set's parts", asked.parts), ("lookups", asked.lookups), ("questions by rule", self.ruled),
        ];
        let none = counts.into_iter().filter(|(_, count)| *count == 0).map(|(name, _)| format!("none were compared: {name}"));
        none.chain(self.named.missing()).collect()
    }

    fn print_written(&self) {
        let [lists, words, otherwise, other, short] = self.writes;
        println!("tables written, and what was written read again: {lists} lists, {words} words; other words than the list's: {otherwise} lists");
        println!("  written again, and into an output of another length: {other} lists, of them too short, 16: {short}");
        let [same, new] = self.same;
        println!("  the same words exactly for the same records: {new} lists of new records, {same} of an earlier one's");
    }

    fn print_intended(&self) {
        println!("intended differences (lists or decodes, and the shortest list met):");
        println!("  accepted by the Rust, 12 for want of room: {}", self.short_of_room.shown());
        println!("  more than 65,536 records, 12 in any room: {}", self.above_most.shown());
        println!("    of them accepted by the Rust: {}", self.accepted_above_most.shown());
        println!("  not asked of the Rust, for its memory: {}", self.not_asked.shown());
        println!("  sets that no edge names, dropped by the Rust: {}", self.unused_sets.shown());
        println!("  return edges, not marked by the Rust: {}", self.derived.shown());
    }
}
