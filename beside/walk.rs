//! A word list, walked: what it holds as far as it goes, to know the record of a word (request R-2), to number the edges, and to know the
//! room that it takes. It judges nothing, the Rust did.

use crate::gatehazel::{EDGES, Refusal, SETS, STATES};
use crate::told::{ACTIONS, DECISIONS, MODES, RULES};

#[derive(Default)]
pub struct Walk<'a> {
    pub words: &'a [i32],
    /// Of each word that was passed its field and the number of its record; at the end, if the words did, of the word that is missing.
    pub spots: Vec<(u32, usize)>,
    /// The place of a table's count, and the count.
    pub counts: [Option<(usize, usize)>; 9],
    /// Of each set whose flag is there: the flag's place, and its intervals, + 1 if flagged.
    pub flags: Vec<(usize, usize)>,
    sets_from: usize,
    /// Where each set ends that is there whole.
    pub set_ends: Vec<usize>,
    /// The edges that are there whole.
    pub edges: Vec<[i32; 6]>,
    /// The place behind the last edge.
    pub edges_end: Option<usize>,
}

impl<'a> Walk<'a> {
    pub fn of(words: &'a [i32]) -> Walk<'a> {
        let mut walk = Walk { words, ..Walk::default() };
        // None says that the words ended; what was found until then stands.
        let _ = walk.sections();
        walk
    }

    /// The refusal of the word at a place, or of the one that is missing there.
    pub fn refusal(&self, number: u32, place: usize, value: i64) -> Refusal {
        let (field, record) = self.spots[place];
        Refusal { number, field, place, value, record }
    }

    /// The place of the next word.
    fn at(&self) -> usize {
        self.spots.len()
    }

    fn next(&mut self, field: u32, record: usize) -> Option<i32> {
        let word = self.words.get(self.at()).copied();
        self.spots.push((field, record));
        word
    }

    /// A word of each of these fields.
    fn record(&mut self, number: usize, fields: &[u32]) -> Option<()> {
        fields.iter().try_for_each(|&field| self.next(field, number).map(|_| ()))
    }

    /// So many records of these fields.
    fn records(&mut self, count: usize, fields: &[u32]) -> Option<()> {
        (0..count).try_for_each(|number| self.record(number, fields))
    }

    fn count(&mut self, field: u32, record: usize) -> Option<usize> {
        usize::try_from(self.next(field, record)?).ok()
    }

    fn count_of(&mut self, table: usize, field: u32) -> Option<usize> {
        let count = self.count(field, 0)?;
        self.counts[table] = Some((self.at() - 1, count));
        Some(count)
    }

    fn sections(&mut self) -> Option<()> {
        self.record(0, &[1, 2, 3])?;
        self.states()?;
        for (count, named) in [(9, 10), (11, 12)] {
            let states = self.count(count, 0)?;
            self.records(states, &[named])?;
        }
        let rules = self.count_of(RULES, 13)?;
        self.records(rules, &[14, 15])?;
        let modes = self.count_of(MODES, 16)?;
        self.records(modes, &[17])?;
        self.sets()?;
        for number in 0..self.count_of(EDGES, 23)? {
            let at = self.at();
            self.record(number, &[24, 25, 26, 27, 28, 29])?;
            self.edges.push(std::array::from_fn(|word| self.words[at + word]));
        }
        self.edges_end = Some(self.at());
        let decisions = self.count_of(DECISIONS, 30)?;
        self.records(decisions, &[31])?;
        let actions = self.count_of(ACTIONS, 32)?;
        self.records(actions, &[33, 34, 35])
    }

    fn states(&mut self) -> Option<()> {
        for number in 0..self.count_of(STATES, 4)? {
            let follow: &[u32] = match self.next(5, number)? {
                0 => &[],
                12 => &[6, 7],
                3 | 4 | 5 => &[6, 8],
                _ => &[6],
            };
            self.record(number, follow)?;
        }
        Some(())
    }

    fn sets(&mut self) -> Option<()> {
        let sets = self.count_of(SETS, 18)?;
        self.sets_from = self.at();
        for number in 0..sets {
            let intervals = self.count(19, number)?;
            let flagged = self.next(20, number)? != 0;
            self.flags.push((self.at() - 1, intervals + usize::from(flagged)));
            for _ in 0..intervals {
                self.record(number, &[21, 22])?;
            }
            self.set_ends.push(self.at());
        }
        Some(())
    }

    /// The list up to its edges, with no decisions and no actions: for the return edges of a list that is refused later.
    pub fn to_edges(&self) -> Option<Vec<i32>> {
        Some([&self.words[..self.edges_end?], &[0, 0]].concat())
    }

    /// A list with the same sets and an edge over each: the Rust keeps a set in its edges only.
    pub fn sets_alone(&self) -> Vec<i32> {
        let sets = self.set_ends.len() as i32;
        let end = self.set_ends.last().copied().unwrap_or(self.sets_from);
        let mut words = vec![4, 0, 0, 1, 1, 0, 0, 0, 0, 0, sets];
        words.extend(&self.words[self.sets_from..end]);
        words.push(sets);
        for number in 0..sets {
            words.extend([0, 0, 7, number, 0, 0]);
        }
        words.extend([0, 0]);
        words
    }
}
