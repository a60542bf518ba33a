//! Damages of all kinds, each of which the comparison must catch: else an agreement would say nothing.

use crate::asked::Accepted;
use crate::gatehazel::{self, Counts, Refusal, TABLES, Tables};
use crate::hold::{block, difference, lend, taken_apart};
use crate::lists::{dialects, full, whole};
use crate::rooms::{Room, USUAL};
use crate::seeded::Rng;
use crate::shrink::shrink;
use crate::told::{Answer, Told};
use crate::wrong;
use crate::wrong_records;

/// A decode that agrees, to be damaged.
pub struct Sound {
    told: Told,
    expected: Answer,
    pub came: Answer,
    pub tables: Tables,
}

impl Sound {
    pub fn new(words: &[i32], room: Room, rng: &mut Rng) -> Result<Sound, String> {
        let told = Told::of(words);
        let lengths = room.lengths(&told, USUAL, rng).ok_or("the room does not suit the list")?;
        let mut tables = Tables::default();
        lend(&mut tables, &lengths, rng);
        let expected = told.expected(&lengths);
        let came = gatehazel::decode(words, &mut tables);
        match difference(&told, &expected, &came, &tables) {
            None => Ok(Sound { told, expected, came, tables }),
            Some(what) => Err(format!("before any damage: {what}")),
        }
    }

    pub fn notices(&self, came: &Answer, tables: &Tables) -> bool {
        difference(&self.told, &self.expected, came, tables).is_some()
    }

    fn must_differ(&self, what: &str, came: &Answer, tables: &Tables) -> Result<u64, String> {
        if self.notices(came, tables) { Ok(1) } else { Err(format!("a damage was not caught: {what}")) }
    }

    /// Each value of the answer is changed, and the answer is turned into the other kind.
    fn answers(&self) -> Result<u64, String> {
        let mut caught = 0;
        match self.came {
            Ok(counts) => {
                for at in 0..counts.len() {
                    let mut other: Counts = counts;
                    other[at] += 1;
                    caught += self.must_differ("a count", &Ok(other), &self.tables)?;
                }
                let refusal = Refusal { number: 1, field: 1, place: 0, value: 0, record: 0 };
                caught += self.must_differ("a refusal", &Err(refusal), &self.tables)?;
            }
            Err(refusal) => {
                let others = [
                    Refusal { number: refusal.number + 1, ..refusal }, Refusal { field: refusal.field + 1, ..refusal },
                    Refusal { place: refusal.place + 1, ..refusal }, Refusal { value: refusal.value + 1, ..refusal },
                    Refusal { record: refusal.record + 1, ..refusal },
                ];
                for other in others {
                    caught += self.must_differ("a value of a refusal", &Err(other), &self.tables)?;
                }
                caught += self.must_differ("an acceptance", &Ok(Counts::default()), &self.tables)?;
            }
        }
        Ok(caught)
    }

    /// Every word of every table is changed: record words, zeros behind them, scratch.
    fn words(&self) -> Result<u64, String> {
        let mut caught = 0;
        let mut tables = self.tables.clone();
        for number in 0..TABLES.len() {
            for at in 0..self.tables[number].len() {
                tables[number][at] ^= 1 << (at % 32);
                caught += self.must_differ(&format!("word {at} of {}", TABLES[number].0), &self.came, &tables)?;
                tables[number][at] = self.tables[number][at];
            }
        }
        Ok(caught)
    }

    /// The words that questions go by: first edge of a state that has one, edge count, an edge's type, a set's part, a range.
    fn gone_by(&self) -> Vec<(usize, usize)> {
        let mut words = Vec::new();
        for (number, of_record) in [(0, &[5, 7][..]), (1, &[0]), (2, &[0, 1]), (3, &[0, 1])] {
            let starts = (0..self.told.records[number].len()).step_by(TABLES[number].1);
            words.extend(starts.flat_map(|start| of_record.iter().map(move |word| (number, start + word))));
        }
        words.retain(|&(number, at)| number > 0 || at % 8 != 5 || !self.told.chains[at / 8].is_empty());
        words
    }

    /// Each of those words is changed, an edge's type to one that is unknown.
    fn questions(&self, rng: &mut Rng) -> Result<u64, String> {
        let Ok(counts) = self.came else { return Ok(0) };
        let asked = |tables: &Tables, rng: &mut Rng| Accepted { told: &self.told, tables, counts }.questions(usize::MAX, rng);
        asked(&self.tables, rng)?;
        let words = self.gone_by();
        for &(number, at) in &words {
            let mut tables = self.tables.clone();
            tables[number][at] += if number == 1 { 10 } else { 1 };
            if asked(&tables, rng).is_ok() {
                return Err(format!("a damage was not caught by the questions: word {at} of {}", TABLES[number].0));
            }
        }
        Ok(words.len() as u64)
    }
}

/// Each word beside the slices of a block is changed.
fn beside_slices() -> Result<u64, String> {
    let lengths = [0; 9];
    taken_apart(&block(&lengths), &lengths)?;
    for at in 0..block(&lengths).len() {
        let mut damaged = block(&lengths);
        damaged[at] += 1;
        if taken_apart(&damaged, &lengths).is_ok() {
            return Err(format!("a damage was not caught: word {at} beside the slices"));
        }
    }
    Ok(block(&lengths).len() as u64)
}

/// How many damages were caught, or the first that was not.
pub fn self_test(seed: u64) -> Result<u64, String> {
    let mut rng = Rng::new(seed);
    let mut caught = beside_slices()?;
    let xpath = dialects().swap_remove(0).1;
    let with_room = [Room::Full, Room::Odd, Room::Large];
    for words in [&full(), &whole(), &xpath] {
        for room in with_room {
            let sound = Sound::new(words, room, &mut rng)?;
            caught += sound.answers()? + sound.words()?;
        }
        for room in [Room::Zero, Room::WordShort(0), Room::RecordShort(1), Room::WordShort(8)] {
            let sound = Sound::new(words, room, &mut rng)?;
            caught += sound.answers()? + sound.words()?;
        }
        let ended = Sound::new(&words[..words.len() - 1], Room::Odd, &mut rng)?;
        caught += ended.answers()? + ended.words()?;
    }
    for words in [full(), whole()] {
        caught += Sound::new(&words, Room::Odd, &mut rng)?.questions(&mut rng)?;
    }
    let (small, _) = shrink(&xpath, String::new(), |list| list.contains(&7).then(String::new));
    if small != [7] {
        return Err(format!("a list was not made small: {small:?}"));
    }
    Ok(caught + wrong::noticed(&mut rng)? + wrong_records::noticed(&mut rng)?)
}
