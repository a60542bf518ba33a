//! A run: each list is told, decoded in several rooms, cut, extended, asked and written; a mismatch is made small and printed.

use crate::asked::{Accepted, Tally};
use crate::damages::{Damage, nearer};
use crate::gatehazel::{Tables, write_into};
use crate::hold::{hold, hold_apart};
use crate::judged;
use crate::rooms::{Room, USUAL};
use crate::seeded::{Rng, some_words};
use crate::shrink::shrink;
use crate::summary::{Summary, spelled};
use crate::told::{Answer, Told};
use crate::written::{Pairs, Wanted, Written, written};

/// After so many mismatches a run stops.
const ENOUGH: u64 = 10;

/// One list of so many is written more than once.
const MORE: usize = 16;

/// What is held of a list.
#[derive(Clone, Copy)]
pub enum Check {
    /// A decode in this room; a refused list is lent at most so many records of a table.
    Decode(Room, usize),
    /// A decode into slices of one block, between which nothing is written.
    Apart,
    /// The questions, `matches` at most so often.
    Questions(usize),
    /// The words that an answer other than "ended" rests on, with others behind them, are answered the same.
    Behind,
    /// The words read of an accepted list, cut short, are refused as ended, at their length.
    Cut,
    /// An accepted list's tables, written; those of a list that asks for more than 65,536 records, judged.
    Written,
}

/// What was compared.
pub enum Seen {
    Decode([usize; 9], Answer),
    Questions(Tally),
    Written(Written),
    /// Whether the tables are writable.
    Judged(bool),
    Same,
    /// The check says nothing of this list.
    Nothing,
}

/// How much is done with each list of a family.
#[derive(Clone, Copy)]
pub struct Care {
    /// Rooms beside exactly full, taken in turn.
    pub rooms: usize,
    /// How often `matches` is asked at most; 0 for no questions.
    pub questions: usize,
    /// Into slices of one block, and demand 3: with words behind, and cut, so often.
    pub again: usize,
    /// The most records of a table that are lent to a refused list.
    pub most: usize,
}

/// Rooms in turn and nothing else.
pub const PLAIN: Care = Care { rooms: 1, questions: 0, again: 0, most: USUAL };

pub struct Run {
    pub rng: Rng,
    pub summary: Summary,
    seed: u64,
    tables: Tables,
    others: Vec<Room>,
    turn: usize,
    /// The writes' numbers: so the other checks have the same numbers with writes and without.
    writes: Rng,
    pairs: Pairs,
    /// The part that goes on, and how much was compared before it.
    part: Option<(&'static str, u64)>,
}

impl Check {
    fn name(self) -> String {
        match self {
            Check::Decode(room, _) => format!("decode, room {}", crate::rooms::KINDS[room.kind()]),
            Check::Apart => String::from("decode, slices of one block"),
            Check::Questions(_) => String::from("questions"),
            Check::Behind => String::from("words behind"),
            Check::Cut => String::from("cut short"),
            Check::Written => String::from("tables written"),
        }
    }

    /// Holds it of a list; all that is chosen comes from the seed, so that it can be held again.
    pub fn of(self, told: &Told, seed: u64, tables: &mut Tables) -> Result<Seen, String> {
        let mut rng = Rng::new(seed);
        match self {
            Check::Decode(room, most) => {
                let Some(lengths) = room.lengths(told, most, &mut rng) else { return Ok(Seen::Nothing) };
                hold(told, &told.words, &lengths, tables, &mut rng).map(|answer| Seen::Decode(lengths, answer))
            }
            Check::Apart => {
                let lengths = Room::Any.lengths(told, USUAL, &mut rng).unwrap_or_default();
                hold_apart(told, &lengths, &mut rng).map(|()| Seen::Same)
            }
            Check::Questions(most) => questions(told, most, tables, &mut rng),
            Check::Behind => behind(told, tables, &mut rng),
            Check::Cut => cut(told, tables, &mut rng),
            Check::Written => write(told, tables, &mut rng),
        }
    }
}

fn questions(told: &Told, most: usize, tables: &mut Tables, rng: &mut Rng) -> Result<Seen, String> {
    let Some(lengths) = Room::Odd.lengths(told, USUAL, rng) else { return Ok(Seen::Nothing) };
    let Ok(counts) = hold(told, &told.words, &lengths, tables, rng)? else { return Ok(Seen::Nothing) };
    Accepted { told, tables, counts }.questions(most, rng).map(Seen::Questions)
}

fn behind(told: &Told, tables: &mut Tables, rng: &mut Rng) -> Result<Seen, String> {
    if !told.asked || told.answer.is_err_and(|refusal| refusal.number == 1) {
        return Ok(Seen::Nothing);
    }
    let read = &told.words[..told.rests_on];
    let more = 1 + rng.below(12);
    let longer = [read, &some_words(rng, more)].concat();
    if Told::of(&longer).answer != told.answer {
        return Err(format!("the Rust answers otherwise with words behind: {}", spelled(&longer)));
    }
    let lengths = Room::Any.lengths(told, USUAL, rng).unwrap_or_default();
    hold(told, &longer, &lengths, tables, rng).map(|_| Seen::Same)
}

fn cut(told: &Told, tables: &mut Tables, rng: &mut Rng) -> Result<Seen, String> {
    if told.answer.is_err() {
        return Ok(Seen::Nothing);
    }
    let length = rng.below(told.rests_on);
    let shorter = Told::of(&told.words[..length]);
    if !shorter.answer.is_err_and(|refusal| (refusal.number, refusal.place, refusal.value) == (1, length, 0)) {
        return Err(format!("the Rust does not say that the first {length} words ended"));
    }
    let lengths = Room::Full.lengths(told, USUAL, rng).unwrap_or_default();
    hold(&shorter, &shorter.words, &lengths, tables, rng).map(|_| Seen::Same)
}

fn write(told: &Told, tables: &mut Tables, rng: &mut Rng) -> Result<Seen, String> {
    if told.answer.is_err() {
        return Ok(Seen::Nothing);
    }
    let (more, room) = (rng.below(MORE) == 0, rng.pick(&[Room::Full, Room::Full, Room::Full, Room::Odd, Room::Large]));
    let Some(lengths) = room.lengths(told, USUAL, rng) else { return Ok(Seen::Nothing) };
    match written(told, &Wanted { lengths, more }, tables, &write_into, rng)? {
        Some(written) => Ok(Seen::Written(written)),
        None => judged::damaged(told, &[], &write_into, rng).map(|writable| writable.map_or(Seen::Nothing, Seen::Judged)),
    }
}

impl Run {
    pub fn new(seed: u64) -> Run {
        Run {
            rng: Rng::new(seed), summary: Summary::default(), seed, tables: Tables::default(), others: Room::others(), turn: 0,
            writes: Rng::new(seed), pairs: Pairs::default(), part: None,
        }
    }

    /// Begins a part of the run. Each has its own numbers from the seed, so that lists added to one part leave the others as they are.
    pub fn begin(&mut self, part: &'static str) {
        self.end();
        eprintln!("{part}");
        self.part = Some((part, self.summary.compared()));
        let spelled = part.bytes().fold(self.seed, |sum, byte| sum.wrapping_mul(31).wrapping_add(u64::from(byte)));
        self.rng = Rng::new(spelled);
        self.turn = 0;
        self.writes = Rng::new(!spelled);
        self.pairs.clear();
    }

    /// Ends a part. One that compared nothing would pass by itself, and is a mismatch.
    pub fn end(&mut self) {
        if let Some((part, before)) = self.part.take() && self.summary.compared() == before {
            self.plain_mismatch(&format!("a part compared nothing: {part}"));
        }
    }

    /// Everything that the care asks for.
    pub fn list(&mut self, family: &'static str, words: &[i32], care: Care) {
        let told = Told::of(words);
        self.summary.list(family, &told);
        self.check(family, &told, Check::Decode(Room::Full, care.most));
        let mut left = care.rooms;
        for _ in 0..self.others.len() {
            if left == 0 {
                break;
            }
            let room = self.others[self.turn % self.others.len()];
            self.turn += 1;
            left -= usize::from(self.check(family, &told, Check::Decode(room, care.most)));
        }
        for _ in 0..care.again {
            self.check(family, &told, Check::Apart);
            self.check(family, &told, Check::Behind);
            self.check(family, &told, Check::Cut);
        }
        if care.questions > 0 {
            self.check(family, &told, Check::Questions(care.questions));
        }
        if told.answer.is_ok() && !self.check(family, &told, Check::Written) {
            self.plain_mismatch("the tables of an accepted list were not written");
        }
    }

    /// Whether the check says something of the list.
    fn check(&mut self, family: &'static str, told: &Told, check: Check) -> bool {
        let seed = if matches!(check, Check::Written) { self.writes.next() } else { self.rng.next() };
        match (check.of(told, seed, &mut self.tables), check) {
            (Ok(Seen::Nothing), _) => return false,
            (Ok(Seen::Written(written)), _) => self.written(family, told, &written),
            (Ok(Seen::Judged(writable)), _) => self.summary.judged.add(&[], writable),
            (Ok(Seen::Decode(lengths, answer)), Check::Decode(room, _)) => self.summary.decode(told, room, &lengths, &answer),
            (Ok(Seen::Questions(tally)), _) => self.summary.asked.add(tally),
            (Ok(_), Check::Apart) => self.summary.apart += 1,
            (Ok(_), Check::Behind) => self.summary.behind[usize::from(told.answer.is_err())] += 1,
            (Ok(_), _) => self.summary.cut += 1,
            (Err(what), _) => self.mismatch(family, &told.words, check, seed, what),
        }
        true
    }

    /// Counts what was written, and holds it to what was written of other lists.
    fn written(&mut self, family: &str, told: &Told, written: &Written) {
        match self.pairs.add(told, &written.words) {
            Ok(compared) => self.summary.written(told, written, &compared),
            Err(what) => {
                println!("MISMATCH in {family}, tables written of two lists, run's seed {}", self.seed);
                println!("  words: {}", spelled(&told.words));
                println!("  written {}; {what}", spelled(&written.words));
                self.count_mismatch();
            }
        }
    }

    /// An accepted list's tables, damaged so, are written or refused as they are judged.
    pub fn damaged(&mut self, family: &str, told: &Told, damages: &[Damage]) {
        let seed = self.writes.next();
        match judged::damaged(told, damages, &write_into, &mut Rng::new(seed)) {
            Ok(None) => {}
            Ok(Some(writable)) => self.summary.judged.add(damages, writable),
            Err(what) => self.damaged_mismatch(family, &told.words, damages, seed, what),
        }
    }

    fn damaged_mismatch(&mut self, family: &str, words: &[i32], damages: &[Damage], seed: u64, what: String) {
        let mut done = damages.to_vec();
        let (small, what) = shrink(words, what, |list| {
            let told = Told::of(list);
            nearer(&done).into_iter().find_map(|damages| {
                let what = judged::damaged(&told, &damages, &write_into, &mut Rng::new(seed)).err()?;
                done = damages;
                Some(what)
            })
        });
        let shown: Vec<String> = done.iter().map(|damage| damage.shown()).collect();
        println!("MISMATCH in {family}, tables damaged, run's seed {}, check's seed {seed}", self.seed);
        println!("  words: {}", spelled(&small));
        println!("  in their tables {}: {what}", shown.join(", "));
        self.count_mismatch();
    }

    fn mismatch(&mut self, family: &str, words: &[i32], check: Check, seed: u64, what: String) {
        let mut tables = Tables::default();
        let (small, what) = shrink(words, what, |list| check.of(&Told::of(list), seed, &mut tables).err());
        println!("MISMATCH in {family}, {}, run's seed {}, check's seed {seed}", check.name(), self.seed);
        println!("  words: {}", spelled(&small));
        println!("  {what}");
        self.count_mismatch();
    }

    /// A mismatch that no list shows.
    pub fn plain_mismatch(&mut self, what: &str) {
        println!("MISMATCH, run's seed {}: {what}", self.seed);
        self.count_mismatch();
    }

    fn count_mismatch(&mut self) {
        self.summary.mismatches += 1;
        if self.summary.mismatches >= ENOUGH {
            self.summary.print();
            println!("stopped after {ENOUGH} mismatches");
            std::process::exit(1);
        }
    }
}
