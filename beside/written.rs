//! A write (request R-1) held to what is expected; and all that is held of an accepted list's tables: they are written, read again by the
//! Rust and by Gatehazel, and written once more.

use crate::gatehazel::{Records, TABLES, Tables};
use crate::hold::{GAP, STAYS, handed, hold, wrong_word};
use crate::seeded::Rng;
use crate::summary::spelled;
use crate::told::Told;
use crate::writer::words_of;
use std::collections::HashMap;

/// A write: Gatehazel's own, or a wrong one that the self-test makes of it. It fills the output and the answer, and returns its number.
pub type Write<'a> = &'a dyn Fn(Records, &mut [i32], &mut [i64]) -> u32;

/// What is expected of an output of some length: these words and zeros behind them, or a refusal's number and zeros.
pub type Expected<'a> = Result<&'a [i32], u32>;

/// 15 where there are no words, 16 where they do not fit.
pub fn expected(words: Option<&[i32]>, length: usize) -> Expected<'_> {
    let words = words.ok_or(15u32)?;
    if length < words.len() { Err(16) } else { Ok(words) }
}

/// What differs, if anything does. The output stands in a block, between words that must stay.
pub fn difference(expected: Expected, number: u32, answer: &[i64], block: &[i32]) -> Option<String> {
    let (wanted, value, words) = match expected {
        Ok(words) => (0, words.len() as i64, words),
        Err(refusal) => (refusal, i64::from(refusal), &[][..]),
    };
    if number != wanted || answer != handed(vec![value], answer.len()) {
        return Some(format!("expected {wanted} and the answer {value}, came {number} and the answer {answer:?}"));
    }
    let (before, rest) = block.split_at(GAP);
    let (out, behind) = rest.split_at(rest.len() - GAP);
    if before != [STAYS; GAP] || behind != [STAYS; GAP] {
        return Some(String::from("words beside the output were written"));
    }
    let at = wrong_word(words, out)?;
    let wanted = words.get(at).copied().unwrap_or(0);
    Some(format!("word {at} of the output expected {wanted}, came {:?}; {} words expected: {}", out.get(at), words.len(), spelled(words)))
}

/// Writes into an output of this length that held other words, with an answer of 16 elements or any other number, and compares. Where no
/// words are given, 15 is expected.
pub fn put(given: Records, words: Option<&[i32]>, length: usize, write: Write, rng: &mut Rng) -> Result<(), String> {
    let mut block = vec![STAYS; GAP + length + GAP];
    let out = &mut block[GAP..GAP + length];
    out.fill(rng.pick(&[-1, 7, 1, i32::MIN, i32::MAX]));
    let mut answer = vec![i64::from(STAYS); if rng.percent(75) { 16 } else { rng.below(21) }];
    let number = write(given, out, &mut answer);
    match difference(expected(words, length), number, &answer, &block) {
        None => Ok(()),
        Some(what) => Err(format!("{what}; an output of {length} words")),
    }
}

/// A length of an output for so many words other than just that: longer, or too short, mostly by one word.
pub fn other_length(words: usize, rng: &mut Rng) -> usize {
    match rng.below(10) {
        0..5 => words + 1 + rng.below(20),
        5..9 => words - 1,
        _ => rng.below(words),
    }
}

/// Words behind the records, which a write does not look at.
fn fill_behind(tables: &mut Tables, counts: &[usize; 8], rng: &mut Rng) {
    for (number, &count) in counts.iter().enumerate() {
        let word = rng.pick(&[-1, 1, 3, 7, i32::MAX]);
        tables[number][count * TABLES[number].1..].fill(word);
    }
}

/// What was written of a list.
pub struct Written {
    pub words: Vec<i32>,
    /// The length of another output, if there was one.
    pub other: Option<usize>,
}

/// Slices of a decode, and whether what is written of it is also written into an output of another length, and once more.
pub struct Wanted {
    pub lengths: [usize; 9],
    pub more: bool,
}

/// Holds all of it. None where the list is refused for want of room.
pub fn written(told: &Told, wanted: &Wanted, tables: &mut Tables, write: Write, rng: &mut Rng) -> Result<Option<Written>, String> {
    let Ok(counts) = hold(told, &told.words, &wanted.lengths, tables, rng)? else { return Ok(None) };
    let counted = Records::of(tables, &counts).counts;
    fill_behind(tables, &counted, rng);
    let given = Records::of(tables, &counts);
    let words = words_of(given).ok_or("the second writer cannot tell the words of a decode's tables")?;
    put(given, Some(&words), words.len(), write, rng)?;
    let other = wanted.more.then(|| other_length(words.len(), rng));
    other.map_or(Ok(()), |length| put(given, Some(&words), length, write, rng))?;
    for (number, (table, (name, width))) in tables.iter().zip(TABLES).enumerate().take(counted.len()) {
        if table[..counted[number] * width] != told.records[number] {
            return Err(format!("the write changed {name}"));
        }
    }
    let tables = again(told, &words, &wanted.lengths, rng)?;
    if wanted.more {
        put(Records::of(&tables, &counts), Some(&words), words.len(), write, rng).map_err(|what| format!("written again: {what}"))?;
    }
    Ok(Some(Written { words, other }))
}

/// The Rust says of what was written what it said of the list, but for the words read; so does Gatehazel, in the same room: its tables.
fn again(told: &Told, words: &[i32], lengths: &[usize; 9], rng: &mut Rng) -> Result<Tables, String> {
    // a list that is written as it was read need not be told twice
    let other = (told.words[..told.rests_on] != *words).then(|| Told::of_all(words));
    let retold = other.as_ref().unwrap_or(told);
    let wanted = told.answer.map(|mut counts| {
        counts[0] = words.len() as i64;
        counts
    });
    if retold.answer != wanted || retold.network != told.network || retold.records != told.records {
        return Err(format!("the Rust says otherwise of what was written, {}: {:?}, not {wanted:?}", spelled(words), retold.answer));
    }
    let mut tables = Tables::default();
    let came = hold(retold, words, lengths, &mut tables, rng).map_err(|what| format!("what was written, {}: {what}", spelled(words)))?;
    if came == wanted { Ok(tables) } else { Err(format!("what was written, {}, is answered {came:?} in the same room", spelled(words))) }
}

/// The most different records that a part of the run keeps, and the longest words.
const KEPT: usize = 40_000;
const LONGEST: usize = 200;

/// What lists gave, and what was written of it: the same words exactly where the records and max token type are the same.
#[derive(Default)]
pub struct Pairs {
    /// By records and max token type: the words, and the first list that gave them.
    by_records: HashMap<Vec<i32>, (Vec<i32>, Vec<i32>)>,
    /// By words: the first list.
    by_words: HashMap<Vec<i32>, Vec<i32>>,
}

/// How a list compares with those before it.
pub enum Compared {
    /// An earlier list gave the same records, and the same words were written of it.
    Same,
    /// No list before gave these records, nor were these words written of one.
    New,
    /// It is too long, or there are enough.
    Left,
}

impl Pairs {
    /// Begins anew.
    pub fn clear(&mut self) {
        self.by_records.clear();
        self.by_words.clear();
    }

    /// The words written of a list, held to those of the lists before it.
    pub fn add(&mut self, told: &Told, words: &[i32]) -> Result<Compared, String> {
        if words.len() > LONGEST {
            return Ok(Compared::Left);
        }
        let records = one_key(told);
        match (self.by_records.get(&records), self.by_words.get(words)) {
            (None, None) if self.by_records.len() >= KEPT => Ok(Compared::Left),
            (None, None) => {
                self.by_words.insert(words.to_vec(), told.words.clone());
                self.by_records.insert(records, (words.to_vec(), told.words.clone()));
                Ok(Compared::New)
            }
            (Some((first, _)), Some(_)) if first == words => Ok(Compared::Same),
            (Some((first, list)), _) => Err(format!("the same records as of {}, of which was written {}", spelled(list), spelled(first))),
            (None, Some(list)) => Err(format!("other records than of {}, and the same words", spelled(list))),
        }
    }
}

/// Max token type, and the counts and words of all tables in a row.
fn one_key(told: &Told) -> Vec<i32> {
    let token = told.answer.map_or(0, |counts| counts[1] as i32);
    let lengths = told.records.iter().map(|table| table.len() as i32);
    std::iter::once(token).chain(lengths).chain(told.records.iter().flatten().copied()).collect()
}
