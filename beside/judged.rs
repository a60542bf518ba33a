//! Request R-1's refusal 15, judged a second time from its sentences. Tables are turned back by the second writer as well as it can; they
//! are writable exactly if its words decode to these records, by a decode that is itself held to the Rust. The tables are those of small
//! networks, damaged in every way, and of seeded ones, damaged as it comes.

use crate::bases::bases;
use crate::damages::{Damage, Lent, every, every_two_words};
use crate::gatehazel::{EDGES, Records, SETS, STATES, TABLES, Tables};
use crate::hold::hold;
use crate::run::Run;
use crate::seeded::{Rng, SHAPES, network, word_near};
use crate::told::{SCRATCH, Told};
use crate::writer::{fits, words_of};
use crate::written::{Write, other_length, put};

/// Room beyond what the records take, so that words which give a few more of them are seen to do so, and not only refused with 12.
const SPARE: usize = 40;

/// The words of a list that decodes to these records, if there is one.
fn judged(given: Records, rng: &mut Rng) -> Result<Option<Vec<i32>>, String> {
    let Some(words) = words_of(given) else { return Ok(None) };
    let count = |table: usize| given.counts[if table == SCRATCH { STATES } else { table }];
    let lengths = std::array::from_fn(|table| (count(table) + SPARE) * TABLES[table].1);
    let mut tables = Tables::default();
    let Ok(counts) = hold(&Told::of_all(&words), &words, &lengths, &mut tables, rng)? else { return Ok(None) };
    let decoded = Records::of(&tables, &counts);
    let alike = |table: usize| {
        let words = count(table) * TABLES[table].1;
        decoded.tables[table][..words] == given.tables[table][..words]
    };
    let same = decoded.counts == given.counts && (0..given.counts.len()).all(alike);
    Ok(same.then_some(words))
}

/// The same records, with words behind them where the counts are not beyond the tables.
fn with_words_behind(lent: &Lent, rng: &mut Rng) -> Lent {
    let mut longer = lent.clone();
    if fits(lent.records()) {
        for (table, words) in longer.tables.iter_mut().enumerate() {
            words.truncate(lent.counts[table] * TABLES[table].1);
            words.extend((0..rng.below(20)).map(|_| rng.pick(&[-1, 0, 1, 3, 7, i32::MIN])));
        }
    }
    longer
}

/// Holds a write to the judgement: whether the tables are writable. The output is just long enough, or nothing where 15 is expected; or it is
/// of another length, and words stand behind the records.
fn judge(lent: &Lent, write: Write, rng: &mut Rng) -> Result<bool, String> {
    let plain = rng.percent(50);
    let words = judged(lent.records(), rng)?;
    let length = match (&words, plain) {
        (Some(words), true) => words.len(),
        (Some(words), false) => other_length(words.len(), rng),
        (None, true) => 0,
        (None, false) => rng.below(200),
    };
    if plain {
        put(lent.records(), words.as_deref(), length, write, rng)?;
    } else {
        let longer = with_words_behind(lent, rng);
        put(longer.records(), words.as_deref(), length, write, rng).map_err(|what| format!("with words behind the records, {what}"))?;
    }
    Ok(words.is_some())
}

/// Damages the tables of an accepted list and judges them; none where the list is refused, or the damages do not suit it or change nothing.
pub fn damaged(told: &Told, damages: &[Damage], write: Write, rng: &mut Rng) -> Result<Option<bool>, String> {
    let Some(sound) = Lent::of(told) else { return Ok(None) };
    let mut lent = sound.clone();
    let suits = damages.iter().all(|damage| damage.apply(&mut lent).is_some());
    if !suits || (lent == sound && !damages.is_empty()) {
        return Ok(None);
    }
    judge(&lent, write, rng).map(Some)
}

/// Small networks, every damage of each by itself, and of the first two every two words; of each there must be tables of both kinds.
pub fn by_hand(run: &mut Run) {
    for (number, (name, words)) in bases().into_iter().enumerate() {
        let told = Told::of(&words);
        let Some(lent) = Lent::of(&told) else { return run.plain_mismatch(&format!("the base is refused: {name}")) };
        let before = run.summary.judged.both();
        for damage in every(&lent) {
            run.damaged(name, &told, &[damage]);
        }
        if number < 2 {
            every_two_words(&lent).for_each(|damages| run.damaged(name, &told, &damages));
        }
        let after = run.summary.judged.both();
        if before[0] == after[0] || before[1] == after[1] {
            run.plain_mismatch(&format!("of the damaged tables of {name} all are writable, or none is"));
        }
    }
}

/// A word of a record, mostly one near it.
fn some_word(lent: &Lent, rng: &mut Rng) -> Option<Damage> {
    let all: usize = lent.tables.iter().map(Vec::len).sum();
    let mut at = if all == 0 { return None } else { rng.below(all) };
    let table = (0..lent.tables.len()).find(|&table| {
        let here = at < lent.tables[table].len();
        at -= if here { 0 } else { lent.tables[table].len() };
        here
    })?;
    Some(Damage::Word { table, at, value: word_near(rng, lent.tables[table][at]) })
}

/// A change of records, or of several words that go together; it may not suit.
fn some_change(lent: &Lent, rng: &mut Rng) -> Damage {
    let (kind, table) = (rng.below(9), rng.below(lent.counts.len()));
    let word = rng.below(TABLES[table].1);
    let mut of = |table: usize| rng.below(lent.counts[table].max(1));
    match kind {
        0 => Damage::Swap { table, one: of(table), other: of(table) },
        1 => Damage::Double { table, record: of(table) },
        2 => Damage::Drop { table, record: of(table) },
        3 | 4 => Damage::Renumber { one: of(EDGES), other: of(EDGES) },
        5 => Damage::Rechain { state: of(STATES), nth: of(EDGES) % 3 },
        6 => Damage::Sets { one: of(SETS), other: of(SETS) },
        7 => Damage::Exchange { table, word, one: of(table), other: of(table) },
        _ => Damage::Follow { edge: of(EDGES), state: of(STATES) as i32 },
    }
}

/// One or two words, a change, or a change and a word.
fn some_damages(lent: &Lent, rng: &mut Rng) -> Vec<Damage> {
    let change = rng.percent(40).then(|| some_change(lent, rng));
    let words = if change.is_some() { rng.below(2) } else { 1 + rng.below(2) };
    change.into_iter().chain((0..words).filter_map(|_| some_word(lent, rng))).collect()
}

/// How often each seeded network is damaged.
const OFTEN: u64 = 8;

/// Seeded networks of each shape, damaged so often in all, but at least one network of each.
pub fn seeded(run: &mut Run, count: u64) {
    for turn in 0..SHAPES.len().max((count / OFTEN) as usize) {
        let told = Told::of(&network(&mut run.rng, SHAPES[turn % SHAPES.len()].0).words());
        let Some(lent) = Lent::of(&told) else { continue };
        for _ in 0..OFTEN {
            let damages = some_damages(&lent, &mut run.rng);
            run.damaged("seeded networks", &told, &damages);
        }
    }
}
