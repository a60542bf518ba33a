//! One decode held against what is expected: the answer, and every word of the nine lent slices.

use crate::gatehazel::{self, TABLES, Tables};
use crate::seeded::Rng;
use crate::told::{Answer, Told};

/// Slices of these lengths, full of what a caller may have left in them; the memory is used again and again.
pub fn lend(tables: &mut Tables, lengths: &[usize; 9], rng: &mut Rng) {
    let fixed = rng.pick(&[-1, 7, 1, i32::MIN, i32::MAX]);
    let mixed = rng.percent(40);
    for (table, &length) in tables.iter_mut().zip(lengths) {
        table.clear();
        if mixed {
            table.extend((0..length).map(|_| rng.next() as i32));
        } else {
            table.resize(length, fixed);
        }
    }
}

/// What differs, if anything does.
pub fn difference(told: &Told, expected: &Answer, came: &Answer, tables: &Tables) -> Option<String> {
    if expected != came {
        return Some(format!("expected {}, came {}", spelled(expected), spelled(came)));
    }
    for (number, (table, (name, _))) in tables.iter().zip(TABLES).enumerate() {
        let records: &[i32] = if expected.is_ok() { &told.records[number] } else { &[] };
        if let Some(at) = wrong_word(records, table) {
            let wanted = records.get(at).copied().unwrap_or(0);
            return Some(format!("{}; word {at} of {name} expected {wanted}, came {:?}", spelled(expected), table.get(at)));
        }
    }
    None
}

/// The first word that is not the records' and, behind them, not 0; a slice that cannot hold the records is wrong at its end.
pub fn wrong_word(records: &[i32], table: &[i32]) -> Option<usize> {
    if table.len() < records.len() {
        return Some(table.len());
    }
    let (front, rest) = table.split_at(records.len());
    if front != records {
        return front.iter().zip(records).position(|(came, wanted)| came != wanted);
    }
    rest.iter().position(|&word| word != 0).map(|at| at + records.len())
}

/// Lends, decodes and compares. Returns the answer that was expected and came.
pub fn hold(told: &Told, words: &[i32], lengths: &[usize; 9], tables: &mut Tables, rng: &mut Rng) -> Result<Answer, String> {
    lend(tables, lengths, rng);
    let expected = told.expected(lengths);
    let came = gatehazel::decode(words, tables);
    match difference(told, &expected, &came, tables) {
        None => Ok(came),
        Some(what) => Err(format!("{what}; slices of {lengths:?} words")),
    }
}

/// What words between slices, and elements behind an answer, hold and must keep.
pub const STAYS: i32 = 0x5A5A_5A5A;
pub const GAP: usize = 3;

/// A block for slices of these lengths, with words before, between and behind them.
pub fn block(lengths: &[usize; 9]) -> Vec<i32> {
    vec![STAYS; lengths.iter().sum::<usize>() + GAP * 10]
}

/// The slices of a block, if the words between them are as they were.
pub fn taken_apart(block: &[i32], lengths: &[usize; 9]) -> Result<Tables, String> {
    let mut rest = block;
    let mut kept = true;
    let tables = lengths.map(|length| {
        kept &= rest[..GAP] == [STAYS; GAP];
        let (part, behind) = rest[GAP..].split_at(length);
        rest = behind;
        part.to_vec()
    });
    if kept && rest == [STAYS; GAP] { Ok(tables) } else { Err(format!("words beside the slices were written; slices of {lengths:?} words")) }
}

/// The same with all slices cut from one block, and with an answer of any length: nothing is written beside the slices, and of the answer
/// the first 16 elements, as far as there are any.
pub fn hold_apart(told: &Told, lengths: &[usize; 9], rng: &mut Rng) -> Result<(), String> {
    let mut block = block(lengths);
    let mut answer = vec![i64::from(STAYS); rng.below(21)];
    let mut rest = &mut block[..];
    let parts = lengths.map(|length| {
        let (part, behind) = std::mem::take(&mut rest)[GAP..].split_at_mut(length);
        rest = behind;
        part
    });
    let number = gatehazel::decode_into(&told.words, parts, &mut answer);
    let expected = told.expected(lengths);
    if (number, &answer) != (expected.err().map_or(0, |refusal| refusal.number), &handed(values(&expected), answer.len())) {
        return Err(format!("expected {}, came {number} and the answer {answer:?}", spelled(&expected)));
    }
    let tables = taken_apart(&block, lengths)?;
    difference(told, &expected, &expected, &tables).map_or(Ok(()), |what| Err(format!("in one block: {what}; slices of {lengths:?} words")))
}

/// What a decode's answer holds.
fn values(answer: &Answer) -> Vec<i64> {
    match answer {
        Ok(counts) => counts.to_vec(),
        Err(r) => vec![i64::from(r.number), i64::from(r.field), r.place as i64, r.value, r.record as i64],
    }
}

/// What the header says of an answer of this length that holds these values.
pub fn handed(mut values: Vec<i64>, length: usize) -> Vec<i64> {
    values.resize(16, 0);
    values.resize(length.max(16), i64::from(STAYS));
    values.truncate(length);
    values
}

fn spelled(answer: &Answer) -> String {
    match answer {
        Ok(counts) => format!("acceptance {counts:?}"),
        Err(r) => format!("refusal {}, field {}, place {}, value {}, record {}", r.number, r.field, r.place, r.value, r.record),
    }
}
