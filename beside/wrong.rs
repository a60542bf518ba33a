//! Wrong versions of a write, each made of what Gatehazel answers: that every one of them is noticed is part of the self-test.

use crate::bases::bases;
use crate::damages::{Damage, Lent, every, twos};
use crate::exact;
use crate::gatehazel::{self, EDGES, RANGES, Records, SETS, STATES, TABLES, Tables, write_into};
use crate::hold::{GAP, STAYS};
use crate::judged::damaged;
use crate::lists::{Net, eps};
use crate::rooms::{Room, USUAL};
use crate::seeded::Rng;
use crate::summary::spelled;
use crate::told::{MODES, RULES, Told};
use crate::writer::{fits, network_of, rows, words_of};
use crate::written::{Pairs, Wanted, Write, difference, expected, written};

type Version = fn(Records, &mut [i32], &mut [i64]) -> u32;

/// Fills an answer with one value.
fn say(value: i64, answer: &mut [i64]) {
    answer.iter_mut().take(16).enumerate().for_each(|(at, element)| *element = if at == 0 { value } else { 0 });
}

fn refuse(number: u32, out: &mut [i32], answer: &mut [i64]) -> u32 {
    out.fill(0);
    say(i64::from(number), answer);
    number
}

/// These words, or 16.
fn give(words: &[i32], out: &mut [i32], answer: &mut [i64]) -> u32 {
    if words.len() > out.len() {
        return refuse(16, out, answer);
    }
    out.fill(0);
    out[..words.len()].copy_from_slice(words);
    say(words.len() as i64, answer);
    0
}

/// What Gatehazel answers: its number, and how many words are written.
fn ours(given: Records, out: &mut [i32], answer: &mut [i64]) -> (u32, usize) {
    match gatehazel::write(given, out) {
        Ok(words) => {
            say(words as i64, answer);
            (0, words)
        }
        Err(number) => {
            say(i64::from(number), answer);
            (number, 0)
        }
    }
}

fn number_is(from: u32, to: u32, given: Records, out: &mut [i32], answer: &mut [i64]) -> u32 {
    match ours(given, out, answer).0 {
        number if number == from => refuse(to, out, answer),
        number => number,
    }
}

fn one_word_too_long(given: Records, out: &mut [i32], answer: &mut [i64]) -> u32 {
    let (number, words) = ours(given, out, answer);
    if number == 0 {
        say(words as i64 + 1, answer);
    }
    number
}

fn dirty_behind(given: Records, out: &mut [i32], answer: &mut [i64]) -> u32 {
    let (number, words) = ours(given, out, answer);
    if number == 0 {
        out[words..].fill(1);
    }
    number
}

fn dirty_refusal(given: Records, out: &mut [i32], answer: &mut [i64]) -> u32 {
    let (number, _) = ours(given, out, answer);
    if number != 0 {
        out.iter_mut().take(1).for_each(|word| *word = 4);
    }
    number
}

/// A refusal that names a field.
fn more_than_a_number(given: Records, out: &mut [i32], answer: &mut [i64]) -> u32 {
    let (number, _) = ours(given, out, answer);
    if number != 0 {
        answer.iter_mut().skip(1).take(1).for_each(|element| *element = 1);
    }
    number
}

fn whole_answer(given: Records, out: &mut [i32], answer: &mut [i64]) -> u32 {
    answer.fill(0);
    ours(given, out, answer).0
}

fn sixteen_first(given: Records, out: &mut [i32], answer: &mut [i64]) -> u32 {
    if out.is_empty() { refuse(16, out, answer) } else { ours(given, out, answer).0 }
}

fn one_word_to_spare(given: Records, out: &mut [i32], answer: &mut [i64]) -> u32 {
    match ours(given, out, answer) {
        (0, words) if words == out.len() => refuse(16, out, answer),
        (number, _) => number,
    }
}

fn counts_only(given: Records, out: &mut [i32], answer: &mut [i64]) -> u32 {
    let (number, _) = ours(given, out, answer);
    out.fill(0);
    number
}

fn looks_behind(given: Records, out: &mut [i32], answer: &mut [i64]) -> u32 {
    let clean = |table: usize| given.tables[table].iter().skip(given.counts[table].saturating_mul(TABLES[table].1)).all(|&word| word == 0);
    if (0..given.counts.len()).all(clean) { ours(given, out, answer).0 } else { refuse(15, out, answer) }
}

/// Counts beyond whole records are taken for all whole records.
fn counts_cut(given: Records, out: &mut [i32], answer: &mut [i64]) -> u32 {
    let counts = std::array::from_fn(|table| given.counts[table].min(given.tables[table].len() / TABLES[table].1));
    ours(Records { counts, ..given }, out, answer).0
}

/// Tables that no list decodes to are written as well as they can be.
fn writes_all(given: Records, out: &mut [i32], answer: &mut [i64]) -> u32 {
    match words_of(given) {
        Some(words) => give(&words, out, answer),
        None => refuse(15, out, answer),
    }
}

const ANSWERS: [(&str, Version); 14] = [
    ("one word too long", one_word_too_long), ("words behind the words", dirty_behind), ("an output that is not zero", dirty_refusal),
    ("a refusal with more than its number", more_than_a_number), ("more of the answer than 16 elements", whole_answer),
    ("16 for 15", |given, out, answer| number_is(15, 16, given, out, answer)),
    ("15 for 16", |given, out, answer| number_is(16, 15, given, out, answer)),
    ("16 tested first", sixteen_first), ("a word to spare", one_word_to_spare), ("words counted only", counts_only),
    ("a look behind the records", looks_behind), ("counts cut to whole records", counts_cut), ("everything written", writes_all),
    ("everything refused", |_, out, answer| refuse(15, out, answer)),
];

/// Other forms of the same sections. Of most of them the same records are decoded.
type Form = fn(&mut Net, Records);

fn change_sets(net: &mut Net, one: fn(&mut i32, &mut Vec<(i32, i32)>)) {
    net.sets.iter_mut().for_each(|(flag, ranges)| one(flag, ranges));
}

fn change_edges(net: &mut Net, kinds: &[i32], one: fn(&mut [i32; 6])) {
    net.edges.iter_mut().filter(|edge| kinds.contains(&edge[2])).for_each(one);
}

const FORMS: [(&str, Form); 16] = [
    ("the EOF flag beside -1", |net, _| change_sets(net, |flag, ranges| *flag = i32::from(ranges.iter().any(|r| r.0 <= -1 && r.1 >= -1)))),
    ("the EOF flag for -1", |net, _| {
        change_sets(net, |flag, ranges| {
            *flag = i32::from(ranges.contains(&(-1, -1)));
            ranges.retain(|&range| range != (-1, -1));
        });
    }),
    ("a range in two parts", |net, _| {
        change_sets(net, |_, ranges| *ranges = ranges.iter().flat_map(|&(a, b)| [(a, a), (if a < b { a + 1 } else { b }, b)]).collect());
    }),
    ("ranges backwards", |net, _| change_sets(net, |_, ranges| ranges.reverse())),
    ("flagged states descending", |net, _| net.non_greedy.reverse()),
    ("flagged states descending, the other list", |net, _| net.recursive.reverse()),
    ("flagged states twice", |net, _| net.non_greedy = net.non_greedy.repeat(2)),
    ("EOF by c", |net, _| change_edges(net, &[2, 5], |edge| edge[5] = i32::from(edge[3] == -1))),
    ("unused arguments", |net, _| change_edges(net, &[1, 9], |edge| edge[3] = 1)),
    ("another c that is not 0", |net, _| change_edges(net, &[4, 6], |edge| edge[5] *= 2)),
    ("an absent action as -2", |net, _| change_edges(net, &[6], |edge| edge[4] *= if edge[4] < 0 { 2 } else { 1 })),
    ("an absent rule as -2", |net, _| {
        net.states.iter_mut().filter_map(|state| state.get_mut(1)).for_each(|rule| *rule -= i32::from(*rule < 0));
    }),
    ("data of a skip", |net, _| net.actions.iter_mut().filter(|action| action[0] == 6).for_each(|action| action[1] = 1)),
    ("another max token type", |net, _| net.token ^= 1),
    ("derived edges", |net, given| {
        net.edges.extend(rows(given, EDGES).filter(|edge| edge[6] == 1).map(|edge| eps(edge[1], edge[2])));
    }),
    ("no decisions", |net, _| net.decisions.clear()),
];

/// The words of the sections in another form.
fn other_form(form: Form, given: Records, out: &mut [i32], answer: &mut [i64]) -> u32 {
    match (ours(given, out, answer).0, network_of(given)) {
        (0, Some(mut net)) => {
            form(&mut net, given);
            give(&net.words(), out, answer)
        }
        (number, _) => number,
    }
}

/// Of the tables that lists give, those that a version refuses with 15.
type Narrow = fn(Records) -> bool;

fn no_state(given: Records, number: i32) -> bool {
    usize::try_from(number).map_or(true, |number| number >= given.counts[STATES])
}

/// Whether two of these are the same.
fn alike(all: &[&[i32]]) -> bool {
    twos(all.len()).any(|(one, other)| all[one] == all[other])
}

const NARROW: [(&str, Narrow); 10] = [
    ("-1 in a range", |given| rows(given, RANGES).any(|range| range[0] == -1)),
    ("a range up to the last number", |given| rows(given, RANGES).any(|range| range[1] == i32::MAX)),
    ("an empty set", |given| rows(given, SETS).any(|set| set[1] == 0)),
    ("more sets than edges over them", |given| given.counts[SETS] > rows(given, EDGES).filter(|edge| [7, 8].contains(&edge[0])).count()),
    ("a rule without a stop", |given| rows(given, RULES).any(|rule| rule[1] == -1)),
    ("two modes alike", |given| alike(&rows(given, MODES).collect::<Vec<_>>())),
    ("a target that is not listed", |given| rows(given, EDGES).any(|edge| no_state(given, edge[2]))),
    ("a follow state that is not listed", |given| rows(given, EDGES).any(|edge| edge[0] == 3 && no_state(given, edge[4]))),
    ("two return edges alike", |given| {
        alike(&rows(given, EDGES).filter(|edge| edge[6] == 1).map(|edge| &edge[..6]).collect::<Vec<_>>())
    }),
    ("a max token type below 0", |given| given.token < 0),
];

fn refuses_more(narrow: Narrow, given: Records, out: &mut [i32], answer: &mut [i64]) -> u32 {
    match ours(given, out, answer).0 {
        0 if narrow(given) => refuse(15, out, answer),
        number => number,
    }
}

/// Tables that no list decodes to are written as well as they can be, if tables that they are taken for are writable.
fn takes_for(others: &[Lent], given: Records, out: &mut [i32], answer: &mut [i64]) -> u32 {
    let writable = |other: &Lent| gatehazel::write(other.records(), &mut [0; 400]).is_ok();
    match ours(given, out, answer).0 {
        15 if others.iter().any(writable) => give(&words_of(given).unwrap_or_default(), out, answer),
        number => number,
    }
}

/// Ranges that touch are as good as others, and those that overlap are not: each end becomes twice its rank, so that ends which were
/// next to each other no longer are, and all keep their order.
fn touching(given: Records, out: &mut [i32], answer: &mut [i64]) -> u32 {
    let mut apart = Lent::copy(given);
    let mut ends = apart.tables[RANGES].clone();
    ends.sort_unstable();
    ends.dedup();
    apart.tables[RANGES].iter_mut().for_each(|end| *end = 2 * ends.partition_point(|other| other < end) as i32);
    takes_for(&[apart], given, out, answer)
}

/// Return edges are good in another order: two of them are changed back so.
fn other_order(back: fn(usize, usize) -> Damage, given: Records, out: &mut [i32], answer: &mut [i64]) -> u32 {
    if !fits(given) {
        return ours(given, out, answer).0;
    }
    let derived: Vec<usize> = rows(given, EDGES).enumerate().filter(|(_, edge)| edge[6] == 1).map(|(number, _)| number).collect();
    let ordered = twos(derived.len()).filter_map(|(one, other)| {
        let mut lent = Lent::copy(given);
        back(derived[one], derived[other]).apply(&mut lent).map(|()| lent)
    });
    takes_for(&ordered.collect::<Vec<_>>(), given, out, answer)
}

/// Versions with one test that lets too much through, and the damages that show it.
const WIDE: [(&str, Version, fn(&Damage) -> bool); 3] = [
    ("touching ranges", touching, |damage| matches!(damage, Damage::Word { table: RANGES, .. })),
    (
        "return edges numbered in another order",
        |given, out, answer| other_order(|one, other| Damage::Renumber { one, other }, given, out, answer),
        |damage| matches!(damage, Damage::Renumber { .. }),
    ),
    (
        "the targets of return edges in another order",
        |given, out, answer| other_order(|one, other| Damage::Exchange { table: EDGES, word: 2, one, other }, given, out, answer),
        |damage| matches!(damage, Damage::Exchange { table: EDGES, word: 2, .. }),
    ),
];

/// A word of a table's records.
type Word = (usize, usize);

/// A word of a table's records is not looked at: what it was in the sound tables is as good.
fn leaves_out((table, word): Word, sound: &Lent, given: Records, out: &mut [i32], answer: &mut [i64]) -> u32 {
    let mut healed = Lent::copy(given);
    let words = healed.tables[table].iter_mut().zip(&sound.tables[table]);
    words.skip(word).step_by(TABLES[table].1).for_each(|(word, &was)| *word = was);
    takes_for(&[healed], given, out, answer)
}

/// A network, and damages of its tables.
struct Base {
    name: &'static str,
    told: Told,
    damages: Vec<Damage>,
}

impl Base {
    fn new((name, words): (&'static str, Vec<i32>)) -> Base {
        let told = Told::of(&words);
        let damages = Lent::of(&told).map_or(Vec::new(), |lent| every(&lent));
        Base { name, told, damages }
    }

    /// What the comparison says of a version, if anything, with these of the damages.
    fn notices(&self, write: Write, rng: &mut Rng, damages: impl Fn(usize, &Damage) -> bool) -> Option<String> {
        let lengths = Room::Odd.lengths(&self.told, USUAL, rng)?;
        if let Err(what) = written(&self.told, &Wanted { lengths, more: true }, &mut Tables::default(), write, rng) {
            return Some(format!("{}, {}: {what}", self.name, spelled(&self.told.words)));
        }
        let these = self.damages.iter().enumerate().filter(|(number, damage)| damages(*number, damage));
        let mut said = these.map(|(_, damage)| (damage, damaged(&self.told, &[*damage], write, rng).err()));
        let words = spelled(&self.told.words);
        said.find_map(|(damage, what)| Some(format!("{}, {words}, in its tables {}: {}", self.name, damage.shown(), what?)))
    }
}

/// Of a base's damages these are tried with a version that more than a few of them show.
fn every_so_many(number: usize, _: &Damage) -> bool {
    number % 5 == 0
}

fn noticed_or(what: &str, noticed: bool) -> Result<u64, String> {
    if noticed { Ok(1) } else { Err(format!("a wrong version of write was not noticed: {what}")) }
}

fn must_notice(bases: &[Base], what: &str, write: Write, rng: &mut Rng) -> Result<u64, String> {
    noticed_or(what, bases.iter().any(|base| base.notices(write, rng, every_so_many).is_some()))
}

/// A version that does not look at a word of a table's records.
fn must_notice_word(bases: &[Base], (table, word): Word, rng: &mut Rng) -> Result<u64, String> {
    let of_it = |at: usize| at % TABLES[table].1 == word;
    let this = |_: usize, damage: &Damage| matches!(damage, Damage::Word { table: other, at, .. } if *other == table && of_it(*at));
    let noticed = bases.iter().any(|base| {
        let Some(sound) = Lent::of(&base.told) else { return false };
        let version = |given: Records, out: &mut [i32], answer: &mut [i64]| leaves_out((table, word), &sound, given, out, answer);
        base.notices(&version, rng, this).is_some()
    });
    noticed_or(&format!("word {word} of {} left out", TABLES[table].0), noticed)
}

/// A write that agrees, of which the number, each element of the answer, and each word of the output and beside it is changed.
fn each_word(given: Records, words: Option<&[i32]>, length: usize) -> Result<u64, String> {
    let mut block = vec![STAYS; GAP + length + GAP];
    let mut answer = vec![i64::from(STAYS); 18];
    let number = write_into(given, &mut block[GAP..GAP + length], &mut answer);
    let differs = |number: u32, answer: &[i64], block: &[i32]| difference(expected(words, length), number, answer, block);
    if let Some(what) = differs(number, &answer, &block) {
        return Err(format!("before any damage: {what}"));
    }
    let mut missed = differs(number ^ 1, &answer, &block).is_none();
    for at in 0..answer.len() {
        answer[at] ^= 1;
        missed |= differs(number, &answer, &block).is_none();
        answer[at] ^= 1;
    }
    for at in 0..block.len() {
        block[at] ^= 1 << (at % 32);
        missed |= differs(number, &answer, &block).is_none();
        block[at] ^= 1 << (at % 32);
    }
    if missed { Err(String::from("a damage of what was written was not caught")) } else { Ok((1 + answer.len() + block.len()) as u64) }
}

/// The same records with other words, and other records with the same words.
fn two_lists(one: &Told, other: &Told) -> Result<u64, String> {
    for (told, words) in [(one, &[2][..]), (other, &[1][..])] {
        let mut pairs = Pairs::default();
        if pairs.add(one, &[1]).is_err() || pairs.add(one, &[1]).is_err() || pairs.add(told, words).is_ok() {
            return Err(String::from("words that two lists have wrongly in common, or not, were not caught"));
        }
    }
    Ok(2)
}

/// How many wrong versions and damages were noticed, or the first that was not.
pub fn noticed(rng: &mut Rng) -> Result<u64, String> {
    let bases: Vec<Base> = bases().into_iter().map(Base::new).collect();
    if let Some(what) = bases.iter().find_map(|base| base.notices(&write_into, rng, every_so_many)) {
        return Err(format!("before any damage, of a write: {what}"));
    }
    let mut count = two_lists(&bases[0].told, &bases[1].told)?;
    for lent in bases.iter().filter_map(|base| Lent::of(&base.told)) {
        let words = words_of(lent.records()).unwrap_or_default();
        for length in [words.len(), words.len() + 9, words.len() - 1] {
            count += each_word(lent.records(), Some(&words), length)?;
        }
        count += each_word(Records { counts: [usize::MAX; 8], ..lent.records() }, None, words.len())?;
    }
    for (name, version) in ANSWERS {
        count += must_notice(&bases, name, &version, rng)?;
    }
    for (name, form) in FORMS {
        let version = move |given: Records, out: &mut [i32], answer: &mut [i64]| other_form(form, given, out, answer);
        count += must_notice(&bases, name, &version, rng)?;
    }
    for (name, narrow) in NARROW {
        let version = move |given: Records, out: &mut [i32], answer: &mut [i64]| refuses_more(narrow, given, out, answer);
        count += must_notice(&bases, name, &version, rng)?;
    }
    let kinds = exact::kinds()?;
    for (name, version, shows) in WIDE {
        count += noticed_or(name, bases.iter().any(|base| base.notices(&version, rng, |_, damage| shows(damage)).is_some()))?;
        count += noticed_or(&format!("{name}, by every list of a small kind"), exact::hold(&kinds, &version).is_err())?;
    }
    // a rule's token type may be any, so that nothing is tested of it
    let words = (0..8).flat_map(|table| (0..TABLES[table].1).map(move |word| (table, word)));
    for word in words.filter(|&word| word != (RULES, 2)) {
        count += must_notice_word(&bases, word, rng)?;
    }
    Ok(count)
}
