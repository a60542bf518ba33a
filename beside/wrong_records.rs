//! Wrong versions of the record that a refusal names (request R-2), each made of what Gatehazel answers: that every one of them is noticed
//! is part of the self-test.

use crate::gatehazel::{Refusal, TABLES};
use crate::lists::{every_word_changed, three};
use crate::rooms::Room;
use crate::seeded::Rng;
use crate::selftest::Sound;
use crate::walk::Walk;

/// A refusal as it should be, and the fields and records of the words up to it.
struct Right<'a> {
    refusal: Refusal,
    spots: &'a [(u32, usize)],
}

/// The record that a version names; none where it names the right one.
type Version = fn(&Right) -> Option<usize>;

const COUNTS: [u32; 9] = [4, 9, 11, 13, 16, 18, 23, 30, 32];

impl Right<'_> {
    fn number(&self, number: u32) -> bool {
        self.refusal.number == number
    }

    fn at(&self, fields: &[u32]) -> bool {
        fields.contains(&self.refusal.field)
    }

    /// The value without its sign.
    fn value(&self) -> usize {
        self.refusal.value.unsigned_abs() as usize
    }

    /// The record of the word so many places before; the right one where there is none.
    fn before(&self, places: usize) -> usize {
        self.refusal.place.checked_sub(places).map_or(self.refusal.record, |place| self.spots[place].1)
    }

    /// Of an interval's word: the interval's number in its set.
    fn interval(&self) -> usize {
        let this = (self.refusal.field, self.refusal.record);
        self.spots[..self.refusal.place].iter().filter(|&&spot| spot == this).count()
    }

    /// Whether it is the first word behind a count.
    fn first(&self) -> bool {
        !self.at(&COUNTS) && self.refusal.place.checked_sub(1).is_some_and(|place| COUNTS.contains(&self.spots[place].0))
    }

    /// Whether it is 12 for return edges: another field's word stands at that place.
    fn derived(&self) -> bool {
        self.number(12) && self.spots[self.refusal.place].0 != self.refusal.field
    }
}

const VERSIONS: [(&str, Version); 13] = [
    ("always 0", |_| Some(0)),
    ("counted from 1", |right| (!right.at(&COUNTS)).then(|| right.refusal.record + 1)),
    ("that of the word before", |right| Some(right.before(1))),
    ("that of the last word where the words ended", |right| right.number(1).then(|| right.before(1))),
    ("not begun anew in the next section", |right| right.first().then(|| right.before(2))),
    ("a count's value", |right| right.at(&COUNTS).then(|| right.value())),
    ("at a count the last record before it", |right| right.at(&COUNTS).then(|| right.before(1))),
    ("0 at an interval count", |right| right.at(&[19]).then_some(0)),
    ("the interval for its set", |right| right.at(&[21, 22]).then(|| right.interval())),
    ("the state that a list names", |right| right.at(&[10, 12]).then(|| right.value())),
    ("10 with the source", |right| right.number(10).then(|| right.value())),
    ("12 with 0", |right| right.number(12).then_some(0)),
    ("12 for return edges with the last edge", |right| right.derived().then(|| right.before(1))),
];

/// A network cut at every length, with every word changed, and short of each table.
fn lists() -> Vec<(Vec<i32>, Room)> {
    let words = three();
    let cut = (0..words.len()).map(|length| words[..length].to_vec());
    let short = (0..TABLES.len()).map(|table| (words.clone(), Room::RecordShort(table)));
    cut.chain(every_word_changed(&words)).map(|list| (list, Room::Full)).chain(short).collect()
}

/// How many versions were noticed, or the first that was not.
pub fn noticed(rng: &mut Rng) -> Result<u64, String> {
    let mut left = VERSIONS.to_vec();
    for (words, room) in lists() {
        let sound = Sound::new(&words, room, rng)?;
        let Err(refusal) = sound.came else { continue };
        let walk = Walk::of(&words);
        let right = Right { refusal, spots: &walk.spots };
        let noticed = |record: usize| sound.notices(&Err(Refusal { record, ..refusal }), &sound.tables);
        left.retain(|(_, version)| !version(&right).is_some_and(noticed));
    }
    match left.first() {
        None => Ok(VERSIONS.len() as u64),
        Some((name, _)) => Err(format!("a wrong record was not noticed: {name}")),
    }
}
