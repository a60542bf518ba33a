//! How large the lent slices are: exactly full, short, larger, odd, or nothing.

use crate::gatehazel::TABLES;
use crate::seeded::Rng;
use crate::told::{MOST_ROOM, Told};

#[derive(Clone, Copy, PartialEq)]
pub enum Room {
    Full,
    /// Of this table there is one word less than it takes.
    WordShort(usize),
    /// Of this table there is one record less than it takes.
    RecordShort(usize),
    /// Far more than it takes, of every table.
    Large,
    /// Every table ends in a part of a record.
    Odd,
    Zero,
    /// Each table is short, full or larger, as it comes.
    Any,
}

/// The kinds of rooms, for counting. The last is exactly full for a list that names so many records that fewer are lent.
pub const KINDS: [&str; 8] = ["exactly full", "one word short", "one record short", "far larger", "odd", "zero", "any", "less than a vast count"];

impl Room {
    pub fn kind(self) -> usize {
        match self {
            Room::Full => 0,
            Room::WordShort(_) => 1,
            Room::RecordShort(_) => 2,
            Room::Large => 3,
            Room::Odd => 4,
            Room::Zero => 5,
            Room::Any => 6,
        }
    }

    /// The rooms other than exactly full, in the order in which they are taken in turn.
    pub fn others() -> Vec<Room> {
        let mut rooms = vec![Room::Large, Room::Odd, Room::Any, Room::Odd, Room::Zero];
        for table in 0..TABLES.len() {
            rooms.extend([Room::WordShort(table), Room::RecordShort(table), Room::Any]);
        }
        rooms
    }

    /// The slices' lengths for a list; none where a table that shall be short takes nothing. A refused list may name many more records than
    /// it has words for; it is lent `most` of them, and where that is less than it names, 12 is expected.
    pub fn lengths(self, told: &Told, most: usize, rng: &mut Rng) -> Option<[usize; 9]> {
        let most = if told.answer.is_ok() { usize::MAX } else { most };
        let full: [usize; 9] = std::array::from_fn(|table| told.room[table].min(most) * TABLES[table].1);
        let mut lengths = full;
        match self {
            Room::Full => {}
            Room::WordShort(table) => lengths[table] = full[table].checked_sub(1)?,
            Room::RecordShort(table) => lengths[table] = full[table].checked_sub(TABLES[table].1)?,
            Room::Large => lengths = std::array::from_fn(|table| full[table] + (20 + rng.below(60)) * TABLES[table].1),
            Room::Odd => lengths = std::array::from_fn(|table| full[table] + odd(rng, TABLES[table].1)),
            Room::Zero => lengths = [0; 9],
            Room::Any => lengths = std::array::from_fn(|table| any(rng, full[table], TABLES[table].1)),
        }
        Some(lengths)
    }
}

/// A part of a record, and a whole one now and then; a record of one word has no part.
fn odd(rng: &mut Rng, width: usize) -> usize {
    width * rng.below(2) + if width > 1 { 1 + rng.below(width - 1) } else { 0 }
}

/// Mostly enough: so that a decode gets as far as any table.
fn any(rng: &mut Rng, full: usize, width: usize) -> usize {
    if rng.percent(8) { rng.below(full + 1) } else { full + rng.below(3 * width) }
}

/// The most records of a table that are lent to a refused list, as a rule.
pub const USUAL: usize = 2_000;

/// Enough for more than document 01 counts as room.
pub const VAST: usize = MOST_ROOM + 200;
