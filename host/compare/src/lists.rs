//! Sound lists of any number of records, of a few shapes.

use crate::states::{follower, incomplete_numbers, of_records, APPENDED, RESERVED};
use gladhamre::{Record, State, RECORD_LIMIT};
use plain::Sense;

/// The fewest blocks of a disc.
const FEWEST_BLOCKS: u32 = 256;

/// Blocks of a disc with room for every list here.
pub const MOST_BLOCKS: u32 = 22_000;

/// How a list ends.
#[derive(Clone, Copy, PartialEq, Eq)]
enum Ending {
    /// Finalized, with blocks after the last fragment.
    Finalized,
    /// With a tail.
    Tail,
    /// With an incomplete reserved fragment, and blocks after it: one, or more where the list is full.
    Reserved,
}

/// How lists are made.
pub struct Shape {
    pub name: &'static str,
    /// The blocks of the fragments, by turns.
    lengths: [u32; 3],
    /// The fragments of a session. Those of the last one are incomplete, unless the disc is finalized.
    in_session: usize,
    ending: Ending,
}

pub const SHAPES: [Shape; 4] = [
    Shape {
        name: "short fragments, finalized",
        lengths: [1; 3],
        in_session: RECORD_LIMIT,
        ending: Ending::Finalized,
    },
    Shape {
        name: "short fragments with a tail",
        lengths: [1; 3],
        in_session: RECORD_LIMIT,
        ending: Ending::Tail,
    },
    Shape {
        name: "longer fragments, each a session, with a tail",
        lengths: [2, 5, 3],
        in_session: 1,
        ending: Ending::Tail,
    },
    Shape {
        name: "longer fragments, three to a session, without a tail",
        lengths: [3, 1, 2],
        in_session: 3,
        ending: Ending::Reserved,
    },
];

impl Shape {
    /// The list of so many records, as a state.
    pub fn list(&self, count: usize) -> State {
        let mut records: Vec<Record> = Vec::new();
        for index in 0..count {
            let jump = index > 0 && index % self.in_session == 0;
            records.push(follower(records.last(), self.lengths[index % 3], jump));
        }
        let capacity = self.end_list(&mut records);
        self.fill_in(&mut records);
        let finalized = self.ending == Ending::Finalized;
        of_records(capacity, finalized, Sense::NONE, pending(&records), &records)
    }

    /// Makes the last record as long as the ending asks for; gives the disc's blocks.
    fn end_list(&self, records: &mut [Record]) -> u32 {
        let is_full = records.len() == RECORD_LIMIT;
        let Some(last) = records.last_mut() else { return FEWEST_BLOCKS };
        let (blocks_after, is_stretched) = match self.ending {
            Ending::Finalized => (3, false),
            Ending::Tail => (0, true),
            Ending::Reserved if is_full => (40, false),
            Ending::Reserved => (1, true),
        };
        let capacity = FEWEST_BLOCKS.max(last.start + last.length + blocks_after);
        if is_stretched {
            last.length = capacity - blocks_after - last.start;
        }
        capacity
    }

    /// Recorded blocks and kinds.
    fn fill_in(&self, records: &mut [Record]) {
        let count = records.len();
        let last_session = records.last().map_or(0, |last| last.session);
        for (index, record) in records.iter_mut().enumerate() {
            let is_tail = self.ending == Ending::Tail && index + 1 == count;
            let is_open = self.ending != Ending::Finalized && record.session == last_session;
            record.recorded = if is_open { record.length / 2 } else { record.length };
            record.kind = match is_open {
                true if is_tail => APPENDED,
                true => RESERVED,
                false => [RESERVED, APPENDED][index % 2],
            };
        }
    }
}

/// Pending sectors in the middle one of the incomplete fragments, on two lists of three.
fn pending(records: &[Record]) -> (u32, u32) {
    let open = incomplete_numbers(records);
    match open.get(open.len() / 2) {
        Some(&number) if records.len() % 3 > 0 => (1 + records.len() as u32 % 15, number),
        _ => (0, 0),
    }
}

#[cfg(test)]
mod tests {
    use super::{MOST_BLOCKS, SHAPES};
    use gladhamre::RECORD_LIMIT;
    use plain::broken_rules;

    #[test]
    fn every_list_is_sound() {
        for shape in SHAPES {
            for count in 1..=RECORD_LIMIT {
                let state = shape.list(count);
                let what = format!("{}, {count} records", shape.name);
                assert!(broken_rules(state.words()).is_empty(), "{what}");
                assert_eq!(state.records().count(), count, "{what}");
                assert!(state.capacity() <= MOST_BLOCKS, "{what}");
            }
        }
    }
}
