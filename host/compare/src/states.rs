//! Sound states that are made directly, reachable or not.

use crate::searches::LENGTHS;
use crate::Random;
use gladhamre::{Record, State, RECORD_LIMIT, STATE_WORDS};
use plain::Sense;

pub(crate) const RESERVED: u32 = 0;
pub(crate) const APPENDED: u32 = 1;

/// How a list ends.
#[derive(Clone, Copy, PartialEq, Eq)]
enum Ending {
    /// With a tail.
    Tail,
    /// Without one: no record is free.
    ListFull,
    /// Without one: the last record ends at C - 1 or C.
    DiscFull,
    Finalized,
}

/// A blank disc comes once in so many times.
const BLANK_ONCE_IN: u64 = 30;

/// A sound state of that capacity.
pub fn sound(random: &mut Random, capacity: u32) -> State {
    if random.once_in(BLANK_ONCE_IN) {
        return blank(capacity);
    }
    let endings =
        [Ending::Tail, Ending::Tail, Ending::ListFull, Ending::DiscFull, Ending::Finalized];
    let ending = match random.pick(&endings) {
        Ending::ListFull if most_records(capacity) < RECORD_LIMIT as u32 => Ending::DiscFull,
        ending => ending,
    };
    with_ending(random, capacity, ending)
}

fn blank(capacity: u32) -> State {
    let mut words = [0; STATE_WORDS];
    assert_eq!(plain::blank(capacity, &mut words), 0, "{capacity} blocks");
    State::from_words(words)
}

/// As many records as the limit allows and the disc has room for, with a dividing block between
/// two of them.
fn most_records(capacity: u32) -> u32 {
    capacity.div_ceil(2).min(RECORD_LIMIT as u32)
}

fn with_ending(random: &mut Random, capacity: u32, ending: Ending) -> State {
    let mut records = layout(random, capacity, ending);
    let last_session = records.last().map_or(0, |last| last.session);
    let last = records.len() - 1;
    let none_open = ending == Ending::Finalized || random.once_in(2);
    for (index, record) in records.iter_mut().enumerate() {
        let is_tail = ending == Ending::Tail && index == last;
        let may_be_open = !none_open && record.session == last_session;
        fill_in(random, record, is_tail, may_be_open);
    }
    let sense = random.pick(&Sense::LISTED);
    let pending = pending(random, &records);
    of_records(capacity, ending == Ending::Finalized, sense, pending, &records)
}

/// The state of these records, with a pending count and its fragment's number.
pub(crate) fn of_records(
    capacity: u32,
    finalized: bool,
    sense: Sense,
    (count, fragment): (u32, u32),
    records: &[Record],
) -> State {
    let mut state = State::from_words([0; STATE_WORDS]);
    for (index, record) in records.iter().enumerate() {
        state.set_record(index, *record);
    }
    let words = state.words_mut();
    words[0] = capacity;
    words[1] = u32::from(finalized);
    words[2..5].copy_from_slice(&[sense.key, sense.code, sense.qualifier].map(u32::from));
    words[5..7].copy_from_slice(&[count, fragment]);
    state
}

/// Records with session, start and length: first the least that they take, then what is to spare.
fn layout(random: &mut Random, capacity: u32, ending: Ending) -> Vec<Record> {
    let count = record_count(random, most_records(capacity), ending);
    let mut spare = capacity - (2 * count - 1);
    let most_jumps = (count - 1).min(spare / 127);
    let most_jumps = random.pick(&[0, 1, 2, most_jumps]).min(most_jumps);
    let mut jumps = random.between(0, most_jumps.into()) as u32;
    spare -= 127 * jumps;
    let mut records: Vec<Record> = Vec::new();
    for index in 0..count {
        let extra = spare_length(random, spare, index + 1 == count, ending);
        spare -= extra;
        let places_left = count - index;
        let jump = index > 0 && random.below(places_left.into()) < jumps.into();
        jumps -= u32::from(jump);
        records.push(follower(records.last(), 1 + extra, jump));
    }
    records
}

fn record_count(random: &mut Random, most: u32, ending: Ending) -> u32 {
    let most = u64::from(most);
    let count = match random.below(8) {
        _ if ending == Ending::ListFull => most,
        6 | 7 => most.min(random.pick(&LENGTHS) as u64),
        0 => 1,
        1 => random.between(2, 3),
        2 => random.between(most - 2, most),
        3 => random.between(1, most),
        _ => random.between(1, 10),
    };
    count as u32
}

/// How much longer than one block a record is.
fn spare_length(random: &mut Random, spare: u32, is_last: bool, ending: Ending) -> u32 {
    match ending {
        Ending::Tail if is_last => spare,
        Ending::DiscFull if is_last => spare - spare.min(random.below(2) as u32),
        _ if random.once_in(2) => 0,
        _ => random.below(u64::from(spare) / 4 + 1) as u32,
    }
}

pub(crate) fn follower(forerunner: Option<&Record>, length: u32, jump: bool) -> Record {
    let (session, start) = match forerunner {
        None => (1, 0),
        Some(before) if jump => (before.session + 1, before.start + before.length + 128),
        Some(before) => (before.session, before.start + before.length + 1),
    };
    Record { session, start, length, ..Record::default() }
}

/// Kind, recorded blocks and zero-filled sectors. A tail often ends where a last session just fits.
fn fill_in(random: &mut Random, record: &mut Record, is_tail: bool, may_be_open: bool) {
    record.kind = random.pick(&[RESERVED, APPENDED]);
    record.recorded = record.length;
    if is_tail {
        record.kind = APPENDED;
    }
    let open = record.kind == RESERVED && may_be_open && !random.once_in(3);
    if is_tail || open {
        let session_edge = record.length.checked_sub(random.between(127, 130) as u32);
        record.recorded = match random.below(4) {
            0 => 0,
            1 => record.length - 1,
            2 if is_tail => session_edge.unwrap_or(0),
            _ => random.below(record.length.into()) as u32,
        };
    }
    let most = 16 * record.recorded;
    record.zero_filled = match random.below(3) {
        0 => 0,
        1 => most,
        _ => random.between(0, most.into()) as u32,
    };
}

/// A pending count and its fragment's number.
fn pending(random: &mut Random, records: &[Record]) -> (u32, u32) {
    let open = incomplete_numbers(records);
    if open.is_empty() || random.once_in(3) {
        return (0, 0);
    }
    let number = if random.once_in(4) { open[0] } else { random.pick(&open) };
    (random.between(1, 15) as u32, number)
}

/// The numbers of the incomplete fragments.
pub(crate) fn incomplete_numbers(records: &[Record]) -> Vec<u32> {
    let incomplete = |(_, record): &(u32, &Record)| record.recorded < record.length;
    (1..).zip(records).filter(incomplete).map(|(number, _)| number).collect()
}

#[cfg(test)]
mod tests {
    use super::{most_records, sound};
    use crate::Random;
    use gladhamre::{State, RECORD_LIMIT};
    use plain::broken_rules;
    use std::collections::BTreeSet;

    fn ending(state: &State) -> &'static str {
        let last = state.records().last().expect("a sound list has a record");
        let open = last.recorded < last.length;
        let blocks_left = last.start + last.length + 1 < state.capacity();
        match (state.finalized(), last.kind, open, blocks_left) {
            (1, ..) => "finalized",
            (_, 1, true, _) if last.recorded == 0 => "a tail with nothing recorded",
            (_, 1, true, _) => "a tail",
            (_, _, true, true) => "incomplete, blocks left",
            (_, _, true, false) => "incomplete, none left",
            (_, _, false, true) => "complete, blocks left",
            (_, _, false, false) => "complete, none left",
        }
    }

    /// The endings of the sound lists with so many records on a disc of 480 blocks.
    fn endings(count: usize) -> BTreeSet<&'static str> {
        let mut random = Random::new(1);
        let states = (0..20_000).map(|_| sound(&mut random, 480));
        let wanted: Vec<State> = states.filter(|state| state.records().count() == count).collect();
        assert!(wanted.iter().all(|state| broken_rules(state.words()).is_empty()));
        wanted.iter().map(ending).collect()
    }

    /// With one record free and with none there is every ending, those that no sequence reaches
    /// included; only a full list ends with blocks left and no tail.
    #[test]
    fn crowded_lists_end_in_every_way() {
        let common = [
            "finalized",
            "a tail with nothing recorded",
            "a tail",
            "incomplete, none left",
            "complete, none left",
        ];
        assert_eq!(endings(RECORD_LIMIT - 1), BTreeSet::from(common));
        let full = common.into_iter().chain(["incomplete, blocks left", "complete, blocks left"]);
        assert_eq!(endings(RECORD_LIMIT), full.collect());
    }

    /// A disc that is too small for a full list has as many records as fit.
    #[test]
    fn small_discs_have_room() {
        let mut random = Random::new(2);
        let most = (0..2_000).map(|_| {
            let state = sound(&mut random, 256);
            assert!(broken_rules(state.words()).is_empty());
            state.records().count()
        });
        assert_eq!(most.max(), Some(most_records(256) as usize));
        assert_eq!(most_records(256), 128);
    }
}
