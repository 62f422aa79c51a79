//! States that break exactly one rule, and junk.

use crate::states::{follower, sound, APPENDED, RESERVED};
use crate::Random;
use gladhamre::{Record, State, RECORD_LIMIT};
use plain::{broken_rules, Rule, RuleSet};

/// A state that breaks this rule and no other.
pub fn breaking(random: &mut Random, rule: Rule, capacity: u32) -> State {
    for _ in 0..100_000 {
        let mut state = sound(random, capacity);
        break_rule(random, rule, &mut state);
        if broken_rules(state.words()) == RuleSet::only(rule) {
            return state;
        }
    }
    panic!("no state found that breaks {rule:?} alone");
}

/// Tries to break the rule; whether it and nothing else is broken is seen afterwards.
fn break_rule(random: &mut Random, rule: Rule, state: &mut State) {
    match rule {
        Rule::FlagsAreBits => break_flags(random, state),
        Rule::SenseListed => break_sense(random, state),
        Rule::AnyRecord => {
            state.words_mut()[1..].fill(0);
            state.words_mut()[1] = 1;
        }
        Rule::UsedFirst => insert_unused(random, state),
        Rule::FirstRecord => shift_all(random, state),
        Rule::FollowsForerunner => change_record(random, state, move_start),
        Rule::LengthAtLeastOne => append_empty(random, state),
        Rule::WithinCapacity => change_record(random, state, lengthen),
        Rule::RecordedWithinLength => change_record(random, state, |random, record| {
            record.recorded = record.length.saturating_add(random.pick(&[1, 2, 1 << 28]));
        }),
        Rule::ZeroFilledWithinRecorded => change_record(random, state, |random, record| {
            record.zero_filled = 16 * record.recorded + random.pick(&[1, 2, 1 << 31]);
        }),
        Rule::IncompleteInLastSession => change_record(random, state, reopen),
        Rule::TailIsLast | Rule::TailReachesCapacity => change_record(random, state, shorten),
        Rule::TailMissing => lose_tail(random, state),
        Rule::PendingNamesIncomplete => break_pending(random, state),
        Rule::FinalizedComplete => state.words_mut()[1] = 1,
    }
}

fn used(state: &State) -> usize {
    state.records().count()
}

fn change_record(random: &mut Random, state: &mut State, change: fn(&mut Random, &mut Record)) {
    let count = used(state) as u64;
    let index = match random.below(2) {
        0 => count - 1,
        _ => random.below(count),
    };
    let mut record = state.record(index as usize);
    change(random, &mut record);
    state.set_record(index as usize, record);
}

fn break_flags(random: &mut Random, state: &mut State) {
    let value = random.pick(&[2, 3, 255, 256, 257, u32::MAX]);
    if random.once_in(2) {
        state.words_mut()[1] = value;
    } else {
        let index = random.below(used(state) as u64) as usize;
        let mut record = state.record(index);
        record.kind = value;
        state.set_record(index, record);
    }
}

fn break_sense(random: &mut Random, state: &mut State) {
    let at = random.between(2, 4) as usize;
    let word = state.words()[at];
    state.words_mut()[at] = random.pick(&[word ^ 1, word ^ 2, word + 256, u32::MAX, 1]);
}

fn break_pending(random: &mut Random, state: &mut State) {
    let limit = RECORD_LIMIT as u32;
    let numbers = [0, 1, 2, 3, limit, limit + 1, 255, 256, 257, u32::MAX];
    let counts = [0, 1, 15, 16, 17, 255, 256, 257, u32::MAX];
    match random.below(3) {
        0 => state.words_mut()[5] = random.pick(&counts),
        1 => state.words_mut()[6] = random.pick(&numbers),
        _ => {
            state.words_mut()[5] = random.pick(&counts);
            state.words_mut()[6] = random.below(used(state) as u64 + 2) as u32;
        }
    }
}

/// An all-zero record before a used one.
fn insert_unused(random: &mut Random, state: &mut State) {
    let count = used(state);
    if count == RECORD_LIMIT {
        return;
    }
    let gap = random.below(count as u64) as usize;
    for index in (gap..count).rev() {
        state.set_record(index + 1, state.record(index));
    }
    state.set_record(gap, Record::default());
}

/// The list begins in another session or at another block.
fn shift_all(random: &mut Random, state: &mut State) {
    let sessions = random.once_in(2);
    for index in 0..used(state) {
        let mut record = state.record(index);
        if sessions {
            record.session += 1;
        } else {
            record.start += 1;
        }
        state.set_record(index, record);
    }
}

/// Another start or session; a record that ended at the capacity still does.
fn move_start(random: &mut Random, record: &mut Record) {
    match random.below(6) {
        0 => record.session += 1,
        1 => record.session += 256,
        2 => record.session = record.session.wrapping_sub(1),
        3 => {
            record.start = record.start.wrapping_sub(1);
            record.length += 1;
        }
        4 => {
            record.start += 1;
            record.length -= 1;
        }
        _ => record.start = record.start.wrapping_add(127),
    }
}

/// A complete record that ends after the capacity, or whose end wraps in 32 bits.
fn lengthen(random: &mut Random, record: &mut Record) {
    let wrapping = record.start.wrapping_neg();
    let length = random.pick(&[record.length + 1, record.length + 2, wrapping]);
    record.length = length;
    record.recorded = length;
}

/// A reserved record with nothing recorded.
fn reopen(random: &mut Random, record: &mut Record) {
    record.kind = RESERVED;
    record.recorded = random.below(record.length.into()) as u32;
    record.zero_filled = 0;
}

/// An appended record with an unrecorded block.
fn shorten(random: &mut Random, record: &mut Record) {
    if random.once_in(2) {
        record.length -= 1;
    }
    record.kind = APPENDED;
    record.recorded = record.length.saturating_sub(1);
    record.zero_filled = 0;
}

/// A record of length 0 after the last.
fn append_empty(random: &mut Random, state: &mut State) {
    let count = used(state);
    if count == RECORD_LIMIT {
        return;
    }
    let mut record = follower(state.records().last().as_ref(), 0, random.once_in(2));
    record.kind = random.pick(&[RESERVED, APPENDED]);
    state.set_record(count, record);
}

/// A finalized list that is called open, or one that was full and lacks its last record.
fn lose_tail(random: &mut Random, state: &mut State) {
    if random.once_in(2) && used(state) == RECORD_LIMIT {
        state.set_record(RECORD_LIMIT - 1, Record::default());
    } else {
        state.words_mut()[1] = 0;
    }
}

/// Changes a few words of an image to values near and far.
pub fn disturb(random: &mut Random, words: &mut [u32]) {
    for _ in 0..random.between(1, 3) {
        let header = random.once_in(2);
        let reach = if header { 40 } else { words.len() as u64 };
        let at = random.below(reach.min(words.len() as u64)) as usize;
        let word = words[at];
        let values = [
            word.wrapping_add(1),
            word.wrapping_sub(1),
            word.wrapping_add(256),
            word.wrapping_neg(),
            0,
            1,
            2,
            15,
            16,
            255,
            u32::MAX,
            random.draw() as u32,
        ];
        words[at] = random.pick(&values);
    }
}

/// Any words at all, the capacity in range or not.
pub fn junk(random: &mut Random, words: &mut [u32]) {
    let mask = random.pick(&[u32::MAX, 0xFF, 0x3, 0x1, 0]);
    words.fill_with(|| random.draw() as u32 & mask);
    let capacities = [0, 1, 255, 256, 257, 300, 999, 1_000, 143_444, 143_445, u32::MAX];
    if let Some(capacity) = words.first_mut() {
        *capacity = random.pick(&capacities);
    }
}
