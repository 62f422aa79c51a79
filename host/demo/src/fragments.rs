//! What the fragments of a state are: kinds, pending sectors, next writable addresses.

use gladhamre::{Record, State};

/// Sectors of a block.
pub const BLOCK_SECTORS: u32 = 16;

/// An appended fragment's kind; a reserved one's is 0.
const APPENDED: u32 = 1;

/// The first block after a fragment.
pub fn end(record: &Record) -> u32 {
    record.start + record.length
}

/// The first block of a fragment that is not recorded.
pub fn recorded_end(record: &Record) -> u32 {
    record.start + record.recorded
}

pub fn is_reserved(record: &Record) -> bool {
    record.kind != APPENDED
}

pub fn is_complete(record: &Record) -> bool {
    record.recorded == record.length
}

/// An incomplete appended fragment.
pub fn is_tail(record: &Record) -> bool {
    !is_reserved(record) && !is_complete(record)
}

/// How many sectors are pending in the fragment with an index from 0.
pub fn pending_in(state: &State, index: usize) -> u32 {
    if state.pending_fragment() as usize == index + 1 {
        state.pending_count()
    } else {
        0
    }
}

/// The next writable address of a fragment, if it is incomplete.
pub fn next_writable(state: &State, index: usize) -> Option<u32> {
    let record = state.record(index);
    let next = BLOCK_SECTORS * recorded_end(&record) + pending_in(state, index);
    (!is_complete(&record)).then_some(next)
}

/// The next writable address of the tail, if there is one.
pub fn tail_next(state: &State) -> Option<u32> {
    let last = state.records().count().checked_sub(1)?;
    is_tail(&state.record(last)).then(|| next_writable(state, last))?
}

/// What a fragment is, in a word.
pub fn kind(record: &Record) -> &'static str {
    match (is_reserved(record), is_tail(record)) {
        (true, _) => "reserved",
        (false, true) => "tail",
        (false, false) => "appended",
    }
}
