//! The state image: 32-bit words, with names for them.

use crate::{raw, Accepted, Lent, Refusal};

/// The most records that a state has.
pub const RECORD_LIMIT: usize = 160;

/// The words before the records.
pub const HEADER_WORDS: usize = 7;

/// The words of a record.
pub const RECORD_WORDS: usize = 6;

/// The words of a state image.
pub const STATE_WORDS: usize = HEADER_WORDS + RECORD_WORDS * RECORD_LIMIT;

/// A disc between two commands. Any words may stand in it; a command refuses those that are no
/// sound state by L2 or L3.
#[derive(Clone, Debug, PartialEq, Eq)]
pub struct State {
    words: [u32; STATE_WORDS],
}

/// One fragment's record.
#[derive(Clone, Copy, Debug, Default, PartialEq, Eq)]
pub struct Record {
    pub session: u32,
    /// The first block.
    pub start: u32,
    /// The length in blocks.
    pub length: u32,
    /// The recorded blocks.
    pub recorded: u32,
    /// The sectors that the drive filled with zeros by itself.
    pub zero_filled: u32,
    /// 0 reserved, 1 appended.
    pub kind: u32,
}

impl State {
    /// A blank disc of so many blocks.
    pub fn blank(capacity: u32) -> Result<State, Refusal> {
        let mut words = [0; STATE_WORDS];
        match Refusal::from_number(raw::blank(capacity, &mut words)) {
            None => Ok(State { words }),
            Some(refusal) => Err(refusal),
        }
    }

    /// Answers one command.
    pub fn command(&mut self, lent: Lent) -> Result<Accepted, Refusal> {
        raw::command(&mut self.words, lent).into()
    }

    pub fn from_words(words: [u32; STATE_WORDS]) -> State {
        State { words }
    }

    pub fn words(&self) -> &[u32; STATE_WORDS] {
        &self.words
    }

    pub fn words_mut(&mut self) -> &mut [u32; STATE_WORDS] {
        &mut self.words
    }

    /// The disc's blocks.
    pub fn capacity(&self) -> u32 {
        self.words[0]
    }

    /// 0 or 1.
    pub fn finalized(&self) -> u32 {
        self.words[1]
    }

    /// Key, additional sense code and its qualifier.
    pub fn sense(&self) -> [u32; 3] {
        [self.words[2], self.words[3], self.words[4]]
    }

    /// The sectors gathered in the pending buffer.
    pub fn pending_count(&self) -> u32 {
        self.words[5]
    }

    /// The number of the fragment that they belong to, 0 if none are pending.
    pub fn pending_fragment(&self) -> u32 {
        self.words[6]
    }

    /// A record by its index from 0.
    pub fn record(&self, index: usize) -> Record {
        let at = HEADER_WORDS + RECORD_WORDS * index;
        Record {
            session: self.words[at],
            start: self.words[at + 1],
            length: self.words[at + 2],
            recorded: self.words[at + 3],
            zero_filled: self.words[at + 4],
            kind: self.words[at + 5],
        }
    }

    /// Puts a record in its place, unchecked.
    pub fn set_record(&mut self, index: usize, record: Record) {
        let at = HEADER_WORDS + RECORD_WORDS * index;
        self.words[at..at + RECORD_WORDS].copy_from_slice(&[
            record.session,
            record.start,
            record.length,
            record.recorded,
            record.zero_filled,
            record.kind,
        ]);
    }

    /// The records before the first all-zero one.
    pub fn records(&self) -> impl Iterator<Item = Record> + '_ {
        (0..RECORD_LIMIT)
            .map(|index| self.record(index))
            .take_while(|record| *record != Record::default())
    }
}
